use crate::message::told;
use crate::{raw, Error, MessageIn, Terms, MESSAGE};

/// The most path identifiers of a message.
pub const PATHS: usize = 4073;

/// The type of an UPDATE.
const UPDATE: u8 = 2;

/// What an UPDATE means for its session (RFC 7606, section 2).
#[derive(Clone, Debug, PartialEq, Eq)]
pub enum UpdateOutcome {
    /// It is accepted.
    Accepted,
    /// It is treated as a withdrawal of all its routes.
    Withdraw,
    /// The session ends, by a NOTIFICATION to the peer.
    Reset {
        /// The code of that NOTIFICATION: 3.
        code: u8,
        /// Its subcode.
        subcode: u8,
        /// Its data, at most 4075 octets: none, or an attribute as it was received.
        data: Vec<u8>,
    },
}

/// An UPDATE as it was received, whose routes may have path identifiers. Its fields are empty where
/// its lengths leave no room for each other.
///
/// [`without_paths`] writes it without, for all that reads attributes and routes.
#[derive(Clone, Debug, PartialEq, Eq)]
pub struct UpdatePaths<'a> {
    octets: &'a [u8],
    parts: raw::Parts,
    outcome: UpdateOutcome,
}

impl<'a> UpdatePaths<'a> {
    /// Its octets, header included.
    pub fn octets(&self) -> &'a [u8] {
        self.octets
    }

    /// What it means for the session.
    pub fn outcome(&self) -> &UpdateOutcome {
        &self.outcome
    }

    /// The octets of Withdrawn Routes.
    pub fn withdrawn(&self) -> &'a [u8] {
        self.parts.withdrawn.of(self.octets)
    }

    /// The octets of Path Attributes.
    pub fn attributes(&self) -> &'a [u8] {
        self.parts.attributes.of(self.octets)
    }

    /// The octets of Network Layer Reachability Information.
    pub fn nlri(&self) -> &'a [u8] {
        self.parts.nlri.of(self.octets)
    }

    /// That of these octets, which are a whole one, with this verdict.
    fn of(terms: &Terms, octets: &'a [u8], verdict: &raw::Verdict) -> UpdatePaths<'a> {
        let outcome = match verdict.verdict {
            raw::UPDATE => UpdateOutcome::Accepted,
            raw::WITHDRAW => UpdateOutcome::Withdraw,
            _ => {
                let mut data = vec![0; verdict.data_len as usize];
                raw::judge_paths(&terms.said(), octets, &mut data);
                UpdateOutcome::Reset {
                    code: verdict.code,
                    subcode: verdict.subcode,
                    data,
                }
            }
        };
        UpdatePaths {
            octets,
            parts: verdict.parts,
            outcome,
        }
    }
}

/// A message that was judged by terms, by which its routes may have path identifiers, or a header
/// with a fault.
#[derive(Clone, Debug, PartialEq, Eq)]
pub enum MessagePaths<'a> {
    /// An UPDATE, also where no family has path identifiers by the terms.
    Update(UpdatePaths<'a>),
    /// Any other, as [`judge_in`](crate::judge_in) judges it.
    Other(MessageIn<'a>),
}

impl<'a> MessagePaths<'a> {
    /// Its octets as they were received, header included; none where its header has a fault. The
    /// next message of the stream follows them.
    pub fn octets(&self) -> &'a [u8] {
        match self {
            MessagePaths::Update(update) => update.octets,
            MessagePaths::Other(message) => message.octets(),
        }
    }

    /// Whether the session ends by it.
    pub fn is_reset(&self) -> bool {
        match self {
            MessagePaths::Update(update) => {
                matches!(update.outcome, UpdateOutcome::Reset { .. })
            }
            MessagePaths::Other(message) => message.is_reset(),
        }
    }
}

/// Judges the message that octets begin with by these terms: an UPDATE without the path identifiers
/// that its routes have (RFC 7911), each other message as [`judge_in`](crate::judge_in) does; `None`
/// where they are less than a message. An attribute that is data of the NOTIFICATION is the one that
/// was received (RFC 7606, section 5.3).
///
/// ```
/// use ristulva::{judge_paths, Context, MessagePaths, Terms, UpdateOutcome};
///
/// // MP_UNREACH_NLRI of IPv6 unicast with an identifier, and no prefix after it.
/// let mut octets = [255; 33];
/// octets[16..].copy_from_slice(&[0, 33, 2, 0, 0, 0, 10, 128, 15, 7, 0, 2, 1, 0, 0, 0, 7]);
/// let context = Context { ip6: true, ..Context::default() };
/// let terms = Terms { context, paths6: true, ..Terms::default() };
/// let Some(MessagePaths::Update(update)) = judge_paths(&terms, &octets) else { panic!() };
/// let data = octets[23..].to_vec();
/// assert_eq!(update.outcome(), &UpdateOutcome::Reset { code: 3, subcode: 9, data });
/// ```
pub fn judge_paths<'a>(terms: &Terms, octets: &'a [u8]) -> Option<MessagePaths<'a>> {
    // Without room the verdict is written all the same.
    let (status, verdict) = raw::judge_paths(&terms.said(), octets, &mut []);
    if status == raw::INCOMPLETE {
        return None;
    }
    let octets = &octets[..told(&verdict)];
    Some(match verdict.kind {
        UPDATE => MessagePaths::Update(UpdatePaths::of(terms, octets, &verdict)),
        _ => MessagePaths::Other(MessageIn::of(&terms.plain(), octets, &verdict)),
    })
}

/// The message that octets begin with, without the path identifiers that its routes have by these
/// terms (RFC 7911), for each call that takes a context; `None` where they are less than a message.
/// The next message follows the octets as they were received: see [`MessagePaths::octets`]. Another
/// message than an UPDATE is as it was.
///
/// # Errors
///
/// [`Error::Refused`]: its header has a fault.
///
/// ```
/// use ristulva::{judge, paths, without_paths, Outcome, Terms};
///
/// // A withdrawal of path 7 of 192.0.2.0/24.
/// let mut octets = [255; 31];
/// octets[16..].copy_from_slice(&[0, 31, 2, 0, 8, 0, 0, 0, 7, 24, 192, 0, 2, 0, 0]);
/// let terms = Terms { paths4: true, ..Terms::default() };
/// let plain = without_paths(&terms, &octets).unwrap().unwrap();
/// let Some(message) = judge(&terms.context, &plain) else { panic!() };
/// assert!(matches!(message.outcome(), Outcome::Update(_)));
/// assert_eq!(paths(&terms, &octets), Ok(Some(vec![7])));
/// ```
pub fn without_paths(terms: &Terms, octets: &[u8]) -> Result<Option<Vec<u8>>, Error> {
    let mut message = vec![0; MESSAGE];
    let (status, written) = raw::without_paths(&terms.said(), octets, &mut message);
    message.truncate(written);
    found(status, message)
}

/// The path identifiers of the routes of the message that octets begin with, one for each route of
/// [`Message::routes`](crate::Message::routes) of what [`without_paths`] gives, in the same order: 0
/// where the family of a route has none by these terms. `None` where they are less than a message.
///
/// # Errors
///
/// [`Error::Refused`]: its header has a fault, or it is an UPDATE that resets the session.
pub fn paths(terms: &Terms, octets: &[u8]) -> Result<Option<Vec<u32>>, Error> {
    let mut paths = vec![0; PATHS];
    let (status, written) = raw::paths(&terms.said(), octets, &mut paths);
    paths.truncate(written);
    found(status, paths)
}

/// What a call wrote, by its status. There is room for it, and `refresh` is in its range.
fn found<T>(status: u32, written: T) -> Result<Option<T>, Error> {
    match status {
        raw::OK => Ok(Some(written)),
        raw::INCOMPLETE => Ok(None),
        _ => Err(Error::Refused),
    }
}
