use crate::{raw, Context, Error, Open, Update};
use std::fmt;
use std::iter::FusedIterator;

/// The octets of a header.
pub(crate) const HEADER: usize = 19;

/// The length of a NOTIFICATION before its data: the header, its code and its subcode.
pub(crate) const NOTIFICATION: usize = 21;

/// The octets of text that most messages have room in.
const LINES: usize = 4096;

/// What a message means for its session (RFC 4271, section 6; RFC 7606).
#[derive(Clone, Debug, PartialEq, Eq)]
pub enum Outcome<'a> {
    /// An OPEN is accepted.
    Open(Open<'a>),
    /// An UPDATE is accepted. Attributes with [notes](Update::notes) are discarded.
    Update(Update<'a>),
    /// An UPDATE is treated as a withdrawal of all its routes (RFC 7606, section 2).
    Withdraw(Update<'a>),
    /// A NOTIFICATION was received: the peer has ended the session.
    Notification {
        /// Its code (RFC 4271, section 4.5).
        code: u8,
        /// Its subcode.
        subcode: u8,
        /// Its data: at most 4075 octets.
        data: &'a [u8],
    },
    /// A KEEPALIVE is accepted.
    Keepalive,
    /// The session ends, by a NOTIFICATION to the peer.
    Reset {
        /// The code of that NOTIFICATION (RFC 4271, section 4.5).
        code: u8,
        /// Its subcode.
        subcode: u8,
        /// Its data: at most 4075 octets.
        data: Vec<u8>,
    },
}

/// A message that was judged, or a header with a fault.
///
/// It is printed as the lines that `bgp show` prints of it.
#[derive(Clone, Debug, PartialEq, Eq)]
pub struct Message<'a> {
    /// The message, or only its header where that has a fault.
    octets: &'a [u8],
    /// The length of the message; 0 where its header has a fault.
    len: usize,
    context: Context,
    offset: u64,
    outcome: Outcome<'a>,
}

impl<'a> Message<'a> {
    /// The message of which this is the verdict.
    pub(crate) fn of(context: &Context, octets: &'a [u8], verdict: &raw::Verdict) -> Message<'a> {
        Message {
            octets,
            len: verdict.len as usize,
            context: *context,
            offset: 0,
            outcome: outcome(context, octets, verdict),
        }
    }

    /// Its octets, header included: 19 to [`MESSAGE`](crate::MESSAGE), or none where its header has
    /// a fault. The next message of the stream follows them.
    pub fn octets(&self) -> &'a [u8] {
        &self.octets[..self.len]
    }

    /// The octets after its header.
    pub fn body(&self) -> &'a [u8] {
        self.octets().get(HEADER..).unwrap_or_default()
    }

    /// The context in which it was judged, and the octets: only those of the header where that has
    /// a fault.
    pub(crate) fn judged(&self) -> (&Context, &'a [u8]) {
        (&self.context, self.octets)
    }

    /// What it means for the session.
    pub fn outcome(&self) -> &Outcome<'a> {
        &self.outcome
    }

    /// The outcome as an owned value.
    pub fn into_outcome(self) -> Outcome<'a> {
        self.outcome
    }

    /// Its offset in the stream, in octets.
    pub fn offset(&self) -> u64 {
        self.offset
    }

    /// The same message at another offset of its stream, which the first of its lines prints.
    pub fn at(self, offset: u64) -> Message<'a> {
        Message { offset, ..self }
    }

    /// The lines that `bgp show` prints of it, each with its end of line.
    ///
    /// # Errors
    ///
    /// [`Error::Memory`].
    pub fn lines(&self) -> Result<String, Error> {
        let context = self.context.said();
        printed(|text| raw::text(&context, self.offset, self.octets, text))
    }
}

/// The lines that a call writes, which is made again where it has less room than it needs.
pub(crate) fn printed(mut write: impl FnMut(&mut [u8]) -> (u32, usize)) -> Result<String, Error> {
    let mut text = vec![0; LINES];
    loop {
        match write(&mut text) {
            (raw::OK, written) => {
                text.truncate(written);
                return Ok(String::from_utf8(text).expect("the lines are ASCII"));
            }
            (raw::ROOM, written) => text.resize(written, 0),
            (status, _) => return Err(Error::of(status)),
        }
    }
}

impl fmt::Display for Message<'_> {
    fn fmt(&self, f: &mut fmt::Formatter<'_>) -> fmt::Result {
        f.write_str(&self.lines().map_err(|_| fmt::Error)?)
    }
}

/// The length of what a verdict is about: the message, or its header where that has a fault.
pub(crate) fn told(verdict: &raw::Verdict) -> usize {
    match verdict.len as usize {
        0 => HEADER,
        len => len,
    }
}

/// The outcome of a verdict.
fn outcome<'a>(context: &Context, octets: &'a [u8], verdict: &raw::Verdict) -> Outcome<'a> {
    let update = || Update::new(octets, *context, verdict.parts);
    let (code, subcode) = (verdict.code, verdict.subcode);
    match verdict.verdict {
        raw::OPEN => Outcome::Open(Open::of(octets).expect("it is accepted")),
        raw::UPDATE => Outcome::Update(update()),
        raw::WITHDRAW => Outcome::Withdraw(update()),
        raw::KEEPALIVE => Outcome::Keepalive,
        raw::NOTIFICATION => Outcome::Notification {
            code,
            subcode,
            data: &octets[NOTIFICATION..],
        },
        raw::RESET => {
            let mut data = vec![0; verdict.data_len as usize];
            raw::judge(&context.said(), octets, &mut data);
            Outcome::Reset {
                code,
                subcode,
                data,
            }
        }
        other => unreachable!("verdict {other}"),
    }
}

/// Judges the message that octets begin with, in the context of its session; `None` where they are
/// less than a message, and [`front`](crate::front) reports the number that is wanted.
///
/// Octets after the message are ignored, and no outcome depends on other messages. Only a
/// reset allocates, for its data.
///
/// ```
/// let keepalive = [[0xff; 16].as_slice(), &[0, 19, 4]].concat();
/// let context = ristulva::Context::default();
/// let message = ristulva::judge(&context, &keepalive).unwrap();
/// assert_eq!(message.outcome(), &ristulva::Outcome::Keepalive);
/// assert_eq!(message.to_string(), "0 19 KEEPALIVE\n");
/// assert_eq!(ristulva::judge(&context, &keepalive[..18]), None);
/// ```
pub fn judge<'a>(context: &Context, octets: &'a [u8]) -> Option<Message<'a>> {
    // Without room the verdict is written all the same, and the data of a received NOTIFICATION
    // are in its octets.
    let (status, verdict) = raw::judge(&context.said(), octets, &mut []);
    if status == raw::INCOMPLETE {
        return None;
    }
    Some(Message::of(context, &octets[..told(&verdict)], &verdict))
}

/// The messages of a stream, one after another, up to the first that ends the session by a reset:
/// see [`messages`].
#[derive(Clone, Debug)]
pub struct Messages<'a> {
    context: Context,
    rest: &'a [u8],
    offset: u64,
    ended: bool,
}

impl<'a> Messages<'a> {
    /// The octets after the messages so far: an incomplete message, where all that are whole were
    /// given and none was a reset.
    pub fn rest(&self) -> &'a [u8] {
        self.rest
    }
}

impl<'a> Iterator for Messages<'a> {
    type Item = Message<'a>;

    fn next(&mut self) -> Option<Message<'a>> {
        if self.ended {
            return None;
        }
        let message = judge(&self.context, self.rest)?.at(self.offset);
        self.ended = matches!(message.outcome, Outcome::Reset { .. });
        self.rest = &self.rest[message.len..];
        self.offset += message.len as u64;
        Some(message)
    }
}

impl FusedIterator for Messages<'_> {}

/// Judges the messages of a stream, the first of which is at offset 0.
pub fn messages<'a>(context: &Context, octets: &'a [u8]) -> Messages<'a> {
    Messages {
        context: *context,
        rest: octets,
        offset: 0,
        ended: false,
    }
}
