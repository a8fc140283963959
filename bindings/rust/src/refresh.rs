use crate::front::{found, Front, KindIn};
use crate::message::{printed, told};
use crate::{raw, Error, Message, Outcome, Terms};
use std::fmt;
use std::iter::FusedIterator;

/// The octets of a ROUTE-REFRESH that is written.
pub const REFRESH_MESSAGE: usize = raw::REFRESH_MESSAGE;

/// What a ROUTE-REFRESH is for.
#[derive(Clone, Copy, Debug, PartialEq, Eq, Hash)]
pub enum Subtype {
    /// The routes of the family are asked for (RFC 2918, section 3).
    Request,
    /// A refresh begins (BoRR; RFC 7313, section 3.2).
    Begin,
    /// A refresh ends (EoRR).
    End,
    /// It has no effect (RFC 7313, section 5).
    Ignored(u8),
}

impl Subtype {
    /// Of its number.
    pub fn of(number: u8) -> Subtype {
        match number {
            0 => Subtype::Request,
            1 => Subtype::Begin,
            2 => Subtype::End,
            other => Subtype::Ignored(other),
        }
    }

    /// Its number.
    pub fn number(self) -> u8 {
        match self {
            Subtype::Request => 0,
            Subtype::Begin => 1,
            Subtype::End => 2,
            Subtype::Ignored(number) => number,
        }
    }
}

/// What a ROUTE-REFRESH says.
#[derive(Clone, Copy, Debug, PartialEq, Eq, Hash)]
pub struct Refresh<'a> {
    /// The address family.
    pub afi: u16,
    /// The subsequent address family.
    pub safi: u8,
    /// What it is for: always [`Subtype::Request`] where only requests are accepted, since the octet
    /// is reserved there, and ignored.
    pub subtype: Subtype,
    /// What follows these four octets, without effect: entries of route filters (RFC 5291, section
    /// 4).
    pub rest: &'a [u8],
}

/// What a ROUTE-REFRESH means for its session.
#[derive(Clone, Debug, PartialEq, Eq)]
pub enum RefreshOutcome<'a> {
    /// It is accepted.
    Accepted(Refresh<'a>),
    /// The session ends, by a NOTIFICATION to the peer.
    Reset {
        /// The code of that NOTIFICATION: 1 for a body of fewer than four octets, 7 for a mark of
        /// another length than four octets (RFC 7313, section 5).
        code: u8,
        /// Its subcode.
        subcode: u8,
        /// Its data: at most 4075 octets.
        data: Vec<u8>,
    },
}

/// A ROUTE-REFRESH that was judged. It is printed as the line that `bgp show` prints of it.
#[derive(Clone, Debug, PartialEq, Eq)]
pub struct RouteRefresh<'a> {
    octets: &'a [u8],
    terms: Terms,
    offset: u64,
    outcome: RefreshOutcome<'a>,
}

impl<'a> RouteRefresh<'a> {
    /// Its octets, header included.
    pub fn octets(&self) -> &'a [u8] {
        self.octets
    }

    /// Its offset in the stream, in octets.
    pub fn offset(&self) -> u64 {
        self.offset
    }

    /// What it means for the session.
    pub fn outcome(&self) -> &RefreshOutcome<'a> {
        &self.outcome
    }

    /// The line that `bgp show` prints of it, with its end of line.
    ///
    /// # Errors
    ///
    /// [`Error::Memory`].
    pub fn lines(&self) -> Result<String, Error> {
        let terms = self.terms.said();
        printed(|text| raw::text_in(&terms, self.offset, self.octets, text))
    }

    /// That of these octets, which are a whole one, with this verdict.
    fn of(terms: &Terms, octets: &'a [u8], verdict: &raw::Verdict) -> RouteRefresh<'a> {
        let said = terms.said();
        let outcome = match raw::refresh_in(&said, octets) {
            Some(it) => RefreshOutcome::Accepted(Refresh {
                afi: it.afi,
                safi: it.safi,
                subtype: Subtype::of(it.subtype),
                rest: it.rest.of(octets),
            }),
            None => {
                let mut data = vec![0; verdict.data_len as usize];
                raw::judge_in(&said, octets, &mut data);
                RefreshOutcome::Reset {
                    code: verdict.code,
                    subcode: verdict.subcode,
                    data,
                }
            }
        };
        RouteRefresh {
            octets,
            terms: *terms,
            offset: 0,
            outcome,
        }
    }
}

impl fmt::Display for RouteRefresh<'_> {
    fn fmt(&self, f: &mut fmt::Formatter<'_>) -> fmt::Result {
        f.write_str(&self.lines().map_err(|_| fmt::Error)?)
    }
}

/// A message that was judged by terms, or a header with a fault. It is printed as the lines that
/// `bgp show` prints of it.
#[derive(Clone, Debug, PartialEq, Eq)]
pub enum MessageIn<'a> {
    /// Any but a ROUTE-REFRESH: it is judged in the context of the terms.
    Base(Message<'a>),
    /// A ROUTE-REFRESH.
    Refresh(RouteRefresh<'a>),
}

impl<'a> MessageIn<'a> {
    /// That of these octets, which are a whole one or a header with a fault, with this verdict.
    pub(crate) fn of(terms: &Terms, octets: &'a [u8], verdict: &raw::Verdict) -> MessageIn<'a> {
        if verdict.kind == raw::ROUTE_REFRESH {
            MessageIn::Refresh(RouteRefresh::of(terms, octets, verdict))
        } else {
            MessageIn::Base(Message::of(&terms.context, octets, verdict))
        }
    }

    /// Its octets, header included; none where its header has a fault. The next message of the
    /// stream follows them.
    pub fn octets(&self) -> &'a [u8] {
        match self {
            MessageIn::Base(message) => message.octets(),
            MessageIn::Refresh(refresh) => refresh.octets,
        }
    }

    /// Its offset in the stream, in octets.
    pub fn offset(&self) -> u64 {
        match self {
            MessageIn::Base(message) => message.offset(),
            MessageIn::Refresh(refresh) => refresh.offset,
        }
    }

    /// Whether the session ends by it.
    pub fn is_reset(&self) -> bool {
        match self {
            MessageIn::Base(message) => matches!(message.outcome(), Outcome::Reset { .. }),
            MessageIn::Refresh(refresh) => {
                matches!(refresh.outcome, RefreshOutcome::Reset { .. })
            }
        }
    }

    /// The lines that `bgp show` prints of it, each with its end of line.
    ///
    /// # Errors
    ///
    /// [`Error::Memory`].
    pub fn lines(&self) -> Result<String, Error> {
        match self {
            MessageIn::Base(message) => message.lines(),
            MessageIn::Refresh(refresh) => refresh.lines(),
        }
    }

    /// The same message at another offset of its stream, which the first of its lines prints.
    pub fn at(self, offset: u64) -> MessageIn<'a> {
        match self {
            MessageIn::Base(message) => MessageIn::Base(message.at(offset)),
            MessageIn::Refresh(refresh) => MessageIn::Refresh(RouteRefresh { offset, ..refresh }),
        }
    }
}

impl fmt::Display for MessageIn<'_> {
    fn fmt(&self, f: &mut fmt::Formatter<'_>) -> fmt::Result {
        f.write_str(&self.lines().map_err(|_| fmt::Error)?)
    }
}

/// Classifies what octets of a stream begin with, as [`front`](crate::front) does, by these terms.
///
/// # Errors
///
/// [`Error::Paths`].
pub fn front_in<'a>(terms: &Terms, octets: &'a [u8]) -> Result<Front<'a, KindIn>, Error> {
    let it = raw::front_in(&terms.said(), octets).ok_or(Error::Paths)?;
    Ok(found(&it, octets, KindIn::of))
}

/// Judges the message that octets begin with by these terms, as [`judge`](crate::judge) does in
/// their context, but for a ROUTE-REFRESH; `None` where they are less than a message.
///
/// # Errors
///
/// [`Error::Paths`].
///
/// ```
/// use ristulva::{judge_in, MessageIn, RefreshOutcome, Refreshes, Subtype, Terms};
///
/// let terms = Terms { refresh: Refreshes::Plain, ..Terms::default() };
/// let octets = ristulva::encode_refresh(2, 1, Subtype::Request);
/// let Ok(Some(MessageIn::Refresh(message))) = judge_in(&terms, &octets) else { panic!() };
/// let RefreshOutcome::Accepted(refresh) = message.outcome() else { panic!() };
/// assert_eq!((refresh.afi, refresh.safi, refresh.subtype), (2, 1, Subtype::Request));
/// assert_eq!(message.to_string(), "0 23 ROUTE-REFRESH request 2 1\n");
/// ```
pub fn judge_in<'a>(terms: &Terms, octets: &'a [u8]) -> Result<Option<MessageIn<'a>>, Error> {
    // Without room the verdict is written all the same.
    let (status, verdict) = raw::judge_in(&terms.said(), octets, &mut []);
    match status {
        raw::INCOMPLETE => return Ok(None),
        raw::RANGE => return Err(Error::Paths),
        _ => {}
    }
    let octets = &octets[..told(&verdict)];
    Ok(Some(MessageIn::of(terms, octets, &verdict)))
}

/// The messages of a stream by terms, one after another, up to the first that ends the session by a
/// reset: see [`messages_in`].
#[derive(Clone, Debug)]
pub struct MessagesIn<'a> {
    terms: Terms,
    rest: &'a [u8],
    offset: u64,
    ended: bool,
}

impl<'a> MessagesIn<'a> {
    /// The octets after the messages so far: an incomplete message, where all that are whole were
    /// given and none was a reset.
    pub fn rest(&self) -> &'a [u8] {
        self.rest
    }
}

impl<'a> Iterator for MessagesIn<'a> {
    type Item = MessageIn<'a>;

    fn next(&mut self) -> Option<MessageIn<'a>> {
        if self.ended {
            return None;
        }
        let message = judge_in(&self.terms, self.rest).expect("no path identifiers")?;
        let message = message.at(self.offset);
        self.ended = message.is_reset();
        let len = message.octets().len();
        self.rest = &self.rest[len..];
        self.offset += len as u64;
        Some(message)
    }
}

impl FusedIterator for MessagesIn<'_> {}

/// Judges the messages of a stream by these terms, the first of which is at offset 0.
///
/// # Errors
///
/// [`Error::Paths`].
pub fn messages_in<'a>(terms: &Terms, octets: &'a [u8]) -> Result<MessagesIn<'a>, Error> {
    front_in(terms, &[])?;
    Ok(MessagesIn {
        terms: *terms,
        rest: octets,
        offset: 0,
        ended: false,
    })
}

/// The message of a ROUTE-REFRESH for a family.
pub fn encode_refresh(afi: u16, safi: u8, subtype: Subtype) -> [u8; REFRESH_MESSAGE] {
    raw::encode_refresh(afi, safi, subtype.number())
}
