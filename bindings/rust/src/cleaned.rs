use crate::{raw, Error, Message, PARTS};
use std::fmt;

/// The result of cleaning a message.
#[derive(Clone, Debug, PartialEq, Eq)]
pub enum Cleaned {
    /// It is passed on, or its replacement is.
    HandedOn(HandedOn),
    /// The cleaned stream ends before it: nothing is passed on of it, nor of a later message.
    Ends(End),
}

/// What is passed on of a message, and how much of it was left out.
#[derive(Clone, Debug, PartialEq, Eq)]
pub struct HandedOn {
    /// A whole message in its one written form, never longer than the received one. In the same
    /// context it is accepted without a note, and is passed on unchanged when cleaned again.
    pub message: Vec<u8>,
    /// The number of attributes of an accepted UPDATE that are discarded: that of its
    /// [notes](crate::Update::notes).
    pub discarded: usize,
    /// The number of others left out, by their types.
    pub left_out: usize,
    /// The number of capabilities of an OPEN that are left out.
    pub capabilities: usize,
}

/// Why a cleaned stream ends.
#[derive(Clone, Copy, Debug, PartialEq, Eq, Hash)]
pub enum End {
    /// The session ends, by a NOTIFICATION to the peer.
    Reset {
        /// The code of that NOTIFICATION (RFC 4271, section 4.5).
        code: u8,
        /// Its subcode.
        subcode: u8,
    },
    /// An OPEN isn't the first message of its stream.
    LateOpen,
    /// An OPEN offers families, and neither IPv4 nor IPv6 unicast.
    NoFamily,
}

impl fmt::Display for End {
    fn fmt(&self, f: &mut fmt::Formatter<'_>) -> fmt::Result {
        match self {
            End::Reset { code, subcode } => write!(f, "reset {code}/{subcode}"),
            End::LateOpen => f.write_str("an OPEN behind the first message"),
            End::NoFamily => f.write_str("an OPEN without IPv4 or IPv6 unicast among its families"),
        }
    }
}

/// What the call for C reports, with the octets that it wrote.
fn of(told: &raw::Cleaned, message: Vec<u8>) -> Cleaned {
    match told.ends {
        raw::HANDED_ON => Cleaned::HandedOn(HandedOn {
            message,
            discarded: told.discarded,
            left_out: told.left_out,
            capabilities: told.capabilities,
        }),
        raw::ENDS_RESET => Cleaned::Ends(End::Reset {
            code: told.code,
            subcode: told.subcode,
        }),
        raw::ENDS_LATE_OPEN => Cleaned::Ends(End::LateOpen),
        raw::ENDS_NO_FAMILY => Cleaned::Ends(End::NoFamily),
        other => unreachable!("end {other}"),
    }
}

impl Message<'_> {
    /// What may be passed on of it to a receiver, which learns from it what RFC 7606 has the
    /// receiver of the message learn.
    ///
    /// An OPEN is passed on with the first capability of each kind for IPv4 unicast, IPv6 unicast
    /// and 4-octet AS numbers, and no others. An UPDATE that is accepted is passed on without what
    /// is discarded, and without attributes of unrecognised types that are among `types`; one that
    /// is treated as a withdrawal as an UPDATE that withdraws its routes. An UPDATE is passed on in
    /// one to three messages: withdrawn routes, those of NLRI, those of MP_REACH_NLRI; IPv4 routes
    /// in the classic fields. Where it has no routes, a KEEPALIVE is passed on, unless it is an
    /// End-of-RIB (RFC 4724, section 2). `first` is whether the message is the first one of its
    /// stream.
    ///
    /// ```
    /// use ristulva::{Cleaned, Context};
    ///
    /// let keepalive = [[0xff; 16].as_slice(), &[0, 19, 4]].concat();
    /// let message = ristulva::judge(&Context::default(), &keepalive).unwrap();
    /// let Cleaned::HandedOn(handed) = message.clean(true, &[])? else {
    ///     unreachable!();
    /// };
    /// assert_eq!(handed.message, keepalive);
    /// # Ok::<(), ristulva::Error>(())
    /// ```
    ///
    /// # Errors
    ///
    /// None: the library allocates nothing for it.
    pub fn clean(&self, first: bool, types: &[u8]) -> Result<Cleaned, Error> {
        let mut message = vec![0; PARTS];
        let (context, octets) = self.judged();
        let (status, written, told) =
            raw::clean(&context.said(), types, first, octets, &mut message);
        if status != raw::OK {
            return Err(Error::of(status));
        }
        message.truncate(written);
        Ok(of(&told, message))
    }
}
