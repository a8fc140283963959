use crate::raw;
use std::fmt;

/// Why a call gives nothing.
#[derive(Clone, Copy, Debug, PartialEq, Eq, Hash)]
#[non_exhaustive]
pub enum Error {
    /// An allocation failed. The call can be made again.
    Memory,
    /// A body has more than [`BODY`](crate::BODY) octets.
    TooLong,
    /// An UPDATE isn't accepted, or some of it would be discarded; or a header has a fault.
    Refused,
    /// An UPDATE has routes of several kinds, which a session doesn't send (RFC 7606, section 5.1).
    Mixed,
    /// An UPDATE can't be written, or its message would have more than [`MESSAGE`](crate::MESSAGE)
    /// octets.
    Unwritable,
    /// A configuration isn't one that a [`Config`](crate::Config) may be.
    Config,
    /// The session isn't in a state for this.
    State,
    /// There is room for less than [`ROWS`](crate::ROWS) rows.
    Room,
    /// By [`Terms`](crate::Terms) routes have path identifiers, which this call doesn't read:
    /// [`judge_paths`](crate::judge_paths) does.
    Paths,
}

impl Error {
    /// The error of a status, of those that the calls with errors answer.
    pub(crate) fn of(status: u32) -> Error {
        match status {
            raw::MEMORY => Error::Memory,
            raw::RANGE => Error::TooLong,
            raw::REFUSED => Error::Refused,
            raw::MIXED => Error::Mixed,
            raw::UNWRITABLE => Error::Unwritable,
            raw::STATE => Error::State,
            raw::ROOM => Error::Room,
            _ => unreachable!("status {status} of a call that doesn't answer it"),
        }
    }
}

impl fmt::Display for Error {
    fn fmt(&self, f: &mut fmt::Formatter<'_>) -> fmt::Result {
        f.write_str(match self {
            Error::Memory => "an allocation failed",
            Error::TooLong => "the body is longer than that of a message",
            Error::Refused => "the UPDATE isn't accepted whole",
            Error::Mixed => "the UPDATE has routes of several kinds",
            Error::Unwritable => "the UPDATE can't be written",
            Error::Config => "the configuration isn't allowed",
            Error::State => "the session isn't in a state for this",
            Error::Room => "there is less room than one message may need",
            Error::Paths => "routes have path identifiers, which this call doesn't read",
        })
    }
}

impl std::error::Error for Error {}
