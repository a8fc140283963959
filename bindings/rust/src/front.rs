use crate::raw;

/// The type of a message (RFC 4271, section 4.1).
#[derive(Clone, Copy, Debug, PartialEq, Eq, Hash)]
pub enum Kind {
    /// Type 1.
    Open,
    /// Type 2.
    Update,
    /// Type 3.
    Notification,
    /// Type 4.
    Keepalive,
}

impl Kind {
    fn of(number: u8) -> Kind {
        match number {
            1 => Kind::Open,
            2 => Kind::Update,
            3 => Kind::Notification,
            4 => Kind::Keepalive,
            _ => unreachable!("type {number} of a message that was found"),
        }
    }
}

/// The type of a message by [`Terms`](crate::Terms).
#[derive(Clone, Copy, Debug, PartialEq, Eq, Hash)]
pub enum KindIn {
    /// One of RFC 4271.
    Base(Kind),
    /// Type 5, a ROUTE-REFRESH (RFC 2918, section 3).
    Refresh,
}

impl KindIn {
    pub(crate) fn of(number: u8) -> KindIn {
        match number {
            raw::ROUTE_REFRESH => KindIn::Refresh,
            other => KindIn::Base(Kind::of(other)),
        }
    }
}

/// What octets of a stream begin with (RFC 4271, sections 4.1 and 6.1).
#[derive(Clone, Copy, Debug, PartialEq, Eq, Hash)]
pub enum Front<'a, K = Kind> {
    /// Less than a message.
    More {
        /// The least length that the message will have: 19 until its header is complete, then what
        /// that says.
        wanted: usize,
    },
    /// A whole message.
    Found {
        /// Its type.
        kind: K,
        /// Its octets, header included: 19 to [`MESSAGE`](crate::MESSAGE).
        octets: &'a [u8],
    },
    /// A header that doesn't begin a message: nothing after it can be read.
    Fault {
        /// The code of the NOTIFICATION that answers it: 1.
        code: u8,
        /// Its subcode: 1 to 3.
        subcode: u8,
        /// Its data, the field that is at fault: no octets of a Marker, 2 of a Length, 1 of a type.
        data: &'a [u8],
    },
}

/// Classifies what octets of a stream begin with. Octets after a message are ignored.
pub fn front(octets: &[u8]) -> Front<'_> {
    found(&raw::front(octets), octets, Kind::of)
}

/// From C's form, of these octets.
pub(crate) fn found<'a, K>(
    it: &raw::Found,
    octets: &'a [u8],
    kind_of: impl FnOnce(u8) -> K,
) -> Front<'a, K> {
    match it.what {
        raw::MORE => Front::More {
            wanted: it.len as usize,
        },
        raw::FOUND => Front::Found {
            kind: kind_of(it.kind),
            octets: &octets[..it.len as usize],
        },
        _ => Front::Fault {
            code: it.code,
            subcode: it.subcode,
            data: it.data.of(octets),
        },
    }
}
