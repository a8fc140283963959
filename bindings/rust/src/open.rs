use crate::raw;
use std::iter::FusedIterator;
use std::net::Ipv4Addr;

/// What an OPEN says (RFC 4271, section 4.2).
///
/// ```
/// use ristulva::{judge, Context, Outcome};
///
/// // AS 131073 after AS_TRANS, 90 seconds, 192.0.2.2, and a parameter with two capabilities.
/// let body = [4, 0x5b, 0xa0, 0, 90, 192, 0, 2, 2, 10, 2, 8, 65, 4, 0, 2, 0, 1, 2, 0];
/// let octets = [&[0xff; 16][..], &[0, 39, 1], &body].concat();
/// let message = judge(&Context::default(), &octets).unwrap();
/// let Outcome::Open(open) = message.outcome() else { panic!() };
/// assert_eq!(open.as_number(), 131073);
/// assert_eq!(open.hold_time(), 90);
/// assert_eq!(open.identifier().to_string(), "192.0.2.2");
/// let codes: Vec<u8> = open.capabilities().map(|capability| capability.code).collect();
/// assert_eq!(codes, [65, 2]);
/// ```
#[derive(Clone, Copy, Debug, PartialEq, Eq)]
pub struct Open<'a> {
    /// The message.
    octets: &'a [u8],
    fields: raw::OpenFields,
}

impl<'a> Open<'a> {
    /// The OPEN that a message is, where it is one that is accepted.
    pub(crate) fn of(octets: &'a [u8]) -> Option<Open<'a>> {
        raw::open(octets).map(|fields| Open { octets, fields })
    }

    /// The AS number of its speaker: that of the first capability for AS numbers of four octets,
    /// else My Autonomous System (RFC 6793, section 4.1).
    pub fn as_number(&self) -> u32 {
        self.fields.as_number
    }

    /// My Autonomous System: 23456 for an AS number that needs four octets.
    pub fn as_field(&self) -> u16 {
        self.fields.as_field
    }

    /// The Hold Time that it proposes, in seconds: 0 for none, and never 1 or 2.
    pub fn hold_time(&self) -> u16 {
        self.fields.hold
    }

    /// The BGP Identifier: never zero (RFC 6286, section 2.1).
    pub fn identifier(&self) -> Ipv4Addr {
        self.fields.id.into()
    }

    /// Whether it offers AS numbers of four octets (RFC 6793).
    pub fn offers_as4(&self) -> bool {
        self.fields.as4 != 0
    }

    /// Whether it offers IPv4 unicast (RFC 4760, section 8).
    pub fn offers_ip4(&self) -> bool {
        self.fields.ip4 != 0
    }

    /// Whether it offers IPv6 unicast.
    pub fn offers_ip6(&self) -> bool {
        self.fields.ip6 != 0
    }

    /// Its capabilities in their order, however they are grouped into parameters (RFC 5492, section
    /// 4).
    pub fn capabilities(&self) -> Capabilities<'a> {
        Capabilities {
            octets: self.octets,
            cursor: self.fields.capabilities,
        }
    }
}

/// A capability (RFC 5492, section 4).
#[derive(Clone, Copy, Debug, PartialEq, Eq, Hash)]
pub struct Capability<'a> {
    /// Its code.
    pub code: u8,
    /// Its value: at most 255 octets.
    pub value: &'a [u8],
}

/// The capabilities of an OPEN.
#[derive(Clone, Debug)]
pub struct Capabilities<'a> {
    octets: &'a [u8],
    cursor: raw::Capabilities,
}

impl<'a> Iterator for Capabilities<'a> {
    type Item = Capability<'a>;

    fn next(&mut self) -> Option<Capability<'a>> {
        let found = raw::next_capability(self.octets, &mut self.cursor)?;
        Some(Capability {
            code: found.code,
            value: found.value.of(self.octets),
        })
    }
}

impl FusedIterator for Capabilities<'_> {}
