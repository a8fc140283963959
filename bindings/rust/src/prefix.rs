use crate::raw;
use std::fmt;
use std::iter::FusedIterator;
use std::net::{IpAddr, Ipv4Addr, Ipv6Addr};

/// An address as `bgp show --json` prints it (RFC 5952, sections 4 and 5): in hexadecimal groups, also where an IPv6 address holds an IPv4 one.
#[derive(Clone, Copy, Debug, PartialEq, Eq, PartialOrd, Ord, Hash)]
pub struct Shown(pub IpAddr);

impl fmt::Display for Shown {
    fn fmt(&self, f: &mut fmt::Formatter<'_>) -> fmt::Result {
        match self.0 {
            IpAddr::V6(six) if six.to_ipv4_mapped().is_some() => {
                let [.., high, low] = six.segments();
                write!(f, "::ffff:{high:x}:{low:x}")
            }
            address => address.fmt(f),
        }
    }
}

/// The destinations of a route (RFC 4271, section 4.3). It is printed as `10.0.0.0/8`.
#[derive(Clone, Copy, Debug, PartialEq, Eq, PartialOrd, Ord, Hash)]
pub struct Prefix {
    /// The address. Bits after the length are 0.
    pub address: IpAddr,
    /// The length in bits: at most 32 for IPv4, and 128 for IPv6.
    pub len: u8,
}

impl fmt::Display for Prefix {
    fn fmt(&self, f: &mut fmt::Formatter<'_>) -> fmt::Result {
        write!(f, "{}/{}", Shown(self.address), self.len)
    }
}

impl Prefix {
    pub(crate) fn of(found: raw::Prefix) -> Prefix {
        let [a, b, c, d, ..] = found.addr;
        let address = match found.afi {
            raw::AFI_IP4 => Ipv4Addr::new(a, b, c, d).into(),
            _ => Ipv6Addr::from(found.addr).into(),
        };
        Prefix {
            address,
            len: found.len,
        }
    }
}

/// The prefixes of a field, up to its end or to the first fault.
#[derive(Clone, Debug)]
pub struct Prefixes<'a> {
    octets: &'a [u8],
    cursor: raw::Prefixes,
}

impl<'a> Prefixes<'a> {
    pub(crate) fn new(octets: &'a [u8], cursor: raw::Prefixes) -> Prefixes<'a> {
        Prefixes { octets, cursor }
    }

    /// Those of a field that has nothing but IPv4 prefixes.
    pub(crate) fn of_field(field: &'a [u8]) -> Prefixes<'a> {
        let cursor = raw::Prefixes {
            at: 0,
            end: field.len() as u32,
            afi: raw::AFI_IP4,
        };
        Prefixes::new(field, cursor)
    }

    pub(crate) fn none() -> Prefixes<'a> {
        Prefixes::of_field(&[])
    }
}

impl Iterator for Prefixes<'_> {
    type Item = Prefix;

    fn next(&mut self) -> Option<Prefix> {
        raw::next_prefix(self.octets, &mut self.cursor).map(Prefix::of)
    }

    fn size_hint(&self) -> (usize, Option<usize>) {
        let left = raw::count_prefixes(self.octets, &self.cursor);
        (left, Some(left))
    }

    fn count(self) -> usize {
        self.len()
    }
}

impl ExactSizeIterator for Prefixes<'_> {}

impl FusedIterator for Prefixes<'_> {}

/// The next hop of MP_REACH_NLRI (RFC 4760, section 3).
#[derive(Clone, Copy, Debug, PartialEq, Eq, Hash)]
pub struct NextHop {
    /// The address, for IPv6 the global one.
    pub address: IpAddr,
    /// The link-local address that may follow a global one (RFC 2545, section 3).
    pub link_local: Option<Ipv6Addr>,
}

impl NextHop {
    /// The next hop that 4, 16 or 32 octets are.
    pub(crate) fn of(octets: &[u8]) -> Option<NextHop> {
        if let Ok(address) = <[u8; 4]>::try_from(octets) {
            return Some(NextHop {
                address: address.into(),
                link_local: None,
            });
        }
        let address = <[u8; 16]>::try_from(octets.get(..16)?).ok()?;
        let link_local = match &octets[16..] {
            [] => None,
            link => Some(<[u8; 16]>::try_from(link).ok()?.into()),
        };
        Some(NextHop {
            address: address.into(),
            link_local,
        })
    }
}
