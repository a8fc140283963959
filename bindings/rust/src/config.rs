use crate::raw;
use std::net::Ipv4Addr;

/// What a session's own speaker is set to (RFC 4271, section 4.2).
#[derive(Clone, Copy, Debug, PartialEq, Eq, Hash)]
pub struct Config {
    /// Its AS number: not 0 (RFC 7607); above 65535 only with `as4` (RFC 6793, section 4.1).
    pub local_as: u32,
    /// The AS number that the peer has to have: not 0.
    pub peer_as: u32,
    /// Its BGP Identifier: not 0.0.0.0 (RFC 6286, section 2.1).
    pub identifier: Ipv4Addr,
    /// The Hold Time that it proposes, in seconds: 0 for none, else 3 at least.
    pub hold_time: u16,
    /// Whether it offers AS numbers of four octets (RFC 6793).
    pub as4: bool,
    /// Whether it offers IPv4 unicast (RFC 4760, section 8).
    pub ip4: bool,
    /// Whether it offers IPv6 unicast.
    pub ip6: bool,
}

impl Config {
    /// A speaker that proposes a Hold Time of 90 seconds (RFC 4271, section 10), and offers AS
    /// numbers of four octets and IPv4 unicast.
    pub fn new(local_as: u32, peer_as: u32, identifier: Ipv4Addr) -> Config {
        Config {
            local_as,
            peer_as,
            identifier,
            hold_time: 90,
            as4: true,
            ip4: true,
            ip6: false,
        }
    }

    /// In C's form.
    pub(crate) fn said(&self) -> raw::Config {
        raw::Config {
            local_as: self.local_as,
            peer_as: self.peer_as,
            id: self.identifier.octets(),
            hold: self.hold_time,
            as4: self.as4.into(),
            ip4: self.ip4.into(),
            ip6: self.ip6.into(),
        }
    }
}
