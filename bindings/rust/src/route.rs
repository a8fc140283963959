use crate::{raw, Message, Prefix};
use std::fmt;
use std::iter::FusedIterator;

/// What an UPDATE says of a prefix.
///
/// It is printed as `announce 10.0.0.0/8`, or `withdraw 10.0.0.0/8`.
#[derive(Clone, Copy, Debug, PartialEq, Eq, Hash)]
pub struct Route {
    /// The destinations.
    pub prefix: Prefix,
    /// Whether the route is announced; else it is withdrawn.
    pub announced: bool,
}

impl fmt::Display for Route {
    fn fmt(&self, f: &mut fmt::Formatter<'_>) -> fmt::Result {
        let word = if self.announced { "announce" } else { "withdraw" };
        write!(f, "{word} {}", self.prefix)
    }
}

/// The routes of a message, one after another.
#[derive(Clone, Debug)]
pub struct Routes<'a> {
    octets: &'a [u8],
    cursor: raw::RouteCursor,
}

impl Routes<'_> {
    /// Whether the UPDATE has MP_REACH_NLRI or MP_UNREACH_NLRI of IPv6 unicast, and its context has no
    /// `ip6`: its routes aren't given, if it has any (an End-of-RIB has none).
    pub fn loses_ip6(&self) -> bool {
        self.cursor.loses_ip6 != 0
    }
}

impl Iterator for Routes<'_> {
    type Item = Route;

    fn next(&mut self) -> Option<Route> {
        let found = raw::next_route(self.octets, &mut self.cursor)?;
        Some(Route {
            prefix: Prefix::of(found.prefix),
            announced: found.announced != 0,
        })
    }
}

impl FusedIterator for Routes<'_> {}

impl<'a> Message<'a> {
    /// Its routes as RFC 7606 has them: those that it withdraws, then those that it announces. An
    /// UPDATE that is treated as a withdrawal announces none, and withdraws all (section 2). Of
    /// other messages there are none.
    ///
    /// Routes of a family that isn't in use aren't among them: [`Routes::loses_ip6`].
    pub fn routes(&self) -> Routes<'a> {
        let (context, octets) = self.judged();
        let cursor = raw::routes(&context.said(), octets);
        Routes { octets, cursor }
    }
}
