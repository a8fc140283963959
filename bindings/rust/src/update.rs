use crate::{
    raw, Attribute, Attributes, Context, NextHop, Notes, Numbers, Prefix, Prefixes, Segments,
};

// The types of attributes that are read here.
const AS_PATH: u8 = 2;
const COMMUNITIES: u8 = 8;
const MP_REACH: u8 = 14;
const MP_UNREACH: u8 = 15;
const AS4_PATH: u8 = 17;
const LARGE_COMMUNITY: u8 = 32;

/// An UPDATE (RFC 4271, section 4.3). What it gives is read from its octets on demand.
///
/// Of attributes of one type the first decides (RFC 7606, section 3, item g), also one that is
/// discarded and has a [note](Update::notes).
#[derive(Clone, Copy, Debug, PartialEq, Eq)]
pub struct Update<'a> {
    /// The message.
    octets: &'a [u8],
    context: Context,
    parts: raw::Parts,
}

impl<'a> Update<'a> {
    pub(crate) fn new(octets: &'a [u8], context: Context, parts: raw::Parts) -> Update<'a> {
        Update {
            octets,
            context,
            parts,
        }
    }

    /// Its path attributes in their order, each as in the message, discarded or not.
    pub fn attributes(&self) -> Attributes<'a> {
        Attributes::new(self.octets, self.parts.attributes)
    }

    /// The first attribute of a type.
    pub fn attribute(&self, kind: u8) -> Option<Attribute<'a>> {
        self.attributes().find(|attribute| attribute.kind == kind)
    }

    fn value(&self, kind: u8) -> Option<&'a [u8]> {
        self.attribute(kind).map(|attribute| attribute.value)
    }

    /// The IPv4 prefixes of Withdrawn Routes.
    pub fn withdrawn(&self) -> Prefixes<'a> {
        Prefixes::of_field(self.parts.withdrawn.of(self.octets))
    }

    /// The IPv4 prefixes of Network Layer Reachability Information.
    pub fn nlri(&self) -> Prefixes<'a> {
        Prefixes::of_field(self.parts.nlri.of(self.octets))
    }

    /// The prefixes of MP_REACH_NLRI (RFC 4760, section 3): none where it is missing, or of a
    /// family that isn't in use.
    pub fn reached(&self) -> Prefixes<'a> {
        self.reach()
            .map_or(Prefixes::none(), |(_, prefixes)| prefixes)
    }

    /// The next hop of these prefixes.
    pub fn reached_by(&self) -> Option<NextHop> {
        self.reach().and_then(|(hop, _)| NextHop::of(hop))
    }

    /// The next hop and the prefixes of MP_REACH_NLRI.
    fn reach(&self) -> Option<(&'a [u8], Prefixes<'a>)> {
        let value = self.value(MP_REACH)?;
        let (hop, cursor) = raw::reached(value)?;
        self.in_use(&cursor)
            .then(|| (hop.of(value), Prefixes::new(value, cursor)))
    }

    /// The prefixes of MP_UNREACH_NLRI (RFC 4760, section 4): none where it is missing, or of a
    /// family that isn't in use.
    pub fn unreached(&self) -> Prefixes<'a> {
        self.unreach().unwrap_or(Prefixes::none())
    }

    fn unreach(&self) -> Option<Prefixes<'a>> {
        let value = self.value(MP_UNREACH)?;
        let cursor = raw::unreached(value)?;
        self.in_use(&cursor).then(|| Prefixes::new(value, cursor))
    }

    /// All of its prefixes: those of Withdrawn Routes, MP_UNREACH_NLRI, MP_REACH_NLRI and Network
    /// Layer Reachability Information. An UPDATE that is treated as a withdrawal withdraws them all
    /// (RFC 7606, section 2).
    pub fn prefixes(&self) -> impl Iterator<Item = Prefix> + 'a {
        self.withdrawn()
            .chain(self.unreached())
            .chain(self.reached())
            .chain(self.nlri())
    }

    /// Whether both speakers offer the family of prefixes: routes of others are discarded.
    fn in_use(&self, cursor: &raw::Prefixes) -> bool {
        match cursor.afi {
            raw::AFI_IP4 => self.context.ip4,
            _ => self.context.ip6,
        }
    }

    /// Whether it has routes of IPv6 while IPv6 isn't in use: they are discarded, and a stream that
    /// has such was judged in a wrong context.
    pub fn has_ip6_unused(&self) -> bool {
        let is_ip6 = |kind| {
            self.value(kind)
                .is_some_and(|value| value.starts_with(&[0, 2, 1]))
        };
        !self.context.ip6 && (is_ip6(MP_REACH) || is_ip6(MP_UNREACH))
    }

    /// The segments of AS_PATH; `None` where there is no AS_PATH.
    pub fn as_path(&self) -> Option<Segments<'a>> {
        self.value(AS_PATH)
            .map(|value| Segments::new(value, self.context.as4, false))
    }

    /// The segments of AS4_PATH (RFC 6793, section 3); `None` where there is none. Those of a
    /// confederation have no meaning.
    pub fn as4_path(&self) -> Option<Segments<'a>> {
        self.value(AS4_PATH)
            .map(|value| Segments::new(value, true, true))
    }

    /// The values of COMMUNITIES (RFC 1997), each 65536 times an AS number and a number of that AS;
    /// none where it is missing.
    pub fn communities(&self) -> Numbers<'a> {
        Numbers::new(self.value(COMMUNITIES).unwrap_or_default(), 4)
    }

    /// The values of LARGE_COMMUNITY, each three numbers, and each only where it occurs first
    /// (RFC 8092, section 3); none where it is missing.
    pub fn large_communities(&self) -> impl Iterator<Item = [u32; 3]> + 'a {
        let value = self.value(LARGE_COMMUNITY).unwrap_or_default();
        let mut cursor = raw::LargeCommunities {
            first: 0,
            at: 0,
            end: value.len() as u32,
        };
        std::iter::from_fn(move || Some(raw::next_large_community(value, &mut cursor)?.numbers))
    }

    /// What RFC 7606 found: each attribute that is discarded, wrong or missing.
    pub fn notes(&self) -> Notes<'a> {
        Notes::new(self.octets, self.context)
    }
}
