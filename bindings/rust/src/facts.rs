use crate::{raw, Message};
use std::net::{IpAddr, Ipv4Addr, Ipv6Addr};

/// The origin of a route (RFC 4271, section 5.1.1).
#[derive(Clone, Copy, Debug, PartialEq, Eq, Hash)]
pub enum Origin {
    /// IGP: inside the originating AS.
    Igp,
    /// EGP: by the Exterior Gateway Protocol.
    Egp,
    /// INCOMPLETE: by other means.
    Incomplete,
}

/// Common attributes of an UPDATE that is accepted, only of those that are kept.
///
/// ```
/// # let body = [
/// #     &[0, 0, 0, 20][..],
/// #     &[0x40, 1, 1, 0, 0x40, 2, 6, 2, 1, 0, 0, 0xfd, 0xe8, 0x40, 3, 4, 192, 0, 2, 1],
/// #     &[8, 10],
/// # ]
/// # .concat();
/// # let context = ristulva::Context { as4: true, ..Default::default() };
/// # let octets = ristulva::encode(&context, &body)?;
/// for message in ristulva::messages(&context, &octets) {
///     let facts = message.facts().expect("an UPDATE");
///     assert_eq!(facts.origin_as, Some(65000));
///     assert_eq!(facts.next_hop.unwrap().to_string(), "192.0.2.1");
/// }
/// # Ok::<(), ristulva::Error>(())
/// ```
#[derive(Clone, Copy, Debug, PartialEq, Eq)]
pub struct Facts<'a> {
    /// ORIGIN.
    pub origin: Option<Origin>,
    /// NEXT_HOP.
    pub next_hop: Option<Ipv4Addr>,
    /// The next hop of MP_REACH_NLRI: for IPv6 its global address.
    pub mp_next_hop: Option<IpAddr>,
    /// The link-local address after that one (RFC 2545, section 3).
    pub link_local: Option<Ipv6Addr>,
    /// MULTI_EXIT_DISC.
    pub med: Option<u32>,
    /// LOCAL_PREF.
    pub local_pref: Option<u32>,
    /// Whether there is an ATOMIC_AGGREGATE.
    pub atomic_aggregate: bool,
    /// The AS number and the address of the aggregator that AGGREGATOR and AS4_AGGREGATOR give
    /// together (RFC 6793, section 4.2.3).
    pub aggregator: Option<(u32, Ipv4Addr)>,
    /// The origin AS of the route: the last number of the path that AS_PATH and AS4_PATH give
    /// together (RFC 6793, section 4.2.3). `None` where that is empty or ends in a set (RFC 6811,
    /// section 2).
    pub origin_as: Option<u32>,
    /// The value of AS_PATH.
    pub as_path: Option<&'a [u8]>,
    /// The value of AS4_PATH.
    pub as4_path: Option<&'a [u8]>,
    /// The value of COMMUNITIES.
    pub communities: Option<&'a [u8]>,
    /// The value of LARGE_COMMUNITY.
    pub large_communities: Option<&'a [u8]>,
    /// How many attributes of types that aren't recognised.
    pub unrecognised: u32,
}

/// A value where its flag is set.
fn given<T>(has: u8, value: T) -> Option<T> {
    (has != 0).then_some(value)
}

/// The next hop of MP_REACH_NLRI.
fn mp_next_hop(hops: &raw::NextHops) -> Option<IpAddr> {
    let [a, b, c, d, ..] = hops.mp_next_hop;
    match hops.mp_afi {
        0 => None,
        raw::AFI_IP4 => Some(Ipv4Addr::new(a, b, c, d).into()),
        _ => Some(Ipv6Addr::from(hops.mp_next_hop).into()),
    }
}

impl<'a> Facts<'a> {
    /// NEXT_HOP, and the next hop of MP_REACH_NLRI: those that are present.
    pub fn next_hops(&self) -> impl Iterator<Item = IpAddr> {
        let hops = [self.next_hop.map(IpAddr::from), self.mp_next_hop];
        hops.into_iter().flatten()
    }

    /// What C reports of these octets.
    fn of(octets: &'a [u8], told: &raw::Facts) -> Facts<'a> {
        let (hops, paths) = (&told.hops, &told.paths);
        let part = |has, span: raw::Span| given(has, span.of(octets));
        let origin = match told.origin {
            0 => Origin::Igp,
            1 => Origin::Egp,
            _ => Origin::Incomplete,
        };
        Facts {
            origin: given(told.has_origin, origin),
            next_hop: given(hops.has_next_hop, hops.next_hop.into()),
            mp_next_hop: mp_next_hop(hops),
            link_local: given(hops.has_link_local, hops.link_local.into()),
            med: given(told.has_med, told.med),
            local_pref: given(told.has_local_pref, told.local_pref),
            atomic_aggregate: told.atomic_aggregate != 0,
            aggregator: given(
                told.has_aggregator,
                (told.aggregator_as, told.aggregator_address.into()),
            ),
            origin_as: given(paths.has_origin_as, paths.origin_as),
            as_path: part(paths.has_as_path, paths.as_path),
            as4_path: part(paths.has_as4_path, paths.as4_path),
            communities: part(paths.has_communities, paths.communities),
            large_communities: part(paths.has_large_communities, paths.large_communities),
            unrecognised: told.unrecognised,
        }
    }
}

impl<'a> Message<'a> {
    /// Its common attributes, of those that are kept: `None` of other messages than an UPDATE that
    /// is accepted.
    pub fn facts(&self) -> Option<Facts<'a>> {
        let (context, octets) = self.judged();
        raw::facts(&context.said(), octets).map(|told| Facts::of(octets, &told))
    }
}
