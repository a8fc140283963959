//! The structures of `ristulva.h`, as they lie in memory.

#[repr(C)]
#[derive(Clone, Copy, Debug, Default, PartialEq, Eq)]
pub struct Span {
    pub at: u32,
    pub len: u32,
}

impl Span {
    /// Its octets, of those that it lies in.
    pub fn of(self, octets: &[u8]) -> &[u8] {
        let at = self.at as usize;
        &octets[at..at + self.len as usize]
    }
}

#[repr(C)]
#[derive(Default)]
pub struct Found {
    pub what: u8,
    pub kind: u8,
    pub code: u8,
    pub subcode: u8,
    pub len: u32,
    pub data: Span,
}

#[repr(C)]
#[derive(Default)]
pub struct Context {
    pub internal: u8,
    pub as4: u8,
    pub ip4: u8,
    pub ip6: u8,
}

#[repr(C)]
#[derive(Default)]
pub struct Terms {
    pub context: Context,
    pub refresh: u8,
    pub long_messages: u8,
    pub long_back: u8,
    pub paths4: u8,
    pub paths6: u8,
    pub hop6: u8,
}

#[repr(C)]
#[derive(Default)]
pub struct Refresh {
    pub afi: u16,
    pub safi: u8,
    pub subtype: u8,
    pub rest: Span,
}

#[repr(C)]
#[derive(Clone, Copy, Debug, Default, PartialEq, Eq)]
pub struct Parts {
    pub withdrawn: Span,
    pub attributes: Span,
    pub nlri: Span,
}

#[repr(C)]
#[derive(Default)]
pub struct Verdict {
    pub verdict: u8,
    pub kind: u8,
    pub code: u8,
    pub subcode: u8,
    pub len: u32,
    pub data_len: u32,
    pub parts: Parts,
}

#[repr(C)]
#[derive(Clone, Debug, Default)]
pub struct Note {
    pub at: u32,
    pub kind: u8,
    pub why: u8,
}

#[repr(C)]
#[derive(Clone, Debug, Default)]
pub struct Field {
    pub at: u16,
    pub len: u16,
    pub group: u16,
    pub kind: u8,
    pub code: u8,
}

#[repr(C)]
#[derive(Default)]
pub struct NextHops {
    pub next_hop: [u8; 4],
    pub mp_next_hop: [u8; 16],
    pub link_local: [u8; 16],
    pub mp_afi: u16,
    pub has_next_hop: u8,
    pub has_link_local: u8,
}

#[repr(C)]
#[derive(Default)]
pub struct Paths {
    pub as_path: Span,
    pub as4_path: Span,
    pub communities: Span,
    pub large_communities: Span,
    pub origin_as: u32,
    pub has_as_path: u8,
    pub has_as4_path: u8,
    pub has_communities: u8,
    pub has_large_communities: u8,
    pub has_origin_as: u8,
}

#[repr(C)]
#[derive(Default)]
pub struct Facts {
    pub hops: NextHops,
    pub paths: Paths,
    pub med: u32,
    pub local_pref: u32,
    pub aggregator_as: u32,
    pub aggregator_address: [u8; 4],
    pub unrecognised: u32,
    pub origin: u8,
    pub has_origin: u8,
    pub has_med: u8,
    pub has_local_pref: u8,
    pub has_aggregator: u8,
    pub atomic_aggregate: u8,
}

#[repr(C)]
#[derive(Default)]
pub struct Cleaned {
    pub ends: u8,
    pub verdict: u8,
    pub code: u8,
    pub subcode: u8,
    pub len: u32,
    pub discarded: usize,
    pub left_out: usize,
    pub capabilities: usize,
}

#[repr(C)]
#[derive(Clone, Debug)]
pub struct Attributes {
    pub at: u32,
    pub end: u32,
}

#[repr(C)]
#[derive(Default)]
pub struct Attribute {
    pub at: u32,
    pub flags: u8,
    pub kind: u8,
    pub value: Span,
}

#[repr(C)]
#[derive(Clone, Debug, Default)]
pub struct Prefixes {
    pub at: u32,
    pub end: u32,
    pub afi: u16,
}

#[repr(C)]
#[derive(Clone, Copy, Debug, Default)]
pub struct Prefix {
    pub afi: u16,
    pub len: u8,
    pub addr: [u8; 16],
}

#[repr(C)]
#[derive(Clone, Debug, Default)]
pub struct RouteCursor {
    pub withdrawn: Prefixes,
    pub unreached: Prefixes,
    pub reached: Prefixes,
    pub nlri: Prefixes,
    pub announces: u8,
    pub loses_ip6: u8,
}

#[repr(C)]
#[derive(Default)]
pub struct Route {
    pub announced: u8,
    pub prefix: Prefix,
}

#[repr(C)]
#[derive(Clone, Debug)]
pub struct Segments {
    pub at: u32,
    pub end: u32,
    pub wide: u8,
    pub confederations: u8,
}

#[repr(C)]
#[derive(Default)]
pub struct Segment {
    pub kind: u8,
    pub numbers: Span,
}

#[repr(C)]
#[derive(Clone, Debug)]
pub struct Numbers {
    pub at: u32,
    pub end: u32,
    pub width: u8,
}

#[repr(C)]
#[derive(Clone, Debug)]
pub struct LargeCommunities {
    pub first: u32,
    pub at: u32,
    pub end: u32,
}

#[repr(C)]
#[derive(Default)]
pub struct LargeCommunity {
    pub numbers: [u32; 3],
}

#[repr(C)]
#[derive(Clone, Copy, Debug, Default, PartialEq, Eq)]
pub struct Capabilities {
    pub at: u32,
    pub stop: u32,
    pub end: u32,
}

#[repr(C)]
#[derive(Clone, Copy, Debug, Default, PartialEq, Eq)]
pub struct OpenFields {
    pub as_number: u32,
    pub as_field: u16,
    pub hold: u16,
    pub id: [u8; 4],
    pub as4: u8,
    pub ip4: u8,
    pub ip6: u8,
    pub capabilities: Capabilities,
}

#[repr(C)]
#[derive(Default)]
pub struct Capability {
    pub code: u8,
    pub value: Span,
}

#[repr(C)]
pub struct Config {
    pub local_as: u32,
    pub peer_as: u32,
    pub id: [u8; 4],
    pub hold: u16,
    pub as4: u8,
    pub ip4: u8,
    pub ip6: u8,
}

#[repr(C)]
#[derive(Clone, Copy, Default)]
pub struct Action {
    pub kind: u8,
    pub timer: u8,
    pub seconds: u16,
    pub code: u8,
    pub subcode: u8,
}

/// The most things that are to be done at a time.
pub const ACTIONS: usize = 5;

#[repr(C)]
#[derive(Default)]
pub struct Actions {
    pub count: usize,
    pub list: [Action; ACTIONS],
}

#[repr(C)]
#[derive(Default)]
pub struct Heard {
    pub heard: u8,
    pub code: u8,
    pub subcode: u8,
    pub len: u32,
    pub parts: Parts,
}

#[repr(C)]
#[derive(Default)]
pub struct Peer {
    pub as_number: u32,
    pub id: [u8; 4],
    pub hold: u16,
    pub as4: u8,
    pub ip4: u8,
    pub ip6: u8,
}

#[repr(C)]
#[derive(Clone, Copy, Debug, Default)]
pub struct Place {
    pub at: u16,
    pub len: u16,
}

impl Place {
    /// Its octets, of those of its message; none where it has none.
    pub fn of(self, message: &[u8]) -> &[u8] {
        let at = usize::from(self.at);
        &message[at..at + usize::from(self.len)]
    }
}

/// A route of a stream. It lies in memory as the library writes it.
#[repr(C)]
#[derive(Clone, Copy, Debug, Default)]
pub struct RouteRow {
    pub(crate) message: u64,
    pub(crate) origin_as: u32,
    pub(crate) as_path: Place,
    pub(crate) as4_path: Place,
    pub(crate) communities: Place,
    pub(crate) large_communities: Place,
    pub(crate) prefix: Prefix,
    pub(crate) announced: u8,
    pub(crate) verdict: u8,
    pub(crate) has_origin_as: u8,
    reserved: [u8; 5],
}

/// A number of an AS path, of what AS_PATH and AS4_PATH give together (RFC 6793, section 4.2.3).
#[repr(C)]
#[derive(Clone, Copy, Debug, Default)]
pub struct NumberRow {
    pub(crate) message: u64,
    pub(crate) number: u32,
    pub(crate) segment: u16,
    pub(crate) set: u8,
    reserved: u8,
}

/// A community of COMMUNITIES (RFC 1997).
#[repr(C)]
#[derive(Clone, Copy, Debug, Default)]
pub struct CommunityRow {
    pub(crate) message: u64,
    pub(crate) value: u32,
    reserved: u32,
}

/// A large community of LARGE_COMMUNITY, each once (RFC 8092, section 3).
#[repr(C)]
#[derive(Clone, Copy, Debug, Default)]
pub struct LargeCommunityRow {
    pub(crate) message: u64,
    pub(crate) numbers: [u32; 3],
    reserved: u32,
}

// What the header says of the rows, of which the caller's memory has thousands.
const _: () = assert!(std::mem::size_of::<RouteRow>() == 56);
const _: () = assert!(std::mem::size_of::<NumberRow>() == 16);
const _: () = assert!(std::mem::size_of::<CommunityRow>() == 16);
const _: () = assert!(std::mem::size_of::<LargeCommunityRow>() == 24);
