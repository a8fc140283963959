use crate::raw;
use crate::Message;
use std::fmt;
use std::ops::Range;

/// What a field is. A prefix's kind says its family and its field. It is printed by the name
/// that `bgp explain` has.
#[derive(Clone, Copy, Debug, PartialEq, Eq, Hash)]
pub enum FieldKind {
    /// The Marker: sixteen octets (RFC 4271, section 4.1).
    Marker,
    /// The Length of the message: two octets.
    MessageLength,
    /// The Type of the message: one octet.
    MessageType,
    /// An OPEN's Version: one octet (RFC 4271, section 4.2).
    Version,
    /// An OPEN's My Autonomous System: two octets.
    MyAs,
    /// An OPEN's Hold Time in seconds: two octets.
    HoldTime,
    /// An OPEN's BGP Identifier: four octets.
    Identifier,
    /// An OPEN's Opt Parm Len: one octet.
    ParametersLength,
    /// The type of an optional parameter: one octet.
    ParameterType,
    /// The length of an optional parameter: one octet.
    ParameterLength,
    /// The code of a capability: one octet (RFC 5492, section 4).
    CapabilityCode,
    /// The length of a capability: one octet.
    CapabilityLength,
    /// The value of a capability that isn't recognised.
    CapabilityValue,
    /// An Address Family Identifier: two octets (RFC 4760, sections 3, 4 and 8).
    Afi,
    /// A Subsequent Address Family Identifier: one octet.
    Safi,
    /// A reserved octet, of a capability or of MP_REACH_NLRI.
    Reserved,
    /// An AS number, of a capability, a path or an aggregator: two octets or four (RFC 6793).
    AsNumber,
    /// An UPDATE's Withdrawn Routes Length: two octets (RFC 4271, section 4.3).
    WithdrawnLength,
    /// An UPDATE's Total Path Attribute Length: two octets.
    AttributesLength,
    /// The flags of a path attribute: one octet.
    AttributeFlags,
    /// The type of a path attribute: one octet.
    AttributeType,
    /// The length of a path attribute: one octet, or two where the Extended Length bit is set.
    AttributeLength,
    /// The value of ORIGIN: one octet.
    Origin,
    /// The type of a path's segment: one octet.
    SegmentType,
    /// How many AS numbers a path's segment has: one octet.
    SegmentCount,
    /// An IPv4 address, of NEXT_HOP or an aggregator: four octets.
    Address,
    /// The value of MULTI_EXIT_DISC: four octets.
    Med,
    /// The value of LOCAL_PREF: four octets.
    LocalPref,
    /// A community: four octets (RFC 1997).
    Community,
    /// A large community: twelve octets (RFC 8092, section 3).
    LargeCommunity,
    /// The length of MP_REACH_NLRI's next hop: one octet (RFC 4760, section 3).
    NextHopLength,
    /// The next hop of MP_REACH_NLRI: 4 octets or 16.
    NextHop,
    /// The link-local next hop of MP_REACH_NLRI: 16 octets (RFC 2545, section 3).
    LinkLocal,
    /// The value of an attribute that isn't recognised.
    AttributeValue,
    /// An IPv4 prefix of Withdrawn Routes, with its length octet: 1 to 5 octets.
    WithdrawnPrefix,
    /// An IPv4 prefix of MP_UNREACH_NLRI: 1 to 5 octets.
    UnreachPrefix4,
    /// An IPv6 prefix of MP_UNREACH_NLRI: 1 to 17 octets.
    UnreachPrefix6,
    /// An IPv4 prefix of MP_REACH_NLRI: 1 to 5 octets.
    ReachPrefix4,
    /// An IPv6 prefix of MP_REACH_NLRI: 1 to 17 octets.
    ReachPrefix6,
    /// An IPv4 prefix of Network Layer Reachability Information: 1 to 5 octets.
    NlriPrefix,
    /// A NOTIFICATION's error code: one octet (RFC 4271, section 4.5).
    ErrorCode,
    /// A NOTIFICATION's error subcode: one octet.
    ErrorSubcode,
    /// A NOTIFICATION's data.
    Data,
    /// Octets that can't be read as what should be there, up to the end of what encloses it: the
    /// capability, parameter, attribute, field or message.
    Unread,
}

/// The kinds by their numbers, from 1 on.
const KINDS: [FieldKind; 44] = [
    FieldKind::Marker,
    FieldKind::MessageLength,
    FieldKind::MessageType,
    FieldKind::Version,
    FieldKind::MyAs,
    FieldKind::HoldTime,
    FieldKind::Identifier,
    FieldKind::ParametersLength,
    FieldKind::ParameterType,
    FieldKind::ParameterLength,
    FieldKind::CapabilityCode,
    FieldKind::CapabilityLength,
    FieldKind::CapabilityValue,
    FieldKind::Afi,
    FieldKind::Safi,
    FieldKind::Reserved,
    FieldKind::AsNumber,
    FieldKind::WithdrawnLength,
    FieldKind::AttributesLength,
    FieldKind::AttributeFlags,
    FieldKind::AttributeType,
    FieldKind::AttributeLength,
    FieldKind::Origin,
    FieldKind::SegmentType,
    FieldKind::SegmentCount,
    FieldKind::Address,
    FieldKind::Med,
    FieldKind::LocalPref,
    FieldKind::Community,
    FieldKind::LargeCommunity,
    FieldKind::NextHopLength,
    FieldKind::NextHop,
    FieldKind::LinkLocal,
    FieldKind::AttributeValue,
    FieldKind::WithdrawnPrefix,
    FieldKind::UnreachPrefix4,
    FieldKind::UnreachPrefix6,
    FieldKind::ReachPrefix4,
    FieldKind::ReachPrefix6,
    FieldKind::NlriPrefix,
    FieldKind::ErrorCode,
    FieldKind::ErrorSubcode,
    FieldKind::Data,
    FieldKind::Unread,
];

impl fmt::Display for FieldKind {
    fn fmt(&self, f: &mut fmt::Formatter<'_>) -> fmt::Result {
        let number = *self as u32 + 1;
        let mut name = [0; raw::FIELD_NAME];
        let len = raw::field_name(number, &mut name);
        f.pad(std::str::from_utf8(&name[..len]).expect("names are ASCII"))
    }
}

/// What a field belongs to: an attribute, an optional parameter or a capability.
#[derive(Clone, Copy, Debug, PartialEq, Eq, Hash)]
pub struct Group {
    /// Where it begins in the message.
    pub at: usize,
    /// Its type or its code; 0 for an attribute that ends before its type.
    pub code: u8,
}

/// A field of a message: octets that have one meaning together.
#[derive(Clone, Copy, Debug, PartialEq, Eq, Hash)]
pub struct Field<'a> {
    /// Where it begins in the message.
    pub at: usize,
    /// Its octets: at least one.
    pub octets: &'a [u8],
    /// What it is.
    pub kind: FieldKind,
    /// The attribute, parameter or capability that it belongs to.
    pub group: Option<Group>,
}

impl<'a> Message<'a> {
    /// All its fields, in their order: their octets concatenated are the message, whatever it is,
    /// or only the header where that has a fault. Where it is accepted without a note none is
    /// [unread](FieldKind::Unread).
    ///
    /// ```
    /// use ristulva::{Context, FieldKind};
    ///
    /// let octets = [&[0xff; 16][..], &[0, 21, 3, 6, 2]].concat();
    /// let message = ristulva::judge(&Context::default(), &octets).unwrap();
    /// let kinds: Vec<FieldKind> = message.fields().iter().map(|field| field.kind).collect();
    /// assert_eq!(kinds[3..], [FieldKind::ErrorCode, FieldKind::ErrorSubcode]);
    /// assert_eq!(kinds[3].to_string(), "Error Code");
    /// ```
    pub fn fields(&self) -> Vec<Field<'a>> {
        let (context, octets) = self.judged();
        let found = raw::fields(&context.said(), octets);
        found.iter().map(|it| field(octets, it)).collect()
    }

    /// For which of its octets the session ends; `None` where it doesn't.
    pub fn fault(&self) -> Option<Range<usize>> {
        let (context, octets) = self.judged();
        let span = raw::fault(&context.said(), octets);
        let at = span.at as usize;
        (span.len > 0).then(|| at..at + span.len as usize)
    }

    /// The section of an RFC by which the session ends, as `bgp explain` prints it; "own rule"
    /// where no RFC has the rule. Empty where it doesn't end.
    pub fn fault_section(&self) -> String {
        let (context, octets) = self.judged();
        raw::fault_section(&context.said(), octets)
    }
}

fn field<'a>(octets: &'a [u8], it: &raw::Field) -> Field<'a> {
    let at = usize::from(it.at);
    Field {
        at,
        octets: &octets[at..at + usize::from(it.len)],
        kind: KINDS[usize::from(it.kind) - 1],
        group: (it.group != 0).then_some(Group {
            at: usize::from(it.group),
            code: it.code,
        }),
    }
}
