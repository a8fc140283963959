package ristulva

// #include "list.h"
import "C"

import "unsafe"

// FieldKind is what a field is. A prefix's kind says its family and its field.
type FieldKind uint8

const (
	FieldMarker           FieldKind = iota + 1 // the Marker: sixteen octets (RFC 4271, section 4.1)
	FieldMessageLength                         // the Length of the message: two octets
	FieldMessageType                           // the Type of the message: one octet
	FieldVersion                               // an OPEN's Version: one octet (RFC 4271, section 4.2)
	FieldMyAs                                  // an OPEN's My Autonomous System: two octets
	FieldHoldTime                              // an OPEN's Hold Time in seconds: two octets
	FieldIdentifier                            // an OPEN's BGP Identifier: four octets
	FieldParametersLength                      // an OPEN's Opt Parm Len: one octet
	FieldParameterType                         // the type of an optional parameter: one octet
	FieldParameterLength                       // the length of an optional parameter: one octet
	FieldCapabilityCode                        // the code of a capability: one octet (RFC 5492, section 4)
	FieldCapabilityLength                      // the length of a capability: one octet
	FieldCapabilityValue                       // the value of a capability that isn't recognised
	FieldAfi                                   // an Address Family Identifier: two octets (RFC 4760, sections 3, 4 and 8)
	FieldSafi                                  // A Subsequent Address Family Identifier: one octet
	FieldReserved                              // A reserved octet, of a capability or of MP_REACH_NLRI
	FieldAsNumber                              // an AS number, of a capability, a path or an aggregator: two octets or four (RFC 6793)
	FieldWithdrawnLength                       // an UPDATE's Withdrawn Routes Length: two octets (RFC 4271, section 4.3)
	FieldAttributesLength                      // an UPDATE's Total Path Attribute Length: two octets
	FieldAttributeFlags                        // the flags of a path attribute: one octet
	FieldAttributeType                         // the type of a path attribute: one octet
	FieldAttributeLength                       // the length of a path attribute: one octet, or two where the Extended Length bit is set
	FieldOrigin                                // the value of ORIGIN: one octet
	FieldSegmentType                           // the type of a path's segment: one octet
	FieldSegmentCount                          // the number of AS numbers in a path's segment: one octet
	FieldAddress                               // an IPv4 address, of NEXT_HOP or an aggregator: four octets
	FieldMed                                   // the value of MULTI_EXIT_DISC: four octets
	FieldLocalPref                             // the value of LOCAL_PREF: four octets
	FieldCommunity                             // A community: four octets (RFC 1997)
	FieldLargeCommunity                        // A large community: twelve octets (RFC 8092, section 3)
	FieldNextHopLength                         // the length of MP_REACH_NLRI's next hop: one octet (RFC 4760, section 3)
	FieldNextHop                               // the next hop of MP_REACH_NLRI: 4 octets or 16
	FieldLinkLocal                             // the link-local next hop of MP_REACH_NLRI: 16 octets (RFC 2545, section 3)
	FieldAttributeValue                        // the value of an attribute that isn't recognised
	FieldWithdrawnPrefix                       // an IPv4 prefix of Withdrawn Routes, with its length octet: 1 to 5 octets
	FieldUnreachPrefix4                        // an IPv4 prefix of MP_UNREACH_NLRI: 1 to 5 octets
	FieldUnreachPrefix6                        // an IPv6 prefix of MP_UNREACH_NLRI: 1 to 17 octets
	FieldReachPrefix4                          // an IPv4 prefix of MP_REACH_NLRI: 1 to 5 octets
	FieldReachPrefix6                          // an IPv6 prefix of MP_REACH_NLRI: 1 to 17 octets
	FieldNlriPrefix                            // an IPv4 prefix of Network Layer Reachability Information: 1 to 5 octets
	FieldErrorCode                             // A NOTIFICATION's error code: one octet (RFC 4271, section 4.5)
	FieldErrorSubcode                          // A NOTIFICATION's error subcode: one octet
	FieldData                                  // A NOTIFICATION's data
	FieldUnread                                // what can't be read as what should be there, up to the end of what encloses it: the capability, parameter, attribute, field or message
)

// String gives the name that `bgp explain` prints.
func (kind FieldKind) String() string {
	var name [C.RISTULVA_FIELD_NAME]byte
	var written C.size_t
	C.ristulva_field_name(C.uint32_t(kind), (*C.char)(unsafe.Pointer(&name[0])), C.size_t(len(name)), &written)
	return string(name[:written])
}

// Field is octets of a message that have one meaning together.
type Field struct {
	At     int // where it begins in the message
	Octets []byte
	Kind   FieldKind
	Group  int   // where the attribute, parameter or capability begins that it belongs to; 0 for none
	Type   uint8 // the type or code of that
}

// Fields gives all fields of the message, in their order: their octets joined are the message, whatever it is. Where it is accepted without a note none
// is FieldUnread. Nil of a ROUTE-REFRESH.
func (message *Message) Fields() []Field {
	if message.isRefresh() {
		return nil
	}
	// There are no more than octets.
	found := make([]C.ristulva_field, len(message.octets))
	said := message.context.said()
	at, size := octetsOf(message.octets)
	var written C.size_t
	C.ristulva_fields(&said, at, size, &found[0], C.size_t(len(found)), &written)
	fields := make([]Field, written)
	for i, it := range found[:written] {
		octets := cloned(message.octets[it.at : it.at+it.len])
		fields[i] = Field{int(it.at), octets, FieldKind(it.kind), int(it.group), uint8(it._type)}
	}
	return fields
}

// Fault gives the octets of the message for which the session ends: their offset and length; none where it doesn't end, nor of a ROUTE-REFRESH.
func (message *Message) Fault() (at, length int) {
	if message.isRefresh() {
		return 0, 0
	}
	said := message.context.said()
	octets, size := octetsOf(message.octets)
	var span C.ristulva_span
	C.ristulva_fault(&said, octets, size, &span)
	return int(span.at), int(span.len)
}

// FaultSection is the section of an RFC by which the session ends, as `bgp explain` prints it; "own rule" where no RFC has the rule. Empty where it
// doesn't end, and of a ROUTE-REFRESH.
func (message *Message) FaultSection() string {
	if message.isRefresh() {
		return ""
	}
	said := message.context.said()
	octets, size := octetsOf(message.octets)
	var text [C.RISTULVA_SECTION]byte
	var written C.size_t
	C.ristulva_fault_section(&said, octets, size, (*C.char)(unsafe.Pointer(&text[0])), C.RISTULVA_SECTION, &written)
	return string(text[:written])
}
