package ristulva

// #include "list.h"
import "C"

import (
	"net/netip"
	"unsafe"
)

// Attribute is a path attribute as it lies in its field (RFC 4271, section 4.3), kept or not.
type Attribute struct {
	Flags, Type uint8
	Value       []byte
}

// Attributes gives those of an UPDATE in their order.
func (message *Message) Attributes() []Attribute {
	found := make([]C.ristulva_attribute, len(message.octets))
	at, size := octetsOf(message.octets)
	count := C.list_attributes(at, size, message.found.parts.attributes, &found[0], C.size_t(len(found)))
	attributes := make([]Attribute, count)
	for i, it := range found[:count] {
		attributes[i] = Attribute{uint8(it.flags), uint8(it.kind), message.part(it.value)}
	}
	return attributes
}

// The value of the first attribute of a type, which decides.
func (message *Message) first(kind uint8) (C.ristulva_span, bool) {
	var found C.ristulva_attribute
	at, size := octetsOf(message.octets)
	is := C.first_attribute(at, size, message.found.parts.attributes, C.uint8_t(kind), &found)
	return found.value, is != 0
}

// Segment is a part of a path (RFC 4271, section 4.3).
type Segment struct {
	Set     bool // an AS_SET, else an AS_SEQUENCE
	Numbers []uint32
}

// ASPath gives the segments of AS_PATH, the nearest first; nil where there is no AS_PATH.
func (message *Message) ASPath() []Segment {
	value, is := message.first(2)
	if !is {
		return nil
	}
	at, size := octetsOf(message.octets)
	kinds := make([]C.uint8_t, value.len+1)
	counts := make([]C.size_t, value.len+1)
	numbers := make([]C.uint32_t, value.len+1)
	count := C.list_path(at, size, value, number(message.context.AS4), &kinds[0], &counts[0], &numbers[0])
	segments, left := make([]Segment, count), numbers
	for i := range segments {
		row := make([]uint32, counts[i])
		for j := range row {
			row[j] = uint32(left[j])
		}
		segments[i], left = Segment{kinds[i] == 1, row}, left[counts[i]:]
	}
	return segments
}

// Communities gives the numbers of COMMUNITIES (RFC 1997).
func (message *Message) Communities() []uint32 {
	value, is := message.first(8)
	if !is {
		return nil
	}
	found := make([]C.uint32_t, value.len/4+1)
	at, size := octetsOf(message.octets)
	communities := make([]uint32, C.list_communities(at, size, value, &found[0]))
	for i := range communities {
		communities[i] = uint32(found[i])
	}
	return communities
}

// LargeCommunities gives those of LARGE_COMMUNITY, each only where it occurs first (RFC 8092).
func (message *Message) LargeCommunities() [][3]uint32 {
	value, is := message.first(32)
	if !is {
		return nil
	}
	found := make([]C.ristulva_large_community, value.len/12+1)
	at, size := octetsOf(message.octets)
	communities := make([][3]uint32, C.list_large_communities(at, size, value, &found[0]))
	for i := range communities {
		for j := range communities[i] {
			communities[i][j] = uint32(found[i].numbers[j])
		}
	}
	return communities
}

// Why is what is wrong with an attribute (RFC 7606, sections 3 and 7).
type Why uint8

func (why Why) String() string {
	names := [...]string{
		"", "Flags", "Length", "Value", "SegmentType", "SegmentCount", "SegmentEnd", "Repeated", "External", "FourOctet", "Family", "Unneeded",
		"Emptied", "Cut", "Missing", "AsZero",
	}
	if int(why) < len(names) {
		return names[why]
	}
	return "unknown"
}

// Note is about an attribute that is discarded, or for which an UPDATE is treated as a withdrawal.
type Note struct {
	At   int // the offset of its flags in the message; 0 for one that is missing
	Type uint8
	Why  Why
}

// Section is the section of an RFC by which the note is called for, as `bgp explain` prints it.
func (note Note) Section() string {
	told := C.ristulva_note_found{at: C.uint32_t(note.At), kind: C.uint8_t(note.Type), why: C.uint8_t(note.Why)}
	var text [C.RISTULVA_SECTION]byte
	var written C.size_t
	C.ristulva_note_section(&told, (*C.char)(unsafe.Pointer(&text[0])), C.RISTULVA_SECTION, &written)
	return string(text[:written])
}

// Notes gives what RFC 7606 found.
func (message *Message) Notes() []Note {
	said := message.context.said()
	at, size := octetsOf(message.octets)
	for room := 8; ; {
		found := make([]C.ristulva_note_found, room)
		var count C.size_t
		if C.ristulva_notes(&said, at, size, &found[0], C.size_t(room), &count) == C.RISTULVA_ROOM {
			room = int(count)
			continue
		}
		notes := make([]Note, count)
		for i, it := range found[:count] {
			notes[i] = Note{int(it.at), uint8(it.kind), Why(it.why)}
		}
		return notes
	}
}

// Capability is one of an OPEN (RFC 5492, section 4).
type Capability struct {
	Code  uint8
	Value []byte
}

// Open is what an OPEN says (RFC 4271, section 4.2).
type Open struct {
	AS            uint32 // that of the first capability for AS numbers of four octets, else ASField
	ASField       uint16 // My Autonomous System
	HoldTime      uint16 // in seconds: 0 for none
	ID            netip.Addr
	AS4, IP4, IP6 bool // whether it offers AS numbers of four octets, and unicast routes of IPv4 and of IPv6
	Capabilities  []Capability
}

// Open gives what an accepted OPEN says; nil for any other message.
func (message *Message) Open() *Open {
	var it C.ristulva_open_fields
	at, size := octetsOf(message.octets)
	if C.ristulva_open(at, size, &it) != C.RISTULVA_OK {
		return nil
	}
	found := make([]C.ristulva_capability, len(message.octets))
	count := C.list_capabilities(at, size, it.capabilities, &found[0], C.size_t(len(found)))
	capabilities := make([]Capability, count)
	for i, one := range found[:count] {
		capabilities[i] = Capability{uint8(one.code), message.part(one.value)}
	}
	return &Open{
		AS: uint32(it.as_number), ASField: uint16(it.as_field), HoldTime: uint16(it.hold), ID: addressOf(it.id),
		AS4: it.as4 != 0, IP4: it.ip4 != 0, IP6: it.ip6 != 0, Capabilities: capabilities,
	}
}

func addressOf(id [4]C.uint8_t) netip.Addr {
	return netip.AddrFrom4(*(*[4]byte)(unsafe.Pointer(&id[0])))
}
