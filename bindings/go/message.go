package ristulva

// #include "list.h"
import "C"

import (
	"encoding/binary"
	"fmt"
	"net/netip"
	"unsafe"
)

const (
	// MessageMax is the most octets of a message (RFC 4271, section 4.1).
	MessageMax = C.RISTULVA_MESSAGE
	// PartsMax is the most octets of the messages that Clean gives for one: three of them.
	PartsMax  = C.RISTULVA_PARTS
	headerLen = 19
	dataMax   = C.RISTULVA_DATA
)

// Context is what both speakers of a session agreed on.
type Context struct {
	Internal bool // both have the same AS number
	AS4      bool // both offer AS numbers of four octets (RFC 6793)
	IP4      bool // both offer IPv4 unicast (RFC 4760, section 8)
	IP6      bool // both offer IPv6 unicast
}

func (context Context) said() C.ristulva_context {
	return C.ristulva_context{
		internal: number(context.Internal), as4: number(context.AS4), ip4: number(context.IP4), ip6: number(context.IP6),
	}
}

// Verdict is the outcome of a message (RFC 4271, section 6; RFC 7606).
type Verdict uint8

const (
	OpenMessage  Verdict = iota + 1 // an OPEN is accepted
	Update                          // an UPDATE is accepted
	Notification                    // a NOTIFICATION was received: the peer has ended the session
	Keepalive                       // a KEEPALIVE is accepted
	Withdraw                        // an UPDATE is treated as a withdrawal of all its routes (RFC 7606, section 2)
	Reset                           // the session ends, by a NOTIFICATION to the peer
	Refresh                         // a ROUTE-REFRESH is accepted: only by Terms
)

func (verdict Verdict) String() string {
	names := [...]string{"", "open", "update", "notification", "keepalive", "withdraw", "reset", "refresh"}
	if int(verdict) < len(names) {
		return names[verdict]
	}
	return fmt.Sprintf("verdict %d", uint8(verdict))
}

// Message is a message that was judged, or a header with a fault. It has octets of its own. A ROUTE-REFRESH, which only Terms have, has neither fields
// nor a section.
type Message struct {
	octets   []byte
	received []byte // nil where it is the same
	context  Context
	terms    *Terms // nil where it was judged in a context
	place    uint64
	found    C.ristulva_verdict
	data     []byte
}

// Judge gives the message that octets begin with, or ErrIncomplete where they are less than one. Of a header with a fault it has the header.
func Judge(context Context, octets []byte) (*Message, error) {
	return judged(context, octets, 0)
}

func judged(context Context, octets []byte, place uint64) (*Message, error) {
	var data [dataMax]byte
	message := &Message{context: context, place: place}
	said := context.said()
	at, size := octetsOf(octets)
	status := C.ristulva_judge(&said, at, size, (*C.uint8_t)(unsafe.Pointer(&data[0])), dataMax, &message.found)
	if status != C.RISTULVA_OK {
		return nil, failed(status)
	}
	message.take(octets, data[:])
	return message, nil
}

// Keeps the octets and the data that its verdict is about.
func (message *Message) take(octets, data []byte) {
	length := int(message.found.len)
	if length == 0 {
		length = headerLen
	}
	message.octets = cloned(octets[:length])
	message.data = cloned(data[:message.found.data_len])
}

// Messages gives the messages of a stream, up to the first that ends the session, and the octets after them, of an incomplete one, or after a reset.
func Messages(context Context, octets []byte) (messages []*Message, rest []byte) {
	rest = octets
	for {
		message, err := judged(context, rest, uint64(len(octets)-len(rest)))
		if err != nil {
			return messages, rest
		}
		messages = append(messages, message)
		rest = rest[message.found.len:]
		if message.Verdict() == Reset {
			return messages, rest
		}
	}
}

// Octets are those of the message, or of the header that has a fault.
func (message *Message) Octets() []byte { return cloned(message.octets) }

// Received are the octets as they were received: by JudgePaths with path identifiers, else those of Octets. The next message of the stream follows them,
// where the header has no fault.
func (message *Message) Received() []byte {
	if message.received == nil {
		return cloned(message.octets)
	}
	return cloned(message.received)
}

// Place is the message's offset in its stream.
func (message *Message) Place() uint64 { return message.place }

// Context is the one that the message was judged in, or that of the terms.
func (message *Message) Context() Context { return message.context }

// Verdict is the message's outcome.
func (message *Message) Verdict() Verdict { return Verdict(message.found.verdict) }

// Said is a NOTIFICATION (RFC 4271, section 4.5).
type Said struct {
	Code, Subcode uint8
	Data          []byte
}

// Notification is the one that was received, or that is to be sent where the session ends; nil else.
func (message *Message) Notification() *Said {
	switch message.Verdict() {
	case Notification, Reset:
		return &Said{uint8(message.found.code), uint8(message.found.subcode), cloned(message.data)}
	}
	return nil
}

// String gives the lines that `bgp show` prints.
func (message *Message) String() string {
	text, err := message.Text()
	if err != nil {
		return err.Error()
	}
	return text
}

// Text gives the lines that `bgp show` prints, or ErrMemory.
func (message *Message) Text() (string, error) {
	for room := 4096; ; {
		text := make([]byte, room)
		written, status := message.writeText(text)
		if status != C.RISTULVA_ROOM {
			return string(text[:written]), failed(status)
		}
		room = int(written)
	}
}

// Writes the lines by the terms, where it has some, else in its context.
func (message *Message) writeText(text []byte) (written C.size_t, status C.ristulva_status) {
	place, into, room := C.uint64_t(message.place), (*C.char)(unsafe.Pointer(&text[0])), C.size_t(len(text))
	at, size := octetsOf(message.octets)
	if message.terms == nil {
		said := message.context.said()
		status = C.ristulva_text(&said, place, at, size, into, room, &written)
	} else {
		said := message.terms.plain().said()
		status = C.ristulva_text_in(&said, place, at, size, into, room, &written)
	}
	return written, status
}

// The octets of a span.
func (message *Message) part(span C.ristulva_span) []byte {
	return cloned(message.octets[span.at : span.at+span.len])
}

// The prefixes that a call lists.
func (message *Message) prefixes(list func(*C.uint8_t, C.size_t, *C.ristulva_context, *C.ristulva_parts, *C.ristulva_prefix, C.size_t) C.size_t) []netip.Prefix {
	found := make([]C.ristulva_prefix, len(message.octets))
	said := message.context.said()
	at, size := octetsOf(message.octets)
	count := list(at, size, &said, &message.found.parts, &found[0], C.size_t(len(found)))
	prefixes := make([]netip.Prefix, count)
	for i, it := range found[:count] {
		prefixes[i] = prefixOf(it)
	}
	return prefixes
}

func prefixOf(it C.ristulva_prefix) netip.Prefix {
	address := *(*[16]byte)(unsafe.Pointer(&it.addr[0]))
	if it.afi == 1 {
		return netip.PrefixFrom(netip.AddrFrom4(*(*[4]byte)(address[:4])), int(it.len))
	}
	return netip.PrefixFrom(netip.AddrFrom16(address), int(it.len))
}

// Announced gives the prefixes of MP_REACH_NLRI and then of the NLRI field, also where the verdict is Withdraw and they are to be withdrawn: see Routes.
func (message *Message) Announced() []netip.Prefix {
	return message.prefixes(func(at *C.uint8_t, size C.size_t, said *C.ristulva_context, parts *C.ristulva_parts, out *C.ristulva_prefix, room C.size_t) C.size_t {
		return C.list_announced(at, size, said, parts, out, room)
	})
}

// Route is one that an UPDATE announces, or else withdraws.
type Route struct {
	Prefix    netip.Prefix
	Announced bool
}

// Shown gives an address as `bgp show --json` prints it (RFC 5952, sections 4 and 5): in hexadecimal groups, also where an IPv6 address holds an IPv4
// one, which netip prints with dots.
func Shown(address netip.Addr) string {
	if !address.Is4In6() {
		return address.String()
	}
	octets := address.As16()
	return fmt.Sprintf("::ffff:%x:%x", binary.BigEndian.Uint16(octets[12:]), binary.BigEndian.Uint16(octets[14:]))
}

// String is as "announce 10.0.0.0/8", or "withdraw 10.0.0.0/8".
func (route Route) String() string {
	word := "withdraw"
	if route.Announced {
		word = "announce"
	}
	return fmt.Sprintf("%s %s/%d", word, Shown(route.Prefix.Addr()), route.Prefix.Bits())
}

// Routes gives those of an UPDATE as RFC 7606 has them: those that it withdraws, then those that it announces; one that is treated as a withdrawal
// announces none, and withdraws all. `lost` is whether it has MP_REACH_NLRI or
// MP_UNREACH_NLRI of IPv6 unicast, perhaps without routes, and its context doesn't: of these no routes are given.
func (message *Message) Routes() (routes []Route, lost bool) {
	found := make([]C.ristulva_route, len(message.octets))
	said := message.context.said()
	at, size := octetsOf(message.octets)
	var loses C.uint8_t
	count := C.list_routes(&said, at, size, &found[0], C.size_t(len(found)), &loses)
	for _, it := range found[:count] {
		routes = append(routes, Route{prefixOf(it.prefix), it.announced != 0})
	}
	return routes, loses != 0
}

// Withdrawn gives the prefixes of Withdrawn Routes and then of MP_UNREACH_NLRI.
func (message *Message) Withdrawn() []netip.Prefix {
	return message.prefixes(func(at *C.uint8_t, size C.size_t, said *C.ristulva_context, parts *C.ristulva_parts, out *C.ristulva_prefix, room C.size_t) C.size_t {
		return C.list_withdrawn(at, size, said, parts, out, room)
	})
}

func cloned(octets []byte) []byte { return append([]byte{}, octets...) }
