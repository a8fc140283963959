package ristulva

// #include "list.h"
import "C"

import (
	"encoding/binary"
	"unsafe"
)

// Refreshes is which ROUTE-REFRESH a reader accepts.
type Refreshes uint8

const (
	RefreshNone     Refreshes = iota // none: it doesn't offer it (capability 2)
	RefreshPlain                     // requests (RFC 2918)
	RefreshEnhanced                  // and the marks where a refresh begins and ends, which both offer (capability 70; RFC 7313)
)

// The subtypes of a ROUTE-REFRESH. Each other one has no effect (RFC 7313, section 5).
const (
	SubtypeRequest = C.RISTULVA_SUBTYPE_REQUEST // the routes of the family are asked for (RFC 2918, section 3)
	SubtypeBegin   = C.RISTULVA_SUBTYPE_BEGIN   // a refresh begins (BoRR; RFC 7313, section 3.2)
	SubtypeEnd     = C.RISTULVA_SUBTYPE_END     // a refresh ends (EoRR)
)

// PathsMax is the most path identifiers of a message.
const PathsMax = C.RISTULVA_PATHS

// JudgePaths gives the message that octets begin with, as JudgeIn does, but for an UPDATE whose routes have path identifiers by the terms (RFC 7911): that
// is judged without them, and an attribute that is data of the NOTIFICATION is the one that was received (RFC 7606, section 5.3). All else but Received is
// of the message that WithoutPaths gives, and Paths has the identifiers of its routes. ErrIncomplete; ErrTerms: Refresh is none of its numbers.
func JudgePaths(terms Terms, octets []byte) (*Message, error) {
	plain, err := WithoutPaths(terms, octets)
	length := headerLen
	switch err {
	case nil:
		length = int(binary.BigEndian.Uint16(octets[16:18]))
	case ErrRefused: // a header with a fault is judged as it is
		plain = octets
	default:
		return nil, err
	}
	message, err := judgedIn(terms.plain(), plain, 0)
	if err != nil {
		return nil, err
	}
	message.terms, message.received = &terms, cloned(octets[:length])
	if message.Verdict() == Reset {
		message.data = dataWithPaths(terms, message.received)
	}
	return message, nil
}

// The data of the NOTIFICATION that answers a message: an attribute as it was received.
func dataWithPaths(terms Terms, octets []byte) []byte {
	var data [dataMax]byte
	var found C.ristulva_verdict
	said := terms.said()
	at, size := octetsOf(octets)
	C.ristulva_judge_paths(&said, at, size, (*C.uint8_t)(unsafe.Pointer(&data[0])), dataMax, &found)
	return cloned(data[:found.data_len])
}

// WithoutPaths gives the message that octets begin with, without the path identifiers that its routes have by the terms (RFC 7911), for each function
// that takes a context. Another message than an UPDATE is as it was. ErrIncomplete; ErrRefused: its header has a fault; ErrTerms: Refresh is none of its
// numbers.
func WithoutPaths(terms Terms, octets []byte) ([]byte, error) {
	message := make([]byte, MessageMax)
	said := terms.said()
	at, size := octetsOf(octets)
	into, room := octetsOf(message)
	var written C.size_t
	if err := pathsFailed(C.ristulva_without_paths(&said, at, size, into, room, &written)); err != nil {
		return nil, err
	}
	return message[:written], nil
}

// Paths gives the path identifiers of the routes of the message that octets begin with, one for each of Message.Routes of what WithoutPaths gives, in the
// same order: 0 where the family of a route has none by the terms. Errors are those of WithoutPaths; ErrRefused: the UPDATE resets the session, too.
func Paths(terms Terms, octets []byte) ([]uint32, error) {
	paths := make([]uint32, PathsMax)
	said := terms.said()
	at, size := octetsOf(octets)
	var written C.size_t
	status := C.ristulva_paths(&said, at, size, (*C.uint32_t)(unsafe.Pointer(&paths[0])), PathsMax, &written)
	if err := pathsFailed(status); err != nil {
		return nil, err
	}
	return paths[:written], nil
}

// The error of a status, of a call with terms.
func pathsFailed(status C.ristulva_status) error {
	if status == C.RISTULVA_RANGE {
		return ErrTerms
	}
	return failed(status)
}

// The type of a ROUTE-REFRESH.
const routeRefresh = 5

// Terms is what both speakers agreed on for one direction of their session, from a sender to a reader: the sender's messages are read by it. A message
// has at most MessageMax octets, whatever is agreed on.
type Terms struct {
	Context      Context
	Refresh      Refreshes // which ROUTE-REFRESH is accepted
	LongMessages bool      // the reader accepts messages of up to 65535 octets (capability 6; RFC 8654)
	LongBack     bool      // the sender does: NOTIFICATIONs to it may be that long
	Paths4       bool      // IPv4 unicast routes have path identifiers (capability 69; RFC 7911): JudgePaths reads such a message
	Paths6       bool      // IPv6 unicast routes have path identifiers
	Hop6         bool      // IPv4 unicast routes may have an IPv6 next hop (capability 5; RFC 8950)
}

func (terms Terms) said() C.ristulva_terms {
	return C.ristulva_terms{
		context: terms.Context.said(), refresh: C.uint8_t(terms.Refresh), long_messages: number(terms.LongMessages), long_back: number(terms.LongBack),
		paths4: number(terms.Paths4), paths6: number(terms.Paths6), hop6: number(terms.Hop6),
	}
}

// The same, but for path identifiers, which no route has.
func (terms Terms) plain() Terms {
	terms.Paths4, terms.Paths6 = false, false
	return terms
}

func contextOf(said C.ristulva_context) Context {
	return Context{said.internal != 0, said.as4 != 0, said.ip4 != 0, said.ip6 != 0}
}

// TermsOf gives the terms for what a reader receives from a sender, given octets that begin with the OPEN of each, and the Hold Time in seconds, 0 for
// none. ErrIncomplete or ErrRefused: one of them isn't an accepted OPEN. Neither is refused for what it says.
func TermsOf(reader, sender []byte) (Terms, uint16, error) {
	var said C.ristulva_terms
	var hold C.uint16_t
	one, oneSize := octetsOf(reader)
	other, otherSize := octetsOf(sender)
	if err := failed(C.ristulva_terms_of(one, oneSize, other, otherSize, &said, &hold)); err != nil {
		return Terms{}, 0, err
	}
	terms := Terms{
		contextOf(said.context), Refreshes(said.refresh), said.long_messages != 0, said.long_back != 0, said.paths4 != 0, said.paths6 != 0, said.hop6 != 0,
	}
	return terms, uint16(hold), nil
}

// JudgeIn gives the message that octets begin with, as Judge does in the context of the terms, but for a ROUTE-REFRESH, which is a message where its
// reader offers it. ErrTerms: routes have path identifiers, or Refresh is none of its numbers.
func JudgeIn(terms Terms, octets []byte) (*Message, error) {
	return judgedIn(terms, octets, 0)
}

func judgedIn(terms Terms, octets []byte, place uint64) (*Message, error) {
	var data [dataMax]byte
	message := &Message{context: terms.Context, terms: &terms, place: place}
	said := terms.said()
	at, size := octetsOf(octets)
	status := C.ristulva_judge_in(&said, at, size, (*C.uint8_t)(unsafe.Pointer(&data[0])), dataMax, &message.found)
	if status == C.RISTULVA_RANGE {
		return nil, ErrTerms
	}
	if status != C.RISTULVA_OK {
		return nil, failed(status)
	}
	message.take(octets, data[:])
	return message, nil
}

// MessagesIn gives the messages of a stream by terms, as Messages does in a context, and the octets after them; or ErrTerms.
func MessagesIn(terms Terms, octets []byte) (messages []*Message, rest []byte, err error) {
	rest = octets
	for {
		message, err := judgedIn(terms, rest, uint64(len(octets)-len(rest)))
		if err == ErrIncomplete {
			return messages, rest, nil
		}
		if err != nil {
			return nil, octets, err
		}
		messages = append(messages, message)
		rest = rest[message.found.len:]
		if message.Verdict() == Reset {
			return messages, rest, nil
		}
	}
}

// Terms are those that the message was judged by; nil where it was judged in a context.
func (message *Message) Terms() *Terms {
	if message.terms == nil {
		return nil
	}
	terms := *message.terms
	return &terms
}

// Whether it is a ROUTE-REFRESH, accepted or not: in a context that is a bad message type.
func (message *Message) isRefresh() bool {
	return message.terms != nil && message.found.kind == routeRefresh
}

// RouteRefresh is what a ROUTE-REFRESH says (RFC 2918, section 3; RFC 7313, section 3.2).
type RouteRefresh struct {
	AFI     uint16 // the address family
	SAFI    uint8  // the subsequent address family
	Subtype uint8  // SubtypeRequest where only requests are accepted, whatever the octet is: it is reserved there, and ignored
	Rest    []byte // what follows the four octets, without effect: entries of route filters (RFC 5291, section 4)
}

// Refresh is what an accepted ROUTE-REFRESH says; nil of any other message.
func (message *Message) Refresh() *RouteRefresh {
	if message.Verdict() != Refresh || message.terms == nil {
		return nil
	}
	var it C.ristulva_refresh
	said := message.terms.plain().said()
	at, size := octetsOf(message.octets)
	if C.ristulva_refresh_in(&said, at, size, &it) != C.RISTULVA_OK {
		return nil
	}
	return &RouteRefresh{uint16(it.afi), uint8(it.safi), uint8(it.subtype), message.part(it.rest)}
}

// EncodeRefresh gives the message of a ROUTE-REFRESH for a family.
func EncodeRefresh(afi uint16, safi, subtype uint8) []byte {
	message := make([]byte, C.RISTULVA_REFRESH_MESSAGE)
	at, size := octetsOf(message)
	var written C.size_t
	C.ristulva_encode_refresh(C.uint16_t(afi), C.uint8_t(safi), C.uint8_t(subtype), at, size, &written)
	return message
}
