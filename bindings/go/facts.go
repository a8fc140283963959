package ristulva

// #include "list.h"
import "C"

import (
	"net/netip"
	"unsafe"
)

// Facts are common attributes of an UPDATE that is accepted, only of those that are kept. A pointer is nil, and an address isn't valid, where
// there is none.
type Facts struct {
	Origin          *uint8     // ORIGIN: OriginIGP to OriginIncomplete
	NextHop         netip.Addr // NEXT_HOP
	MPNextHop       netip.Addr // the next hop of MP_REACH_NLRI, for IPv6 its global address
	LinkLocal       netip.Addr // the link-local address after that one (RFC 2545)
	MED             *uint32
	LocalPref       *uint32
	AtomicAggregate bool
	Aggregator      *Aggregator
	// OriginAS is the origin AS of the route: the last number of the path that AS_PATH and AS4_PATH give together (RFC 6793, section 4.2.3). Nil where
	// that is empty or ends in a set (RFC 6811, section 2).
	OriginAS                                       *uint32
	ASPath, AS4Path, Communities, LargeCommunities []byte // values as in the message; nil where the attribute is discarded
	Unrecognised                                   int    // the number of attributes of types that aren't recognised
}

// Aggregator is what AGGREGATOR and AS4_AGGREGATOR give together (RFC 6793, section 4.2.3).
type Aggregator struct {
	AS      uint32
	Address netip.Addr
}

// The values of ORIGIN.
const (
	OriginIGP        = C.RISTULVA_ORIGIN_IGP
	OriginEGP        = C.RISTULVA_ORIGIN_EGP
	OriginIncomplete = C.RISTULVA_ORIGIN_INCOMPLETE
)

func given(has C.uint8_t, number C.uint32_t) *uint32 {
	if has == 0 {
		return nil
	}
	value := uint32(number)
	return &value
}

func (message *Message) givenPart(has C.uint8_t, span C.ristulva_span) []byte {
	if has == 0 {
		return nil
	}
	return message.part(span)
}

func address16(octets [16]C.uint8_t) netip.Addr {
	return netip.AddrFrom16(*(*[16]byte)(unsafe.Pointer(&octets[0])))
}

// The next hops of facts.
func (facts *Facts) take(hops C.ristulva_next_hops) {
	if hops.has_next_hop != 0 {
		facts.NextHop = addressOf(hops.next_hop)
	}
	switch hops.mp_afi {
	case 1:
		facts.MPNextHop = netip.AddrFrom4(*(*[4]byte)(unsafe.Pointer(&hops.mp_next_hop[0])))
	case 2:
		facts.MPNextHop = address16(hops.mp_next_hop)
	}
	if hops.has_link_local != 0 {
		facts.LinkLocal = address16(hops.link_local)
	}
}

// NextHops are NEXT_HOP, and the next hop of MP_REACH_NLRI: those that are present.
func (facts *Facts) NextHops() (hops []netip.Addr) {
	for _, hop := range []netip.Addr{facts.NextHop, facts.MPNextHop} {
		if hop.IsValid() {
			hops = append(hops, hop)
		}
	}
	return hops
}

// Facts gives those of an UPDATE that is accepted; nil of any other message.
func (message *Message) Facts() *Facts {
	var it C.ristulva_update_facts
	said := message.context.said()
	at, size := octetsOf(message.octets)
	if C.ristulva_facts(&said, at, size, &it) != C.RISTULVA_OK {
		return nil
	}
	facts := &Facts{
		MED: given(it.has_med, it.med), LocalPref: given(it.has_local_pref, it.local_pref), AtomicAggregate: it.atomic_aggregate != 0,
		OriginAS:         given(it.paths.has_origin_as, it.paths.origin_as),
		ASPath:           message.givenPart(it.paths.has_as_path, it.paths.as_path),
		AS4Path:          message.givenPart(it.paths.has_as4_path, it.paths.as4_path),
		Communities:      message.givenPart(it.paths.has_communities, it.paths.communities),
		LargeCommunities: message.givenPart(it.paths.has_large_communities, it.paths.large_communities),
		Unrecognised:     int(it.unrecognised),
	}
	facts.take(it.hops)
	if it.has_origin != 0 {
		origin := uint8(it.origin)
		facts.Origin = &origin
	}
	if it.has_aggregator != 0 {
		facts.Aggregator = &Aggregator{uint32(it.aggregator_as), addressOf(it.aggregator_address)}
	}
	return facts
}

// Agree gives what two speakers agree on, given octets that begin with the OPEN of each: the context of their session, and its Hold Time in seconds, 0
// for none; as `bgp show --opens` finds it. ErrIncomplete or ErrRefused: one of them isn't an accepted OPEN. Neither is refused for what it says.
// A direction for which both agree on path identifiers (capability 69; RFC 7911) is read by TermsOf and JudgePaths.
func Agree(ours, theirs []byte) (Context, uint16, error) {
	var said C.ristulva_context
	var hold C.uint16_t
	one, oneSize := octetsOf(ours)
	other, otherSize := octetsOf(theirs)
	if err := failed(C.ristulva_agree(one, oneSize, other, otherSize, &said, &hold)); err != nil {
		return Context{}, 0, err
	}
	return contextOf(said), uint16(hold), nil
}

// Directions gives the messages of both directions of a session, in the context that their first OPENs agree on, or Agree's error.
func Directions(ours, theirs []byte) (one, other []*Message, err error) {
	context, _, err := Agree(ours, theirs)
	if err != nil {
		return nil, nil, err
	}
	one, _ = Messages(context, ours)
	other, _ = Messages(context, theirs)
	return one, other, nil
}
