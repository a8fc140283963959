package ristulva

// #include "list.h"
import "C"

import (
	"errors"
	"net/netip"
	"unsafe"
)

// RowsMin is the least room for rows: the most that one message gives.
const RowsMin = C.RISTULVA_BATCH

// ErrRoom: there is room for less than RowsMin rows.
var ErrRoom = errors.New("ristulva: there is less room than one message may need")

// Place is the span of a value in its message; both are 0 where there is none.
type Place struct {
	At, Len uint16
}

// RouteRow is a route of a stream. It lies in memory as the library writes it.
type RouteRow struct {
	Message          uint64 // where its message begins, in the octets that were read
	OriginAS         uint32 // its origin AS, as in Facts, where HasOriginAS is set
	ASPath           Place  // the spans of these values, where it is announced
	AS4Path          Place
	Communities      Place
	LargeCommunities Place
	AFI              uint16 // of its prefix: 1 for IPv4, 2 for IPv6
	Length           uint8
	Address          [16]byte // zeros after the four octets of an IPv4 address
	_                [1]byte
	Announced        bool    // else it is withdrawn
	Verdict          Verdict // that of its message: Update or Withdraw
	HasOriginAS      bool
	_                [5]byte
}

// Route gives it as Message.Routes does.
func (row *RouteRow) Route() Route {
	if row.AFI == 1 {
		return Route{netip.PrefixFrom(netip.AddrFrom4(*(*[4]byte)(row.Address[:4])), int(row.Length)), row.Announced}
	}
	return Route{netip.PrefixFrom(netip.AddrFrom16(row.Address), int(row.Length)), row.Announced}
}

// NumberRow is a number of the path that AS_PATH and AS4_PATH give together (RFC 6793, section 4.2.3).
type NumberRow struct {
	Message uint64
	Number  uint32
	Segment uint16 // the index of its segment in the path, from 0
	Set     bool   // whether that is an AS_SET
	_       [1]byte
}

// CommunityRow is one of COMMUNITIES (RFC 1997).
type CommunityRow struct {
	Message uint64
	Value   uint32
	_       [4]byte
}

// LargeCommunityRow is one of LARGE_COMMUNITY, each once (RFC 8092, section 3).
type LargeCommunityRow struct {
	Message                uint64
	Global, Local1, Local2 uint32
	_                      [4]byte
}

// A row is in Go what it is in C, or this doesn't compile.
var (
	_ = [1]struct{}{}[unsafe.Sizeof(RouteRow{})-C.sizeof_ristulva_route_row]
	_ = [1]struct{}{}[unsafe.Sizeof(NumberRow{})-C.sizeof_ristulva_number_row]
	_ = [1]struct{}{}[unsafe.Sizeof(CommunityRow{})-C.sizeof_ristulva_community_row]
	_ = [1]struct{}{}[unsafe.Sizeof(LargeCommunityRow{})-C.sizeof_ristulva_large_community_row]
	_ = [1]struct{}{}[unsafe.Offsetof(RouteRow{}.AFI)-unsafe.Offsetof(C.ristulva_route_row{}.prefix)]
	_ = [1]struct{}{}[unsafe.Offsetof(RouteRow{}.Announced)-unsafe.Offsetof(C.ristulva_route_row{}.announced)]
)

// Has the library write rows of a kind: the number of rows it wrote, and of octets it consumed.
func written[Row any](kind C.int, context Context, octets []byte, rows []Row) (int, int, error) {
	if len(rows) < RowsMin {
		return 0, 0, ErrRoom
	}
	var count, taken C.size_t
	said := context.said()
	at, size := octetsOf(octets)
	status := C.write_rows(kind, &said, at, size, unsafe.Pointer(&rows[0]), C.size_t(len(rows)), &count, &taken)
	if status == C.RISTULVA_REFUSED {
		return int(count), int(taken), ErrReset
	}
	return int(count), int(taken), failed(status)
}

// Routes writes the routes of a stream, message by message, to the beginning of rows: for as many whole messages as fit. It answers how many
// rows it wrote, and the total length of these messages, also those without a row; where all fitted these are all octets, else the caller continues after
// them. It keeps none of the two slices. Routes of a family that isn't in use aren't given: Message.Routes reports whether there are some.
//
// ErrIncomplete: an incomplete message is at taken. ErrReset: the message there, or its header, resets the session. What precedes it was
// written in both cases. ErrRoom: there is room for less than RowsMin rows, and nothing is done.
func Routes(context Context, octets []byte, rows []RouteRow) (count, taken int, err error) {
	return written(C.ROUTES, context, octets, rows)
}

// PathNumbers writes the AS numbers of the paths of accepted UPDATEs, as Routes does routes.
func PathNumbers(context Context, octets []byte, rows []NumberRow) (count, taken int, err error) {
	return written(C.PATH_NUMBERS, context, octets, rows)
}

// Communities writes the communities of accepted UPDATEs, as Routes does routes.
func Communities(context Context, octets []byte, rows []CommunityRow) (count, taken int, err error) {
	return written(C.COMMUNITIES, context, octets, rows)
}

// LargeCommunities writes the large communities of accepted UPDATEs, as Routes does routes.
func LargeCommunities(context Context, octets []byte, rows []LargeCommunityRow) (count, taken int, err error) {
	return written(C.LARGE_COMMUNITIES, context, octets, rows)
}
