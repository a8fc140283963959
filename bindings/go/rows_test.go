package ristulva

import (
	"bytes"
	"errors"
	"fmt"
	"os"
	"reflect"
	"testing"
	"time"
)

const (
	fourOctets = "40020a02020000fde900030d40" // 65001 200000
	someLarge  = "c02024 0000fde80000000100000002 0000fde80000000300000004 0000fde80000000100000002"
	someValues = "c00808fde80001ffffff01"
)

var (
	wide      = Context{AS4: true, IP4: true, IP6: true}
	keepalive = framed(4, nil)
	firstOf   = updateOf(someOrigin + fourOctets + someHops + someGone + someValues + someLarge)
	// An ORIGIN of no meaning: treated as a withdrawal (RFC 7606, section 7.1).
	secondOf = updateOf("40010109" + fourOctets + someHops)
	stream   = bytes.Join([][]byte{keepalive, firstOf, keepalive, secondOf}, nil)
)

// All rows of a kind, read with this room at a time, the number of octets consumed, and the error that it ended with.
func all[Row any](octets []byte, room int, read func(Context, []byte, []Row) (int, int, error)) (found []Row, at int, err error) {
	rows := make([]Row, room)
	for {
		count, taken, err := read(wide, octets[at:], rows)
		found, at = append(found, rows[:count]...), at+taken
		if err != nil || at == len(octets) || taken == 0 {
			return found, at, err
		}
	}
}

func TestRouteRows(t *testing.T) {
	rows, taken, err := all(stream, RowsMin, Routes)
	wanted := []string{
		"withdraw 10.1.0.0/16", "withdraw 2001:db8:1::/48", "announce 2001:db8::/32", "announce 10.0.0.0/8",
		"withdraw 10.1.0.0/16", "withdraw 2001:db8::/32", "withdraw 10.0.0.0/8",
	}
	if err != nil || taken != len(stream) || len(rows) != len(wanted) {
		t.Fatal(err, taken, rows)
	}
	for i, row := range rows {
		at, verdict := uint64(len(keepalive)), Update
		if i >= 4 {
			at, verdict = uint64(2*len(keepalive)+len(firstOf)), Withdraw
		}
		if row.Route().String() != wanted[i] || row.Message != at || row.Verdict != verdict {
			t.Error(i, row.Route(), row.Message, row.Verdict)
		}
		if row.HasOriginAS != row.Announced || (row.OriginAS == 200000) != row.Announced {
			t.Error(i, row.OriginAS)
		}
		places := map[string]Place{fourOctets[6:]: row.ASPath, someValues[6:]: row.Communities, someLarge[6:]: row.LargeCommunities, "": row.AS4Path}
		for value, place := range places {
			given := firstOf[place.At : place.At+place.Len]
			if row.Announced && !bytes.Equal(given, fromHex(value)) || !row.Announced && place != (Place{}) {
				t.Error(i, place)
			}
		}
	}
}

func TestValueRows(t *testing.T) {
	numbers, _, _ := all(stream, RowsMin, PathNumbers)
	if !reflect.DeepEqual(numbers, []NumberRow{{Message: 19, Number: 65001}, {Message: 19, Number: 200000}}) {
		t.Error(numbers)
	}
	communities, _, _ := all(stream, RowsMin, Communities)
	if !reflect.DeepEqual(communities, []CommunityRow{{Message: 19, Value: 0xfde80001}, {Message: 19, Value: 0xffffff01}}) {
		t.Error(communities)
	}
	large, _, _ := all(stream, RowsMin, LargeCommunities)
	if !reflect.DeepEqual(large, []LargeCommunityRow{{Message: 19, Global: 65000, Local1: 1, Local2: 2}, {Message: 19, Global: 65000, Local1: 3, Local2: 4}}) {
		t.Error(large)
	}
	sets := updateOf(someOrigin + "400210 02010000fde9 01020000fdea0000fdeb 400304c0000201")
	numbers, _, _ = all(sets, RowsMin, PathNumbers)
	if !reflect.DeepEqual(numbers, []NumberRow{{Number: 65001}, {Number: 65002, Segment: 1, Set: true}, {Number: 65003, Segment: 1, Set: true}}) {
		t.Error(numbers)
	}
}

// What was read before a message that is cut off, or that resets the session, is given.
func TestRowsEnd(t *testing.T) {
	header := append(bytes.Repeat([]byte{255}, 15), 254, 0, 19, 4)
	for _, it := range []struct {
		rest   []byte
		wanted error
	}{{firstOf[:len(firstOf)-1], ErrIncomplete}, {header, ErrReset}, {framed(2, []byte{0, 9, 0, 0}), ErrReset}, {nil, nil}} {
		rows, taken, err := all(append(append([]byte{}, stream...), it.rest...), RowsMin, Routes)
		if !errors.Is(err, it.wanted) || len(rows) != 7 || taken != len(stream) {
			t.Error(err, len(rows), taken)
		}
	}
	rows := make([]RouteRow, RowsMin-1)
	if _, _, err := Routes(wide, stream, rows); err != ErrRoom || rows[0] != (RouteRow{}) {
		t.Error(err)
	}
	if count, taken, err := Routes(wide, nil, make([]RouteRow, RowsMin)); count != 0 || taken != 0 || err != nil {
		t.Error(count, taken, err)
	}
}

// Whatever room there is, the rows are those that each message gives.
func TestRooms(t *testing.T) {
	octets := bytes.Repeat(stream, 1500)
	messages, _ := Messages(wide, octets)
	var wanted []string
	for _, message := range messages {
		routes, _ := message.Routes()
		for _, route := range routes {
			wanted = append(wanted, fmt.Sprint(message.Place(), route, message.Verdict()))
		}
	}
	for _, room := range []int{RowsMin, RowsMin + 1, 3 * RowsMin} {
		rows, found := make([]RouteRow, room), []string{}
		for at := 0; at < len(octets); {
			count, taken, err := Routes(wide, octets[at:], rows)
			if err != nil || taken == 0 {
				t.Fatal(room, at, taken, err)
			}
			for _, row := range rows[:count] {
				found = append(found, fmt.Sprint(uint64(at)+row.Message, row.Route(), row.Verdict))
			}
			at += taken
		}
		if !reflect.DeepEqual(found, wanted) {
			t.Error(room, len(found), len(wanted))
		}
	}
}

// The stream that checks/bench/stream writes, which STREAM names; else one that is made here.
func measured(b *testing.B) []byte {
	if name := os.Getenv("STREAM"); name != "" {
		octets, err := os.ReadFile(name)
		if err != nil {
			b.Fatal(err)
		}
		return octets
	}
	return bytes.Repeat(stream, 20000)
}

// go test -run none -bench Routes
func BenchmarkRoutesByRows(b *testing.B) {
	octets, rows := measured(b), make([]RouteRow, 64*RowsMin)
	b.SetBytes(int64(len(octets)))
	began, count := time.Now(), 0
	b.ResetTimer()
	for i := 0; i < b.N; i++ {
		for at := 0; at < len(octets); {
			more, taken, err := Routes(wide, octets[at:], rows)
			if err != nil {
				b.Fatal(err)
			}
			count, at = count+more, at+taken
		}
	}
	b.ReportMetric(float64(count)/time.Since(began).Seconds(), "routes/s")
}

func BenchmarkRoutesByMessages(b *testing.B) {
	octets := measured(b)
	b.SetBytes(int64(len(octets)))
	began, count := time.Now(), 0
	b.ResetTimer()
	for i := 0; i < b.N; i++ {
		for at := 0; at < len(octets); {
			message, err := Judge(wide, octets[at:])
			if err != nil {
				b.Fatal(err)
			}
			routes, _ := message.Routes()
			_ = message.Facts()
			count, at = count+len(routes), at+len(message.octets)
		}
	}
	b.ReportMetric(float64(count)/time.Since(began).Seconds(), "routes/s")
}
