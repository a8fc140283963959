package ristulva

import (
	"bytes"
	"errors"
	"fmt"
	"reflect"
	"strings"
	"sync"
	"testing"
)

var both = Context{AS4: true, IP4: true, IP6: true}

func termsBy(refresh Refreshes) Terms { return Terms{Context: both, Refresh: refresh} }

// An OPEN of AS 65001, 90 seconds, 192.0.2.1, that offers IPv4 unicast, and more.
func opened(capabilities ...string) []byte {
	row := digits(append([]string{"010400010001"}, capabilities...)...)
	size := byte(len(row))
	return message(1, append(digits("04 fde9 005a c0000201", fmt.Sprintf("%02x02%02x", size+2, size)), row...))
}

// What is agreed on: RFC 2918, section 4; RFC 7313, section 4; RFC 8654; RFC 7911, section 4; RFC 8950, section 4.
func TestTermsOf(t *testing.T) {
	const refresh, enhanced, long, hop6, paths4, paths6 = "0200", "4600", "0600", "0506000100010002", "450400010103", "450400020103"
	context := Context{Internal: true, IP4: true}
	for _, it := range []struct {
		reader, sender []byte
		wanted         Terms
	}{
		{opened(), opened(refresh, enhanced), Terms{Context: context}},
		{opened(enhanced), opened(refresh, enhanced), Terms{Context: context}},
		{opened(refresh), opened(enhanced), Terms{Context: context, Refresh: RefreshPlain}},
		{opened(refresh, enhanced), opened(enhanced), Terms{Context: context, Refresh: RefreshEnhanced}},
		{opened(long), opened(), Terms{Context: context, LongMessages: true}},
		{opened(), opened(long), Terms{Context: context, LongBack: true}},
		{opened(hop6), opened(), Terms{Context: context, Hop6: true}},
		{opened(), opened(hop6), Terms{Context: context}},
		{opened(paths4), opened(paths4, paths6), Terms{Context: context, Paths4: true}},
		{opened(paths4, paths6), opened(paths6), Terms{Context: context, Paths6: true}},
	} {
		terms, hold, err := TermsOf(it.reader, append(it.sender, 0))
		if err != nil || hold != 90 || terms != it.wanted {
			t.Errorf("%+v, %d and %v, instead of %+v", terms, hold, err, it.wanted)
		}
	}
	for _, it := range []struct {
		reader, sender []byte
		wanted         error
	}{
		{nil, opened(), ErrIncomplete}, {opened(), opened()[:30], ErrIncomplete}, {message(4, nil), opened(), ErrRefused}, {opened(), message(4, nil), ErrRefused},
	} {
		if terms, hold, err := TermsOf(it.reader, it.sender); terms != (Terms{}) || hold != 0 || !errors.Is(err, it.wanted) {
			t.Errorf("%+v, %d and %v, instead of %v", terms, hold, err, it.wanted)
		}
	}
}

// A message without path identifiers, and these beside its routes (RFC 7911, section 3).
func TestPaths(t *testing.T) {
	terms := Terms{Context: Context{AS4: true, IP4: true, IP6: true}, Paths4: true, Paths6: true}
	octets := message(2, digits("0000 0035 40010100 40020602010000fde8 400304c0000201 800e1e 000201 10 20010db8000000000000000000000001 00",
		"00000009 2020010db8 00000001 080a"))
	plain, err := WithoutPaths(terms, append(octets, 0))
	if err != nil || len(plain) != len(octets)-8 {
		t.Fatalf("%x and %v", plain, err)
	}
	if routes, losesIP6 := judgedAs(t, plain, terms.Context).Routes(); len(routes) != 2 || losesIP6 {
		t.Errorf("%v and %v", routes, losesIP6)
	}
	if paths, err := Paths(terms, octets); len(paths) != 2 || paths[0] != 9 || paths[1] != 1 || err != nil {
		t.Errorf("%v and %v", paths, err)
	}
	if paths, err := Paths(Terms{Context: terms.Context}, plain); len(paths) != 2 || paths[0] != 0 || paths[1] != 0 || err != nil {
		t.Errorf("%v and %v", paths, err)
	}
	for _, it := range []struct {
		terms  Terms
		octets []byte
		wanted error
	}{
		{terms, nil, ErrIncomplete}, {terms, octets[:30], ErrIncomplete}, {terms, message(5, digits("0001 00 01")), ErrRefused}, {Terms{Refresh: 3}, octets, ErrTerms},
	} {
		if plain, err := WithoutPaths(it.terms, it.octets); plain != nil || !errors.Is(err, it.wanted) {
			t.Errorf("%x and %v, instead of %v", plain, err, it.wanted)
		}
		if paths, err := Paths(it.terms, it.octets); paths != nil || !errors.Is(err, it.wanted) {
			t.Errorf("%v and %v, instead of %v", paths, err, it.wanted)
		}
	}
	if paths, err := Paths(terms, message(2, digits("0004 00000001 0000"))); paths != nil || !errors.Is(err, ErrRefused) {
		t.Errorf("%v and %v", paths, err)
	}
}

// ORIGIN and AS_PATH, NEXT_HOP, and the value of MP_REACH_NLRI up to its routes.
const originPath, nextHop, reachHop = "40010100 40020602010000fde8", "400304c0000201", "000201 10 20010db8000000000000000000000001 00"

// By terms by which routes of these families have path identifiers.
func identified(paths4, paths6 bool) Terms {
	return Terms{Context: both, Paths4: paths4, Paths6: paths6}
}

// The message that octets are: octets after it are ignored, and it is incomplete with one octet less.
func judgedPaths(t *testing.T, terms Terms, octets []byte) *Message {
	found, err := JudgePaths(terms, append(append([]byte{}, octets...), 255))
	if err != nil || !bytes.Equal(found.Received(), octets) || *found.Terms() != terms || found.Context() != both || found.Place() != 0 {
		t.Fatalf("%v and %v of %x", found, err, octets)
	}
	if again, err := JudgePaths(terms, octets); err != nil || !reflect.DeepEqual(told(again), told(found)) {
		t.Errorf("%v and %v instead of %v", again, err, found)
	}
	if again, err := JudgePaths(terms, octets[:len(octets)-1]); again != nil || !errors.Is(err, ErrIncomplete) {
		t.Errorf("%v and %v", again, err)
	}
	return found
}

// An UPDATE is judged without the path identifiers of its routes (RFC 7911, section 3), each family for itself (section 4): all but what was received is
// that of the message without them.
func TestJudgePaths(t *testing.T) {
	for _, it := range []struct {
		terms       Terms
		with, plain string
		verdict     Verdict
		paths       []uint32
	}{
		{identified(true, true), "0000 0035" + originPath + nextHop + "800e1e" + reachHop + "00000009 2020010db8 00000001 080a",
			"0000 0031" + originPath + nextHop + "800e1a" + reachHop + "2020010db8 080a", Update, []uint32{9, 1}},
		{identified(true, true), "0000 0035 40010103 40020602010000fde8" + nextHop + "800e1e" + reachHop + "00000009 2020010db8 00000001 080a",
			"0000 0031 40010103 40020602010000fde8" + nextHop + "800e1a" + reachHop + "2020010db8 080a", Withdraw, []uint32{9, 1}},
		{identified(true, false), "0006 00000007 080a 0000", "0002 080a 0000", Update, []uint32{7}},
		{identified(false, true), "0000 0014" + originPath + nextHop + "080a", "0000 0014" + originPath + nextHop + "080a", Update, []uint32{0}},
		{identified(true, true), "0000 0000", "0000 0000", Update, []uint32{}},
		{identified(false, false), "0000 0014" + originPath + nextHop + "080a", "0000 0014" + originPath + nextHop + "080a", Update, []uint32{0}},
	} {
		octets, plain := message(2, digits(it.with)), judgedAs(t, message(2, digits(it.plain)), both)
		found := judgedPaths(t, it.terms, octets)
		if found.Verdict() != it.verdict || !reflect.DeepEqual(told(found), told(plain)) || !reflect.DeepEqual(found.Facts(), plain.Facts()) {
			t.Errorf("%v instead of %v", told(found), told(plain))
		}
		routes, lost := found.Routes()
		paths, err := Paths(*found.Terms(), found.Received())
		if lost || len(routes) != len(paths) || !reflect.DeepEqual(paths, it.paths) || err != nil {
			t.Errorf("%v, %v, %v and %v", routes, lost, paths, err)
		}
	}
}

// An attribute that is data of the NOTIFICATION is the one that was received (RFC 7606, section 5.3).
func TestJudgePathsResets(t *testing.T) {
	ip4, ip6 := identified(true, false), identified(false, true)
	for _, it := range []struct {
		terms   Terms
		body    string
		subcode uint8
		data    string
	}{
		// In MP_REACH_NLRI length 129 after an identifier, and in MP_UNREACH_NLRI an identifier without a prefix.
		{ip6, "0000 003b 800e2b" + reachHop + "00000001 81" + strings.Repeat("00", 17) + originPath, 9, "800e2b" + reachHop + "00000001 81" + strings.Repeat("00", 17)},
		{ip6, "0000 000a 800f07 000201 00000001", 9, "800f07 000201 00000001"},
		{identified(true, true), "0006 00000001 080a 000a 800f07 000201 00000001", 9, "800f07 000201 00000001"},
		// In the longest message 813 times ::/0, and one octet of an identifier.
		{ip6, "0000 0fe9 900f0fe5 000201" + strings.Repeat("0000000100", 813) + "00", 9, "900f0fe5 000201" + strings.Repeat("0000000100", 813) + "00"},
		// Without data: in NLRI an identifier without a prefix, three octets of one, and none; and where no identifiers are agreed on.
		{ip4, "0000 0014" + originPath + nextHop + "00000001", 10, ""},
		{ip4, "0000 0014" + originPath + nextHop + "000000", 10, ""},
		{ip4, "0000 0014" + originPath + nextHop + "080a 080b", 10, ""},
		{identified(false, false), "0000 0014" + originPath + nextHop + "00000001 080a", 10, ""},
		{ip4, "0008 00000007 0000", 1, ""},
	} {
		found := judgedPaths(t, it.terms, message(2, digits(it.body)))
		if wanted := (Said{3, it.subcode, digits(it.data)}); found.Verdict() != Reset || !reflect.DeepEqual(found.Notification(), &wanted) {
			t.Errorf("%v, %+v instead of %+v", found.Verdict(), found.Notification(), wanted)
		}
		if paths, err := Paths(it.terms, found.Received()); paths != nil || !errors.Is(err, ErrRefused) {
			t.Errorf("%v and %v", paths, err)
		}
	}
}

// Each other message is as JudgeIn has it, and so is a header with a fault.
func TestJudgePathsOthers(t *testing.T) {
	badMarker := message(5, digits("0001 00 01"))
	badMarker[0] = 0
	for _, octets := range [][]byte{
		opened("450400010103"), message(1, digits("03 fde9 005a c0000201 00")), message(3, digits("0602 07")), message(4, nil),
		message(5, digits("0001 00 01")), message(5, digits("0001 01 01 00")), message(5, digits("0001")), message(6, nil), badMarker,
	} {
		for refresh := RefreshNone; refresh <= RefreshEnhanced; refresh++ {
			wanted, err := JudgeIn(termsBy(refresh), octets)
			if err != nil {
				t.Fatal(err)
			}
			for _, terms := range []Terms{{Paths4: true, Paths6: true}, {Paths6: true}, {}} {
				terms.Context, terms.Refresh = both, refresh
				found, err := JudgePaths(terms, octets)
				if err != nil || !reflect.DeepEqual(told(found), told(wanted)) || !reflect.DeepEqual(found.Refresh(), wanted.Refresh()) {
					t.Errorf("%v and %v instead of %v", found, err, wanted)
				}
				if !bytes.Equal(found.Received(), wanted.Octets()) || !bytes.Equal(wanted.Received(), wanted.Octets()) || *found.Terms() != terms {
					t.Errorf("%x and %+v instead of %x", found.Received(), found.Terms(), wanted.Octets())
				}
			}
		}
	}
	for _, octets := range [][]byte{nil, message(4, nil)[:18]} {
		if found, err := JudgePaths(identified(true, true), octets); found != nil || !errors.Is(err, ErrIncomplete) {
			t.Errorf("%v and %v", found, err)
		}
		if found, err := JudgePaths(Terms{Refresh: 3}, octets); found != nil || !errors.Is(err, ErrTerms) {
			t.Errorf("%v and %v", found, err)
		}
	}
}

// No message is judged by JudgeIn where routes have path identifiers, or where a number is none of those that are named.
func TestTermsOutOfRange(t *testing.T) {
	for _, terms := range []Terms{{Paths4: true}, {Refresh: RefreshPlain, Paths6: true}, {Refresh: 3}, {Refresh: 255}} {
		for _, octets := range [][]byte{nil, message(4, nil), message(5, digits("0001 00 01"))} {
			if it, err := JudgeIn(terms, octets); it != nil || !errors.Is(err, ErrTerms) {
				t.Errorf("%v and %v", it, err)
			}
			if them, rest, err := MessagesIn(terms, octets); them != nil || len(rest) != len(octets) || !errors.Is(err, ErrTerms) {
				t.Errorf("%v, %x and %v", them, rest, err)
			}
		}
		if decoder, err := NewDecoderIn(terms); decoder != nil || !errors.Is(err, ErrTerms) {
			t.Errorf("%v and %v", decoder, err)
		}
	}
}

// What a ROUTE-REFRESH says (RFC 2918, section 3; RFC 7313, section 3.2), with the line that `bgp show` prints.
func TestRefresh(t *testing.T) {
	for _, it := range []struct {
		refresh Refreshes
		body    string
		wanted  RouteRefresh
		line    string
	}{
		{RefreshPlain, "0001 00 01", RouteRefresh{1, 1, SubtypeRequest, []byte{}}, "request 1 1"},
		{RefreshPlain, "fffe 01 80", RouteRefresh{65534, 128, SubtypeRequest, []byte{}}, "request 65534 128"},
		{RefreshPlain, "0001 02 01 00", RouteRefresh{1, 1, SubtypeRequest, []byte{0}}, "request 1 1"},
		{RefreshEnhanced, "0001 01 01", RouteRefresh{1, 1, SubtypeBegin, []byte{}}, "begin 1 1"},
		{RefreshEnhanced, "0002 02 01", RouteRefresh{2, 1, SubtypeEnd, []byte{}}, "end 2 1"},
		{RefreshEnhanced, "0001 ff 01 0102", RouteRefresh{1, 1, 255, []byte{1, 2}}, "ignored 255 1 1"},
		{RefreshEnhanced, "0001 00 01" + strings.Repeat("07", 4073), RouteRefresh{1, 1, 0, digits(strings.Repeat("07", 4073))}, "request 1 1"},
	} {
		octets := message(5, digits(it.body))
		found, err := JudgeIn(termsBy(it.refresh), octets)
		if err != nil || found.Verdict() != Refresh || found.Notification() != nil || !reflect.DeepEqual(found.Refresh(), &it.wanted) {
			t.Fatalf("%v, %v, instead of %+v", found, err, it.wanted)
		}
		if line := fmt.Sprintf("0 %d ROUTE-REFRESH %s\n", len(octets), it.line); found.String() != line {
			t.Errorf("%q instead of %q", found, line)
		}
		if *found.Terms() != termsBy(it.refresh) || found.Context() != both || !reflect.DeepEqual(found.Octets(), octets) {
			t.Errorf("%+v, %+v", found.Terms(), found.Context())
		}
		if _, err := found.Clean(false); found.Fields() != nil || found.FaultSection() != "" || found.Facts() != nil || !errors.Is(err, ErrRefresh) {
			t.Errorf("%v, %v, %v and %v", found.Fields(), found.FaultSection(), found.Facts(), err)
		}
		if routes, lost := found.Routes(); routes != nil || lost {
			t.Errorf("%v, %v", routes, lost)
		}
	}
}

// A body of fewer than four octets (RFC 4271, section 6.1), a mark of another length (RFC 7313, section 5), and what isn't offered.
func TestRefreshResets(t *testing.T) {
	short, long := message(5, digits("0001 02")), message(5, digits("0001 01 01", strings.Repeat("00", 4073)))
	for _, it := range []struct {
		refresh Refreshes
		octets  []byte
		wanted  Said
		line    string
	}{
		{RefreshPlain, short, Said{1, 2, []byte{0, 22}}, "0 22 HEADER reset 1/2 0016\n"},
		{RefreshEnhanced, short, Said{7, 1, short}, fmt.Sprintf("0 22 ROUTE-REFRESH reset 7/1 %x\n", short)},
		{RefreshEnhanced, message(5, nil), Said{1, 2, []byte{0, 19}}, "0 19 HEADER reset 1/2 0013\n"},
		{RefreshEnhanced, long, Said{7, 1, long[:4075]}, fmt.Sprintf("0 4096 ROUTE-REFRESH reset 7/1 %x\n", long[:4075])},
		{RefreshNone, short, Said{1, 3, []byte{5}}, "0 0 HEADER reset 1/3 05\n"},
	} {
		found, err := JudgeIn(termsBy(it.refresh), it.octets)
		if err != nil || found.Verdict() != Reset || !reflect.DeepEqual(found.Notification(), &it.wanted) || found.Refresh() != nil {
			t.Fatalf("%v and %v, instead of %+v", found, err, it.wanted)
		}
		if found.String() != it.line {
			t.Errorf("%q instead of %q", found, it.line)
		}
	}
	if found, err := Judge(both, short); err != nil || found.Terms() != nil || found.Notification().Subcode != 3 {
		t.Errorf("%v and %v", found, err)
	}
}

func TestMessagesIn(t *testing.T) {
	keepalive := message(4, nil)
	octets := append(append(append([]byte{}, keepalive...), EncodeRefresh(1, 1, SubtypeBegin)...), keepalive...)
	octets = append(octets, EncodeRefresh(1, 1, SubtypeEnd)[:22]...)
	found, rest, err := MessagesIn(termsBy(RefreshEnhanced), octets)
	if err != nil || len(found) != 3 || len(rest) != 22 || found[1].Verdict() != Refresh || found[1].Verdict().String() != "refresh" || found[2].Place() != 42 {
		t.Errorf("%v, %x, %v", found, rest, err)
	}
	for i, line := range []string{"0 19 KEEPALIVE\n", "19 23 ROUTE-REFRESH begin 1 1\n", "42 19 KEEPALIVE\n"} {
		if text, err := found[i].Text(); text != line || err != nil {
			t.Errorf("%q and %v instead of %q", text, err, line)
		}
	}
	// Nothing after a reset is read.
	found, rest, err = MessagesIn(termsBy(RefreshNone), octets)
	if err != nil || len(found) != 2 || len(rest) != len(octets)-19 || found[1].Verdict() != Reset {
		t.Errorf("%v, %x, %v", found, rest, err)
	}
}

func TestEncodeRefresh(t *testing.T) {
	for _, subtype := range []uint8{SubtypeRequest, SubtypeBegin, SubtypeEnd, 3, 255} {
		wanted := message(5, []byte{0x12, 0x34, subtype, 0x56})
		if octets := EncodeRefresh(0x1234, 0x56, subtype); !reflect.DeepEqual(octets, wanted) {
			t.Errorf("%x instead of %x", octets, wanted)
		}
	}
}

// What a decoder gives of octets that come in pieces, the last one after the last cut.
func inPieces(t *testing.T, decoder *Decoder, octets []byte, cuts ...int) []*Message {
	var messages []*Message
	at := 0
	for _, end := range append(cuts, len(octets)) {
		found, err := decoder.Feed(octets[at:end])
		if err != nil && !errors.Is(err, ErrReset) {
			t.Fatal(err)
		}
		messages = append(messages, found...)
		at = end
	}
	return messages
}

// A stream in pieces by terms is what it is whole, however it is cut; of the last two ROUTE-REFRESHes the first is too long for a mark.
func TestPiecesIn(t *testing.T) {
	update := message(2, digits("0000 0018 40010100 40020a0202000111700000fde9 400304c0000201 080a"))
	var octets []byte
	for _, it := range [][]byte{
		opened("0200"), message(4, nil), EncodeRefresh(1, 1, SubtypeRequest), update, EncodeRefresh(1, 1, SubtypeBegin),
		message(5, digits("0001 02 01 00")), message(4, nil), EncodeRefresh(2, 1, SubtypeEnd)[:22],
	} {
		octets = append(octets, it...)
	}
	for _, it := range []struct {
		refresh     Refreshes
		count, held int
	}{{RefreshNone, 3, 0}, {RefreshPlain, 7, 22}, {RefreshEnhanced, 6, 0}} {
		whole, _, err := MessagesIn(termsBy(it.refresh), octets)
		if err != nil || len(whole) != it.count {
			t.Fatal(len(whole), err)
		}
		all := []int{}
		for cut := range octets {
			all = append(all, cut)
		}
		for cut := -1; cut < len(octets); cut++ {
			decoder, err := NewDecoderIn(termsBy(it.refresh))
			if err != nil {
				t.Fatal(err)
			}
			cuts := all
			if cut >= 0 {
				cuts = []int{cut}
			}
			found := inPieces(t, decoder, octets, cuts...)
			if len(found) != len(whole) {
				t.Fatalf("cut at %d: %d messages for %d", cut, len(found), len(whole))
			}
			for i := range whole {
				if !reflect.DeepEqual(told(found[i]), told(whole[i])) || !reflect.DeepEqual(found[i].Refresh(), whole[i].Refresh()) ||
					*found[i].Terms() != termsBy(it.refresh) || found[i].Context() != both {
					t.Errorf("cut at %d: %v for %v", cut, told(found[i]), told(whole[i]))
				}
			}
			if held, err := decoder.Held(); held != it.held || err != nil {
				t.Errorf("cut at %d: %d and %v", cut, held, err)
			}
			_ = decoder.Close()
		}
	}
}

// A ROUTE-REFRESH that is refused stops it, and so does one that isn't offered: nothing after it is read.
func TestDecoderInStops(t *testing.T) {
	short, mark, request := message(5, digits("0001 01")), message(5, digits("0001 01 01 00")), EncodeRefresh(1, 1, SubtypeRequest)
	for _, it := range []struct {
		refresh       Refreshes
		octets        []byte
		code, subcode uint8
	}{{RefreshEnhanced, mark, 7, 1}, {RefreshEnhanced, short, 7, 1}, {RefreshPlain, short, 1, 2}, {RefreshNone, request, 1, 3}} {
		decoder, _ := NewDecoderIn(termsBy(it.refresh))
		found, err := decoder.Feed(append(append(message(4, nil), it.octets...), message(4, nil)...))
		if err != nil || len(found) != 2 || found[1].Verdict() != Reset || found[1].Place() != 19 {
			t.Fatal(found, err)
		}
		if said := found[1].Notification(); said.Code != it.code || said.Subcode != it.subcode {
			t.Error(said)
		}
		for i := 0; i < 2; i++ {
			if found, err := decoder.Feed(request); found != nil || !errors.Is(err, ErrReset) {
				t.Error(found, err)
			}
		}
		if held, err := decoder.Held(); held != 0 || err != nil {
			t.Error(held, err)
		}
		_ = decoder.Close()
	}
}

func TestClosedDecoderIn(t *testing.T) {
	decoder, _ := NewDecoderIn(termsBy(RefreshPlain))
	if found, err := decoder.Feed(EncodeRefresh(1, 1, SubtypeRequest)[:20]); found != nil || err != nil {
		t.Error(found, err)
	}
	for i := 0; i < 2; i++ {
		if err := decoder.Close(); err != nil {
			t.Error(err)
		}
		if _, err := decoder.Feed(message(4, nil)); !errors.Is(err, ErrClosed) {
			t.Error(err)
		}
		if _, err := decoder.Held(); !errors.Is(err, ErrClosed) {
			t.Error(err)
		}
	}
}

func TestDecodersInAreShared(t *testing.T) {
	decoder, _ := NewDecoderIn(termsBy(RefreshPlain))
	defer decoder.Close()
	var group sync.WaitGroup
	counts := make([]int, 4)
	for i := range counts {
		group.Add(1)
		go func(i int) {
			defer group.Done()
			for j := 0; j < 100; j++ {
				found, err := decoder.Feed(EncodeRefresh(1, 1, SubtypeRequest))
				if err != nil {
					t.Error(err)
				}
				counts[i] += len(found)
			}
		}(i)
	}
	group.Wait()
	if counts[0]+counts[1]+counts[2]+counts[3] != 400 {
		t.Error(counts)
	}
}
