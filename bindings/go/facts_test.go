package ristulva

import (
	"bytes"
	"encoding/hex"
	"errors"
	"net/netip"
	"strings"
	"testing"
)

const (
	someOrigin = "40010102"
	somePaths  = "40020602 02fde95ba0 c01106020100030d40" // 65001 23456, and 200000 of AS4_PATH
	someHops   = "400304c0000201 800e2a 00020120 20010db8000000000000000000000001 fe800000000000000000000000000001 00 2020010db8"
	someGone   = "800f0a 000201 3020010db80001"
	someOthers = "80040400000007 40050400000064 400600 c007065ba0c0000209 c0120800030d40c0000209 c00808fde80001fde80002"
	someMore   = "c0200c0000fde80000000100000002 c0c802abcd c0c900"
	// AS 65001, 180 s, both families and AS numbers of four octets; AS 200000, 90 s, IPv4 unicast and AS numbers of four octets.
	ourOpen   = "04fde900b4c0000201 16 0214 010400010001 010400020001 41040000fde9 0200"
	theirOpen = "045ba0005ac0000202 0e 020c 010400010001 410400030d40"
)

func fromHex(text string) []byte {
	octets, err := hex.DecodeString(strings.ReplaceAll(text, " ", ""))
	if err != nil {
		panic(err)
	}
	return octets
}

func framed(kind byte, body []byte) []byte {
	size := 19 + len(body)
	return append(append(bytes.Repeat([]byte{255}, 16), byte(size>>8), byte(size), kind), body...)
}

// An UPDATE that withdraws 10.1.0.0/16, with these attributes, and 10.0.0.0/8 as its NLRI.
func updateOf(attributes string) []byte {
	field := fromHex(attributes)
	body := append([]byte{0, 3, 16, 10, 1, byte(len(field) >> 8), byte(len(field))}, field...)
	return framed(2, append(body, 8, 10))
}

func judgedAs(t *testing.T, octets []byte, context Context) *Message {
	it, err := Judge(context, octets)
	if err != nil {
		t.Fatal(err)
	}
	return it
}

var twoOctets = Context{Internal: true, IP4: true, IP6: true}

func TestFacts(t *testing.T) {
	facts := judgedAs(t, updateOf(someOrigin+somePaths+someHops+someGone+someOthers+someMore), twoOctets).Facts()
	if *facts.Origin != OriginIncomplete || *facts.MED != 7 || *facts.LocalPref != 100 || !facts.AtomicAggregate || facts.Unrecognised != 2 {
		t.Error(facts)
	}
	if facts.NextHop.String() != "192.0.2.1" || facts.MPNextHop.String() != "2001:db8::1" || facts.LinkLocal.String() != "fe80::1" {
		t.Error(facts.NextHop, facts.MPNextHop, facts.LinkLocal)
	}
	if *facts.OriginAS != 200000 || *facts.Aggregator != (Aggregator{200000, netip.MustParseAddr("192.0.2.9")}) {
		t.Error(*facts.OriginAS, facts.Aggregator)
	}
	parts := [][]byte{facts.ASPath, facts.AS4Path, facts.Communities, facts.LargeCommunities}
	for i, wanted := range []string{"0202fde95ba0", "020100030d40", "fde80001fde80002", "0000fde80000000100000002"} {
		if !bytes.Equal(parts[i], fromHex(wanted)) {
			t.Error(i, parts[i])
		}
	}
}

// What is missing, or discarded, isn't given; nor is anything of what isn't accepted.
func TestNoFacts(t *testing.T) {
	external := Context{AS4: true}
	octets := updateOf(someOrigin + "40020c01010000fde901010000fdea 400304c0000201 40050400000064 c0110602010000fde9")
	facts := judgedAs(t, octets, external).Facts()
	if facts.LocalPref != nil || facts.AS4Path != nil || facts.OriginAS != nil || facts.MPNextHop.IsValid() || facts.MED != nil || facts.Aggregator != nil {
		t.Error(facts)
	}
	for _, octets := range [][]byte{updateOf("40010109 400200 400304c0000201"), framed(4, nil), make([]byte, 19)} {
		if it := judgedAs(t, octets, external); it.Facts() != nil {
			t.Error(it)
		}
	}
}

func TestRoutesInOrder(t *testing.T) {
	octets := updateOf(someOrigin + somePaths + someHops + someGone)
	routes, lost := judgedAs(t, octets, twoOctets).Routes()
	treated, _ := judgedAs(t, updateOf("40010109"+somePaths+someHops+someGone), twoOctets).Routes()
	for i, wanted := range []string{"10.1.0.0/16", "2001:db8:1::/48", "2001:db8::/32", "10.0.0.0/8"} {
		prefix := netip.MustParsePrefix(wanted)
		if lost || len(routes) != 4 || routes[i] != (Route{prefix, i > 1}) || len(treated) != 4 || treated[i] != (Route{prefix, false}) {
			t.Error(routes, treated, lost)
		}
	}
	without := twoOctets
	without.IP6 = false
	if routes, lost := judgedAs(t, octets, without).Routes(); !lost || len(routes) != 2 {
		t.Error(routes, lost)
	}
	if routes, _ := judgedAs(t, updateOf(someOrigin+somePaths+someHops+someHops), twoOctets).Routes(); routes != nil {
		t.Error(routes)
	}
}

func TestAgree(t *testing.T) {
	ours, theirs := framed(1, fromHex(ourOpen)), framed(1, fromHex(theirOpen))
	for _, pair := range [][2][]byte{{ours, theirs}, {theirs, ours}} {
		if context, hold, err := Agree(pair[0], pair[1]); err != nil || hold != 90 || context != (Context{AS4: true, IP4: true}) {
			t.Error(context, hold, err)
		}
	}
	if _, _, err := Agree(ours, framed(4, nil)); !errors.Is(err, ErrRefused) {
		t.Error(err)
	}
	if _, _, err := Agree(nil, ours); !errors.Is(err, ErrIncomplete) {
		t.Error(err)
	}
}

func TestDirections(t *testing.T) {
	theirs := framed(1, fromHex(theirOpen))
	sent := append(framed(1, fromHex(ourOpen)), updateOf(someOrigin+"40020a02020000fde900030d40"+someHops)...)
	one, other, err := Directions(sent, theirs)
	if err != nil || len(one) != 2 || len(other) != 1 || *one[1].Facts().OriginAS != 200000 {
		t.Fatal(one, other, err)
	}
	if _, lost := one[1].Routes(); !lost {
		t.Error("IPv6 isn't agreed on")
	}
	if _, _, err := Directions(theirs, nil); !errors.Is(err, ErrIncomplete) {
		t.Error(err)
	}
}

func TestNames(t *testing.T) {
	names := map[string]string{
		AttributeName(AttributeCommunities):                        "COMMUNITY",
		CapabilityName(CapabilityAS4):                              "Support for 4-octet AS number capability",
		CodeName(CodeCease):                                        "Cease",
		SubcodeName(CodeCease, SubcodeCeaseAdministrativeShutdown): "Administrative Shutdown",
		AttributeName(11):                                          "",
	}
	for name, wanted := range names {
		if name != wanted {
			t.Error(name, wanted)
		}
	}
}
