package ristulva

import (
	"bytes"
	"encoding/hex"
	"errors"
	"net/netip"
	"os"
	"path/filepath"
	"reflect"
	"strings"
	"testing"
)

var marker = bytes.Repeat([]byte{255}, 16)

// Octets of digits.
func digits(text ...string) []byte {
	octets, err := hex.DecodeString(strings.Join(strings.Fields(strings.Join(text, "")), ""))
	if err != nil {
		panic(err)
	}
	return octets
}

// A whole message.
func message(kind byte, body []byte) []byte {
	size := headerLen + len(body)
	return append(append(append([]byte{}, marker...), byte(size>>8), byte(size), kind), body...)
}

// 10.0.0.0/8 by way of AS 65000 and 200000, and of 192.0.2.1.
var body = digits("0000 001f 40010100 40020a02020000fde800030d40 400304c0000201 c0080400010002 080a")

// Each capture of examples/: its name, its octets, and its context.
func captures(t *testing.T) map[string]*capture {
	found := map[string]*capture{}
	names, err := filepath.Glob("../../examples/*.hex")
	if err != nil || len(names) == 0 {
		t.Skip("no examples beside the package")
	}
	for _, name := range names {
		text, err := os.ReadFile(name)
		if err != nil {
			t.Fatal(err)
		}
		it := &capture{octets: digits(string(text))}
		base := strings.TrimSuffix(name, ".hex")
		flags, _ := os.ReadFile(base + ".flags")
		for _, flag := range strings.Fields(string(flags)) {
			switch flag {
			case "--as4":
				it.context.AS4 = true
			case "--ip4":
				it.context.IP4 = true
			case "--ip6":
				it.context.IP6 = true
			case "--internal":
				it.context.Internal = true
			}
		}
		shown, err := os.ReadFile(base + ".txt")
		if err != nil {
			t.Fatal(err)
		}
		it.shown = string(shown[:strings.LastIndex(string(shown), "end ")])
		found[filepath.Base(base)] = it
	}
	return found
}

type capture struct {
	octets  []byte
	context Context
	shown   string
}

// All that a message reports.
func told(it *Message) []any {
	return []any{
		it.Place(), it.Octets(), it.Verdict(), it.Notification(), it.String(), it.Announced(), it.Withdrawn(), it.Attributes(), it.ASPath(),
		it.Communities(), it.LargeCommunities(), it.Notes(), it.Open(),
	}
}

func TestLinesOfEachCapture(t *testing.T) {
	for name, it := range captures(t) {
		messages, _ := Messages(it.context, it.octets)
		lines := ""
		for _, message := range messages {
			lines += message.String()
		}
		if lines != it.shown {
			t.Errorf("%s: %q for %q", name, lines, it.shown)
		}
	}
}

func TestRoutes(t *testing.T) {
	context := Context{AS4: true}
	it, err := Judge(context, append(message(2, body), 1, 2, 3))
	if err != nil || it.Verdict() != Update || len(it.Octets()) != 56 {
		t.Fatal(it, err)
	}
	wanted := []any{
		[]netip.Prefix{netip.MustParsePrefix("10.0.0.0/8")}, []netip.Prefix{}, []Segment{{false, []uint32{65000, 200000}}}, []uint32{65538}, 4,
	}
	given := []any{it.Announced(), it.Withdrawn(), it.ASPath(), it.Communities(), len(it.Attributes())}
	if !reflect.DeepEqual(given, wanted) {
		t.Error(given)
	}
	if it.LargeCommunities() != nil || len(it.Notes()) != 0 || it.Open() != nil || it.Notification() != nil {
		t.Error(told(it))
	}
}

func TestRoutesOfBothFamilies(t *testing.T) {
	six := digits("0000 0050 40010100 4002060201 0000fde8 800e1a 0002 01 10 20010db8000000000000000000000001 00 20 20010db8 800f08 0002 01 20 20010db9",
		"e02018 0000fde8 00000001 00000002 0000fde8 00000001 00000002")
	six[3] = byte(len(six) - 4)
	it, err := Judge(Context{AS4: true, IP6: true}, message(2, six))
	if err != nil || it.Verdict() != Update {
		t.Fatal(it, err)
	}
	given := []any{it.Announced(), it.Withdrawn(), it.LargeCommunities()}
	wanted := []any{
		[]netip.Prefix{netip.MustParsePrefix("2001:db8::/32")}, []netip.Prefix{netip.MustParsePrefix("2001:db9::/32")}, [][3]uint32{{65000, 1, 2}},
	}
	if !reflect.DeepEqual(given, wanted) {
		t.Error(given)
	}
	if routes, lost := it.Routes(); lost || len(routes) != 2 || routes[0].Announced || !routes[1].Announced {
		t.Error(routes, lost)
	}
	without, _ := Judge(Context{AS4: true}, message(2, six))
	if routes, lost := without.Routes(); !lost || routes != nil {
		t.Error(routes, lost)
	}
	if len(without.Announced())+len(without.Withdrawn()) != 0 || len(without.Notes()) != 2 || without.Notes()[0] != (Note{36, 14, 10}) {
		t.Error(told(without))
	}
}

func TestShown(t *testing.T) {
	for address, wanted := range map[string]string{
		"192.0.2.1": "192.0.2.1", "2001:db8::1": "2001:db8::1", "::ffff:192.0.2.1": "::ffff:c000:201", "::ffff:0.0.1.2": "::ffff:0:102", "::c000:201": "::c000:201",
	} {
		if found := Shown(netip.MustParseAddr(address)); found != wanted {
			t.Error(address, found)
		}
	}
}

func TestNotesAndResets(t *testing.T) {
	bad := append([]byte{}, body...)
	bad[7] = 3
	it, _ := Judge(Context{AS4: true}, message(2, bad))
	if it.Verdict() != Withdraw || !reflect.DeepEqual(it.Notes(), []Note{{23, 1, 3}}) || it.Notes()[0].Why.String() != "Value" {
		t.Error(told(it))
	}
	if routes, lost := it.Routes(); lost || !reflect.DeepEqual(routes, []Route{{netip.MustParsePrefix("10.0.0.0/8"), false}}) {
		t.Error(routes, lost)
	}
	it, _ = Judge(Context{}, append(append([]byte{}, marker...), digits("001204")...))
	if it.Verdict() != Reset || !reflect.DeepEqual(it.Notification(), &Said{1, 2, digits("0012")}) || len(it.Octets()) != 19 {
		t.Error(told(it))
	}
	for cut := 0; cut < 19; cut++ {
		if it, err := Judge(Context{}, message(4, nil)[:cut]); it != nil || !errors.Is(err, ErrIncomplete) {
			t.Error(cut, it, err)
		}
	}
}

func TestOpen(t *testing.T) {
	fixed := digits("04 5ba0 005a c0000202 16 0214 010400010001 0200 410400020001 01040001")
	fixed = append(fixed, 0, 1)
	it, _ := Judge(Context{}, message(1, fixed))
	said := it.Open()
	if said == nil || said.AS != 131073 || said.ASField != 23456 || said.HoldTime != 90 || said.ID != netip.MustParseAddr("192.0.2.2") {
		t.Fatal(told(it))
	}
	if !said.AS4 || !said.IP4 || said.IP6 || len(said.Capabilities) != 4 || !reflect.DeepEqual(said.Capabilities[2], Capability{65, digits("00020001")}) {
		t.Error(said)
	}
}

func TestStreams(t *testing.T) {
	stream := append(append(message(4, nil), message(2, body)...), message(4, nil)[:7]...)
	messages, rest := Messages(Context{AS4: true}, stream)
	if len(messages) != 2 || messages[1].Place() != 19 || len(rest) != 7 {
		t.Error(messages, rest)
	}
	messages, rest = Messages(Context{}, append(append([]byte{}, marker...), digits("001204 ff")...))
	if len(messages) != 1 || messages[0].Verdict() != Reset || len(rest) != 20 {
		t.Error(messages, rest)
	}
}

func TestNothingIsKept(t *testing.T) {
	octets := message(2, body)
	it, _ := Judge(Context{AS4: true}, octets)
	before := told(it)
	for i := range octets {
		octets[i] = 0
	}
	it.Octets()[0] = 0
	if !reflect.DeepEqual(before, told(it)) {
		t.Error(told(it))
	}
}

func TestWriting(t *testing.T) {
	context := Context{AS4: true}
	if octets, err := Encode(context, body); err != nil || !bytes.Equal(octets, message(2, body)) {
		t.Error(octets, err)
	}
	narrow, err := Narrow(context, body)
	if err != nil {
		t.Fatal(err)
	}
	if octets, err := Reconcile(Context{}, narrow[headerLen:]); err != nil || !bytes.Equal(octets, message(2, body)) {
		t.Error(octets, err)
	}
	bad := append([]byte{}, body...)
	bad[7] = 3
	for _, it := range []struct {
		body   []byte
		wanted error
	}{{bad, ErrRefused}, {make([]byte, 4078), ErrTooLong}, {nil, ErrRefused}} {
		if octets, err := Encode(context, it.body); len(octets) != 0 || !errors.Is(err, it.wanted) {
			t.Error(octets, err)
		}
	}
}

func TestClean(t *testing.T) {
	context := Context{AS4: true}
	with := append([]byte{}, body[:35]...)
	with = append(with, digits("c010 02 0102 c011 00 080a")...)
	with[3] = byte(len(with) - 4 - 2)
	it, _ := Judge(context, message(2, with))
	if it.Verdict() != Update {
		t.Fatal(told(it))
	}
	plain, err := it.Clean(false)
	if err != nil || plain.Ends != HandedOn || plain.Discarded != 1 || plain.LeftOut != 0 {
		t.Error(plain, err)
	}
	without, err := it.Clean(false, 16, 35)
	if err != nil || without.LeftOut != 1 || !bytes.Equal(without.Octets, message(2, body)) {
		t.Error(without, err)
	}
	late, _ := Judge(context, message(1, digits("04fde80000c000020100")))
	if told, err := late.Clean(false); err != nil || told.Ends != EndsLateOpen || len(told.Octets) != 0 {
		t.Error(told, err)
	}
}
