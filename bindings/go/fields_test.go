package ristulva

import (
	"bytes"
	"testing"
)

// An UPDATE that withdraws 192.0.2.0/24, and has an ORIGIN (RFC 4271, section 4.3).
func TestFields(t *testing.T) {
	wanted := []struct {
		at, length int
		kind       FieldKind
		group      int
		code       uint8
	}{
		{0, 16, FieldMarker, 0, 0}, {16, 2, FieldMessageLength, 0, 0}, {18, 1, FieldMessageType, 0, 0}, {19, 2, FieldWithdrawnLength, 0, 0},
		{21, 4, FieldWithdrawnPrefix, 0, 0}, {25, 2, FieldAttributesLength, 0, 0}, {27, 1, FieldAttributeFlags, 27, 1},
		{28, 1, FieldAttributeType, 27, 1}, {29, 1, FieldAttributeLength, 27, 1}, {30, 1, FieldOrigin, 27, 1},
	}
	it, err := Judge(Context{AS4: true, IP4: true}, message(2, digits("0004 18c00002 0004 40010100")))
	if err != nil {
		t.Fatal(err)
	}
	found := it.Fields()
	if len(found) != len(wanted) {
		t.Fatalf("%d fields, and not %d", len(found), len(wanted))
	}
	for i, want := range wanted {
		it := found[i]
		if it.At != want.at || len(it.Octets) != want.length || it.Kind != want.kind || it.Group != want.group || it.Type != want.code {
			t.Errorf("%v, and not %v", it, want)
		}
	}
	if found[4].Kind.String() != "Withdrawn Routes" || FieldUnread != 44 || FieldUnread.String() != "unread" || FieldKind(47).String() != "" {
		t.Error("names of fields")
	}
}

func TestFaults(t *testing.T) {
	for _, want := range []struct {
		octets     []byte
		at, length int
	}{
		{message(9, nil), 18, 1},
		{message(1, digits("04 fde8 0002 c0000201 00")), 22, 2},
		{message(2, digits("0000 0005 40010100")), 21, 2},
		{message(2, digits("0000 0008 40010100 40630105")), 27, 4},
		{message(4, nil), 0, 0},
	} {
		it, err := Judge(Context{AS4: true, IP4: true}, want.octets)
		if err != nil {
			t.Fatal(err)
		}
		if at, length := it.Fault(); at != want.at || length != want.length {
			t.Errorf("%x: %d octets at %d", want.octets, length, at)
		}
	}
}

func TestSections(t *testing.T) {
	for _, want := range []struct {
		octets  []byte
		section string
	}{
		{message(2, digits("0000 0005 800f02 0002")), "RFC 7606, section 5.3"},
		{message(2, digits("0000 0006 c00f03 000201")), "own rule"},
		{message(2, digits("0000 0004 40010103")), "RFC 7606, section 5.2"},
		{message(9, nil), "RFC 4271, section 6.1"},
		{message(4, nil), ""},
	} {
		it, err := Judge(Context{AS4: true, IP4: true}, want.octets)
		if err != nil {
			t.Fatal(err)
		}
		if section := it.FaultSection(); section != want.section {
			t.Errorf("%x: %s", want.octets, section)
		}
	}
	// Family
	if section := (Note{0, 14, 10}).Section(); section != "RFC 4760, section 8" {
		t.Error(section)
	}
}

// The fields of each message of the captures are its octets.
func TestFieldsOfCaptures(t *testing.T) {
	for name, it := range captures(t) {
		messages, _ := Messages(it.context, it.octets)
		for _, message := range messages {
			joined := []byte{}
			for _, field := range message.Fields() {
				joined = append(joined, field.Octets...)
			}
			if !bytes.Equal(joined, message.Octets()) {
				t.Errorf("%s: the fields of the message at %d", name, message.Place())
			}
			if _, length := message.Fault(); (length > 0) != (message.Verdict() == Reset) {
				t.Errorf("%s: the fault of the message at %d", name, message.Place())
			}
		}
	}
}
