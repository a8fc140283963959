package ristulva

import (
	"bytes"
	"errors"
	"net/netip"
	"reflect"
	"testing"
	"time"
)

// A session, and what arrived for it.
type side struct {
	t       *testing.T
	session *Session
	held    []byte
	peer    *side
	done    []Do
}

func (it *side) carryOut(actions []Action, err error) {
	if err != nil {
		it.t.Fatal(err)
	}
	for _, action := range actions {
		it.done = append(it.done, action.Do)
		it.peer.held = append(it.peer.held, action.Message...)
	}
}

func (it *side) hear() *Heard {
	heard, err := it.session.Hear(it.held)
	if errors.Is(err, ErrIncomplete) {
		return nil
	}
	if err != nil {
		it.t.Fatal(err)
	}
	it.held = it.held[heard.Taken:]
	it.carryOut(heard.Actions, nil)
	return heard
}

// Two sides, up to Established.
func pair(t *testing.T) (*side, *side) {
	configs := []Config{
		{LocalAS: 65001, PeerAS: 65002, ID: netip.MustParseAddr("192.0.2.1"), HoldTime: 30, AS4: true, IP4: true},
		{LocalAS: 65002, PeerAS: 65001, ID: netip.MustParseAddr("192.0.2.2"), HoldTime: 90, AS4: true, IP4: true, IP6: true},
	}
	sides := []*side{{t: t}, {t: t}}
	for i, it := range sides {
		session, err := NewSession(configs[i])
		if err != nil {
			t.Fatal(err)
		}
		it.session, it.peer = session, sides[1-i]
	}
	for _, it := range sides {
		it.carryOut(it.session.Event(Start))
		it.carryOut(it.session.Event(Connected))
	}
	for again := true; again; {
		again = false
		for _, it := range sides {
			again = it.hear() != nil || again
		}
	}
	return sides[0], sides[1]
}

func TestSessionComesUp(t *testing.T) {
	one, other := pair(t)
	for _, it := range []*side{one, other} {
		state, err := it.session.State()
		context, hold, problem := it.session.Agreed()
		if err != nil || problem != nil || state != Established || context != (Context{AS4: true, IP4: true}) || hold != 30*time.Second {
			t.Error(state, err, context, hold, problem)
		}
	}
	if wanted := []Do{Arm, Seek, Disarm, SendOpen, Arm, SendKeepalive, Arm, Arm, Arm}; !reflect.DeepEqual(one.done, wanted) {
		t.Error(one.done)
	}
	peer, err := one.session.Peer()
	if err != nil || peer.AS != 65002 || peer.ID != netip.MustParseAddr("192.0.2.2") || peer.HoldTime != 90 || !bytes.Equal(peer.Codes, []byte{1, 65}) {
		t.Error(peer, err)
	}
	actions, err := one.session.Send(body)
	if err != nil || actions[0].Do != SendUpdate || !bytes.Equal(actions[0].Message, message(2, body)) {
		t.Fatal(actions, err)
	}
	one.carryOut(actions, nil)
	heard := other.hear()
	if heard.Message.Verdict() != Update || heard.Message.Announced()[0].String() != "10.0.0.0/8" || heard.Actions[0].Do != Announce {
		t.Error(heard)
	}
}

func TestSessionEnds(t *testing.T) {
	one, other := pair(t)
	other.held = append(other.held, message(2, digits("0000 0003 406300"))...)
	heard := other.hear()
	if heard.Message.Verdict() != Reset || !reflect.DeepEqual(heard.Message.Notification(), &Said{3, 2, digits("406300")}) {
		t.Error(told(heard.Message))
	}
	heard = one.hear()
	if heard.Message.Verdict() != Notification || !reflect.DeepEqual(heard.Message.Notification(), &Said{3, 2, digits("406300")}) {
		t.Error(told(heard.Message))
	}
	if heard.Actions[len(heard.Actions)-1].Do != Flush {
		t.Error(heard.Actions)
	}
	for _, it := range []*side{one, other} {
		if _, _, err := it.session.Agreed(); !errors.Is(err, ErrState) {
			t.Error(err)
		}
		if _, err := it.session.Send(body); !errors.Is(err, ErrState) {
			t.Error(err)
		}
	}
}

func TestSessionRefuses(t *testing.T) {
	for _, config := range []Config{
		{}, {LocalAS: 1, PeerAS: 2}, {LocalAS: 1, PeerAS: 2, ID: netip.MustParseAddr("::1")}, {LocalAS: 70000, PeerAS: 2, ID: netip.MustParseAddr("192.0.2.1")},
		{LocalAS: 1, PeerAS: 2, ID: netip.MustParseAddr("192.0.2.1"), HoldTime: 2},
	} {
		if session, err := NewSession(config); session != nil || !errors.Is(err, ErrConfig) {
			t.Error(session, err)
		}
	}
	one, _ := pair(t)
	for _, it := range []struct {
		body   []byte
		wanted error
	}{{make([]byte, 4078), ErrTooLong}, {digits("00000003406300"), ErrRefused}} {
		if _, err := one.session.Send(it.body); !errors.Is(err, it.wanted) {
			t.Error(err, it.wanted)
		}
	}
	if _, err := one.session.Event(3); err == nil {
		t.Error("an event that there isn't")
	}
	_ = one.session.Close()
	_ = one.session.Close()
	if _, err := one.session.State(); !errors.Is(err, ErrClosed) {
		t.Error(err)
	}
	if _, err := one.session.Hear(message(4, nil)); !errors.Is(err, ErrClosed) {
		t.Error(err)
	}
}

func TestTimers(t *testing.T) {
	one, other := pair(t)
	if RetryTimer.Expired() != RetryExpired || HoldTimer.Expired() != HoldExpired || KeepaliveTimer.Expired() != KeepaliveExpired {
		t.Error("another event for a timer")
	}
	one.carryOut(one.session.Event(HoldExpired))
	if heard := other.hear(); !reflect.DeepEqual(heard.Message.Notification(), &Said{4, 0, []byte{}}) {
		t.Error(told(heard.Message))
	}
	own, err := one.session.OpenMessage()
	if it, problem := Judge(Context{}, own); err != nil || problem != nil || it.Verdict() != OpenMessage || it.Open().AS != 65001 {
		t.Error(own, err, problem)
	}
}
