package ristulva

// #include "list.h"
import "C"

import (
	"net/netip"
	"runtime"
	"sync"
	"time"
	"unsafe"
)

// Config is what a session's own speaker is set to (RFC 4271, section 4.2).
type Config struct {
	LocalAS       uint32     // not 0; above 65535 only with AS4
	PeerAS        uint32     // the AS number that the peer has to have: not 0
	ID            netip.Addr // the BGP Identifier, an IPv4 address: not 0.0.0.0
	HoldTime      uint16     // in seconds: 0 for none, else 3 at least
	AS4, IP4, IP6 bool       // whether it offers AS numbers of four octets, and unicast routes of IPv4 and of IPv6
}

// Event is what happens to a session, by the numbers of RFC 4271, section 8.1.
type Event uint32

const (
	Start            Event = 1
	Stop             Event = 2
	RetryExpired     Event = 9
	HoldExpired      Event = 10
	KeepaliveExpired Event = 11
	Connected        Event = 16
	Failed           Event = 18
)

// State is the state of a session, as RFC 4273 numbers them.
type State uint8

const (
	Idle State = iota + 1
	Connect
	Active
	OpenSent
	OpenConfirm
	Established
)

func (state State) String() string {
	names := [...]string{"none", "Idle", "Connect", "Active", "OpenSent", "OpenConfirm", "Established"}
	if int(state) < len(names) {
		return names[state]
	}
	return names[0]
}

// Timer is one of a session's (RFC 4271, section 10), which are the host's.
type Timer uint8

const (
	RetryTimer Timer = iota + 1
	HoldTimer
	KeepaliveTimer
)

// Expired is the event that the timer expired.
func (timer Timer) Expired() Event { return RetryExpired + Event(timer-RetryTimer) }

// Do is a kind of action.
type Do uint8

const (
	Seek     Do = iota + 1 // seek a connection to the peer: Connected or Failed reports the result
	Close                  // close the connection, or abandon the attempt
	SendOpen               // send Message; so with the next two
	SendKeepalive
	SendNotification
	Arm            // start or restart Timer, for After
	Disarm         // stop Timer
	Announce       // the received UPDATE announces and withdraws routes
	WithdrawUpdate // treat-as-withdraw: all routes of the received UPDATE (RFC 7606, section 2)
	Flush          // the session has ended, and all routes of the peer with it
	SendUpdate     // send Message
)

// Action is what a session wants done.
type Action struct {
	Do      Do
	Message []byte        // of SendOpen to SendNotification, and SendUpdate
	Timer   Timer         // of Arm and Disarm
	After   time.Duration // of Arm
}

// Session is one speaker's end of one connection. It does no IO and knows no time: its host does what it answers.
type Session struct {
	lock   sync.Mutex
	handle C.ristulva_session
}

// NewSession makes a session in Idle, or answers ErrConfig or ErrMemory. Close frees what it keeps, and so does the garbage collector; nothing is sent by
// that.
func NewSession(config Config) (*Session, error) {
	if !config.ID.Is4() {
		return nil, ErrConfig
	}
	said := C.ristulva_config{
		local_as: C.uint32_t(config.LocalAS), peer_as: C.uint32_t(config.PeerAS), hold: C.uint16_t(config.HoldTime),
		as4: number(config.AS4), ip4: number(config.IP4), ip6: number(config.IP6),
	}
	for i, octet := range config.ID.As4() {
		said.id[i] = C.uint8_t(octet)
	}
	session := &Session{}
	if status := C.ristulva_session_new(&said, &session.handle); status != C.RISTULVA_OK {
		return nil, failed(status)
	}
	runtime.SetFinalizer(session, func(it *Session) { _ = it.Close() })
	return session, nil
}

// Close frees the session; once more does nothing. Each other call answers ErrClosed then.
func (session *Session) Close() error {
	session.lock.Lock()
	defer session.lock.Unlock()
	C.ristulva_session_free(&session.handle)
	return nil
}

// The actions that C reports.
func asked(told *C.ristulva_actions, message []byte) []Action {
	actions := make([]Action, told.count)
	for i := range actions {
		it := told.list[i]
		actions[i] = Action{Do: Do(it.kind), Timer: Timer(it.timer), After: time.Duration(it.seconds) * time.Second}
		if actions[i].Do >= SendOpen && actions[i].Do <= SendNotification {
			actions[i].Message = message
		}
	}
	return actions
}

// Event passes an event to the session, and gives what is to be done, in this order. What doesn't belong in the session's state does nothing.
func (session *Session) Event(event Event) ([]Action, error) {
	session.lock.Lock()
	defer session.lock.Unlock()
	var told C.ristulva_actions
	var message page
	var written C.size_t
	status := C.ristulva_session_event(&session.handle, C.uint32_t(event), &told, message.at(), MessageMax, &written)
	if status != C.RISTULVA_OK {
		return nil, failed(status)
	}
	return asked(&told, message.first(written)), nil
}

// Heard is what a session received.
type Heard struct {
	Message *Message // or the header with a fault; its verdict is that of the session in its state
	Taken   int      // the number of octets consumed
	Actions []Action
}

// Hear passes the message that octets of the peer begin with to the session. It answers ErrIncomplete where they are less than one, and ErrState where no
// connection is up; nothing has changed then. Its host drops what was consumed from what it received, and calls again.
func (session *Session) Hear(octets []byte) (*Heard, error) {
	session.lock.Lock()
	defer session.lock.Unlock()
	context, _, _ := session.agreed()
	var heard C.ristulva_heard
	var told C.ristulva_actions
	var message page
	var written C.size_t
	at, size := octetsOf(octets)
	status := C.ristulva_session_hear(&session.handle, at, size, &heard, &told, message.at(), MessageMax, &written)
	if status != C.RISTULVA_OK {
		return nil, failed(status)
	}
	sent := message.first(written)
	return &Heard{messageOf(heard, octets[:heard.len], sent, context), int(heard.len), asked(&told, sent)}, nil
}

// The message that was received, which the message `sent` answers.
func messageOf(heard C.ristulva_heard, octets, sent []byte, context Context) *Message {
	const front = 21 // the length of a NOTIFICATION before its data
	message := &Message{octets: append([]byte{}, octets...), context: context}
	message.found = C.ristulva_verdict{
		verdict: heard.heard, kind: C.uint8_t(octets[headerLen-1]), code: heard.code, subcode: heard.subcode, len: heard.len, parts: heard.parts,
	}
	if message.Verdict() == Reset && heard.code == 1 {
		message.found.kind, message.found.len = 0, 0
	}
	switch message.Verdict() {
	case Notification:
		message.data = append([]byte{}, octets[front:]...)
	case Reset:
		message.data = append([]byte{}, sent[front:]...)
	}
	message.found.data_len = C.uint32_t(len(message.data))
	return message
}

// State gives the session's state.
func (session *Session) State() (State, error) {
	session.lock.Lock()
	defer session.lock.Unlock()
	var state C.uint8_t
	status := C.ristulva_session_state(&session.handle, &state)
	return State(state), failed(status)
}

func (session *Session) agreed() (Context, time.Duration, error) {
	var said C.ristulva_context
	var hold C.uint16_t
	status := C.ristulva_session_context(&session.handle, &said, &hold)
	context := Context{said.internal != 0, said.as4 != 0, said.ip4 != 0, said.ip6 != 0}
	return context, time.Duration(hold) * time.Second, failed(status)
}

// Agreed gives what both speakers agreed on, and the Hold Time, 0 for none: ErrState in all states but OpenConfirm and Established.
func (session *Session) Agreed() (Context, time.Duration, error) {
	session.lock.Lock()
	defer session.lock.Unlock()
	return session.agreed()
}

// Peer has the parameters of a peer's OPEN.
type Peer struct {
	AS            uint32
	ID            netip.Addr
	HoldTime      uint16 // that it proposes, in seconds: 0 for none
	AS4, IP4, IP6 bool
	Codes         []byte // of all its capabilities, each once, rising
}

// Peer gives the parameters of the peer's OPEN: ErrState as for Agreed.
func (session *Session) Peer() (*Peer, error) {
	session.lock.Lock()
	defer session.lock.Unlock()
	var it C.ristulva_peer
	if status := C.ristulva_session_peer(&session.handle, &it); status != C.RISTULVA_OK {
		return nil, failed(status)
	}
	var codes [256]byte
	var written C.size_t
	status := C.ristulva_session_codes(&session.handle, (*C.uint8_t)(unsafe.Pointer(&codes[0])), 256, &written)
	return &Peer{
		AS: uint32(it.as_number), ID: addressOf(it.id), HoldTime: uint16(it.hold), AS4: it.as4 != 0, IP4: it.ip4 != 0, IP6: it.ip6 != 0,
		Codes: append([]byte{}, codes[:written]...),
	}, failed(status)
}

// OpenMessage gives the message of the session's own OPEN.
func (session *Session) OpenMessage() ([]byte, error) {
	session.lock.Lock()
	defer session.lock.Unlock()
	var message page
	var written C.size_t
	status := C.ristulva_session_open(&session.handle, message.at(), MessageMax, &written)
	return message.first(written), failed(status)
}

// Send gives an UPDATE as the session sends it now, and what else is to be done then. `body` has AS numbers of four octets, whatever the session has, and
// one kind of routes. It answers ErrState in all states but Established, ErrTooLong, ErrRefused, ErrMixed, ErrUnwritable or ErrMemory; the session stays
// as it is.
func (session *Session) Send(body []byte) ([]Action, error) {
	session.lock.Lock()
	defer session.lock.Unlock()
	var told C.ristulva_actions
	var message page
	var written C.size_t
	at, size := octetsOf(body)
	status := C.ristulva_session_send(&session.handle, at, size, &told, message.at(), MessageMax, &written)
	if status != C.RISTULVA_OK {
		return nil, failed(status)
	}
	return append([]Action{{Do: SendUpdate, Message: message.first(written)}}, asked(&told, nil)...), nil
}
