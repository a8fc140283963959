package ristulva

// #include "list.h"
import "C"

import "unsafe"

// A buffer for a message.
type page [MessageMax]byte

func (page *page) at() *C.uint8_t { return (*C.uint8_t)(unsafe.Pointer(&page[0])) }

func (page *page) first(written C.size_t) []byte { return append([]byte{}, page[:written]...) }

// Encode gives the message of the UPDATE that a body is, in its one written form: ErrTooLong, ErrRefused where it isn't accepted whole, or ErrMemory.
func Encode(context Context, body []byte) ([]byte, error) {
	var message page
	var written C.size_t
	said := context.said()
	at, size := octetsOf(body)
	status := C.ristulva_encode(&said, at, size, message.at(), MessageMax, &written)
	return message.first(written), failed(status)
}

// Narrow does the same for a speaker with AS numbers of two octets (RFC 6793): ErrUnwritable too, where it would be too long.
func Narrow(context Context, body []byte) ([]byte, error) {
	var message page
	var written C.size_t
	said := context.said()
	at, size := octetsOf(body)
	status := C.ristulva_narrow(&said, at, size, message.at(), MessageMax, &written)
	return message.first(written), failed(status)
}

// Reconcile gives the UPDATE of a session with AS numbers of two octets as speakers with four see it.
func Reconcile(context Context, body []byte) ([]byte, error) {
	var message page
	var written C.size_t
	said := context.said()
	at, size := octetsOf(body)
	status := C.ristulva_reconcile(&said, at, size, message.at(), MessageMax, &written)
	return message.first(written), failed(status)
}

// Ends is why a cleaned stream ends before a message.
type Ends uint8

const (
	HandedOn     Ends = iota // it doesn't: the message is passed on, or its replacement is
	EndsReset                // the message is answered by a NOTIFICATION
	EndsLateOpen             // an OPEN that isn't the first message
	EndsNoFamily             // an OPEN that offers families, and neither IPv4 nor IPv6 unicast
)

// Cleaned is the result of cleaning a message.
type Cleaned struct {
	Octets       []byte // what is passed on of it: a whole message in its one written form, none where the stream ends
	Ends         Ends
	Discarded    int // attributes of an UPDATE that is accepted which are discarded
	LeftOut      int // other ones, which are left out by their types
	Capabilities int // capabilities of an OPEN that are left out
}

// Clean gives what may be passed on of the message to a receiver, well formed whatever arrived: one message, or up to three of an UPDATE: withdrawn
// routes, those of NLRI, those of MP_REACH_NLRI. Attributes of unrecognised types among `types` are left out; `first` is whether the message is the first
// one of its stream. ErrRefresh: a ROUTE-REFRESH isn't passed on.
func (message *Message) Clean(first bool, types ...byte) (Cleaned, error) {
	if message.isRefresh() {
		return Cleaned{}, ErrRefresh
	}
	var written [PartsMax]byte
	var count C.size_t
	var told C.ristulva_cleaned
	said := message.context.said()
	kinds, kindCount := octetsOf(types)
	at, size := octetsOf(message.octets)
	status := C.ristulva_clean(&said, kinds, kindCount, number(first), at, size, (*C.uint8_t)(unsafe.Pointer(&written[0])), PartsMax, &count, &told)
	if status != C.RISTULVA_OK {
		return Cleaned{}, failed(status)
	}
	return Cleaned{append([]byte(nil), written[:count]...), Ends(told.ends), int(told.discarded), int(told.left_out), int(told.capabilities)}, nil
}
