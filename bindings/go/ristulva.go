// Package ristulva reads BGP-4 messages, judges them as RFC 4271 and RFC 7606 say, and keeps sessions, by the library for C.
//
//	messages, rest := ristulva.Messages(ristulva.Context{AS4: true}, octets)
//	for _, message := range messages { // and `rest` has the octets of an incomplete one
//		fmt.Print(message)
//		if message.Verdict() == ristulva.Update {
//			fmt.Println(message.Announced(), message.ASPath())
//		}
//	}
//
// It is linked with libristulva. No octet of a caller's slice is kept after a call. Values are safe for concurrent reading; a Decoder and a Session may
// be shared, and each call takes its turn.
package ristulva

// #cgo LDFLAGS: -lristulva
// #include "list.h"
import "C"

import (
	"errors"
	"fmt"
	"unsafe"
)

// Errors of calls; errors.Is distinguishes them.
var (
	ErrMemory     = errors.New("ristulva: an allocation failed")
	ErrTooLong    = errors.New("ristulva: too long a body")
	ErrIncomplete = errors.New("ristulva: an incomplete message")
	ErrRefused    = errors.New("ristulva: not accepted whole")
	ErrUnwritable = errors.New("ristulva: it can't be written")
	ErrState      = errors.New("ristulva: the session isn't in a state for this")
	ErrConfig     = errors.New("ristulva: the configuration isn't allowed")
	ErrMixed      = errors.New("ristulva: routes of several kinds")
	ErrClosed     = errors.New("ristulva: it is closed")
	ErrReset      = errors.New("ristulva: the stream was ended by a reset")
	ErrTerms      = errors.New("ristulva: routes have path identifiers, which this call doesn't read, or a number of terms is out of its range")
	ErrRefresh    = errors.New("ristulva: a ROUTE-REFRESH isn't cleaned")
)

// Version is that of the library which is linked, as "0.4.0".
func Version() string {
	number := uint32(C.ristulva_version())
	return fmt.Sprintf("%d.%d.%d", number/1000000, number/1000%1000, number%1000)
}

// The status of a call that writes an UPDATE.
func failed(status C.ristulva_status) error {
	switch status {
	case C.RISTULVA_OK:
		return nil
	case C.RISTULVA_NO_SESSION:
		return ErrClosed
	case C.RISTULVA_MEMORY:
		return ErrMemory
	case C.RISTULVA_RANGE:
		return ErrTooLong
	case C.RISTULVA_INCOMPLETE:
		return ErrIncomplete
	case C.RISTULVA_REFUSED:
		return ErrRefused
	case C.RISTULVA_UNWRITABLE:
		return ErrUnwritable
	case C.RISTULVA_STATE:
		return ErrState
	case C.RISTULVA_CONFIG:
		return ErrConfig
	case C.RISTULVA_MIXED:
		return ErrMixed
	}
	return fmt.Errorf("ristulva: status %d", uint32(status))
}

// Used as octets where there are none.
var nothing [1]byte

// A pointer to octets, never nil, and their number.
func octetsOf(octets []byte) (*C.uint8_t, C.size_t) {
	if len(octets) == 0 {
		return (*C.uint8_t)(unsafe.Pointer(&nothing[0])), 0
	}
	return (*C.uint8_t)(unsafe.Pointer(&octets[0])), C.size_t(len(octets))
}

func number(is bool) C.uint8_t {
	if is {
		return 1
	}
	return 0
}
