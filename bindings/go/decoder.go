package ristulva

// #include "list.h"
import "C"

import (
	"runtime"
	"sync"
	"unsafe"
)

// Decoder reads a stream in whatever pieces its octets come, and gives what Messages or MessagesIn gives of the whole. It holds at most one message.
type Decoder struct {
	lock    sync.Mutex
	handle  C.ristulva_decoder
	stream  C.ristulva_stream // instead of that handle by terms
	context Context
	terms   *Terms // nil where it reads in a context
	place   uint64
	ended   bool
}

// NewDecoder begins a stream. Close frees what the decoder keeps, and so does the garbage collector.
func NewDecoder(context Context) (*Decoder, error) {
	decoder := &Decoder{context: context}
	said := context.said()
	if status := C.ristulva_decoder_new(&said, &decoder.handle); status != C.RISTULVA_OK {
		return nil, failed(status)
	}
	runtime.SetFinalizer(decoder, func(it *Decoder) { _ = it.Close() })
	return decoder, nil
}

// NewDecoderIn begins a stream that is read by terms: a ROUTE-REFRESH is a message where its reader offers it. It is closed as the one of NewDecoder is.
// ErrTerms: routes have path identifiers, or Refresh is none of its numbers.
func NewDecoderIn(terms Terms) (*Decoder, error) {
	decoder := &Decoder{context: terms.Context, terms: &terms}
	said := terms.said()
	status := C.ristulva_stream_new(&said, &decoder.stream)
	if status == C.RISTULVA_RANGE {
		return nil, ErrTerms
	}
	if status != C.RISTULVA_OK {
		return nil, failed(status)
	}
	runtime.SetFinalizer(decoder, func(it *Decoder) { _ = it.Close() })
	return decoder, nil
}

// Close frees the decoder; once more does nothing. Each other call answers ErrClosed then.
func (decoder *Decoder) Close() error {
	decoder.lock.Lock()
	defer decoder.lock.Unlock()
	C.ristulva_decoder_free(&decoder.handle)
	C.ristulva_stream_free(&decoder.stream)
	return nil
}

func (decoder *Decoder) isClosed() bool {
	return decoder.handle.body == nil && decoder.stream.body == nil
}

// Feed consumes all octets of a piece, and gives the messages that are whole with them. The last one may end the session: after it nothing is read, and
// Feed answers ErrReset.
func (decoder *Decoder) Feed(piece []byte) ([]*Message, error) {
	decoder.lock.Lock()
	defer decoder.lock.Unlock()
	if decoder.isClosed() {
		return nil, ErrClosed
	}
	if decoder.ended {
		return nil, ErrReset
	}
	var messages []*Message
	for {
		message, taken := decoder.pull(piece)
		piece = piece[taken:]
		if message == nil {
			return messages, nil
		}
		messages = append(messages, message)
		decoder.place += uint64(message.found.len)
		if message.Verdict() == Reset {
			decoder.ended = true
			return messages, nil
		}
	}
}

// The next message, and the number of octets consumed.
func (decoder *Decoder) pull(piece []byte) (*Message, C.size_t) {
	var octets page
	var data [dataMax]byte
	var taken C.size_t
	message := &Message{context: decoder.context, terms: decoder.terms, place: decoder.place}
	at, size := octetsOf(piece)
	info := (*C.uint8_t)(unsafe.Pointer(&data[0]))
	var status C.ristulva_status
	if decoder.terms == nil {
		status = C.ristulva_decoder_pull(&decoder.handle, at, size, octets.at(), MessageMax, info, dataMax, &taken, &message.found)
	} else {
		status = C.ristulva_stream_pull(&decoder.stream, at, size, octets.at(), MessageMax, info, dataMax, &taken, &message.found)
	}
	if status != C.RISTULVA_OK {
		return nil, taken
	}
	message.take(octets[:], data[:])
	return message, taken
}

// Held is the number of octets of an incomplete message that the decoder holds.
func (decoder *Decoder) Held() (int, error) {
	decoder.lock.Lock()
	defer decoder.lock.Unlock()
	var held C.size_t
	if decoder.terms != nil {
		status := C.ristulva_stream_held(&decoder.stream, &held)
		return int(held), failed(status)
	}
	status := C.ristulva_decoder_held(&decoder.handle, &held)
	return int(held), failed(status)
}
