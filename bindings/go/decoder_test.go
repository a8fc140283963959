package ristulva

import (
	"errors"
	"reflect"
	"sync"
	"testing"
)

func TestPieces(t *testing.T) {
	for name, it := range captures(t) {
		whole, rest := Messages(it.context, it.octets)
		for _, size := range []int{1, 7, 4096} {
			decoder, err := NewDecoder(it.context)
			if err != nil {
				t.Fatal(err)
			}
			var messages []*Message
			for at := 0; at < len(it.octets); at += size {
				end := at + size
				if end > len(it.octets) {
					end = len(it.octets)
				}
				found, err := decoder.Feed(it.octets[at:end])
				if err != nil && !errors.Is(err, ErrReset) {
					t.Fatal(name, err)
				}
				messages = append(messages, found...)
			}
			if len(messages) != len(whole) {
				t.Fatalf("%s: %d messages for %d", name, len(messages), len(whole))
			}
			for i := range whole {
				if !reflect.DeepEqual(told(messages[i]), told(whole[i])) {
					t.Errorf("%s: %v for %v", name, told(messages[i]), told(whole[i]))
				}
			}
			held, err := decoder.Held()
			isEnded := len(whole) > 0 && whole[len(whole)-1].Verdict() == Reset
			if err != nil || (!isEnded && held != len(rest)) || (isEnded && held != 0) {
				t.Error(name, held, err)
			}
			_ = decoder.Close()
		}
	}
}

func TestClosedDecoder(t *testing.T) {
	decoder, _ := NewDecoder(Context{})
	if err := decoder.Close(); err != nil {
		t.Error(err)
	}
	if err := decoder.Close(); err != nil {
		t.Error(err)
	}
	if _, err := decoder.Feed(message(4, nil)); !errors.Is(err, ErrClosed) {
		t.Error(err)
	}
	if _, err := decoder.Held(); !errors.Is(err, ErrClosed) {
		t.Error(err)
	}
}

func TestDecodersAreShared(t *testing.T) {
	decoder, _ := NewDecoder(Context{})
	var group sync.WaitGroup
	counts := make([]int, 4)
	for i := range counts {
		group.Add(1)
		go func(i int) {
			defer group.Done()
			for j := 0; j < 100; j++ {
				found, err := decoder.Feed(message(4, nil))
				if err != nil {
					t.Error(err)
				}
				counts[i] += len(found)
			}
		}(i)
	}
	group.Wait()
	if counts[0]+counts[1]+counts[2]+counts[3] != 400 {
		t.Error(counts)
	}
}
