// SPDX-License-Identifier: Apache-2.0

package direct_test

import (
	"runtime"
	"testing"

	"davgyuti.example/davgyuti/internal/direct"
	"davgyuti.example/davgyuti/internal/direct/tests/deep"
)

// at calls a function so many calls deeper.
//
//go:noinline
func at(calls int, it func() uint32) (found uint32) {
	var room [64]byte
	if calls > 0 {
		found = at(calls-1, it)
	} else {
		found = it()
	}
	runtime.KeepAlive(&room)
	return found
}

// At each depth of a new goroutine's stack C runs in the frame of Call, not below it: there the stack may end.
func TestCallGivesTheFrame(t *testing.T) {
	if !direct.IsThere {
		t.Skip("C is called by cgo")
	}
	for calls := 0; calls < 500; calls++ {
		found := make(chan uint32)
		go func() { found <- at(calls, deep.Below) }()
		if below := <-found; below == 0 || below > 1000 {
			t.Fatalf("%d calls deep C's stack begins %d bytes below Go's", calls, below)
		}
	}
}
