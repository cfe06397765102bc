// SPDX-License-Identifier: Apache-2.0

package davgyuti_test

import (
	"bytes"
	"io"
	"runtime"
	"runtime/pprof"
	"sync"
	"testing"
	"time"

	"davgyuti.example/davgyuti"
)

// deeper runs a function so many calls deeper.
//
//go:noinline
func deeper(calls int, run func()) {
	var room [100]byte
	if calls > 0 {
		deeper(calls-1, run)
	} else {
		run()
	}
	runtime.KeepAlive(&room)
}

// Goroutines whose stacks are new, and of any depth, read and write while the collector of garbage runs all the time, and signals ask
// where the program is.
func TestAmongSignals(t *testing.T) {
	good := sealed("00030018 00000001 0002 0003 00000033 6162636465666768" + "0300001c 00000001 00020000 0002 0001 0002 0003 0005 0006 00000009")
	bad := append(davgyuti.Packet(nil), good...)
	bad[20]++
	if err := pprof.StartCPUProfile(io.Discard); err != nil {
		t.Skip(err)
	}
	defer pprof.StopCPUProfile()
	end := time.Now().Add(2 * time.Second)
	var all sync.WaitGroup
	all.Add(1)
	go func() {
		defer all.Done()
		for time.Now().Before(end) {
			runtime.GC()
		}
	}()
	run := func() {
		var parsed davgyuti.Parsed
		if err := parsed.Read(good, davgyuti.Policy{}); err != nil || parsed.Len() != 2 || bad.IsValid(davgyuti.Policy{}) {
			t.Errorf("%v, %d chunks", err, parsed.Len())
			return
		}
		data, _ := parsed.Data(0)
		sack, _ := parsed.SACK(1)
		room := [64]byte{}
		builder, err := davgyuti.Begin(room[:], 5000, 5001, 0x01020304)
		if err == nil {
			err = builder.AddData(data)
		}
		if err == nil {
			err = builder.AddSACK(sack.CumulativeTSNAck, sack.ARwnd, parsed.GapAckBlocks(1), parsed.DuplicateTSNs(1))
		}
		if err == nil {
			err = builder.Seal()
		}
		if err != nil || !bytes.Equal(builder.Bytes(), good) {
			t.Errorf("%v, %x", err, room)
		}
	}
	for worker := 0; worker < 4; worker++ {
		all.Add(1)
		go func(calls int) {
			defer all.Done()
			for ; time.Now().Before(end) && !t.Failed(); calls++ {
				done := make(chan bool)
				go func() {
					deeper(calls%200, run)
					close(done)
				}()
				<-done
			}
		}(50 * worker)
	}
	all.Wait()
}
