// SPDX-License-Identifier: Apache-2.0

package davgyuti_test

import (
	"testing"

	"davgyuti.example/davgyuti"
)

func TestRefused(t *testing.T) {
	builder, err := davgyuti.Begin(make([]byte, 100), 1, 2, 3)
	if err == nil {
		err = builder.AddSACK(1, 2, []davgyuti.GapAckBlock{{Start: 2, End: 3}}, []uint32{4})
	}
	if err == nil {
		err = builder.AddAbort("why", false)
	}
	if err == nil {
		err = builder.Seal()
	}
	if err != nil {
		t.Fatal(err)
	}
	packet := davgyuti.Packet(builder.Bytes())
	for name, write := range map[string]func(davgyuti.Packet) (string, error){
		"print":  func(it davgyuti.Packet) (string, error) { return it.Print(davgyuti.Policy{}) },
		"report": func(it davgyuti.Packet) (string, error) { return it.Report(davgyuti.Policy{}) },
		"canonical": func(it davgyuti.Packet) (string, error) {
			bytes, err := it.Canonical(davgyuti.Policy{})
			return string(bytes), err
		},
	} {
		davgyuti.Grant(-1)
		wanted, err := write(packet)
		if err != nil {
			t.Error(name, err)
		}
		refusals := 0
		for ; ; refusals++ {
			davgyuti.Grant(refusals)
			found, err := write(packet)
			if err == nil && found == wanted {
				break
			}
			if err != davgyuti.ErrNoMemory || found != "" {
				t.Fatal(name, refusals, err, found)
			}
			// A fault is found without memory.
			davgyuti.Grant(refusals)
			if _, err = write(packet[:len(packet)-1]); err == nil || err == davgyuti.ErrNoMemory {
				t.Error(name, refusals, err)
			}
		}
		// (Only Print asks for any.)
		if (refusals > 0) != (name == "print") {
			t.Error(name, refusals)
		}
	}
}
