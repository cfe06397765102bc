// SPDX-License-Identifier: Apache-2.0

package main

import (
	"bytes"
	"os"
	"testing"
)

// The packets and what has to be printed are those of each binding.
func TestExpected(t *testing.T) {
	const folder = "../../../../examples/"
	packets, err := os.Open(folder + "packets.txt")
	if os.IsNotExist(err) {
		t.Skip("examples/ isn't here")
	} else if err != nil {
		t.Fatal(err)
	}
	defer packets.Close()
	expected, err := os.ReadFile(folder + "expected.txt")
	if err != nil {
		t.Fatal(err)
	}
	var output bytes.Buffer
	if err := showAll(packets, &output); err != nil {
		t.Fatal(err)
	}
	if !bytes.Equal(output.Bytes(), expected) {
		t.Errorf("printed is\n%s", output.Bytes())
	}
}
