// SPDX-License-Identifier: Apache-2.0

package davgyuti_test

import (
	"fmt"
	"math/rand"
	"net"
	"os/exec"
	"runtime"
	"strings"
	"testing"
	"time"

	"davgyuti.example/davgyuti"
)

var policies = []davgyuti.Policy{{}, {AnyChecksum: true}, {ZeroChecksum: true}, {AllowedZeroChecksum: true}, {StrictPadding: true}}

// A batch is what its packets are one by one: the vectors, which have the rest of what a Parsed reads.
func TestReadBatch(t *testing.T) {
	packets := []davgyuti.Packet{nil, make([]byte, 15), make([]byte, 65536)}
	for i, text := range append(bare, strings.Join(bare, ""), "0b000003") {
		packets = append(packets, sealed(text), sealed(strings.Repeat("0b000004", 1+i)))
		packets[len(packets)-1][8+i%4] ^= byte(i & 1)
	}
	for _, policy := range policies {
		batch := make([]davgyuti.Parsed, len(packets)+1)
		equal(t, "read before", batch[0].Read(packets[3], davgyuti.Policy{}), nil)
		davgyuti.ReadBatch(batch, packets, policy)
		for i, packet := range packets {
			what, one := fmt.Sprintf("packet %d of a batch", i), davgyuti.Parsed{}
			equal(t, what, one.Read(packet, policy), packet.Check(policy))
			equal(t, what, []interface{}{batch[i].Len(), batch[i].Header}, []interface{}{one.Len(), one.Header})
			for k := 0; k < one.Len(); k++ {
				equal(t, what, append(readsAt(&batch[i], k), itemsAt(&batch[i], k)...), append(readsAt(&one, k), itemsAt(&one, k)...))
			}
		}
	}
	parsed := make([]davgyuti.Parsed, len(packets))
	davgyuti.ReadBatch(parsed, packets, davgyuti.Policy{})
	equal(t, "allocations", testing.AllocsPerRun(5, func() { davgyuti.ReadBatch(parsed, packets, davgyuti.Policy{}) }), 0.0)
	davgyuti.ReadBatch(nil, nil, davgyuti.Policy{})
	defer func() { equal(t, "fewer Parsed than packets panic", recover() != nil, true) }()
	davgyuti.ReadBatch(parsed[1:], packets, davgyuti.Policy{})
}

// Whatever becomes of a packet that was read, and of its chunks: nothing panics.
func TestParsedChanged(t *testing.T) {
	var parsed davgyuti.Parsed
	random := rand.New(rand.NewSource(3))
	for round := 0; round < 2000; round++ {
		packet := sealed(strings.Join(bare, "") + "c0000010 0000000a 0001 0002 0003 0004 c2000010 0000000a 0001 0001 00000002")
		equal(t, "read", parsed.Read(packet, davgyuti.Policy{}), nil)
		for change := 0; change < 40; change++ {
			packet[random.Intn(len(packet))] = byte(random.Intn(256))
		}
		for i := 0; i < parsed.Len(); i++ {
			chunk := parsed.Chunk(i)
			if random.Intn(2) == 0 {
				chunk.Type, chunk.Value = davgyuti.ChunkType(random.Intn(16)*random.Intn(14)), chunk.Value[:random.Intn(len(chunk.Value)+1)]
				chunk.Offset += random.Intn(100) - 50
			}
			_, _, _ = readsOf(chunk), readsAt(&parsed, i), chunk.Bytes()
			for _, parameter := range chunk.Parameters().Slice() {
				_, _ = parameter.ReConfig()
				_, _ = parameter.Registered()
			}
			for k := 0; k < parsed.ParameterCount(i); k++ {
				_, _ = parsed.ReConfig(i, k)
				_, _ = parsed.Parameter(i, k).ResetStreams().Slice(), parsed.ResetStreams(i, k)
			}
			for k := 0; k < parsed.CauseCount(i); k++ {
				_ = parsed.Cause(i, k).MissingParameters().Slice()
			}
		}
	}
}

// The streams of some RE-CONFIG (RFC 6525 sections 4.1 and 4.2): few, many, and none, after values of an odd size.
func TestParsedStreams(t *testing.T) {
	text, many := "", make([]uint16, 300)
	for i := range many {
		many[i] = uint16(0x1234 + 251*i)
		text += fmt.Sprintf("%04x", many[i])
	}
	packet := sealed("8200 0009 0063 0005 aa000000" +
		"8200 0020 0063 0005 bb000000 000d 0014 00000001 00000002 00000003 0102 fffe" +
		"8200 0280 000e 000a 00000004 0304 0000 000e 0260 00000005" + text + "000d 0010 00000006 00000007 00000008" +
		"0100 0024 00000001 00010000 0001 0001 00000001 000d 0010 00000006 00000007 00000008")
	var parsed davgyuti.Parsed
	equal(t, "read", parsed.Read(packet, davgyuti.Policy{}), nil)
	for _, c := range []struct {
		chunk, index int
		request      uint32
		isThere      bool
		streams      []uint16
	}{
		{0, 0, 0, false, nil},
		{1, 0, 0, false, nil},
		{1, 1, 1, true, []uint16{0x0102, 0xfffe}},
		{2, 0, 4, true, []uint16{0x0304}},
		{2, 1, 5, true, many},
		{2, 2, 6, true, nil},
		{3, 0, 0, false, nil}, // an INIT's
	} {
		found, isThere := parsed.ReConfig(c.chunk, c.index)
		streams := parsed.ResetStreams(c.chunk, c.index)
		equal(t, "request", []interface{}{found.RequestNumber, found.StreamCount, isThere}, []interface{}{c.request, len(c.streams), c.isThere})
		equal(t, "streams", []interface{}{streams, cap(streams)}, []interface{}{c.streams, len(c.streams)})
	}
	builder, buffer := davgyuti.Builder{}, make([]byte, 1200)
	equal(t, "allocations", testing.AllocsPerRun(5, func() {
		err := parsed.Read(packet, davgyuti.Policy{})
		if err == nil {
			err = builder.Reset(buffer, 1, 2, 3)
		}
		if err == nil {
			err = builder.AddChunk(davgyuti.ChunkReConfig, 0, nil)
		}
		for k := 0; err == nil && k < parsed.ParameterCount(2); k++ {
			it, _ := parsed.ReConfig(2, k)
			err = builder.AddReConfig(it, parsed.ResetStreams(2, k))
		}
		if err != nil {
			t.Error(err)
		}
	}), 0.0)
	equal(t, "written", builder.Bytes()[davgyuti.FirstChunk:], []byte(packet[56:56+640]))
}

// A packet of as many chunks as there can be, one of as many blocks, and one of as many parameters.
func TestParsedLarge(t *testing.T) {
	var parsed davgyuti.Parsed
	for _, text := range []string{strings.Repeat("0b000004", 16380), "0300fff0 00000001 00000002 3ff8 0000" + strings.Repeat("00020003", 16376),
		"8200ffcc" + strings.Repeat("00630004", 16370)} {
		packet := sealed(text)
		equal(t, "read", parsed.Read(packet, davgyuti.Policy{}), nil)
		equal(t, "allocations", testing.AllocsPerRun(5, func() { _ = parsed.Read(packet, davgyuti.Policy{}) }), 0.0)
	}
	equal(t, "parameters", []int{parsed.Len(), parsed.ParameterCount(0), parsed.CauseCount(0)}, []int{1, 16370, 0})
	equal(t, "last", parsed.Parameter(0, 16369).Offset, 16+4*16369)
}

func TestParsedAllocates(t *testing.T) {
	var parsed davgyuti.Parsed
	packet := sealed(strings.Join(bare, ""))
	equal(t, "read", parsed.Read(packet, davgyuti.Policy{}), nil)
	sum := 0
	equal(t, "allocations", testing.AllocsPerRun(100, func() {
		if parsed.Read(packet, davgyuti.Policy{AllowedZeroChecksum: true}) != nil {
			t.Error("it is no packet")
		}
		for i := 0; i < parsed.Len(); i++ {
			chunk := parsed.Chunk(i)
			data, _ := chunk.Data()
			sack, _ := chunk.SACK()
			init, _ := chunk.Init()
			sum += len(data.Payload) + int(sack.ARwnd) + int(init.ARwnd) + len(parsed.GapAckBlocks(i)) + len(parsed.DuplicateTSNs(i))
			for k := 0; k < parsed.ParameterCount(i); k++ {
				sum += len(parsed.Parameter(i, k).Value)
			}
		}
	}), 0.0)
	for _, out := range []func(){func() { parsed.Chunk(len(bare)) }, func() { parsed.Parameter(0, 0) }, func() { parsed.Cause(1, 0) }} {
		func() {
			defer func() { equal(t, "panics", recover() != nil, true) }()
			out()
		}()
	}
}

// What the package's comment says of allocations.
func TestAllocations(t *testing.T) {
	packet, fault := sealed(strings.Join(bare, "")), sealed("0b000004 0b000003")
	var parsed davgyuti.Parsed
	equal(t, "read", parsed.Read(packet, davgyuti.Policy{}), nil)
	sack := only(t, sealed("03000014 0000000a 00010000 0001 0000 00020003"))
	chunks, blocks := packet.Chunks(), make([]*davgyuti.Iterator[davgyuti.GapAckBlock], 0, 11)
	for i := 0; i < cap(blocks); i++ {
		blocks = append(blocks, sack.GapAckBlocks())
	}
	next, sum := 0, 0
	for _, c := range []struct {
		what    string
		call    func()
		isThere bool // whether something is allocated
	}{
		{"Check", func() { _ = packet.Check(davgyuti.Policy{}) }, false},
		{"Check of a fault", func() { _ = fault.Check(davgyuti.Policy{}) }, true},
		{"IsValid", func() { packet.IsValid(davgyuti.Policy{}) }, false},
		{"IsValid of a fault", func() { fault.IsValid(davgyuti.Policy{}) }, false},
		{"Parsed.Read of a fault", func() { _ = parsed.Read(fault, davgyuti.Policy{}) }, true},
		{"VerifyTag", func() { packet.VerifyTag(davgyuti.Association{OwnTag: own}) }, false},
		{"OutOfTheBlue", func() { packet.OutOfTheBlue(true) }, false},
		{"BrokenRules", func() { packet.BrokenRules(davgyuti.Known{}) }, false},
		{"Header", func() { packet.Header() }, false},
		{"ChunkAt", func() { packet.ChunkAt(davgyuti.FirstChunk) }, false},
		{"Chunks", func() {
			for chunks := packet.Chunks(); chunks.Next(); {
				for parameters := chunks.Value().Parameters(); parameters.Next(); {
					sum += len(parameters.Value().Value)
				}
				for causes := chunks.Value().Causes(); causes.Next(); {
					sum += len(causes.Value().Value)
				}
			}
		}, false},
		{"Next of Chunks", func() { chunks.Next() }, false},
		{"GapAckBlocks", func() { sack.GapAckBlocks() }, true},
		{"the first Next of GapAckBlocks", func() { blocks[next].Next(); next++ }, false},
	} {
		equal(t, c.what, testing.AllocsPerRun(10, c.call) > 0, c.isThere)
	}
}

// AnyChecksum computes no CRC32c, which takes most of the time of a large packet: the least of many times, whatever else runs.
func TestAnyChecksum(t *testing.T) {
	packet := sealed("0003fff0 00000001 0001 0001 00000000" + strings.Repeat("61", 65504))
	parsed := make([]davgyuti.Parsed, 1)
	least := func(call func(davgyuti.Policy), policy davgyuti.Policy) time.Duration {
		least := time.Hour
		for i := 0; i < 300; i++ {
			begin := time.Now()
			call(policy)
			if took := time.Since(begin); took < least {
				least = took
			}
		}
		return least
	}
	for what, call := range map[string]func(davgyuti.Policy){
		"Check":       func(policy davgyuti.Policy) { equal(t, "Check", packet.Check(policy), nil) },
		"IsValid":     func(policy davgyuti.Policy) { equal(t, "IsValid", packet.IsValid(policy), true) },
		"Parsed.Read": func(policy davgyuti.Policy) { equal(t, "Read", parsed[0].Read(packet, policy), nil) },
		"ReadBatch":   func(policy davgyuti.Policy) { davgyuti.ReadBatch(parsed, []davgyuti.Packet{packet}, policy) },
	} {
		with, without := least(call, davgyuti.Policy{}), least(call, davgyuti.Policy{AnyChecksum: true})
		if with < 2*without {
			t.Errorf("%s: %v with the CRC32c, %v without", what, with, without)
		}
	}
}

// What is a packet comes through a checkedConn, both ways, and nothing else.
func TestConn(t *testing.T) {
	var good []davgyuti.Packet
	for _, text := range bare {
		good = append(good, sealed(text))
	}
	for _, wanted := range []string{"read", "written"} {
		dropped := 0
		sender, receiver := net.Pipe()
		report := func(direction string, _ error) {
			dropped++
			equal(t, "direction", direction, wanted)
		}
		if wanted == "read" {
			receiver = &checkedConn{Conn: receiver, report: report}
		} else {
			sender = &checkedConn{Conn: sender, report: report}
		}
		go func() {
			for _, packet := range good {
				bad := append(davgyuti.Packet(nil), packet...)
				bad[9]++
				for _, it := range []davgyuti.Packet{bad, packet} {
					size, err := sender.Write(it)
					equal(t, "written", []interface{}{size, err}, []interface{}{len(it), nil})
				}
			}
			sender.Close()
		}()
		var came []davgyuti.Packet
		buffer := make([]byte, 65536)
		for size, err := receiver.Read(buffer); err == nil; size, err = receiver.Read(buffer) {
			came = append(came, append(davgyuti.Packet(nil), buffer[:size]...))
		}
		equal(t, wanted, []interface{}{came, dropped}, []interface{}{good, len(good)})
	}
}

// Each request of the library for memory is refused in turn, in a copy of the package: its text calls what
// testdata/tests/refusing has.
func TestNoMemory(t *testing.T) {
	if runtime.GOOS != "linux" || runtime.GOARCH != "amd64" {
		t.Skip("the text that is changed is that of Linux on x86-64")
	}
	command := exec.Command("sh", "-c", `cp -r *.h go.mod *_linux_amd64.s internal testdata/tests/refusing/* "$0" && for file in *.go; do
			case $file in *_test.go) ;; *) cp "$file" "$0" ;; esac; done &&
		sed -i 's/\t\(malloc@PLT\|realloc@PLT\)/\trefusing_\1/' "$0"/dcsctp_linux_amd64.s && cd "$0" && go test .`, t.TempDir())
	if output, err := command.CombinedOutput(); err != nil {
		t.Errorf("%v: %s", err, output)
	}
}
