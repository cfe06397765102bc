// SPDX-License-Identifier: Apache-2.0

package davgyuti_test

import (
	"bytes"
	"encoding"
	"encoding/binary"
	"encoding/gob"
	"encoding/hex"
	"errors"
	"fmt"
	"hash/crc32"
	"io"
	"math/bits"
	"math/rand"
	"net"
	"net/netip"
	"os"
	"os/exec"
	"reflect"
	"regexp"
	"runtime"
	"strings"
	"testing"

	"davgyuti.example/davgyuti"
)

func ofHex(text string) []byte {
	all, err := hex.DecodeString(strings.ReplaceAll(text, " ", ""))
	if err != nil {
		panic(err)
	}
	return all
}

// sealed returns a packet from port 5000 to port 5001 under the tag 0x01020304.
func sealed(chunks string) davgyuti.Packet {
	packet := ofHex("1388 1389 01020304 00000000" + chunks)
	binary.LittleEndian.PutUint32(packet[8:], crc32.Checksum(packet, crc32.MakeTable(crc32.Castagnoli)))
	return packet
}

func equal(t *testing.T, what string, found, wanted interface{}) {
	t.Helper()
	if !reflect.DeepEqual(found, wanted) {
		t.Errorf("%s: is %v, not %v", what, found, wanted)
	}
}

// there returns a value that has to be there.
func there[T any](t *testing.T) func(value T, isThere bool) T {
	t.Helper()
	return func(value T, isThere bool) T {
		t.Helper()
		if !isThere {
			t.Errorf("there is no %T", value)
		}
		return value
	}
}

// only returns the only chunk of a packet, which has to be without a fault in its padding too.
func only(t *testing.T, packet davgyuti.Packet) davgyuti.Chunk {
	t.Helper()
	if err := packet.Check(davgyuti.Policy{StrictPadding: true}); err != nil {
		t.Fatal(err)
	}
	chunks := packet.Chunks().Slice()
	if len(chunks) != 1 {
		t.Fatalf("there are %d chunks", len(chunks))
	}
	return chunks[0]
}

const own, peer, other = 0x01020304, 0x05060708, 0x090a0b0c

const numbers = "00000001 00000002 0003 0004 00000005"

// Of each kind of chunk that has a size, with its padding (RFC 9260 section 3.3, RFC 8260 section 2.1, RFC 6525 section 3.1).

var bare = []string{
	"000b0013 01020304 0005 0006 00000033 616263 00", "01000020" + numbers + "8008 0006 82c0 0000 c000 0004",
	"0300001c 0000000a 00010000 0002 0001 0002 0003 0005 0005 00000009", "0400000b 0001 0007 616263 00",
	"0601000a 000c 0006 6869 0000", "07000008 00000007", "0a000005 61 000000", "0b000004",
	"40010016 01020305 0005 0000 00000007 00000009 6162 0000", "8200000e 000e 000a 00000001 0005 0000", "c87f0007 616263 00",
}

func TestPacket(t *testing.T) {
	packet := sealed("0b000004 000b0013 01020304 0005 0006 00000033 616263 00")
	header := there[davgyuti.Header](t)(packet.Header())
	equal(t, "header", header, davgyuti.Header{SourcePort: 5000, DestinationPort: 5001, VerificationTag: 0x01020304,
		Checksum: packet.Word()})
	equal(t, "valid", packet.IsValid(davgyuti.Policy{}), true)
	equal(t, "chunks", len(packet.Chunks().Slice()), 2)
	chunk := there[davgyuti.Chunk](t)(packet.ChunkAt(16))
	equal(t, "chunk", chunk.Type, davgyuti.ChunkData)
	for _, offset := range []int{36, 99, -1} {
		if _, isThere := packet.ChunkAt(offset); isThere {
			t.Errorf("a chunk is at %d", offset)
		}
	}
	var none davgyuti.Iterator[int]
	equal(t, "zero iterator", []interface{}{none.Next(), none.Value(), none.Slice()}, []interface{}{false, 0, []int(nil)})
	count := 0
	packet.Chunks().All(func(davgyuti.Chunk) bool { count++; return false })
	equal(t, "stopped", count, 1)

	canonical := append([]byte(nil), packet...)
	copy(canonical[8:12], []byte{0, 0, 0, 0})
	found, err := packet.Canonical(davgyuti.Policy{})
	equal(t, "canonical", []interface{}{found, err}, []interface{}{canonical, nil})
	for i, policy := range policies {
		equal(t, "zero", davgyuti.Packet(canonical).IsValid(policy), i > 0 && i < 4)
	}
	found, err = davgyuti.Packet(canonical).Canonical(davgyuti.Policy{AnyChecksum: true})
	equal(t, "canonical", []interface{}{found, err}, []interface{}{canonical, nil})

	text, err := packet.Print(davgyuti.Policy{})
	if err != nil || !strings.HasPrefix(text, "source=5000 destination=5001 tag=16909060 ") || strings.HasSuffix(text, "\n") {
		t.Errorf("printed are %v, %q", err, text)
	}
	report, err := packet.Report(davgyuti.Policy{})
	if err != nil || !strings.HasSuffix(report, "\n") || !strings.Contains(report, "\n  ") {
		t.Errorf("reported are %v, %q", err, report)
	}
	accepted, err := packet.Report(davgyuti.Policy{AnyChecksum: true})
	if err != nil || accepted != report || !strings.Contains(report, ": right\n") {
		t.Errorf("reported of any checksum are %v, %q", err, accepted)
	}

	equal(t, "string", packet.String(), report)
	equal(t, "tag", packet.SetTag(7), nil)
	equal(t, "string", fmt.Sprint(packet), "davgyuti: wrong checksum at byte 8")
	equal(t, "valid", packet.IsValid(davgyuti.Policy{}), false)
	equal(t, "seal", packet.Seal(), nil)
	equal(t, "valid", packet.IsValid(davgyuti.Policy{}), true)
	equal(t, "tag", there[davgyuti.Header](t)(packet.Header()).VerificationTag, uint32(7))
	equal(t, "short", davgyuti.Packet(make([]byte, 11)).Seal(), davgyuti.ErrBadPlace)
	equal(t, "short", davgyuti.Packet(nil).SetTag(1), davgyuti.ErrBadPlace)
}

// What Seal writes, Word returns and a packet is checked by is one word, the library's and the processor's, and that of Go's hash/crc32:
// at each address, of each size up to some blocks of three lanes (dcsctp_processor.h).
func TestWord(t *testing.T) {
	defer davgyuti.UseProcessorCRC32c(false)
	equal(t, "used", davgyuti.UseProcessorCRC32c(false), false)
	t.Log("the processor's CRC32c is used:", davgyuti.UseProcessorCRC32c(true))
	random, castagnoli := rand.New(rand.NewSource(1)), crc32.MakeTable(crc32.Castagnoli)
	memory := make([]byte, 8+65535)
	random.Read(memory)
	wrong := &davgyuti.Error{Code: davgyuti.ErrChecksum, Offset: 8}
	for size := davgyuti.FirstChunk; size <= 65535 && !t.Failed(); size++ {
		if size == 12+3*1536+100 {
			size = 65528
		}
		for at := 0; at < 8; at++ {
			packet := davgyuti.Packet(memory[at : at+size])
			copy(packet[8:], []byte{0, 0, 0, 0, 99, 0, byte((size - 12) >> 8), byte(size - 12)})
			word := bits.ReverseBytes32(crc32.Checksum(packet, castagnoli))
			for _, use := range []bool{true, false} {
				if !use && at > 0 {
					continue // (a proved function reads bytes, wherever they are)
				}
				davgyuti.UseProcessorCRC32c(use)
				copy(packet[8:], make([]byte, 4))
				equal(t, "word", packet.Word(), word)
				equal(t, "seal", packet.Seal(), nil)
				equal(t, "field", there[davgyuti.Header](t)(packet.Header()).Checksum, word)
				if size < 16 {
					continue // it is no packet
				}
				equal(t, fmt.Sprint(size, " bytes"), packet.Check(davgyuti.Policy{}), nil)
				changed := random.Intn(size)
				packet[changed] ^= 1
				equal(t, fmt.Sprint(size, " bytes, changed"), packet.Check(davgyuti.Policy{}), wrong)
				packet[changed] ^= 1
			}
		}
	}
	for _, use := range []bool{false, true} {
		davgyuti.UseProcessorCRC32c(use)
		equal(t, "word", davgyuti.Packet(memory[:davgyuti.FirstChunk-1]).Word(), uint32(0))
		equal(t, "seal", davgyuti.Packet(memory[:davgyuti.FirstChunk-1]).Seal(), davgyuti.ErrBadPlace)
		b, err := davgyuti.Begin(make([]byte, 16), 1, 2, 3)
		equal(t, "begin", []error{err, b.AddCookieAck(), b.Seal(), davgyuti.Packet(b.Bytes()).Check(davgyuti.Policy{})}, make([]error, 4))
	}
}

func TestFaults(t *testing.T) {
	changed := sealed("0b000004")
	changed[8] ^= 1
	for _, c := range []struct {
		packet davgyuti.Packet
		code   davgyuti.Code
		offset int
		text   string
	}{
		{nil, davgyuti.ErrSize, 0, "davgyuti: not the size of a packet at byte 0"},
		{make([]byte, 65536), davgyuti.ErrSize, 65535, "davgyuti: not the size of a packet at byte 65535"},
		{changed, davgyuti.ErrChecksum, 8, "davgyuti: wrong checksum at byte 8"},
		{sealed("82000010 0010 000c 00000009 00000007"), davgyuti.ErrValue, 16, "davgyuti: unknown result of a re-configuration at byte 16"},
		{sealed("0a000007 616263 01"), davgyuti.ErrPadding, 19, "davgyuti: wrong padding at byte 19"},
	} {
		policy, wanted := davgyuti.Policy{StrictPadding: true}, &davgyuti.Error{Code: c.code, Offset: c.offset}
		err := c.packet.Check(policy)
		equal(t, c.text, []interface{}{err, err.Error(), errors.Is(err, c.code), errors.Is(err, davgyuti.ErrNoRoom), c.packet.IsValid(policy)},
			[]interface{}{wanted, c.text, true, false, false})
		_, print := c.packet.Print(policy)
		_, report := c.packet.Report(policy)
		_, canonical := c.packet.Canonical(policy)
		equal(t, c.text, []error{print, report, canonical}, []error{wanted, wanted, wanted})
	}
	for code, name := range []string{"unknown", "size", "checksum", "length", "value", "padding", "no-memory", "no-room", "too-long",
		"bad-value", "bad-place", "unknown"} {
		equal(t, "name", davgyuti.Code(code).Name(), name)
	}
}

func TestBuilder(t *testing.T) {
	// What has no room changes nothing.
	buffer := bytes.Repeat([]byte{0xee}, 32)
	b, err := davgyuti.Begin(buffer, 1, 2, 3)
	equal(t, "begin", err, nil)
	b.RemoveLastChunk()
	equal(t, "no chunk", b.AddCause(davgyuti.CauseNoUserData, nil), davgyuti.ErrBadPlace)
	equal(t, "text", davgyuti.ErrBadPlace.Error(), "davgyuti: no chunk to add to, or fewer than 12 bytes")
	equal(t, "add", b.AddCookieAck(), nil)
	before := append([]byte(nil), buffer...)
	equal(t, "no room", b.AddChunk(davgyuti.ChunkError, 0, make([]byte, 13)), davgyuti.ErrNoRoom)
	equal(t, "too long", b.AddChunk(davgyuti.ChunkError, 0, make([]byte, 65532)), davgyuti.ErrBadValue)
	equal(t, "no UTF-8", b.AddAbort("\xff", false), davgyuti.ErrBadValue)
	equal(t, "unchanged", buffer, before)
	equal(t, "size", len(b.Bytes()), 16)
	equal(t, "add", b.AddChunk(davgyuti.ChunkError, 0, make([]byte, 12)), nil)
	equal(t, "no room", b.AddCause(davgyuti.CauseProtocolViolation, nil), davgyuti.ErrNoRoom)
	b.RemoveLastChunk()
	equal(t, "no chunk", b.AddCause(davgyuti.CauseProtocolViolation, nil), davgyuti.ErrBadPlace)
	b.RemoveLastChunk()
	equal(t, "size", len(b.Bytes()), 16)
	equal(t, "seal", b.Seal(), nil)
	equal(t, "valid", davgyuti.Packet(b.Bytes()).Check(davgyuti.Policy{}), nil)

	_, err = davgyuti.Begin(make([]byte, 11), 1, 2, 3)
	equal(t, "no room", err, davgyuti.ErrNoRoom)
	b, _ = davgyuti.Begin(make([]byte, 60), 1, 2, 3)
	equal(t, "lists", []error{b.AddHeartbeat([]byte("hi")), b.AddHeartbeatAck([]byte("hi!")), b.AddAbort("why", true)}, make([]error, 3))
	equal(t, "lists", b.Bytes()[12:], ofHex("0400000a 00010006 68690000 0500000b 00010007 68692100 0601000b 000c0007 77687900"))
	b.Bytes()[36+3]-- // the last chunk no longer ends the packet
	b.Bytes()[36+3] -= 8
	equal(t, "no chunk", []error{b.AddNumber(1, 2), b.AddReConfig(davgyuti.ReConfig{}, nil)}, []error{davgyuti.ErrBadPlace, davgyuti.ErrBadPlace})
	equal(t, "RE-CONFIG", []error{b.AddChunk(davgyuti.ChunkReConfig, 0, nil), b.AddReConfig(davgyuti.ReConfig{Type: davgyuti.ParameterStateCookie}, nil),
		b.AddReConfig(davgyuti.ReConfig{Type: davgyuti.ParameterReconfigurationResponse, Result: 7}, nil)},
		[]error{nil, davgyuti.ErrBadValue, davgyuti.ErrBadValue})

	// What lies in the buffer itself is written as it was.
	buffer = make([]byte, 64)
	b, _ = davgyuti.Begin(buffer, 5000, 5001, 0x01020304)
	copy(buffer[13:], "abc") // where the chunk's header comes
	equal(t, "add", b.AddCookieEcho(buffer[13:16]), nil)
	equal(t, "seal", b.Seal(), nil)
	equal(t, "written", davgyuti.Packet(b.Bytes()), sealed("0a000007 616263 00"))
	equal(t, "add", b.AddParameter(99, b.Bytes()), nil)
	equal(t, "value", buffer[24:44], []byte(sealed("0a000007 616263 00")))
}

func TestBuilderReset(t *testing.T) {
	var b davgyuti.Builder
	equal(t, "zero value", []interface{}{len(b.Bytes()), b.AddCookieAck(), b.Seal()},
		[]interface{}{0, davgyuti.ErrBadPlace, davgyuti.ErrBadPlace})
	buffer := bytes.Repeat([]byte{0xee}, 40)
	equal(t, "reset", b.Reset(buffer, 5000, 5001, 0x01020304), nil)
	equal(t, "header alone", b.Bytes(), ofHex("1388 1389 01020304 00000000"))
	_, isThere := b.LastChunk()
	equal(t, "chunk", isThere, false)
	b.RemoveLastChunk()
	equal(t, "none to remove", len(b.Bytes()), davgyuti.FirstChunk)
	wanted := sealed("0b000004")
	equal(t, "allocations", testing.AllocsPerRun(10, func() {
		if b.Reset(buffer, 5000, 5001, 0x01020304) != nil || b.AddCookieAck() != nil || b.Seal() != nil {
			t.Error("not written")
		}
	}), 0.0)
	equal(t, "written", append(davgyuti.Packet(nil), buffer...), append(wanted, bytes.Repeat([]byte{0xee}, 24)...))
	equal(t, "no room", b.Reset(make([]byte, 11), 1, 2, 3), davgyuti.ErrNoRoom)
	equal(t, "unchanged", davgyuti.Packet(b.Bytes()), wanted)
	equal(t, "reset", b.Reset(buffer, 5000, 5001, 0x01020304), nil)
	b.RemoveLastChunk()
	equal(t, "seal", b.Seal(), nil)
	equal(t, "header alone", davgyuti.Packet(b.Bytes()), sealed(""))
}

func TestNames(t *testing.T) {
	for wanted, found := range map[string]fmt.Stringer{"AUTH": davgyuti.ChunkAuth, "chunk type 99 (0x63)": davgyuti.ChunkType(99),
		"SSN/TSN Reset Request": davgyuti.ParameterSSNTSNReset, "parameter type 32774 (0x8006)": davgyuti.ParameterType(0x8006),
		"Unsupported HMAC Identifier": davgyuti.CauseCode(0x0105), "cause code 99 (0x0063)": davgyuti.CauseCode(99),
		"In progress": davgyuti.ReConfigInProgress, "result 7": davgyuti.ReConfigResult(7),
		"DATA flags=0x0b size=15":   only(t, sealed("000b0013 01020304 0005 0006 00000033 616263 00")),
		"State Cookie size=4":       only(t, sealed("0400000c 0007 0008 61626364")).Parameters().Slice()[0],
		"Protocol Violation size=3": only(t, sealed("0900000b 000d 0007 626164 00")).Causes().Slice()[0]} {
		equal(t, "name", found.String(), wanted)
	}
	equal(t, "known", []bool{davgyuti.ChunkIForwardTSN.IsKnown(), davgyuti.ChunkType(99).IsKnown(), davgyuti.ParameterForwardTSNSupported.IsKnown(),
		davgyuti.ParameterType(0x8006).IsKnown(), davgyuti.CauseProtocolViolation.IsKnown(), davgyuti.CauseCode(0).IsKnown()},
		[]bool{true, false, true, false, true, false})
	equal(t, "allocations", testing.AllocsPerRun(10, func() {
		_, _, _ = davgyuti.ChunkSACK.String(), davgyuti.ParameterForwardTSNSupported.String(), davgyuti.CauseNoUserData.String()
	}), 0.0)
	number := davgyuti.VersionNumber()
	equal(t, "version", davgyuti.Version(), fmt.Sprintf("%d.%d.%d", number>>16, number>>8&255, number&255))
}

func TestWords(t *testing.T) {
	equal(t, "other numbers", fmt.Sprint(davgyuti.Action(4), davgyuti.TagVerdict(4), davgyuti.Answer(5), davgyuti.InitFault(9), davgyuti.Refusal(3)),
		"action 4 verdict 4 answer 5 fault 9 refusal 3")
	for action := davgyuti.ActionStop; action <= davgyuti.ActionSkipAndReport; action++ {
		equal(t, "reports, skips", []bool{action.Reports(), action.Skips()}, []bool{action&1 != 0, action&2 != 0})
	}
	all := davgyuti.Rules(1<<18 - 1)
	for i, rule := range all.List() {
		equal(t, "rule", []bool{rule == 1<<i, rule.Name() != "unknown", rule.Text() != "unknown", all.Has(rule), rule.Has(all)},
			[]bool{true, true, true, true, false})
	}
	equal(t, "none", davgyuti.Rules(0).String(), "-")
	equal(t, "two", (davgyuti.RulePortZero | davgyuti.RuleGapBlocks).String(), "port-zero gap-blocks")
	equal(t, "no rule", []string{all.Name(), all.Text(), davgyuti.Rules(0).Name(), (1 + all).Name()}, []string{"unknown", "unknown", "unknown", "unknown"})
	equal(t, "text", davgyuti.RuleDataWithAbort.Text(), "user data is bundled with ABORT")
}

// Texts and values of thousands of bytes, and lists whose blocks are cleaned.
func TestLong(t *testing.T) {
	// (the longest text is of causes in a parameter: four bytes each, and a line of 63)
	value := append(ofHex("00000001 c003 fa08 00000002"), bytes.Repeat(ofHex("00a3 0004"), 16000)...)
	b, _ := davgyuti.Begin(make([]byte, 65535), 1, 2, 3)
	equal(t, "longest", []error{b.AddChunk(davgyuti.ChunkASCONFAck, 0, value), b.Seal()}, make([]error, 2))
	equal(t, "longest", len(davgyuti.Packet(b.Bytes()).String()) > 1_000_000, true)
	cleaned := davgyuti.CleanBlocks([]davgyuti.GapAckBlock{{Start: 5, End: 6}, {Start: 2, End: 3}, {Start: 9, End: 8}, {Start: 4, End: 4},
		{Start: 9, End: 9}})
	equal(t, "cleaned", cleaned, []davgyuti.GapAckBlock{{Start: 2, End: 6}, {Start: 9, End: 9}})
	equal(t, "cleaned", len(davgyuti.CleanBlocks(nil)), 0)
	// Lists of each size, whose order counts, by Go's loop and by C's: written, read, and by each way of an Iterator.
	for count := 0; count < 400; count += 1 + count/9 {
		var blocks []davgyuti.GapAckBlock
		var duplicates []uint32
		var streams []uint16
		for i := 0; i < count; i++ {
			blocks = append(blocks, davgyuti.GapAckBlock{Start: uint16(700*i + 2), End: uint16(700*i + 300)})
			duplicates, streams = append(duplicates, 0xfffefdfc-uint32(i)), append(streams, uint16(0xff01-i))
		}
		b.RemoveLastChunk()
		equal(t, "SACK", b.AddSACK(1, 2, blocks, duplicates), nil)
		sack := there[davgyuti.Chunk](t)(b.LastChunk())
		wanted := []byte{}
		for _, it := range blocks {
			wanted = append(wanted, byte(it.Start>>8), byte(it.Start), byte(it.End>>8), byte(it.End))
		}
		equal(t, "written", append([]byte{}, sack.Value[12:12+4*count]...), wanted)
		equal(t, "blocks", sack.GapAckBlocks().Slice(), blocks)
		equal(t, "duplicates", sack.DuplicateTSNs().Slice(), duplicates)
		equal(t, "valid", sack.IsValidSACK(), count < 94)
		some := sack.DuplicateTSNs()
		some.All(func(it uint32) bool { return it != 0xfffefdfc-uint32(count/2) })
		equal(t, "left", len(some.Slice()), count-count/2-map[bool]int{true: 1}[count > 0])
		b.RemoveLastChunk()
		reset := davgyuti.ReConfig{Type: davgyuti.ParameterIncomingSSNReset, StreamCount: count}
		equal(t, "RE-CONFIG", []error{b.AddChunk(davgyuti.ChunkReConfig, 0, nil), b.AddReConfig(reset, streams)}, make([]error, 2))
		parameter := there[davgyuti.Chunk](t)(b.LastChunk()).Parameters().Slice()[0]
		equal(t, "reset", there[davgyuti.ReConfig](t)(parameter.ReConfig()), reset)
		equal(t, "streams", parameter.ResetStreams().Slice(), streams)
	}
}

func TestReadChunk(t *testing.T) {
	for _, text := range bare {
		data := ofHex(text)
		size, wanted := int(data[2])<<8|int(data[3]), only(t, sealed(text))
		for _, it := range [][]byte{data, data[:size]} {
			chunk, err := davgyuti.ReadChunk(it)
			equal(t, text, []interface{}{err, chunk.Type, chunk.Flags, chunk.Value, chunk.Bytes(), chunk.Offset, chunk.NextOffset},
				[]interface{}{nil, wanted.Type, wanted.Flags, wanted.Value, data[:size], 0, len(it)})
		}
	}
	for _, c := range []struct {
		text   string
		code   davgyuti.Code
		offset int
	}{
		{"", davgyuti.ErrSize, 0}, {"0b0000", davgyuti.ErrSize, 3}, {"0b000003", davgyuti.ErrLength, 0},
		{"0400000c 0001 0009 61626364", davgyuti.ErrLength, 4}, {"82000010 0010 000c 00000001 00000007", davgyuti.ErrValue, 4},
		// Something behind it: half a chunk, a chunk, padding twice.
		{"0b000004 00", davgyuti.ErrLength, 4}, {"0b000004 0b000004", davgyuti.ErrLength, 4}, {"0a000005 61 000000 00000000", davgyuti.ErrLength, 8},
		// A packet has at most 65,535 bytes, and 12 of them before its first chunk.
		{"0a00fff4" + strings.Repeat("00", 65520), davgyuti.ErrSize, 65523}, {"0a00ffff" + strings.Repeat("00", 65530), davgyuti.ErrSize, 65523},
	} {
		_, err := davgyuti.ReadChunk(ofHex(c.text))
		equal(t, "fault", err, &davgyuti.Error{Code: c.code, Offset: c.offset})
	}
	_, err := davgyuti.ReadChunk(ofHex("0a00fff3" + strings.Repeat("00", 65519)))
	equal(t, "the largest", err, nil)
	parameter, err := davgyuti.NewParameter(davgyuti.ParameterHeartbeatInfo, make([]byte, 65531))
	equal(t, "the largest", []interface{}{len(parameter.Bytes()), err}, []interface{}{65535, nil})
	_, err = davgyuti.NewCause(davgyuti.CauseProtocolViolation, make([]byte, 65532))
	equal(t, "too large", errors.Is(err, davgyuti.ErrBadValue), true)
	equal(t, "zero values", [][]byte{davgyuti.Chunk{}.Bytes(), davgyuti.Parameter{}.Bytes(), davgyuti.Cause{}.Bytes()}, make([][]byte, 3))
	for flags := 0; flags < 256; flags++ {
		equal(t, "flags", int(davgyuti.Data{IsEnd: true}.WithFlags(uint8(flags)).Flags()), flags&15)
	}
}

// RFC 9653 section 5.2: INIT, COOKIE ECHO and ASCONF; what answers a packet out of the blue reflects its tag.
func TestAllowedZeroChecksum(t *testing.T) {
	allowed, wrong := davgyuti.Policy{AllowedZeroChecksum: true}, &davgyuti.Error{Code: davgyuti.ErrChecksum, Offset: 8}
	zeroed := func(chunks string) davgyuti.Packet { return ofHex("1388 1389 01020304 00000000" + chunks) }
	for _, text := range []string{"01000014" + numbers, "0a000005 61 000000", "c1000008 00000001", "06010004", "0e010004"} {
		packet := zeroed("0b000004" + text)
		equal(t, text, []interface{}{packet.NeedsChecksum(), packet.Check(allowed), packet.IsValid(allowed)}, []interface{}{true, wrong, false})
		equal(t, text, packet.Check(davgyuti.Policy{AllowedZeroChecksum: true, ZeroChecksum: true}), nil)
		equal(t, text, sealed(text).Check(allowed), nil)
	}
	for _, text := range []string{"0b000004", "06000004", "0e000004", "02ff0014" + numbers, "04010008 0001 0004", "c8010004"} {
		packet := zeroed(text)
		_, err := packet.Print(allowed)
		equal(t, text, []interface{}{packet.NeedsChecksum(), packet.Check(allowed), packet.Check(davgyuti.Policy{}), err}, []interface{}{false, nil, wrong, nil})
		packet[11] = 1
		equal(t, text, packet.Check(allowed), wrong)
	}
	// The size comes first, then the checksum, then the chunks, from the left.
	for size := 0; size < 16; size++ {
		equal(t, "short", zeroed("01000004")[:size].Check(allowed), &davgyuti.Error{Code: davgyuti.ErrSize, Offset: size})
	}
	equal(t, "before it", zeroed("0b000003 01000004").Check(allowed), &davgyuti.Error{Code: davgyuti.ErrLength, Offset: 12})
	equal(t, "the largest", zeroed(strings.Repeat("0b000004", 16380)).Check(allowed), nil)
}

// What Registered has beside its vectors: names, addresses, what can't be written, and what lies in the builder's own buffer.
func TestRegisteredWritten(t *testing.T) {
	read := there[davgyuti.Registered](t)(only(t, sealed("0f00 0008 0102 0003")).Registered())
	equal(t, "HMAC", there[uint32](t)(read.Number("HMAC identifier")), uint32(3))
	for _, name := range []string{"HMAC", "", "Key"} {
		_, isThere := read.Number(name)
		equal(t, name, isThere, false)
	}
	buffer := make([]byte, 100)
	builder, _ := davgyuti.Begin(buffer, 1, 2, 3)
	v4, v6, zoned := netip.MustParseAddr("192.0.2.1"), netip.MustParseAddr("2001:db8::1"), netip.MustParseAddr("fe80::1%eth0")
	equal(t, "no chunk", builder.AddAddresses(v4), davgyuti.ErrBadPlace)
	equal(t, "init", []error{builder.AddInit(davgyuti.Init{InitiateTag: 1}), builder.AddAddresses(v4, v6)}, make([]error, 2))
	chunk := there[davgyuti.Chunk](t)(builder.LastChunk())
	equal(t, "addresses", davgyuti.Addresses(chunk.Parameters()), []netip.Addr{v4, v6})
	before := append([]byte(nil), buffer...)
	for i, err := range []error{
		builder.AddRegisteredChunk(davgyuti.ChunkData, davgyuti.Registered{}),
		builder.AddRegisteredCause(0xffff, davgyuti.Registered{}),
		builder.AddRegisteredChunk(davgyuti.ChunkAuth, davgyuti.Registered{Numbers: []uint32{0x10000, 1}}), // has no room
		builder.AddRegisteredChunk(davgyuti.ChunkASCONF, davgyuti.Registered{Numbers: []uint32{1}}),        // lacks an address
		builder.AddRegisteredParameter(davgyuti.ParameterIPv6Address, davgyuti.Registered{Address: v4}),
		builder.AddRegisteredParameter(davgyuti.ParameterIPv6Address, davgyuti.Registered{Address: zoned}),
		builder.AddAddresses(netip.Addr{}),
	} {
		equal(t, fmt.Sprint(i), err, davgyuti.ErrBadValue)
	}
	padding := davgyuti.Registered{Rest: make([]byte, 40)}
	equal(t, "no room", builder.AddRegisteredParameter(davgyuti.ParameterPadding, padding), davgyuti.ErrNoRoom)
	equal(t, "no room", builder.AddRegisteredChunk(davgyuti.ChunkPad, padding), davgyuti.ErrNoRoom)
	equal(t, "buffer", buffer, before)
	equal(t, "random", builder.AddRegisteredParameter(davgyuti.ParameterRandom, davgyuti.Registered{Rest: buffer[:12]}), nil)
	equal(t, "written", builder.Bytes()[60:], append(ofHex("8002 0010"), before[:12]...))
}

// What a chunk, a parameter and an error cause are written into and read from, by themselves and by gob.
func TestBinary(t *testing.T) {
	packet := sealed("0600 000b 000d 0007 616263 00 01000020" + numbers + "8008 0006 82c0 0000 c000 0004")
	chunks := packet.Chunks().Slice()
	cause, parameter := chunks[0].Causes().Slice()[0], chunks[1].Parameters().Slice()[0]
	for _, c := range []struct {
		from  encoding.BinaryMarshaler
		to    encoding.BinaryUnmarshaler
		text  string
		value string
		short davgyuti.Error // of three bytes
	}{
		{chunks[0], new(davgyuti.Chunk), "0600 000b 000d 0007 616263", "ABORT flags=0x00 size=7", davgyuti.Error{Code: davgyuti.ErrSize, Offset: 3}},
		{parameter, new(davgyuti.Parameter), "8008 0006 82c0", "Supported Extensions size=2", davgyuti.Error{Code: davgyuti.ErrLength}},
		{cause, new(davgyuti.Cause), "000d 0007 616263", "Protocol Violation size=3", davgyuti.Error{Code: davgyuti.ErrLength}},
	} {
		written, err := c.from.MarshalBinary()
		equal(t, "written", []interface{}{written, err}, []interface{}{ofHex(c.text), nil})
		padded := append(append([]byte(nil), written...), make([]byte, -len(written)&3)...)
		for _, bytes := range [][]byte{written, padded} {
			given := append([]byte(nil), bytes...)
			equal(t, "read", c.to.UnmarshalBinary(given), nil)
			given[1]++
			again, err := c.to.(encoding.BinaryMarshaler).MarshalBinary()
			equal(t, "again", []interface{}{again, err, fmt.Sprint(c.to)}, []interface{}{written, nil, c.value})
		}
		for _, f := range []struct {
			bytes []byte
			fault davgyuti.Error
		}{
			{written[:3], c.short},
			{written[:len(written)-1], davgyuti.Error{Code: davgyuti.ErrLength}},
			{append(padded, 0), davgyuti.Error{Code: davgyuti.ErrLength, Offset: len(padded)}},
		} {
			equal(t, "fault", c.to.UnmarshalBinary(f.bytes), &f.fault)
			equal(t, "kept", fmt.Sprint(c.to), c.value)
		}
		written[1]++
		again, _ := c.from.MarshalBinary()
		equal(t, "a copy", again, ofHex(c.text))
	}
	for _, it := range []encoding.BinaryMarshaler{davgyuti.Chunk{}, davgyuti.Parameter{}, davgyuti.Cause{}} {
		written, err := it.MarshalBinary()
		equal(t, "zero", []interface{}{written, err}, []interface{}{[]byte(nil), davgyuti.ErrBadValue})
	}
	var stream bytes.Buffer
	var came []davgyuti.Chunk
	equal(t, "gob", []error{gob.NewEncoder(&stream).Encode(chunks), gob.NewDecoder(&stream).Decode(&came)}, make([]error, 2))
	equal(t, "chunks", fmt.Sprint(came, came[0].Offset, came[1].Parameters().Slice()), fmt.Sprint(chunks, 0, chunks[1].Parameters().Slice()))
}

// A Builder writes its packet at once, and returns the error of who takes it.
func TestWriteTo(t *testing.T) {
	builder, _ := davgyuti.Begin(make([]byte, 100), 5000, 5001, 0x01020304)
	equal(t, "added", builder.AddCookieAck(), nil)
	var into bytes.Buffer
	size, err := io.WriterTo(builder).WriteTo(&into)
	equal(t, "written", []interface{}{size, err, into.Bytes()}, []interface{}{int64(16), nil, ofHex("1388 1389 01020304 00000000 0b000004")})
	_, conn := net.Pipe()
	conn.Close()
	size, err = builder.WriteTo(conn)
	equal(t, "closed", []interface{}{size, err}, []interface{}{int64(0), io.ErrClosedPipe})
}

// The flags of a PKTDROP: its bits C, T, B and M are 8, 4, 2 and 1 (draft-stewart-sctp-pktdrprep).
func TestRegisteredFlags(t *testing.T) {
	for _, c := range []struct {
		text  string
		flags uint8
	}{
		{"8100 0014 0c0d0e0f 000007d0 05dc 0000 13881389", 0},
		{"8101 0014 0c0d0e0f 000007d0 05dc 0000 13881389", davgyuti.PKTDROPMiddlebox},
		{"8102 0014 0c0d0e0f 000007d0 05dc 0000 13881389", davgyuti.PKTDROPBadChecksum},
		{"810c 0014 0c0d0e0f 000007d0 05dc 0000 13881389", davgyuti.PKTDROPTruncated | 8},
		{"0fff 0008 0102 0003", 0xff},
	} {
		chunk := only(t, sealed(c.text))
		read := there[davgyuti.Registered](t)(chunk.Registered())
		equal(t, "flags", read.Flags, c.flags)
		builder, _ := davgyuti.Begin(make([]byte, 100), 1, 2, 3)
		equal(t, "added", builder.AddRegisteredChunk(chunk.Type, read), nil)
		equal(t, "written", builder.Bytes()[davgyuti.FirstChunk:], ofHex(c.text))
	}
}

// Where the package can't be built, it is listed, and a sentence says what is lacking.
func TestNotBuilt(t *testing.T) {
	if runtime.GOOS != "linux" || runtime.GOARCH != "amd64" {
		t.Skip("the commands are tried on Linux on x86-64")
	}
	for _, c := range []struct{ settings, what, wanted string }{
		{"CGO_ENABLED=0", ".", "needs_cgo__set_CGO_ENABLED_to_1_"},
		{"CGO_ENABLED=0 GOOS=windows", ".", "needs_cgo__set_CGO_ENABLED_to_1_"},
		{"CGO_ENABLED=0 GOARCH=riscv64", ".", "has_no_text_for_this_system__only_for_Linux_"},
		{"CGO_ENABLED=1 GOARCH=riscv64", "./internal/requirements", "has_no_text_for_this_system__only_for_Linux_"},
	} {
		run := func(arguments ...string) (string, error) {
			command := exec.Command("go", arguments...)
			command.Env = append(os.Environ(), strings.Fields(c.settings)...)
			output, err := command.CombinedOutput()
			return string(output), err
		}
		output, err := run("list", "-f", "{{.Name}}", ".")
		equal(t, c.settings, []interface{}{output, err}, []interface{}{"davgyuti\n", nil})
		for _, word := range []string{"build", "vet"} {
			output, err := run(word, c.what)
			if err == nil || !strings.Contains(output, ": davgyuti_"+c.wanted) || strings.Contains(output, "dcsctp_") {
				t.Errorf("%s go %s: %v: %s", c.settings, word, err, output)
			}
		}
	}
}

// The program of README.md answers nothing to a packet without user data.
func TestNoAnswer(t *testing.T) {
	reply, err := answer(new(davgyuti.Parsed), sealed("0b000004"), 1)
	equal(t, "answer", []interface{}{reply, err}, []interface{}{[]byte(nil), nil})
}

// The program of README.md is that of example_test.go.
func TestReadme(t *testing.T) {
	readme, err := os.ReadFile("README.md")
	if err != nil {
		t.Fatal(err)
	}
	example, err := os.ReadFile("example_test.go")
	if err != nil {
		t.Fatal(err)
	}
	programs := regexp.MustCompile("(?s)```go\n(.*?)```").FindAllSubmatch(readme, -1)
	equal(t, "programs", len(programs), 5)
	for _, program := range programs {
		if !bytes.Contains(example, program[1]) {
			t.Errorf("README.md has another program: %s", program[1])
		}
	}
}
