// SPDX-License-Identifier: Apache-2.0

// Reads and writes packets by the package davgyuti, and by pion/sctp, among whose files this one is: what it times isn't
// exported. bench/packages.py says what such a program does.
//
// usage: pion.test ROUNDS MILLIS FILE..

package sctp

import (
	"bytes"
	"encoding/binary"
	"fmt"
	"os"
	"strconv"
	"syscall"
	"testing"
	"time"

	"davgyuti.example/davgyuti"
)

func sumOfValue(value []byte) uint64 {
	if len(value) == 0 {
		return 0
	}
	return uint64(len(value)) + uint64(value[0])
}

func sumOfBits(bits ...bool) (sum uint64) {
	for _, bit := range bits {
		if bit {
			sum++
		}
	}
	return sum
}

// ---- by davgyuti

func sumOfItems(parsed *davgyuti.Parsed, i int) (sum uint64) {
	for k := 0; k < parsed.ParameterCount(i); k++ {
		it := parsed.Parameter(i, k)
		sum += uint64(it.Type) + sumOfValue(it.Value)
	}
	for k := 0; k < parsed.CauseCount(i); k++ {
		it := parsed.Cause(i, k)
		sum += uint64(it.Code) + sumOfValue(it.Value)
	}
	return sum
}

func sumOfChunk(parsed *davgyuti.Parsed, i int) uint64 {
	typ := parsed.Type(i)
	sum := uint64(typ)
	switch typ {
	case davgyuti.ChunkData, davgyuti.ChunkIData:
		it, _ := parsed.Data(i)
		sum += uint64(it.TSN) + uint64(it.MID) + uint64(it.FSN) + uint64(it.PPID) + uint64(it.Stream) + uint64(it.SSN)
		return sum + sumOfBits(it.IsUnordered, it.IsBeginning, it.IsEnd, it.ImmediateAck) + sumOfValue(it.Payload)
	case davgyuti.ChunkInit, davgyuti.ChunkInitAck:
		it, _ := parsed.Init(i)
		sum += uint64(it.InitiateTag) + uint64(it.ARwnd) + uint64(it.OutboundStreams) + uint64(it.InboundStreams)
		return sum + uint64(it.InitialTSN) + sumOfItems(parsed, i)
	case davgyuti.ChunkSACK:
		it, _ := parsed.SACK(i)
		sum += uint64(it.CumulativeTSNAck) + uint64(it.ARwnd)
		for _, block := range parsed.GapAckBlocks(i) {
			sum += uint64(block.Start) + uint64(block.End)
		}
		for _, tsn := range parsed.DuplicateTSNs(i) {
			sum += uint64(tsn)
		}
		return sum
	case davgyuti.ChunkHeartbeat, davgyuti.ChunkHeartbeatAck, davgyuti.ChunkAbort, davgyuti.ChunkError, davgyuti.ChunkReConfig:
		return sum + sumOfItems(parsed, i)
	case davgyuti.ChunkShutdown:
		tsn, _ := parsed.Shutdown(i)
		return sum + uint64(tsn)
	case davgyuti.ChunkForwardTSN, davgyuti.ChunkIForwardTSN:
		it, _ := parsed.ForwardTSN(i)
		sum += uint64(it.NewCumulativeTSN)
		for _, it := range parsed.SkippedStreams(i) {
			sum += uint64(it.Stream) + uint64(it.SSN) + uint64(it.MID) + sumOfBits(it.IsUnordered)
		}
		return sum
	default:
		return sum + sumOfValue(parsed.Chunk(i).Value)
	}
}

// sumOf is 0 of what is no packet: a packet has a chunk.
func sumOf(parsed *davgyuti.Parsed) (sum uint64) {
	for i := 0; i < parsed.Len(); i++ {
		sum += sumOfChunk(parsed, i)
	}
	if parsed.Len() > 0 {
		sum++
	}
	return sum
}

var parsed davgyuti.Parsed

func readByDavgyuti(raw []byte) uint64 {
	_ = parsed.Read(raw, davgyuti.Policy{})
	return sumOf(&parsed)
}

// What chunks are written from: a *davgyuti.Data, a *keptInit, a *keptSACK, a *keptForwardTSN, a *keptReConfig, a *keptCauses, or of
// a COOKIE ACK a cookieAck.
type keptPacket struct {
	header davgyuti.Header
	chunks []any
}

type keptInit struct {
	init       davgyuti.Init
	parameters []davgyuti.Parameter
}

type keptSACK struct {
	sack       davgyuti.SACK
	blocks     []davgyuti.GapAckBlock
	duplicates []uint32
}

type keptForwardTSN struct {
	forward davgyuti.ForwardTSN
	streams []davgyuti.SkippedStream
}

type keptReConfig struct {
	requests []davgyuti.ReConfig
	streams  [][]uint16
}

type keptCauses struct {
	chunkType davgyuti.ChunkType
	flags     uint8
	causes    []davgyuti.Cause
}

type cookieAck struct{}

func keep(raw []byte) (kept keptPacket) {
	packet := davgyuti.Packet(raw)
	kept.header, _ = packet.Header()
	for chunks := packet.Chunks(); chunks.Next(); {
		kept.chunks = append(kept.chunks, keepChunk(chunks.Value()))
	}
	return kept
}

func keepChunk(chunk davgyuti.Chunk) any {
	switch chunk.Type {
	case davgyuti.ChunkData:
		data, _ := chunk.Data()
		return &data
	case davgyuti.ChunkInit:
		init, _ := chunk.Init()
		return &keptInit{init, chunk.Parameters().Slice()}
	case davgyuti.ChunkSACK:
		sack, _ := chunk.SACK()
		return &keptSACK{sack, chunk.GapAckBlocks().Slice(), chunk.DuplicateTSNs().Slice()}
	case davgyuti.ChunkForwardTSN:
		forward, _ := chunk.ForwardTSN()
		return &keptForwardTSN{forward, chunk.SkippedStreams().Slice()}
	case davgyuti.ChunkReConfig:
		kept := &keptReConfig{}
		for _, parameter := range chunk.Parameters().Slice() {
			request, _ := parameter.ReConfig()
			kept.requests = append(kept.requests, request)
			kept.streams = append(kept.streams, parameter.ResetStreams().Slice())
		}
		return kept
	case davgyuti.ChunkAbort, davgyuti.ChunkError:
		return &keptCauses{chunk.Type, chunk.Flags, chunk.Causes().Slice()}
	case davgyuti.ChunkCookieAck:
		return cookieAck{}
	default:
		return chunk.Type
	}
}

func add(builder *davgyuti.Builder, it any) error {
	switch it := it.(type) {
	case *davgyuti.Data:
		return builder.AddData(*it)
	case *keptSACK:
		return builder.AddSACK(it.sack.CumulativeTSNAck, it.sack.ARwnd, it.blocks, it.duplicates)
	case *keptInit:
		if err := builder.AddInit(it.init); err != nil {
			return err
		}
		for _, parameter := range it.parameters {
			if err := builder.AddParameter(parameter.Type, parameter.Value); err != nil {
				return err
			}
		}
		return nil
	case *keptForwardTSN:
		return builder.AddForwardTSN(it.forward.NewCumulativeTSN, it.streams)
	case *keptReConfig:
		err := builder.AddChunk(davgyuti.ChunkReConfig, 0, nil)
		for i := 0; err == nil && i < len(it.requests); i++ {
			err = builder.AddReConfig(it.requests[i], it.streams[i])
		}
		return err
	case *keptCauses:
		err := builder.AddChunk(it.chunkType, it.flags, nil)
		for i := 0; err == nil && i < len(it.causes); i++ {
			err = builder.AddCause(it.causes[i].Code, it.causes[i].Value)
		}
		return err
	case cookieAck:
		return builder.AddCookieAck()
	default:
		return fmt.Errorf("no file has a %v", it)
	}
}

var (
	buffer  = make([]byte, 1<<16)
	builder davgyuti.Builder
)

func (kept *keptPacket) write() ([]byte, error) {
	header := kept.header
	err := builder.Reset(buffer, header.SourcePort, header.DestinationPort, header.VerificationTag)
	for i := 0; err == nil && i < len(kept.chunks); i++ {
		err = add(&builder, kept.chunks[i])
	}
	if err == nil {
		err = builder.Seal()
	}
	if err != nil {
		return nil, err
	}
	return builder.Bytes(), nil
}

// ---- by pion

func (p *paramHeader) itself() *paramHeader { return p }

func sumOfItsChunk(it chunk) (sum uint64) {
	switch it := it.(type) {
	case *chunkPayloadData:
		sum = uint64(it.typ) + uint64(it.tsn) + uint64(it.payloadType) + uint64(it.streamIdentifier)
		sum += uint64(it.streamSequenceNumber) + sumOfValue(it.userData)
		return sum + sumOfBits(it.unordered, it.beginningFragment, it.endingFragment, it.immediateSack)
	case *chunkInit:
		sum = uint64(it.typ) + uint64(it.initiateTag) + uint64(it.advertisedReceiverWindowCredit)
		sum += uint64(it.numOutboundStreams) + uint64(it.numInboundStreams) + uint64(it.initialTSN)
		for _, parameter := range it.params {
			header := parameter.(interface{ itself() *paramHeader }).itself()
			sum += uint64(header.typ) + sumOfValue(header.raw)
		}
		return sum
	case *chunkSelectiveAck:
		sum = uint64(it.typ) + uint64(it.cumulativeTSNAck) + uint64(it.advertisedReceiverWindowCredit)
		for _, block := range it.gapAckBlocks {
			sum += uint64(block.start) + uint64(block.end)
		}
		for _, tsn := range it.duplicateTSN {
			sum += uint64(tsn)
		}
		return sum
	case *chunkForwardTSN:
		sum = uint64(it.typ) + uint64(it.newCumulativeTSN)
		for _, stream := range it.streams {
			sum += uint64(stream.identifier) + uint64(stream.sequence)
		}
		return sum
	case *chunkReconfig:
		sum = uint64(it.typ)
		for _, parameter := range []param{it.paramA, it.paramB} {
			if parameter != nil {
				header := parameter.(interface{ itself() *paramHeader }).itself()
				sum += uint64(header.typ) + sumOfValue(header.raw)
			}
		}
		return sum
	case *chunkCookieAck:
		return uint64(it.typ)
	default:
		panic("no file has such a chunk")
	}
}

// isSummed is false where there is a list of error causes, which pion keeps as what it means alone.
func isSummed(chunks []chunk) bool {
	for _, it := range chunks {
		switch it.(type) {
		case *chunkAbort, *chunkError:
			return false
		}
	}
	return true
}

func readByPion(raw []byte) uint64 {
	it := packet{}
	if it.unmarshal(raw) != nil {
		return 0
	}
	sum := uint64(1)
	for _, chunk := range it.chunks {
		sum += sumOfItsChunk(chunk)
	}
	return sum
}

// ---- the clock

// A call over all packets: its name, what it does, and the sum that it returns.
type call struct {
	name string
	all  func() uint64
	sum  uint64
}

func check(err error) {
	if err != nil {
		fmt.Fprintln(os.Stderr, "pion.test:", err)
		os.Exit(1)
	}
}

func load(name string) (packets [][]byte) {
	file, err := os.ReadFile(name)
	check(err)
	for len(file) > 0 {
		end := 4 + binary.BigEndian.Uint32(file)
		packets = append(packets, append([]byte(nil), file[4:end]...))
		file = file[end:]
	}
	return packets
}

func reader(name string, packets [][]byte, read func([]byte) uint64) call {
	all := func() (sum uint64) {
		for _, packet := range packets {
			sum += read(packet)
		}
		return sum
	}
	return call{name, all, all()}
}

func writer(name string, packets [][]byte, write func(i int) ([]byte, error)) call {
	sum := uint64(0)
	for i, raw := range packets {
		written, err := write(i)
		check(err)
		if !bytes.Equal(written, raw) {
			check(fmt.Errorf("%s another packet than it read", name))
		}
		sum += uint64(len(raw))
	}
	all := func() (sum uint64) {
		for i := range packets {
			written, err := write(i)
			check(err)
			sum += uint64(len(written))
		}
		return sum
	}
	return call{name, all, sum}
}

// byProcessor has the processor's instruction compute the CRC32c, as it does for pion.
func byProcessor(it call) call {
	all := it.all
	it.all = func() uint64 {
		davgyuti.UseProcessorCRC32c(true)
		defer davgyuti.UseProcessorCRC32c(false)
		return all()
	}
	return call{it.name, it.all, it.all()}
}

func callsOver(packets [][]byte, isTimed bool) []call {
	calls := []call{reader("davgyuti", packets, readByDavgyuti),
		byProcessor(reader("davgyuti, processor's CRC32c", packets, readByDavgyuti))}
	if !isTimed {
		return calls
	}
	kept, its, isPeers := make([]keptPacket, len(packets)), make([]packet, len(packets)), true
	for i, raw := range packets {
		kept[i] = keep(raw)
		isPeers = isPeers && its[i].unmarshal(raw) == nil && isSummed(its[i].chunks)
	}
	calls = append(calls, writer("davgyuti writes", packets, func(i int) ([]byte, error) { return kept[i].write() }))
	if isPeers {
		calls = append(calls, reader("pion", packets, readByPion),
			writer("pion writes", packets, func(i int) ([]byte, error) { return its[i].marshal() }))
	}
	return calls
}

// clock returns the time of all processors: that of the collector of garbage too.
func clock() time.Duration {
	var used syscall.Rusage
	check(syscall.Getrusage(syscall.RUSAGE_SELF, &used))
	return time.Duration(used.Utime.Nano() + used.Stime.Nano())
}

// timed returns the nanoseconds of a packet.
func timed(count int, it call, least time.Duration) float64 {
	begin, done, took := clock(), 0, time.Duration(0)
	for took < least {
		if it.all() != it.sum {
			check(fmt.Errorf("a sum changes"))
		}
		done += count
		took = clock() - begin
	}
	return float64(took.Nanoseconds()) / float64(done)
}

func TestMain(*testing.M) {
	if len(os.Args) < 4 {
		check(fmt.Errorf("usage: ROUNDS MILLIS FILE.."))
	}
	rounds, err := strconv.Atoi(os.Args[1])
	check(err)
	millis, err := strconv.Atoi(os.Args[2])
	check(err)
	for _, name := range os.Args[3:] {
		packets := load(name)
		calls := callsOver(packets, rounds > 0)
		best := make([]float64, len(calls))
		for round := 0; round < rounds; round++ {
			for i, it := range calls {
				one := timed(len(packets), it, time.Duration(millis)*time.Millisecond)
				if round == 0 || one < best[i] {
					best[i] = one
				}
			}
		}
		for i, it := range calls {
			fmt.Printf("%s\t%s\t%d\t%.2f\n", name, it.name, it.sum, best[i])
		}
	}
}
