// SPDX-License-Identifier: Apache-2.0

// Command show reads a file of packets, one a line, in hexadecimal without blanks, and prints the chunks of each, its text,
// and the packet that answers it.
//
// usage: show FILE
package main

import (
	"bufio"
	"encoding/hex"
	"fmt"
	"io"
	"os"

	"davgyuti.example/davgyuti"
)

// own is this side of the one association.
var own = davgyuti.Init{
	InitiateTag: 0x0da73798, ARwnd: 0x20000, OutboundStreams: 4, InboundStreams: 4, InitialTSN: 0x66e387ab,
}

// A shower knows the tag of the other side, which its INIT asks for (RFC 9260 section 8.5).
type shower struct {
	output  io.Writer
	peerTag uint32
}

func number(is bool) int {
	if is {
		return 1
	}
	return 0
}

func (s *shower) printChunk(chunk davgyuti.Chunk) {
	fmt.Fprintf(s.output, "  chunk %d, flags %d, %d bytes\n", chunk.Type, chunk.Flags, len(chunk.Value))
	if data, ok := chunk.Data(); ok {
		fmt.Fprintf(s.output, "    tsn %d, stream %d, ssn %d, mid %d, fsn %d, ppid %d, U %d, B %d, E %d, I %d\n", data.TSN,
			data.Stream, data.SSN, data.MID, data.FSN, data.PPID, number(data.IsUnordered), number(data.IsBeginning),
			number(data.IsEnd), number(data.ImmediateAck))
		fmt.Fprintf(s.output, "    payload %x\n", data.Payload)
	}
	if sack, ok := chunk.SACK(); ok {
		fmt.Fprintf(s.output, "    cumulative tsn %d, a_rwnd %d\n    blocks", sack.CumulativeTSNAck, sack.ARwnd)
		for blocks := chunk.GapAckBlocks(); blocks.Next(); {
			fmt.Fprintf(s.output, " %d-%d", blocks.Value().Start, blocks.Value().End)
		}
		fmt.Fprint(s.output, "\n    duplicates")
		for tsns := chunk.DuplicateTSNs(); tsns.Next(); {
			fmt.Fprintf(s.output, " %d", tsns.Value())
		}
		fmt.Fprintln(s.output)
	}
	for parameters := chunk.Parameters(); parameters.Next(); {
		fmt.Fprintf(s.output, "    item %d, %d bytes\n", parameters.Value().Type, len(parameters.Value().Value))
	}
	for causes := chunk.Causes(); causes.Next(); {
		fmt.Fprintf(s.output, "    item %d, %d bytes\n", causes.Value().Code, len(causes.Value().Value))
	}
}

// answer returns the answer to a packet: INIT ACK to an INIT, a SACK to DATA; nil if there is none.
func (s *shower) answer(packet davgyuti.Packet) []byte {
	header, isPacket := packet.Header()
	chunk, hasChunk := packet.ChunkAt(davgyuti.FirstChunk)
	if !isPacket || !hasChunk {
		return nil
	}
	init, isInit := chunk.Init()
	isInit = isInit && chunk.Type == davgyuti.ChunkInit && chunk.NextOffset == len(packet) && header.VerificationTag == 0 &&
		init.InitiateTag != 0
	data, isData := chunk.Data()
	if isInit {
		s.peerTag = init.InitiateTag
	}
	reply, err := davgyuti.Begin(make([]byte, 1200), header.DestinationPort, header.SourcePort, s.peerTag)
	if err != nil {
		return nil
	}
	switch {
	case isInit:
		if err = reply.AddInitAck(own); err == nil {
			err = reply.AddParameter(davgyuti.ParameterStateCookie, []byte("abcd"))
		}
	case isData && header.VerificationTag == own.InitiateTag:
		err = reply.AddSACK(data.TSN, own.ARwnd, nil, nil)
	default:
		return nil
	}
	if err != nil || reply.Seal() != nil {
		return nil
	}
	return reply.Bytes()
}

func (s *shower) show(packet davgyuti.Packet) {
	fmt.Fprintf(s.output, "packet of %d bytes\n", len(packet))
	if fault, isFault := packet.Check(davgyuti.Policy{}).(*davgyuti.Error); isFault {
		fmt.Fprintf(s.output, "  fault %d at byte %d\n", fault.Code, fault.Offset)
		return
	}
	packet.Chunks().All(func(chunk davgyuti.Chunk) bool {
		s.printChunk(chunk)
		return true
	})
	if text, err := packet.Print(davgyuti.Policy{}); err == nil {
		fmt.Fprintln(s.output, text)
	}
	if reply := s.answer(packet); reply != nil {
		fmt.Fprintf(s.output, "  answer %x\n", reply)
	}
}

// showAll shows what the lines hold.
func showAll(input io.Reader, output io.Writer) error {
	s := shower{output: output}
	lines := bufio.NewScanner(input)
	lines.Buffer(nil, 1<<20)
	for lines.Scan() {
		if line := lines.Text(); line != "" && line[0] != '#' {
			packet, err := hex.DecodeString(line)
			if err != nil {
				return err
			}
			s.show(packet)
		}
	}
	return lines.Err()
}

func main() {
	if len(os.Args) != 2 {
		fmt.Fprintln(os.Stderr, "usage: show FILE")
		os.Exit(2)
	}
	file, err := os.Open(os.Args[1])
	if err == nil {
		output := bufio.NewWriter(os.Stdout)
		if err = showAll(file, output); err == nil {
			err = output.Flush()
		}
	}
	if err != nil {
		fmt.Fprintln(os.Stderr, "show:", err)
		os.Exit(1)
	}
}
