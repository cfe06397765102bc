// SPDX-License-Identifier: Apache-2.0

// pion/sctp with the package davgyuti in place of what it reads and writes packets by itself: this file goes among its files, of which
// test.sh renames packet.unmarshal, packet.marshal and Association.Close. What pion doesn't know is refused as by itself.

package sctp

import (
	"fmt"
	"net"
	"sync/atomic"

	"davgyuti.example/davgyuti"
)

// ByPackage is how many packets were read and written by the package.
var ByPackage struct{ Read, Written int64 }

// Tap is told of each packet, and returns how often it goes on.
var Tap func(raw []byte, isSent bool) int

// ---- reading

func paramsOf(parsed *davgyuti.Parsed, i int) ([]param, error) {
	var params []param
	for k := 0; k < parsed.ParameterCount(i); k++ {
		it := parsed.Parameter(i, k)
		made, err := buildParam(paramType(it.Type), it.Bytes())
		if err != nil {
			return nil, err
		}
		params = append(params, made)
	}
	return params, nil
}

func causesOf(parsed *davgyuti.Parsed, i int) ([]errorCause, error) {
	var causes []errorCause
	for k := 0; k < parsed.CauseCount(i); k++ {
		made, err := buildErrorCause(parsed.Cause(i, k).Bytes())
		if err != nil {
			return nil, err
		}
		causes = append(causes, made)
	}
	return causes, nil
}

func sackOf(parsed *davgyuti.Parsed, i int, header chunkHeader) chunk {
	it, _ := parsed.Chunk(i).SACK()
	sack := &chunkSelectiveAck{chunkHeader: header, cumulativeTSNAck: it.CumulativeTSNAck, advertisedReceiverWindowCredit: it.ARwnd}
	for _, block := range parsed.GapAckBlocks(i) {
		sack.gapAckBlocks = append(sack.gapAckBlocks, gapAckBlock{block.Start, block.End})
	}
	sack.duplicateTSN = append(sack.duplicateTSN, parsed.DuplicateTSNs(i)...)
	return sack
}

func dataOf(it davgyuti.Data, header chunkHeader) chunk {
	return &chunkPayloadData{chunkHeader: header, unordered: it.IsUnordered, beginningFragment: it.IsBeginning, endingFragment: it.IsEnd,
		immediateSack: it.ImmediateAck, tsn: it.TSN, streamIdentifier: it.Stream, streamSequenceNumber: it.SSN,
		payloadType: PayloadProtocolIdentifier(it.PPID), userData: it.Payload}
}

func chunkOf(parsed *davgyuti.Parsed, i int) (chunk, error) {
	it := parsed.Chunk(i)
	header := chunkHeader{typ: chunkType(it.Type), flags: it.Flags, raw: it.Value}
	params, err := paramsOf(parsed, i)
	if err != nil {
		return nil, err
	}
	switch it.Type {
	case davgyuti.ChunkData:
		data, _ := it.Data()
		return dataOf(data, header), nil
	case davgyuti.ChunkInit, davgyuti.ChunkInitAck:
		init, _ := it.Init()
		common := chunkInitCommon{init.InitiateTag, init.ARwnd, init.OutboundStreams, init.InboundStreams, init.InitialTSN, params}
		if it.Type == davgyuti.ChunkInit {
			return &chunkInit{header, common}, nil
		}
		return &chunkInitAck{header, common}, nil
	case davgyuti.ChunkSACK:
		return sackOf(parsed, i, header), nil
	case davgyuti.ChunkHeartbeat:
		return &chunkHeartbeat{header, params}, nil
	case davgyuti.ChunkAbort, davgyuti.ChunkError:
		causes, err := causesOf(parsed, i)
		if it.Type == davgyuti.ChunkAbort {
			return &chunkAbort{header, causes}, err
		}
		return &chunkError{header, causes}, err
	case davgyuti.ChunkShutdown:
		tsn, _ := it.Shutdown()
		return &chunkShutdown{header, tsn}, nil
	case davgyuti.ChunkShutdownAck:
		return &chunkShutdownAck{header}, nil
	case davgyuti.ChunkShutdownComplete:
		return &chunkShutdownComplete{header}, nil
	case davgyuti.ChunkCookieEcho:
		return &chunkCookieEcho{header, it.Value}, nil
	case davgyuti.ChunkCookieAck:
		return &chunkCookieAck{header}, nil
	case davgyuti.ChunkReConfig:
		reconfig := &chunkReconfig{chunkHeader: header}
		if len(params) > 0 {
			reconfig.paramA = params[0]
		}
		if len(params) > 1 {
			reconfig.paramB = params[1]
		}
		return reconfig, nil
	case davgyuti.ChunkForwardTSN:
		forward, _ := it.ForwardTSN()
		made := &chunkForwardTSN{chunkHeader: header, newCumulativeTSN: forward.NewCumulativeTSN}
		for _, stream := range parsed.SkippedStreams(i) {
			made.streams = append(made.streams, chunkForwardTSNStream{stream.Stream, stream.SSN})
		}
		return made, nil
	}
	return nil, fmt.Errorf("%w: %s", ErrUnmarshalUnknownChunkType, header.typ.String())
}

func (p *packet) unmarshal(raw []byte) error {
	var parsed davgyuti.Parsed
	if err := parsed.Read(raw, davgyuti.Policy{}); err != nil {
		return err
	}
	atomic.AddInt64(&ByPackage.Read, 1)
	p.sourcePort, p.destinationPort = parsed.Header.SourcePort, parsed.Header.DestinationPort
	p.verificationTag = parsed.Header.VerificationTag
	for i := 0; i < parsed.Len(); i++ {
		made, err := chunkOf(&parsed, i)
		if err != nil {
			return err
		}
		p.chunks = append(p.chunks, made)
	}
	return nil
}

// ---- writing

func addParams(builder *davgyuti.Builder, params ...param) error {
	for _, it := range params {
		raw, err := it.marshal()
		if err != nil {
			return err
		}
		if err := builder.AddParameter(davgyuti.ParameterType(raw[0])<<8|davgyuti.ParameterType(raw[1]), raw[4:]); err != nil {
			return err
		}
	}
	return nil
}

func addCauses(builder *davgyuti.Builder, chunkType davgyuti.ChunkType, flags uint8, causes []errorCause) error {
	if err := builder.AddChunk(chunkType, flags, nil); err != nil {
		return err
	}
	for _, it := range causes {
		raw, err := it.marshal()
		if err != nil {
			return err
		}
		if err := builder.AddCause(davgyuti.CauseCode(raw[0])<<8|davgyuti.CauseCode(raw[1]), raw[4:]); err != nil {
			return err
		}
	}
	return nil
}

func initOf(c chunkInitCommon) davgyuti.Init {
	return davgyuti.Init{InitiateTag: c.initiateTag, ARwnd: c.advertisedReceiverWindowCredit, OutboundStreams: c.numOutboundStreams,
		InboundStreams: c.numInboundStreams, InitialTSN: c.initialTSN}
}

func addChunk(builder *davgyuti.Builder, it chunk) error {
	switch c := it.(type) {
	case *chunkPayloadData:
		return builder.AddData(davgyuti.Data{TSN: c.tsn, Stream: c.streamIdentifier, SSN: c.streamSequenceNumber,
			PPID: uint32(c.payloadType), Payload: c.userData, IsUnordered: c.unordered, IsBeginning: c.beginningFragment,
			IsEnd: c.endingFragment, ImmediateAck: c.immediateSack})
	case *chunkInit:
		if err := builder.AddInit(initOf(c.chunkInitCommon)); err != nil {
			return err
		}
		return addParams(builder, c.params...)
	case *chunkInitAck:
		if err := builder.AddInitAck(initOf(c.chunkInitCommon)); err != nil {
			return err
		}
		return addParams(builder, c.params...)
	case *chunkSelectiveAck:
		var blocks []davgyuti.GapAckBlock
		for _, block := range c.gapAckBlocks {
			blocks = append(blocks, davgyuti.GapAckBlock{Start: block.start, End: block.end})
		}
		return builder.AddSACK(c.cumulativeTSNAck, c.advertisedReceiverWindowCredit, blocks, c.duplicateTSN)
	case *chunkHeartbeat:
		if err := builder.AddChunk(davgyuti.ChunkHeartbeat, 0, nil); err != nil {
			return err
		}
		return addParams(builder, c.params...)
	case *chunkHeartbeatAck:
		if err := builder.AddChunk(davgyuti.ChunkHeartbeatAck, 0, nil); err != nil {
			return err
		}
		return addParams(builder, c.params...)
	case *chunkAbort:
		return addCauses(builder, davgyuti.ChunkAbort, c.flags, c.errorCauses)
	case *chunkError:
		return addCauses(builder, davgyuti.ChunkError, 0, c.errorCauses)
	case *chunkShutdown:
		return builder.AddShutdown(c.cumulativeTSNAck)
	case *chunkShutdownAck:
		return builder.AddShutdownAck()
	case *chunkShutdownComplete:
		return builder.AddShutdownComplete(c.flags&1 != 0)
	case *chunkCookieEcho:
		return builder.AddCookieEcho(c.cookie)
	case *chunkCookieAck:
		return builder.AddCookieAck()
	case *chunkReconfig:
		if err := builder.AddChunk(davgyuti.ChunkReConfig, 0, nil); err != nil {
			return err
		}
		params := []param{c.paramA}
		if c.paramB != nil {
			params = append(params, c.paramB)
		}
		return addParams(builder, params...)
	case *chunkForwardTSN:
		var streams []davgyuti.SkippedStream
		for _, stream := range c.streams {
			streams = append(streams, davgyuti.SkippedStream{Stream: stream.identifier, SSN: stream.sequence})
		}
		return builder.AddForwardTSN(c.newCumulativeTSN, streams)
	}
	return fmt.Errorf("no chunk that the package writes: %T", it)
}

func (p *packet) marshal() ([]byte, error) {
	builder, err := davgyuti.Begin(make([]byte, 4096), p.sourcePort, p.destinationPort, p.verificationTag)
	for i := 0; err == nil && i < len(p.chunks); i++ {
		err = addChunk(builder, p.chunks[i])
	}
	if err == nil {
		err = builder.Seal()
	}
	if err != nil {
		return nil, err
	}
	atomic.AddInt64(&ByPackage.Written, 1)
	return builder.Bytes(), nil
}

// Close sends an ABORT first, as a peer of WebRTC does.
func (a *Association) Close() error {
	a.Abort("closed")
	return a.ownClose()
}

// ---- the tap

type tappedConn struct {
	net.Conn
	again []byte // a packet that comes twice
}

func (c *tappedConn) Read(buffer []byte) (int, error) {
	if c.again != nil {
		size := copy(buffer, c.again)
		c.again = nil
		return size, nil
	}
	for {
		size, err := c.Conn.Read(buffer)
		if err != nil {
			return size, err
		}
		switch Tap(buffer[:size], false) {
		case 0:
			continue
		case 2:
			c.again = append([]byte(nil), buffer[:size]...)
		}
		return size, nil
	}
}

func (c *tappedConn) Write(raw []byte) (int, error) {
	for copies := Tap(raw, true); copies > 0; copies-- {
		if size, err := c.Conn.Write(raw); err != nil {
			return size, err
		}
	}
	return len(raw), nil
}
