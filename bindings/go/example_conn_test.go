// SPDX-License-Identifier: Apache-2.0

package davgyuti_test

import (
	"encoding/hex"
	"fmt"
	"net"
	"sync"

	"davgyuti.example/davgyuti"
)

// A checkedConn is a net.Conn for packets, one a call, that drops what is no packet, as a network may: pion/sctp takes it as
// the NetConn of its Config, over DTLS or UDP. So its parser sees no other bytes, nor the peer what a fault in it wrote. Bytes
// alone are judged: a forged ABORT is a packet under any tag, and ends pion's association. A taggedConn drops that one too.
type checkedConn struct {
	net.Conn
	policy davgyuti.Policy
	report func(direction string, fault error) // is told of each that is dropped, by Read's and Write's goroutines
}

// Read reads the next bytes that are a packet; its error is that of the net.Conn.
func (c *checkedConn) Read(buffer []byte) (int, error) {
	for {
		size, err := c.Conn.Read(buffer)
		if err != nil || c.isPacket("read", buffer[:size]) {
			return size, err
		}
	}
}

// Write writes a packet; bytes that are none count as written.
func (c *checkedConn) Write(packet []byte) (int, error) {
	if !c.isPacket("written", packet) {
		return len(packet), nil
	}
	return c.Conn.Write(packet)
}

func (c *checkedConn) isPacket(direction string, bytes []byte) bool {
	fault := davgyuti.Packet(bytes).Check(c.policy)
	if fault != nil {
		c.report(direction, fault)
	}
	return fault == nil
}

// A taggedConn is a net.Conn over a checkedConn that drops what has a wrong verification tag, for one association, as pion/sctp has.
// It learns the tags from what is written: an INIT or INIT ACK has the own one, which pion never changes, and the header the peer's.
type taggedConn struct {
	net.Conn
	mutex       sync.Mutex // Read and Write have a goroutine each
	association davgyuti.Association
}

// Read reads the next packet whose tag is right; its error is that of the net.Conn.
func (c *taggedConn) Read(buffer []byte) (int, error) {
	for {
		size, err := c.Conn.Read(buffer)
		if err != nil || c.isRight(buffer[:size]) {
			return size, err
		}
	}
}

// Write writes a packet.
func (c *taggedConn) Write(packet []byte) (int, error) {
	c.learn(packet)
	return c.Conn.Write(packet)
}

func (c *taggedConn) learn(packet davgyuti.Packet) {
	c.mutex.Lock()
	defer c.mutex.Unlock()
	header, _ := packet.Header()
	chunk, _ := packet.ChunkAt(davgyuti.FirstChunk)
	if init, ok := chunk.Init(); ok {
		c.association.OwnTag = init.InitiateTag
	}
	if header.VerificationTag != 0 && !chunk.IsTagReflected() {
		c.association.PeerTag, c.association.HasPeerTag = header.VerificationTag, true
	}
}

func (c *taggedConn) isRight(packet davgyuti.Packet) bool {
	c.mutex.Lock()
	defer c.mutex.Unlock()
	switch packet.VerifyTag(c.association) {
	case davgyuti.TagAccept:
		return true
	case davgyuti.TagEstablish: // INIT under 0, or COOKIE ECHO: pion has it under the own tag
		header, _ := packet.Header()
		return header.VerificationTag == 0 || header.VerificationTag == c.association.OwnTag
	}
	return false
}

// A net.Conn that checks each packet and its tag, for pion/sctp:
// sctp.Client(sctp.Config{NetConn: &taggedConn{Conn: &checkedConn{..}}}).
func Example_conn() {
	peer, own := net.Pipe()
	checked := &taggedConn{Conn: &checkedConn{Conn: own, report: func(direction string, fault error) { fmt.Println(direction, fault) }}}
	go func() {
		peer.Read(make([]byte, 1500)) // the INIT
		for _, text := range []string{
			"138813880da737981148a1f6000300157906b4b0000100000000003368656c6c6f000001", // a bit is wrong
			"138813880da7379927957bd206000004",                                         // ABORT, under another tag
			"138813880da737981148a1f6000300157906b4b0000100000000003368656c6c6f000000",
		} {
			packet, _ := hex.DecodeString(text)
			peer.Write(packet)
		}
		peer.Close()
	}()
	buffer := make([]byte, 1500)
	init, err := davgyuti.Begin(buffer, 5000, 5000, 0)
	if err == nil {
		err = init.AddInit(davgyuti.Init{InitiateTag: 0x0da73798, ARwnd: 1 << 17, OutboundStreams: 4, InboundStreams: 4, InitialTSN: 1})
	}
	if err == nil {
		err = init.Seal()
	}
	if err == nil {
		_, err = checked.Write(init.Bytes())
	}
	if err != nil {
		fmt.Println(err)
		return
	}
	for {
		size, err := checked.Read(buffer)
		if err != nil {
			fmt.Println(err)
			return
		}
		fmt.Println(size, davgyuti.Packet(buffer[:size]).Chunks().Slice()[0].Type)
	}
	// Output:
	// read davgyuti: wrong checksum at byte 8
	// 36 DATA
	// EOF
}
