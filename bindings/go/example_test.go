// SPDX-License-Identifier: Apache-2.0

package davgyuti_test

import (
	"encoding/base64"
	"encoding/hex"
	"errors"
	"fmt"
	"net/netip"

	"davgyuti.example/davgyuti"
)

// answer prints user data, and returns the SACK that answers it; nil if there is none. Keep parsed for the next packet.
func answer(parsed *davgyuti.Parsed, packet []byte, tag uint32) ([]byte, error) {
	if err := parsed.Read(packet, davgyuti.Policy{}); err != nil {
		return nil, err // davgyuti: wrong checksum at byte 8
	}
	header := parsed.Header
	reply, err := davgyuti.Begin(make([]byte, 1200), header.DestinationPort, header.SourcePort, tag)
	for i := 0; err == nil && i < parsed.Len(); i++ {
		if data, ok := parsed.Data(i); ok {
			fmt.Printf("%v %d: %s\n", parsed.Type(i), data.TSN, data.Payload)
			err = reply.AddSACK(data.TSN, 1<<17, nil, nil)
		}
	}
	if err != nil || len(reply.Bytes()) == davgyuti.FirstChunk {
		return nil, err // there is no user data to answer
	}
	return reply.Bytes(), reply.Seal()
}

// The program of README.md, for a packet that usrsctp sent.
func Example() {
	packet, _ := hex.DecodeString("138813880da737981148a1f6000300157906b4b0000100000000003368656c6c6f000000")
	var parsed davgyuti.Parsed
	reply, err := answer(&parsed, packet, 0x4d2df52d)
	fmt.Printf("%x %v\n", reply, err)
	// Output:
	// DATA 2030482608: hello
	// 138813884d2df52dc604d62e030000107906b4b00002000000000000 <nil>
}

// tsns returns the TSNs of a packet's user data.
func tsns(packet davgyuti.Packet) (all []uint32, err error) {
	if err := packet.Check(davgyuti.Policy{}); err != nil {
		return nil, err
	}
	for chunks := packet.Chunks(); chunks.Next(); {
		if data, ok := chunks.Value().Data(); ok {
			all = append(all, data.TSN)
		}
	}
	return all, nil
}

func ExamplePacket_Chunks() {
	packet, _ := hex.DecodeString("138813880da737981148a1f6000300157906b4b0000100000000003368656c6c6f000000")
	fmt.Println(tsns(packet))
	// Output: [2030482608] <nil>
}

// initOf reads the INIT of SDP's `a=sctp-init`, from base64: a chunk without a packet around it.
func initOf(bytes []byte) (init davgyuti.Init, parameters []davgyuti.Parameter, err error) {
	chunk, err := davgyuti.ReadChunk(bytes)
	if err == nil && chunk.Type == davgyuti.ChunkInit {
		init, _ = chunk.Init()
		parameters = chunk.Parameters().Slice()
	}
	return init, parameters, err
}

func ExampleReadChunk() {
	bytes, _ := base64.StdEncoding.DecodeString("AQAAHlWEEnUAUAAA/////0Dg60LAAAAEgAgABoLA")
	init, parameters, err := initOf(bytes)
	fmt.Printf("%#x %v %v\n", init.InitiateTag, parameters, err)
	// Output: 0x55841275 [Forward-TSN-Supported size=0 Supported Extensions size=2] <nil>
}

// receive returns what answers a packet that Check accepts, if anything does; association is nil where it belongs to none.
func receive(packet davgyuti.Packet, association *davgyuti.Association, key []byte, now uint64) (davgyuti.Packet, error) {
	if association != nil {
		switch packet.VerifyTag(*association) {
		case davgyuti.TagAccept:
			return nil, nil // its chunks are the association's
		case davgyuti.TagEstablish:
			return nil, nil // an INIT or COOKIE ECHO for one that is there: RFC 9260 section 5.2
		case davgyuti.TagDiscard:
			return nil, nil
		case davgyuti.TagOutOfTheBlue: // as if there were none
		}
	}
	header, _ := packet.Header()
	switch answer := packet.OutOfTheBlue(true); answer {
	case davgyuti.AnswerShutdownComplete, davgyuti.AnswerAbort:
		reply, err := header.Reply(answer)
		if err != nil {
			return nil, err
		}
		return reply, reply.Seal()
	case davgyuti.AnswerCookieEcho:
		echo, _ := packet.ChunkAt(davgyuti.FirstChunk)
		cookie, err := davgyuti.OpenCookie(key, echo.Value, now)
		if err != nil {
			return nil, err // of a *StaleCookieError the Staleness goes into an ERROR
		}
		if header.VerificationTag != cookie.LocalTag || header.DestinationPort != cookie.LocalPort ||
			header.SourcePort != cookie.PeerPort {
			return nil, nil
		}
		reply, err := davgyuti.Begin(make([]byte, 1200), cookie.LocalPort, cookie.PeerPort, cookie.PeerTag)
		if err == nil {
			err = reply.AddCookieAck()
		}
		if err != nil {
			return nil, err
		}
		return reply.Bytes(), reply.Seal()
	}
	return nil, nil // AnswerInit: an INIT ACK with a Cookie that is sealed
}

// Packets with the chunks of RFC 9260 sections 3.3.9, 3.3.11 and 3.3.12; the checksums are those of Python's crc32c.
func ExamplePacket_OutOfTheBlue() {
	key := []byte("a key") // of the cookie, which tests/c/auth.c has too
	for _, text := range []string{
		"13891388090a0b0cf285087c08000004",
		"13891388010203045026f2450a0000580e7f54ce817b4159983e9114aa8511194e5e71af023a055c38cb78f905a9ac0400000000000f4240" +
			"000000000393870001020304050607081112131415161718090a0b0c0d0e0f1013881389000a0014c0000201",
	} {
		packet, _ := hex.DecodeString(text)
		for _, now := range []uint64{1000000, 61000001} {
			reply, err := receive(packet, nil, key, now)
			fmt.Printf("%x %v\n", []byte(reply), err)
		}
	}
	packet, _ := hex.DecodeString("1389138801020304efa7dfc20b000004")
	reply, err := receive(packet, &davgyuti.Association{OwnTag: 0x01020304}, key, 0)
	fmt.Println(reply == nil, err)
	// Output:
	// 13881389090a0b0c9ac0504a0e010004 <nil>
	// 13881389090a0b0c9ac0504a0e010004 <nil>
	// 13881389050607088e458a430b000004 <nil>
	//  davgyuti: a State Cookie that is stale for 1 microseconds
	// true <nil>
}

// asconf returns an ASCONF that adds an address, after an AUTH with its HMAC (RFC 5061 section 4.1.1, RFC 4895 section 6.2).
func asconf(tag, serial uint32, own, added netip.Addr, key []byte) ([]byte, error) {
	packet, err := davgyuti.Begin(make([]byte, 1200), 5000, 5000, tag)
	if err == nil { // SHA-256, with zeros in the place of the HMAC
		auth := davgyuti.Registered{Numbers: []uint32{0, 3}, Rest: make([]byte, 32)}
		err = packet.AddRegisteredChunk(davgyuti.ChunkAuth, auth)
	}
	if err == nil {
		err = packet.AddRegisteredChunk(davgyuti.ChunkASCONF, davgyuti.Registered{Numbers: []uint32{serial}, Address: own})
	}
	if err == nil {
		request := davgyuti.Registered{Numbers: []uint32{1}, Address: added}
		err = packet.AddRegisteredParameter(davgyuti.ParameterAddIPAddress, request)
	}
	if err != nil {
		return nil, err
	}
	auth, _ := davgyuti.Packet(packet.Bytes()).ChunkAt(davgyuti.FirstChunk)
	if err := auth.SignAuth(key); err != nil { // where it lies in the packet
		return nil, err
	}
	return packet.Bytes(), packet.Seal()
}

// addresses returns those of an INIT or an INIT ACK, and of the requests of an ASCONF.
func addresses(chunk davgyuti.Chunk) (all []netip.Addr) {
	parameters := chunk.Parameters()
	if it, ok := chunk.Registered(); ok {
		parameters = it.Parameters()
	}
	for parameters.Next() {
		if it, ok := parameters.Value().Registered(); ok && it.Address.IsValid() {
			all = append(all, it.Address)
		}
	}
	return all
}

// The bytes are those that Python's struct and hmac give for the layouts of RFC 4895 section 5.1 and RFC 5061 sections 4.1.1
// and 4.2.1.
func ExampleBuilder_AddRegisteredChunk() {
	own, added := netip.MustParseAddr("192.0.2.1"), netip.MustParseAddr("2001:db8::2")
	packet, err := asconf(0x4d2df52d, 0x66e387ab, own, added, []byte("a shared key"))
	fmt.Printf("%x\n%x %v\n", packet[:52], packet[52:], err)
	for chunks := davgyuti.Packet(packet).Chunks(); chunks.Next(); {
		it, _ := chunks.Value().Registered()
		fmt.Println(chunks.Value().Type, it, addresses(chunks.Value()))
	}
	// Output:
	// 138813884d2df52deb004beb0f00002800000003676613796471a04ebc5a838c4550c8b885649ca97e836d58111df6a5351d06e7
	// c100002c66e387ab00050008c0000201c001001c000000010006001420010db8000000000000000000000002 <nil>
	// AUTH key=0 HMAC identifier=3 HMAC=32 bytes []
	// ASCONF sequence number=1726187435 address=192.0.2.1 parameters=28 bytes [2001:db8::2]
}

func ExamplePacket_Check() {
	packet, _ := hex.DecodeString("13881388010203040000000a0b000004")
	err := davgyuti.Packet(packet).Check(davgyuti.Policy{})
	var fault *davgyuti.Error
	if errors.As(err, &fault) {
		fmt.Println(fault.Offset, errors.Is(err, davgyuti.ErrChecksum), err)
	}
	// Output: 8 true davgyuti: wrong checksum at byte 8
}
