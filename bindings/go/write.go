// SPDX-License-Identifier: Apache-2.0

package davgyuti

// #include "calls.h"
import "C"

import (
	"io"
	"unicode/utf8"
	"unsafe"

	"davgyuti.example/davgyuti/internal/direct"
)

// A Builder writes a packet into a buffer of the caller: AddParameter, AddCause, AddNumber, AddCauseNumber, AddReConfig,
// AddMissingParameters, AddUnrecognizedParameters, AddNewAddresses, AddRegisteredParameter and AddRegisteredCause add to the last
// chunk's list, and each other Add function adds a chunk. Each returns nil; or it changes nothing, and returns why:
//
//	ErrBadPlace  there is no chunk to add to
//	ErrBadValue  the chunk would have more than 65,535 bytes; some functions say what else can't be written
//	ErrNoRoom    the packet would have more bytes than the buffer or 65,532
//
// so one can seal, send, and begin the next packet with the chunk that had no room. The values are written as they are:
// whether RFC 9260 lets them be sent, or Packet.Check would accept the packet, isn't checked.
//
//	packet, err := davgyuti.Begin(make([]byte, 1200), sourcePort, destinationPort, tag)
//	if err == nil {
//		err = packet.AddSACK(tsn, window, nil, nil)
//	}
//	if err == nil {
//		err = packet.AddData(data)
//	}
//	if err == nil {
//		err = packet.Seal()
//	}
type Builder struct {
	buffer      []byte
	size, start int // of what is written, and of the last chunk: the size where there is none
}

// Begin begins a packet with these ports and this tag; the length of the buffer is the room. Bytes of the buffer after the
// packet stay. ErrNoRoom where the buffer has no 12 bytes.
func Begin(buffer []byte, sourcePort, destinationPort uint16, verificationTag uint32) (*Builder, error) {
	b := new(Builder)
	if err := b.Reset(buffer, sourcePort, destinationPort, verificationTag); err != nil {
		return nil, err
	}
	return b, nil
}

// Reset begins another packet, as Begin does, with a Builder that had one or is the zero value: one for many packets takes less time
// than one for each. ErrNoRoom, and nothing is changed, where the buffer has no 12 bytes.
func (b *Builder) Reset(buffer []byte, sourcePort, destinationPort uint16, verificationTag uint32) error {
	if len(buffer) < FirstChunk {
		return ErrNoRoom
	}
	b.buffer, b.size, b.start = buffer, FirstChunk, FirstChunk
	to := (*[FirstChunk]byte)(buffer)
	putShort(to[:], 0, sourcePort)
	putShort(to[:], 2, destinationPort)
	putNumber(to[:], 4, verificationTag)
	putNumber(to[:], 8, 0)
	return nil
}

// Bytes returns the packet, as far as it is written: a part of the buffer.
func (b *Builder) Bytes() []byte { return b.buffer[:b.size] }

// WriteTo writes Bytes by one Write of a net.Conn, say; it doesn't seal the packet. It returns how many bytes were written, and the
// error of Write.
func (b *Builder) WriteTo(to io.Writer) (int64, error) {
	size, err := to.Write(b.Bytes())
	return int64(size), err
}

// LastChunk returns the last chunk, where it lies in the buffer: its Bytes are all that is sent of a chunk without a packet
// around it. False where there is none.
func (b *Builder) LastChunk() (Chunk, bool) { return Packet(b.Bytes()).ChunkAt(b.start) }

// Seal writes the CRC32c. Call it last. Whether there is a chunk isn't looked at: without one the packet is sealed, and
// Packet.Check refuses it.
func (b *Builder) Seal() error {
	if isDirect && !byProcessor.Load() {
		size := C.size_t(b.size)
		return errorOf(C.uint32_t(direct.Call(functions.seal, unsafe.Pointer(bytesOf(b.buffer)), unsafe.Pointer(&size), nil)))
	}
	return Packet(b.Bytes()).Seal()
}

// RemoveLastChunk takes the last chunk back, with its list; nothing if that was done, or there is none. After it there is
// no chunk to add to, until one is added.
func (b *Builder) RemoveLastChunk() { b.size = b.start }

// most is how many bytes a packet has at most that is written.
const most = 65532

// newChunk adds a chunk with room for a value, which it returns: of zeros, or of what was in the buffer.
func (b *Builder) newChunk(chunkType ChunkType, flags uint8, size int) ([]byte, error) {
	at, whole := b.size, size+4
	end := at + (whole+3)&^3
	switch {
	case at < FirstChunk:
		return nil, ErrBadPlace
	case whole > 0xffff:
		return nil, ErrBadValue
	case end > len(b.buffer) || end > most:
		return nil, ErrNoRoom
	}
	b.start, b.size = at, end
	return putHeader(b.buffer[at:end], uint16(chunkType)<<8|uint16(flags), whole), nil
}

// putHeader writes the header of four bytes, and the padding; it returns the value between them.
func putHeader(to []byte, itemType uint16, whole int) []byte {
	putNumber(to, len(to)-4, 0)
	putNumber(to, 0, uint32(itemType)<<16|uint32(whole))
	return to[4:whole:whole]
}

// newItem adds a parameter or an error cause to the last chunk, likewise.
func (b *Builder) newItem(itemType uint16, size int) ([]byte, error) {
	at, whole := b.size, size+4
	end := at + (whole+3)&^3
	switch {
	case !b.hasChunk():
		return nil, ErrBadPlace
	case at-b.start+whole > 0xffff:
		return nil, ErrBadValue
	case end > len(b.buffer) || end > most:
		return nil, ErrNoRoom
	}
	putShort(b.buffer, b.start+2, uint16(at-b.start+whole))
	b.size = end
	return putHeader(b.buffer[at:end], itemType, whole), nil
}

// hasChunk returns whether there is a chunk to add to: what the last one's length says ends the packet.
func (b *Builder) hasChunk() bool {
	value, isThere := valueAt(b.buffer[:b.size], b.start)
	return isThere && b.start >= FirstChunk && after(b.start, value) == b.size
}

// refusal returns why what can't be written isn't.
func (b *Builder) refusal() error {
	if !b.hasChunk() {
		return ErrBadPlace
	}
	return ErrBadValue
}

// AddChunk adds a chunk of any type with these flags and this value.
func (b *Builder) AddChunk(chunkType ChunkType, flags uint8, value []byte) error {
	value = b.apart(value)
	to, err := b.newChunk(chunkType, flags, len(value))
	copy(to, value)
	return err
}

// AddHeartbeat adds HEARTBEAT with this heartbeat info.
func (b *Builder) AddHeartbeat(info []byte) error {
	return b.withItem(ChunkHeartbeat, 0, uint16(ParameterHeartbeatInfo), info)
}

// AddHeartbeatAck adds HEARTBEAT ACK with this heartbeat info.
func (b *Builder) AddHeartbeatAck(info []byte) error {
	return b.withItem(ChunkHeartbeatAck, 0, uint16(ParameterHeartbeatInfo), info)
}

// AddAbort adds ABORT with the cause User-Initiated Abort; ErrBadValue where the reason isn't UTF-8. For other causes:
// AddChunk of ChunkAbort, and AddCause.
func (b *Builder) AddAbort(reason string, tagReflected bool) error {
	if b.size >= FirstChunk && !utf8.ValidString(reason) {
		return ErrBadValue
	}
	return b.withItem(ChunkAbort, bitOf(tagReflected), uint16(CauseUserInitiatedAbort), []byte(reason))
}

// withItem adds a chunk with one parameter or error cause.
func (b *Builder) withItem(chunkType ChunkType, flags uint8, itemType uint16, value []byte) error {
	value = b.apart(value)
	to, err := b.newChunk(chunkType, flags, 4+len(value))
	if err == nil {
		putNumber(to, 0, uint32(itemType)<<16|uint32(len(to)))
		copy(to[4:], value)
	}
	return err
}

func (b *Builder) addItem(itemType uint16, value []byte) error {
	value = b.apart(value)
	to, err := b.newItem(itemType, len(value))
	copy(to, value)
	return err
}

func (b *Builder) addNumber(itemType uint16, number uint32) error {
	to, err := b.newItem(itemType, 4)
	if err == nil {
		putNumber(to, 0, number)
	}
	return err
}

// added calls a function of C that adds a chunk, or something to the last one.
func (b *Builder) added(isChunk bool, call func(to *C.uint8_t, room C.size_t, size *C.size_t, start C.size_t) C.uint32_t) error {
	before, size := b.size, C.size_t(b.size)
	code := call(bytesOf(b.buffer), C.size_t(len(b.buffer)), &size, C.size_t(b.start))
	if b.size = int(size); isChunk && b.size > before {
		b.start = before
	}
	return errorOf(code)
}

// AddUnrecognizedParameters adds to an INIT ACK, the last chunk, an Unrecognized Parameter (section 3.3.3.1.2) for each parameter of
// an INIT that came whose type isn't known and is to be reported (section 3.2.2): whole and in order, up to the first at which
// processing stops, and with it. All, or nothing. known are the types that your program knows. The first result is where your
// program stops: the Offset of the parameter at which processing stops, or of the end of the INIT's value if it stops at none.
func (b *Builder) AddUnrecognizedParameters(init Chunk, known []ParameterType) (int, error) {
	list, offset, end := b.listOf(init)
	err := b.added(false, func(to *C.uint8_t, room C.size_t, size *C.size_t, start C.size_t) C.uint32_t {
		return C.dcsctp_add_unrecognized_parameters(to, room, size, start, bytesOf(list), C.size_t(len(list)),
			(*C.uint16_t)(first(known)), C.size_t(len(known)), end)
	})
	return offset + int(*end), err
}

// AddUnrecognizedParametersError adds an ERROR with a cause Unrecognized Parameters (section 3.3.10.8) for each parameter of an
// INIT ACK that came, or of another chunk but INIT, likewise; no ERROR if there is none. The packet is the one that answers: that
// of an INIT ACK begins with COOKIE ECHO.
func (b *Builder) AddUnrecognizedParametersError(came Chunk, known []ParameterType) (int, error) {
	list, offset, end := b.listOf(came)
	err := b.added(true, func(to *C.uint8_t, room C.size_t, size *C.size_t, _ C.size_t) C.uint32_t {
		return C.dcsctp_add_unrecognized_parameters_error(to, room, size, bytesOf(list), C.size_t(len(list)),
			(*C.uint16_t)(first(known)), C.size_t(len(known)), end)
	})
	return offset + int(*end), err
}

// AddUnrecognizedChunks adds an ERROR with a cause Unrecognized Chunk Type (section 3.3.10.6) for each chunk of a packet that came
// whose type isn't known and is to be reported (section 3.2): whole and in order, up to the first at which processing stops, and
// with it; no ERROR if there is none. All, or nothing. known are the types that your program knows. The first result is where your
// program stops: the Offset of the chunk at which processing stops, or the packet's length if it stops at none.
func (b *Builder) AddUnrecognizedChunks(came Packet, known []ChunkType) (int, error) {
	came = b.apart(came)
	var end C.size_t
	err := b.added(true, func(to *C.uint8_t, room C.size_t, size *C.size_t, _ C.size_t) C.uint32_t {
		return C.dcsctp_add_unrecognized_chunks(to, room, size, bytesOf(came), C.size_t(len(came)),
			(*C.uint8_t)(first(known)), C.size_t(len(known)), &end)
	})
	return int(end), err
}

// AddNewAddresses adds to an ABORT, the last chunk, the cause Restart of an Association with New Addresses (section 3.3.10.11),
// with the addresses that an INIT adds to those of an association, known, as they are in the INIT: see Chunk.AddsAddresses.
func (b *Builder) AddNewAddresses(init Chunk, known []byte) error {
	known = b.apart(known)
	list, _, _ := b.listOf(init)
	return b.added(false, func(to *C.uint8_t, room C.size_t, size *C.size_t, start C.size_t) C.uint32_t {
		return C.dcsctp_add_new_addresses(to, room, size, start, bytesOf(list), C.size_t(len(list)),
			bytesOf(known), C.size_t(len(known)))
	})
}

// listOf returns the list of a chunk, apart from the buffer, its offset in the chunk's packet, and where the program stops in it.
func (b *Builder) listOf(came Chunk) (list []byte, offset int, end *C.size_t) {
	list, offset = came.list()
	return b.apart(list), offset, new(C.size_t)
}

// apart returns what is to be written, and a copy where it lies in the buffer itself.
func (b *Builder) apart(value []byte) []byte {
	if len(value) == 0 || len(b.buffer) == 0 {
		return value
	}
	from, to := uintptr(unsafe.Pointer(&value[0])), uintptr(unsafe.Pointer(&b.buffer[0]))
	if from < to+uintptr(len(b.buffer)) && to < from+uintptr(len(value)) {
		return append([]byte(nil), value...)
	}
	return value
}
