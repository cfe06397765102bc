// SPDX-License-Identifier: Apache-2.0

package davgyuti

// #include "calls.h"
import "C"

import (
	"fmt"
	"hash/crc32"
	"math/bits"
	"sync/atomic"
	"unsafe"

	"davgyuti.example/davgyuti/internal/direct"
)

// FirstChunk is the offset of a packet's first chunk: the size of the common header.
const FirstChunk = C.DCSCTP_FIRST_CHUNK

// largest is the most bytes that a packet that is read has: what is larger is refused before it is gone through or copied.
const largest = 0xffff

// A Policy says which checksum fields are accepted, and whether padding is checked. The zero value is what a socket takes:
// the field has to be the CRC32c, and padding is ignored.
type Policy struct {
	// AnyChecksum accepts every checksum field, and computes no CRC32c but for Report: for captures whose checksums a
	// network card filled in later, and where you have compared Header.Checksum with a CRC32c of your own.
	AnyChecksum bool
	// ZeroChecksum accepts a field of zero as well (RFC 9653), in every packet.
	ZeroChecksum bool
	// AllowedZeroChecksum accepts a field of zero where RFC 9653 section 5.2 allows one, not in a packet that NeedsChecksum:
	// for an association in which you sent Zero Checksum Acceptable.
	AllowedZeroChecksum bool
	// StrictPadding wants padding to be complete and zero.
	StrictPadding bool
}

// A Packet has the bytes of a packet, from the source port on; or bytes of which Check says that they are none.
type Packet []byte

// Check returns nil if the bytes are a packet, and else an *Error: the first fault, and where it is. The size is checked
// first, then the checksum, then the chunks from the left. It says nothing of the association: the package's comment has what
// is still to be checked.
func (p Packet) Check(policy Policy) error {
	if fault := p.firstFault(policy); fault != nil {
		return fault
	}
	return nil
}

func (p Packet) firstFault(policy Policy) *Error {
	code, offset := p.verdict(policy)
	if code == C.DCSCTP_OK {
		return nil
	}
	return &Error{Code(code), int(offset)}
}

// Whether C is called directly, and the functions that are.
const isDirect = direct.IsThere && C.GO_DIRECT != 0

var functions = C.go_functions()

// verdict returns the code of the first fault, and its offset.
func (p Packet) verdict(policy Policy) (code C.uint32_t, offset C.size_t) {
	var packet C.struct_go_packet
	p.fill(&packet, policy)
	if !isDirect {
		result := C.go_first_fault(packet)
		return result.code, result.size
	}
	code = C.uint32_t(direct.Call(functions.first_fault, unsafe.Pointer(&packet), unsafe.Pointer(&offset), nil))
	return code, offset
}

// byProcessor is whether the processor's instruction was asked for, and is there.
var (
	byProcessor    atomic.Bool
	hasInstruction = bool(C.go_has_instruction())
)

// UseProcessorCRC32c has the processor's own instruction compute each CRC32c from now on, in all goroutines; or with false the library
// again, as at first. It returns whether the instruction is used, which has to be there. It takes a sixth of the time, and isn't proved.
func UseProcessorCRC32c(use bool) bool {
	byProcessor.Store(use && hasInstruction)
	return use && hasInstruction
}

// hasWord is whether C can compute the word of a packet that is checked by the instruction, in the same direct call: it takes little
// more than half of the time that hash/crc32 does.
var hasWord = isDirect && bool(C.go_has_word())

// fill writes a packet as C takes it, in its place: a struct that was returned would be copied in pieces of 16 bytes, right after it
// was written in smaller ones, which the processor has to wait for.
func (p Packet) fill(to *C.struct_go_packet, policy Policy) {
	to.bytes, to.length = bytesOf(p), C.size_t(len(p))
	to.policy.any_checksum, to.policy.strict_padding = C.bool(policy.AnyChecksum), C.bool(policy.StrictPadding)
	to.policy.zero_checksum = C.bool(policy.ZeroChecksum || policy.AllowedZeroChecksum && p.allowsZero())
	switch {
	case policy.AnyChecksum || len(p) < FirstChunk || len(p) > largest:
	case !byProcessor.Load():
		to.word_by = C.GO_WORD_PROVED
	case hasWord:
		to.word_by = C.GO_WORD_PROCESSOR
	default:
		to.word = C.uint32_t(p.Word())
	}
}

// allowsZero returns whether the checksum field is zero, in a packet that may have it so.
func (p Packet) allowsZero() bool {
	return len(p) >= FirstChunk && len(p) <= largest && numberAt(p, 8) == 0 && !p.NeedsChecksum()
}

// IsValid returns whether Check returns nil.
func (p Packet) IsValid(policy Policy) bool {
	code, _ := p.verdict(policy)
	return code == C.DCSCTP_OK
}

// castagnoli is the table of CRC32c, which hash/crc32 computes by the processor's own instructions where it has them.
var castagnoli = crc32.MakeTable(crc32.Castagnoli)

// headers has what each byte of ports and tag adds to the CRC32c of the header with zeros in its field: one call of hash/crc32
// for the rest takes half of the time of three.
var headers = func() (headers [8][256]uint32) {
	for value := range headers[0] {
		sum := uint32(value)
		for following := 0; following < FirstChunk; following++ {
			sum = castagnoli[byte(sum)] ^ sum>>8
			if following >= 4 {
				headers[FirstChunk-1-following][value] = sum
			}
		}
	}
	return headers
}()

// Word computes what the checksum field has to be (section 6.8): the packet's CRC32c over zeros in the field, as the number
// that Header.Checksum has to be. It is 0 for fewer than 12 bytes.
func (p Packet) Word() uint32 {
	if len(p) < FirstChunk {
		return 0
	}
	if !byProcessor.Load() {
		size := C.size_t(len(p))
		if isDirect && len(p) <= largest {
			return uint32(direct.Call(functions.word, unsafe.Pointer(bytesOf(p)), unsafe.Pointer(&size), nil))
		}
		return uint32(C.dcsctp_word(bytesOf(p), size))
	}
	sum := headers[0][^p[0]] ^ headers[1][^p[1]] ^ headers[2][^p[2]] ^ headers[3][^p[3]] ^
		headers[4][p[4]] ^ headers[5][p[5]] ^ headers[6][p[6]] ^ headers[7][p[7]]
	return bits.ReverseBytes32(crc32.Update(^sum, castagnoli, p[FirstChunk:]))
}

// NeedsChecksum returns whether the packet has to have its CRC32c also where a checksum of zero was negotiated (RFC 9653
// section 5.2): it has INIT, COOKIE ECHO or ASCONF; or it answers a packet out of the blue, by a chunk that IsTagReflected.
func (p Packet) NeedsChecksum() bool {
	for at := FirstChunk; ; {
		chunk, isThere := p.ChunkAt(at)
		if !isThere {
			return false
		}
		if chunk.Type == ChunkInit || chunk.Type == ChunkCookieEcho || chunk.Type == ChunkASCONF || chunk.IsTagReflected() {
			return true
		}
		at = chunk.NextOffset
	}
}

// Print returns the packet's text: a line for the header and one for each chunk, with no line feed at the end. The error is
// that of Check, or ErrNoMemory.
func (p Packet) Print(policy Policy) (string, error) {
	text, err := p.write(policy, C.GO_PRINT)
	return string(text), err
}

// Report returns all that the packet holds, as `sctp_dump --payload` prints it: each line ends in a line feed, and what is
// inside of something is two blanks deeper. The error is that of Check.
func (p Packet) Report(policy Policy) (string, error) {
	text, err := p.write(policy, C.GO_REPORT)
	return string(text), err
}

// String returns what Report returns under the zero Policy, and of bytes that are no packet the error's text. (So %x, which is
// of a string too, has the text in hexadecimal: to have the bytes, format []byte(p).) The text can be more than a megabyte, almost
// 16 times the packet.
func (p Packet) String() string {
	report, err := p.Report(Policy{})
	if err != nil {
		return err.Error()
	}
	return report
}

// Canonical returns the canonical packet, in memory of its own: two packets have the same one if and only if they mean the
// same. Its checksum is 0. The error is that of Check, or ErrTooLong.
func (p Packet) Canonical(policy Policy) ([]byte, error) {
	return p.write(policy, C.GO_CANONICAL)
}

// write calls C for the size that it needs, and then for what it writes.
func (p Packet) write(policy Policy, what C.int) ([]byte, error) {
	var packet C.struct_go_packet
	p.fill(&packet, policy)
	if what == C.GO_REPORT && policy.AnyChecksum {
		packet.word = C.uint32_t(p.Word()) // of which a report says whether it is there
	}
	result := C.go_write(what, packet, nil, 0)
	if result.code == C.DCSCTP_NO_ROOM {
		output := make([]byte, result.size)
		if result = C.go_write(what, packet, bytesOf(output), result.size); result.code == C.DCSCTP_OK {
			return output[:result.size], nil
		}
	}
	if err := p.Check(policy); err != nil {
		return nil, err
	}
	return nil, errorOf(result.code)
}

// Header reads the common header; false for fewer than 12 bytes.
func (p Packet) Header() (Header, bool) {
	if len(p) < FirstChunk {
		return Header{}, false
	}
	return Header{shortAt(p, 0), shortAt(p, 2), numberAt(p, 4), numberAt(p, 8)}, true
}

// Seal writes the CRC32c into the checksum field; ErrBadPlace for fewer than 12 bytes. Whether there is a chunk isn't looked
// at: without one the packet is sealed, and Check refuses it.
func (p Packet) Seal() error {
	if byProcessor.Load() && len(p) >= FirstChunk {
		putNumber(p, 8, p.Word())
		return nil
	}
	return errorOf(C.dcsctp_seal(bytesOf(p), C.size_t(len(p))))
}

// SetTag writes the verification tag; seal the packet after it. ErrBadPlace for fewer than 12 bytes.
func (p Packet) SetTag(verificationTag uint32) error {
	if len(p) < FirstChunk {
		return ErrBadPlace
	}
	putNumber(p, 4, verificationTag)
	return nil
}

// An Iterator goes over what a packet, a chunk, a parameter or an error cause lists. Chunks, parameters and causes are read one after
// the other; lists of numbers are read, to memory of their own, when the Iterator is made:
//
//	for chunks := packet.Chunks(); chunks.Next(); {
//		use(chunks.Value())
//	}
//
// or, from Go 1.23 on, `for chunk := range packet.Chunks().All`. The zero value has nothing to read.
type Iterator[T any] struct {
	items      []T // those that are left of a list of numbers
	packet     Packet
	list       []byte // of chunks, parameters or causes, in the packet
	base, next int    // where the list begins there, and where the next one does in the list
	read       func(packet Packet, number uint16, value []byte, offset int) T
	value      T
}

// (What makes an Iterator is inlined, and read captures nothing: so one that isn't passed on lies on the caller's stack.)

// Next reads the next one, and returns whether there is one.
func (it *Iterator[T]) Next() bool {
	if len(it.items) > 0 {
		it.value, it.items = it.items[0], it.items[1:]
		return true
	}
	value, isThere := valueAt(it.list, it.next)
	if isThere {
		it.value = it.read(it.packet, shortAt(it.list, it.next), value, it.base+it.next)
		it.next = after(it.next, value)
	}
	return isThere
}

// Value returns what Next has read last.
func (it *Iterator[T]) Value() T { return it.value }

// All calls a function for each of those that are left, as long as it returns true.
func (it *Iterator[T]) All(yield func(T) bool) {
	for it.Next() && yield(it.value) {
	}
}

// Slice returns those that are left. Of chunks prefer Next, which keeps one: a packet can have 16,000.
func (it *Iterator[T]) Slice() []T {
	all := it.items
	it.items = nil
	for it.Next() {
		all = append(all, it.value)
	}
	return all
}

// valueAt returns what follows the header of four bytes at an offset, and ends by its length; false where no whole one is.
func valueAt(bytes []byte, offset int) ([]byte, bool) {
	if offset < 0 || offset > len(bytes)-4 {
		return nil, false
	}
	end := offset + int(shortAt(bytes, offset+2))
	if end < offset+4 || end > len(bytes) {
		return nil, false
	}
	return bytes[offset+4 : end : end], true
}

// after returns where the next one begins, past the padding.
func after(offset int, value []byte) int { return (offset + 4 + len(value) + 3) &^ 3 }

// part returns bytes of a packet; nil where they aren't there.
func (p Packet) part(offset, size int) []byte {
	if offset < 0 || offset > len(p) || size > len(p)-offset {
		return nil
	}
	return p[offset : offset+size : offset+size]
}

// A Chunk is a chunk of a packet (section 3.2), where it lies.
type Chunk struct {
	Type       ChunkType
	Flags      uint8
	Value      []byte // what follows its header of four bytes, without padding
	Offset     int    // where it begins in the packet
	NextOffset int    // where the next one begins
	bytes      *byte  // of the packet
	size       int    // how many they are
}

// (Without a slice for its packet, and one more field, a chunk has the nine words that Go passes in registers.)

func (chunk Chunk) packet() Packet { return unsafe.Slice(chunk.bytes, chunk.size) }

// Chunks goes over the chunks. If the bytes are a packet, these are all; else they end where there is no whole chunk.
func (p Packet) Chunks() *Iterator[Chunk] {
	return &Iterator[Chunk]{packet: p, list: p, next: FirstChunk, read: chunkOf}
}

// chunkOf returns the chunk of a packet whose type and flags are this number.
func chunkOf(packet Packet, number uint16, value []byte, offset int) Chunk {
	next := after(offset, value)
	if next > len(packet) {
		next = len(packet)
	}
	return Chunk{ChunkType(number >> 8), uint8(number), value, offset, next, &packet[0], len(packet)}
}

// ChunkAt reads the chunk at an offset; false where no whole chunk is.
func (p Packet) ChunkAt(offset int) (Chunk, bool) {
	value, isThere := valueAt(p, offset)
	if !isThere {
		return Chunk{}, false
	}
	return chunkOf(p, shortAt(p, offset), value, offset), true
}

// ReadChunk reads the chunk that the bytes are, without a packet around it, and with or without its padding: as SDP has an
// INIT in `a=sctp-init`, and CauseUnrecognizedChunk any chunk. Its Bytes write it. The error is an *Error whose offset is into
// these bytes, with ErrLength where the chunk ends if something follows it.
func ReadChunk(bytes []byte) (Chunk, error) {
	end := len(bytes)
	chunk, isWhole := Packet(bytes).ChunkAt(0)
	if isWhole {
		end = chunk.NextOffset
	} else if end > largest {
		end = largest
	}
	packet := append(make(Packet, FirstChunk, FirstChunk+end), bytes[:end]...)
	if fault := packet.firstFault(Policy{AnyChecksum: true}); fault != nil {
		return Chunk{}, &Error{fault.Code, fault.Offset - FirstChunk}
	}
	if end < len(bytes) {
		return Chunk{}, &Error{ErrLength, end}
	}
	return chunk, nil
}

// Bytes returns the whole chunk, its header and its value, without padding, where it lies in the packet: what the cause
// Unrecognized Chunk Type holds (section 3.3.10.6).
func (chunk Chunk) Bytes() []byte { return chunk.packet().part(chunk.Offset, len(chunk.Value)+4) }

// MarshalBinary returns a copy of Bytes, as encoding/gob asks for one. ErrBadValue for the zero value.
func (chunk Chunk) MarshalBinary() ([]byte, error) { return copied(chunk.Bytes()) }

// UnmarshalBinary reads a chunk from a copy of the bytes that it is, as ReadChunk does; its Offset is 0.
func (chunk *Chunk) UnmarshalBinary(bytes []byte) error {
	read, err := ReadChunk(append([]byte(nil), bytes...))
	if err == nil {
		*chunk = read
	}
	return err
}

// String returns its type, its flags and the size of its value, as in "DATA flags=0x03 size=20".
func (chunk Chunk) String() string {
	return fmt.Sprintf("%v flags=%#02x size=%d", chunk.Type, chunk.Flags, len(chunk.Value))
}

// IsValidSACK returns whether it is a SACK whose gap ack blocks are in order, apart, and begin at 2 or later.
func (chunk Chunk) IsValidSACK() bool {
	return chunk.Type == ChunkSACK && bool(C.go_validate_sack(bytesOf(chunk.Value), C.size_t(len(chunk.Value))))
}

// list returns the parameters or error causes of a chunk, and their offset in the packet.
func (chunk Chunk) list() (bytes []byte, offset int) {
	bytes = itemsOf(chunk.Type, chunk.Value)
	return bytes, chunk.Offset + 4 + len(chunk.Value) - len(bytes)
}

// copied returns a copy of bytes that are there.
func copied(bytes []byte) ([]byte, error) {
	if bytes == nil {
		return nil, ErrBadValue
	}
	return append([]byte(nil), bytes...), nil
}

// itemIn returns a copy of the parameter or the error cause that the bytes are, without padding.
func itemIn(bytes []byte) (Packet, error) {
	value, isThere := valueAt(bytes, 0)
	if !isThere {
		return nil, &Error{ErrLength, 0}
	}
	if end := after(0, value); end < len(bytes) {
		return nil, &Error{ErrLength, end}
	}
	return newItem(shortAt(bytes, 0), value)
}

// newItem returns the bytes of a parameter or an error cause.
func newItem(itemType uint16, value []byte) (Packet, error) {
	size := 4 + len(value)
	if size > 0xffff {
		return nil, ErrBadValue
	}
	packet := append(Packet{byte(itemType >> 8), byte(itemType), byte(size >> 8), byte(size)}, value...)
	return packet[:size:size], nil
}
