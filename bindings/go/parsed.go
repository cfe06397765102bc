// SPDX-License-Identifier: Apache-2.0

package davgyuti

// #include "calls.h"
import "C"

import (
	"encoding/binary"
	"unsafe"

	"davgyuti.example/davgyuti/internal/direct"
)

// A Parsed is a packet that Read has checked in one call of C, and read with all its chunks and their lists. Keep one, and read packet
// after packet into it: of a packet nothing is allocated, once it has the memory that the largest one took (a packet can have 16,380
// chunks, for which it keeps 300 kilobytes). Of what is no packet the *Error is, and so it stays as it is when the next one is read:
// where many are refused, ask IsValid first, which allocates nothing. The zero value has no chunks.
//
//	var parsed davgyuti.Parsed
//	for {
//		size, err := conn.Read(buffer)
//		..
//		if parsed.Read(buffer[:size], davgyuti.Policy{}) != nil {
//			continue
//		}
//		for i := 0; i < parsed.Len(); i++ {
//			if data, ok := parsed.Data(i); ok {
//				receive(data.Stream, data.TSN, data.Payload)
//			}
//		}
//	}
//
// What its methods return holds until the next Read, and as long as the packet's bytes aren't changed. One goroutine at a time
// may read into it; then any number may look at it.
type Parsed struct {
	Header Header
	packet Packet
	rows   []row
	lists
	items  []place  // the parameters and error causes
	shorts []uint16 // the values of each RE-CONFIG, as numbers of two bytes: the lists in its parameters are such, at even offsets
}

// A row is where a chunk is, and which of the lists are its own: up to two of numbers, or one of parameters or error causes, and after
// those of RE-CONFIG its value in shorts.
type row struct {
	place
	chunkType ChunkType
	flags     uint8
	lists     [2]struct{ first, end uint16 }
}

// Read reads a packet, and returns nil; or an *Error, as Check returns it, and then there are no chunks, and Header is zero.
func (parsed *Parsed) Read(packet Packet, policy Policy) error {
	fault := packet.firstFault(policy)
	parsed.read(packet, fault == nil)
	if fault != nil {
		return fault
	}
	return nil
}

// ReadBatch reads packets as Read does, each into the Parsed of its index. Where C is called by cgo, one call is for 16 of them: of a
// small packet that takes half of the time, or less. A Parsed has no chunks where the packet is none; its Check says why. It panics
// where there are fewer Parsed than packets.
func ReadBatch(parsed []Parsed, packets []Packet, policy Policy) {
	if isDirect {
		for i, packet := range packets {
			parsed[i].read(packet, packet.IsValid(policy))
		}
		return
	}
	for len(packets) > 0 {
		var batch C.struct_go_batch
		count := len(packets)
		if count > C.GO_BATCH {
			count = C.GO_BATCH
		}
		for i, packet := range packets[:count] {
			packet.fill(&batch.packets[i], policy)
		}
		accepted := C.go_check_batch(batch, C.size_t(count))
		for i, packet := range packets[:count] {
			parsed[i].read(packet, accepted>>i&1 != 0)
		}
		parsed, packets = parsed[count:], packets[count:]
	}
}

// read reads a packet that C has accepted, or one that it hasn't.
func (parsed *Parsed) read(packet Packet, isAccepted bool) {
	parsed.Header, parsed.packet = Header{}, packet
	parsed.rows = parsed.rows[:0] // (by itself: the compiler then stores the length alone, and no pointer)
	if !isAccepted {
		return
	}
	header := (*[FirstChunk]byte)(packet)
	parsed.Header = Header{shortAt(header[:], 0), shortAt(header[:], 2), numberAt(header[:], 4), numberAt(header[:], 8)}
	parsed.lists.clear()
	parsed.items, parsed.shorts = parsed.items[:0], parsed.shorts[:0]
	for it, isThere := placeAt(packet, FirstChunk); isThere; it, isThere = placeAt(packet, it.next()) {
		parsed.rows = append(parsed.rows, row{})
		row := &parsed.rows[len(parsed.rows)-1]
		row.place, row.chunkType, row.flags = it, ChunkType(packet[it.offset]), packet[it.offset+1]
		if row.chunkType != ChunkData {
			parsed.readLists(row)
		}
	}
}

// readLists reads the lists of a chunk.
func (parsed *Parsed) readLists(row *row) {
	value := row.value(parsed.packet)
	if parsed.lists.read(row, value) {
		return
	}
	list := itemsOf(row.chunkType, value)
	if len(list) == 0 {
		return
	}
	row.lists[0].first = uint16(len(parsed.items))
	from := row.offset + 4 + uint16(len(value)-len(list))
	for it, isThere := placeAt(list, 0); isThere; it, isThere = placeAt(list, it.next()) {
		parsed.items = append(parsed.items, place{from + it.offset, it.size})
	}
	row.lists[0].end = uint16(len(parsed.items))
	if row.chunkType == ChunkReConfig {
		row.lists[1].first = uint16(len(parsed.shorts))
		parsed.shorts = appendShorts(parsed.shorts, value)
	}
}

// reConfigAt returns the type and the value of a parameter of RE-CONFIG; nothing of another chunk.
func (parsed *Parsed) reConfigAt(i, index int) (ParameterType, []byte) {
	it := parsed.parameters(i)[index]
	if parsed.rows[i].chunkType != ChunkReConfig {
		return 0, nil
	}
	return ParameterType(shortAt(parsed.packet, int(it.offset))), it.value(parsed.packet)
}

// shortsOf returns the list that ends the value of a parameter of RE-CONFIG.
func (parsed *Parsed) shortsOf(i, index int, list []byte) []uint16 {
	if len(list) == 0 {
		return nil
	}
	row, it := &parsed.rows[i], parsed.parameters(i)[index]
	end := int(row.lists[1].first) + int(it.offset+it.size-row.offset)/2
	return parsed.shorts[end-len(list)/2 : end : end]
}

// Len returns how many chunks there are.
func (parsed *Parsed) Len() int { return len(parsed.rows) }

// Chunk returns a chunk, by its index; it panics as a slice does where there is none.
func (parsed *Parsed) Chunk(i int) Chunk {
	row, next := &parsed.rows[i], len(parsed.packet)
	if it := row.next(); it < next {
		next = it
	}
	return Chunk{row.chunkType, row.flags, row.value(parsed.packet), int(row.offset), next, &parsed.packet[0], len(parsed.packet)}
}

// Type returns the type of a chunk, by its index. It, and what reads a chunk of a type by its index, take less time than Chunk, which
// copies more; they panic as it does.
func (parsed *Parsed) Type(i int) ChunkType { return parsed.rows[i].chunkType }

// ---- numbers in bytes, the most significant byte first

func shortAt(bytes []byte, at int) uint16 { return binary.BigEndian.Uint16(bytes[at:]) }

func numberAt(bytes []byte, at int) uint32 { return binary.BigEndian.Uint32(bytes[at:]) }

func putShort(bytes []byte, at int, number uint16) { binary.BigEndian.PutUint16(bytes[at:], number) }

func putNumber(bytes []byte, at int, number uint32) { binary.BigEndian.PutUint32(bytes[at:], number) }

func bitOf(is bool) uint8 {
	if is {
		return 1
	}
	return 0
}

// Lists of numbers lie in Go's memory as they do in a packet, but for the order of each number's bytes: every processor that there is
// a text for has the least significant one first.

// bytesIn returns the bytes of a slice of numbers, or of structs of them.
func bytesIn[T any](items []T) []byte {
	return unsafe.Slice((*byte)(first(items)), len(items)*int(unsafe.Sizeof(*new(T))))
}

// grown returns a slice with room for the items that a list has, and the bytes of these.
func grown[T any](to []T, list []byte) ([]T, []byte) {
	before, size := len(to), int(unsafe.Sizeof(*new(T)))
	if end := before + len(list)/size; end <= cap(to) {
		to = to[:end]
	} else {
		to = append(to, make([]T, end-before)...)
	}
	return to, bytesIn(to[before:])
}

// appendShorts adds what is made of numbers of two bytes.
func appendShorts[T any](to []T, list []byte) []T {
	if len(list) == 0 {
		return to
	}
	to, added := grown(to, list)
	swapShorts(added, list)
	return to
}

func appendNumbers[T any](to []T, list []byte) []T {
	if len(list) == 0 {
		return to
	}
	to, added := grown(to, list)
	swapNumbers(added, list)
	return to
}

func putShorts[T any](to []byte, items []T) { swapShorts(to, bytesIn(items)) }

func putNumbers[T any](to []byte, items []T) { swapNumbers(to, bytesIn(items)) }

// swapShorts copies numbers of two bytes, each with its bytes in the other order. Of many the library's loop takes less time.
func swapShorts(to, from []byte) {
	at := 0
	if size := C.size_t(len(from)); (size >= 400 || isDirect && size >= 64) && len(to) >= len(from) {
		if at = len(from); isDirect {
			direct.Call(functions.short_numbers, unsafe.Pointer(&to[0]), unsafe.Pointer(&from[0]), unsafe.Pointer(&size))
		} else {
			C.go_swap(bytesOf(to), bytesOf(from), size)
		}
	}
	for ; at+8 <= len(to) && at+8 <= len(from); at += 8 {
		four := binary.LittleEndian.Uint64(from[at : at+8])
		binary.LittleEndian.PutUint64(to[at:at+8], four>>8&0x00ff00ff00ff00ff|four&0x00ff00ff00ff00ff<<8)
	}
	for ; at+2 <= len(to) && at+2 <= len(from); at += 2 {
		binary.LittleEndian.PutUint16(to[at:], binary.BigEndian.Uint16(from[at:]))
	}
}

func swapNumbers(to, from []byte) {
	for at := 0; at+4 <= len(to) && at+4 <= len(from); at += 4 {
		binary.LittleEndian.PutUint32(to[at:at+4], binary.BigEndian.Uint32(from[at:at+4]))
	}
}

// A place is where a chunk, a parameter or an error cause begins, and the size of its value. (No packet needs more than 16 bits.)
type place struct{ offset, size uint16 }

// placeAt reads what begins at an offset; false where no whole one is: at the end.
func placeAt(bytes []byte, offset int) (place, bool) {
	if offset+4 > len(bytes) || offset > largest {
		return place{}, false
	}
	size := int(shortAt(bytes, offset+2)) - 4
	return place{uint16(offset), uint16(size)}, size >= 0 && size <= len(bytes)-offset-4
}

// next returns where the next one begins.
func (it place) next() int { return (int(it.offset) + 4 + int(it.size) + 3) &^ 3 }

func (it place) value(bytes []byte) []byte {
	from, to := int(it.offset)+4, int(it.offset)+4+int(it.size)
	return bytes[from:to:to]
}
