// SPDX-License-Identifier: Apache-2.0

// Package davgyuti reads, checks, prints and writes SCTP packets (RFC 9260): the wire layer of an association, whose
// timers, streams and retransmission are yours. Its verdicts (Check, Print, Canonical, VerifyTag, AUTH, cookies and the like) are
// calls of code that proved sources compile to, which lies in this folder as assembly text and is linked by cgo: the repository's
// dist/README.md says what is proved of it, and docs/C.md more of each call. The fields of packets are read and written by Go,
// which is generated of the repository's registry/sctp.txt, and compared with that code.
//
//	var parsed davgyuti.Parsed // keep it for the next packet
//	if err := parsed.Read(packet, davgyuti.Policy{}); err != nil {
//		return err // davgyuti: wrong checksum at byte 8
//	}
//	for i := 0; i < parsed.Len(); i++ {
//		if data, ok := parsed.Data(i); ok {
//			receive(data.Stream, data.TSN, data.Payload)
//		}
//	}
//
// Nothing panics, whatever the bytes are. Bytes begin at the source port. What is read (values, payloads) are slices of
// the packet's bytes, and not copied. Any number of goroutines may read the same packet. The bytes have to stay readable
// while a call runs: a fault in C, as of a mapped file that was cut, can't be recovered.
//
// Check of a packet that is one, IsValid, VerifyTag, OutOfTheBlue, BrokenRules, Header, ChunkAt and Chunks allocate nothing, nor does
// a Parsed that has grown. A fault allocates its Error, a list of numbers these, and an Iterator itself if it is passed on.
//
// # What a receiver still has to check
//
// Check says that bytes are a packet: its checksum and all its lengths are right. It says nothing of the association. Most of
// what is left BrokenRules says in one call: ports and tags of 0, INIT and INIT ACK, the order of the chunks, SHUTDOWN COMPLETE
// that isn't alone, HEARTBEAT without a Heartbeat Info, empty payloads, the blocks of a SACK, a checksum of 0. A receiver still
// has to check
//   - that the verification tag is right, by VerifyTag, and OutOfTheBlue where the packet belongs to no association;
//   - what is done with an INIT or INIT ACK that has an InitFault, by its Refusal, and that it has no Host Name Address, which an
//     ABORT answers (section 5.1.2);
//   - that HEARTBEAT has no second Heartbeat Info;
//   - that a chunk whose type IsListed comes after an AUTH that VerifyAuth accepts;
//   - that the blocks of a SACK are in order, by IsValidSACK; if not, its cumulative TSN still counts.
//
// A chunk, a parameter or an error cause of a type that isn't known is accepted, whatever its value.
//
// What answers what is in the repository's docs/C.md. A chunk without a function of its own, as ABORT with other causes, ERROR and
// RE-CONFIG, begins with AddChunk, and AddCause or AddReConfig add to it.
package davgyuti

// #include "calls.h"
import "C"

import (
	"fmt"
	"unsafe"
)

// A Code says why a call failed; it is an error, and what errors.Is compares an error of this package with. The faults of
// bytes are returned in an *Error, by Packet's Check, Print, Report and Canonical, by Parsed.Read and by ReadChunk. All else is
// returned as a Code alone: ErrNoMemory by Print, ErrTooLong by Canonical, and each error of Seal, SetTag, Begin and the methods
// of a Builder.
type Code uint32

// Error returns what the code means, in a few words.
func (code Code) Error() string {
	if code == ErrBadPlace {
		return "davgyuti: no chunk to add to, or fewer than 12 bytes" // the table's text is of offsets, which are kept here
	}
	return "davgyuti: " + code.words().text
}

// Name returns the code in a word, for counters and logs: "size", "checksum", "length", "value", "padding", "no-memory",
// "no-room", "too-long", "bad-value" or "bad-place". "unknown" of a number that is no code.
func (code Code) Name() string { return code.words().name }

func (code Code) words() words { return wordsAt(codes[:], uint64(code)) }

// words are the name and the text of a code or a rule.
type words struct{ name, text string }

func wordsAt(all []words, number uint64) words {
	if number < uint64(len(all)) {
		return all[number]
	}
	return words{"unknown", "unknown"}
}

// An Error is the first fault of bytes that are no packet. It wraps its Code, for errors.Is. Its Offset is
//   - of ErrSize how many bytes there are, at most 65,535;
//   - of ErrChecksum 8, where the field is;
//   - of ErrLength where the chunk, the parameter or the error cause begins, and of ErrValue where the parameter does;
//   - of ErrPadding where the first byte is that isn't zero, or the end of the bytes where padding is missing.
type Error struct {
	Code   Code
	Offset int // from the bytes' beginning
}

// Error returns what the code means, and the offset.
func (e *Error) Error() string { return fmt.Sprintf("%v at byte %d", e.Code, e.Offset) }

// Unwrap returns the code.
func (e *Error) Unwrap() error { return e.Code }

// errorOf returns the error of a code, nil for success.
func errorOf(code C.uint32_t) error {
	if code == C.DCSCTP_OK {
		return nil
	}
	return Code(code)
}

// Version returns the version of the library, as MAJOR.MINOR.PATCH.
func Version() string { return C.GoString(C.dcsctp_version()) }

// VersionNumber returns 65,536 times the major version, 256 times the minor one, and the patch.
func VersionNumber() uint32 { return uint32(C.dcsctp_version_number()) }

// A Header is the common header (section 3.1).
type Header struct {
	SourcePort      uint16
	DestinationPort uint16
	VerificationTag uint32
	Checksum        uint32 // bytes 8 to 11, most significant byte first
}

// CleanBlocks brings gap ack blocks into order, joins those that overlap or touch, and drops those that end before their
// start: what it returns are the fewest blocks that cover the same offsets. They are at the front of the slice, which it
// changes.
func CleanBlocks(blocks []GapAckBlock) []GapAckBlock {
	it := (*C.struct_dcsctp_gap_ack_block)(first(blocks))
	return blocks[:C.dcsctp_clean_blocks(it, C.size_t(len(blocks)))]
}

// (A block has the layout of C's.)
var _ = [C.sizeof_struct_dcsctp_gap_ack_block]byte{} == [unsafe.Sizeof(GapAckBlock{})]byte{}

// first returns where a slice's items begin, in C; null where there are none.
func first[T any](items []T) unsafe.Pointer {
	if len(items) == 0 {
		return nil
	}
	return unsafe.Pointer(&items[0])
}

// bytesOf does so of bytes. (By itself it is inlined; a call of first isn't.)
func bytesOf(bytes []byte) *C.uint8_t {
	if len(bytes) == 0 {
		return nil
	}
	return (*C.uint8_t)(&bytes[0])
}
