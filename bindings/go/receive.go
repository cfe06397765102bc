// SPDX-License-Identifier: Apache-2.0

package davgyuti

// #include "calls.h"
import "C"

import (
	"fmt"
	"math/bits"
	"strings"
	"unsafe"
)

// What RFC 9260 asks of whoever receives a packet. Of the packet only the common header, the types of its chunks and the T
// bit are looked at, up to the first chunk whose length is impossible; without a common header it is discarded. Check it
// first.

// Reports returns whether the chunk or the parameter is reported.
func (a Action) Reports() bool { return bool(C.dcsctp_action_reports(C.uint32_t(a))) }

// Skips returns whether the next one is processed.
func (a Action) Skips() bool { return bool(C.dcsctp_action_skips(C.uint32_t(a))) }

// UnrecognizedAction returns what is done with a chunk of this type that your association doesn't know, by the type's two
// highest-order bits (section 3.2).
func (t ChunkType) UnrecognizedAction() Action {
	return Action(C.dcsctp_unrecognized_chunk(C.uint8_t(t)))
}

// UnrecognizedAction returns the same of a parameter (section 3.2.1).
func (t ParameterType) UnrecognizedAction() Action {
	return Action(C.dcsctp_unrecognized_parameter(C.uint16_t(t)))
}

// An Association has the tags of an association, for VerifyTag. As long as you keep none (a client does from its INIT on, a server from
// the COOKIE ECHO on) you have no tag of your own to compare: ask OutOfTheBlue instead.
type Association struct {
	OwnTag       uint32 // the initiate tag that you sent
	PeerTag      uint32 // the initiate tag that the peer sent
	HasPeerTag   bool   // whether it has sent one
	AwaitsCookie bool   // whether you are in the state COOKIE-WAIT or COOKIE-ECHOED
}

// VerifyTag returns what is done with the packet, by its verification tag (sections 8.5 and 8.5.1). What TagEstablish says goes where
// AnswerInit and AnswerCookieEcho go. Of an association that is there already INIT gets an INIT ACK with another tag, and a State Cookie
// with the Tie-Tags (section 5.2.2), and COOKIE ECHO what Table 12 says (section 5.2.4).
func (p Packet) VerifyTag(association Association) TagVerdict {
	it := *(*C.struct_dcsctp_association)(unsafe.Pointer(&association))
	return TagVerdict(C.go_verify_tag(bytesOf(p), C.size_t(len(p)), it))
}

// OutOfTheBlue returns what is done with the packet where it belongs to no association (section 8.4); isUnicast says
// whether it is to and from unicast addresses. Ask only of a packet that Check accepts: other bytes may be answered too.
func (p Packet) OutOfTheBlue(isUnicast bool) Answer {
	return Answer(C.dcsctp_out_of_the_blue(bytesOf(p), C.size_t(len(p)), C.bool(isUnicast)))
}

// Reply returns what AnswerShutdownComplete or AnswerAbort sends back to the sender of a packet with this header: the tag
// reflected, with the T bit. Seal it. ErrBadValue for another answer.
func (h Header) Reply(answer Answer) (Packet, error) {
	return h.unsealed(func(to *C.uint8_t, room C.size_t, size *C.size_t, header *C.struct_dcsctp_header) C.uint32_t {
		return C.dcsctp_reply(to, room, size, header, C.uint32_t(answer))
	})
}

// InitFault returns the fault of an INIT (section 3.3.2), or of an INIT ACK (section 3.3.3) where isAck is true. Of the
// parameters State Cookie and Host Name Address alone are looked for.
func (p Packet) InitFault(isAck bool) InitFault {
	return InitFault(C.dcsctp_init_fault(bytesOf(p), C.size_t(len(p)), C.bool(isAck)))
}

// Refusal returns what is done where an INIT, or an INIT ACK, has this fault (sections 3.3.2, 3.3.3, 5.1 and 8.5.1), and of
// an INIT ACK by whether you are in the state COOKIE-WAIT; RefusalDiscard for InitNoFault and for a number that is no
// fault's.
func (f InitFault) Refusal(isAck, inCookieWait bool) Refusal {
	return Refusal(C.dcsctp_init_refusal(C.uint32_t(f), C.bool(isAck), C.bool(inCookieWait)))
}

// InitAbort returns the packet with the ABORT that says this fault to the sender of an INIT or INIT ACK with this initiate
// tag in a packet with this header. Its cause is Missing Mandatory Parameter or Invalid Mandatory Parameter; it has none
// for InitNotAlone and InitTooShort, which no ABORT answers. Its tag is the initiate tag; where that is 0, the packet's
// own, with the T bit. Seal it. ErrBadValue for InitNoFault, and for a number that is no fault's.
func (h Header) InitAbort(initiateTag uint32, fault InitFault) (Packet, error) {
	return h.unsealed(func(to *C.uint8_t, room C.size_t, size *C.size_t, header *C.struct_dcsctp_header) C.uint32_t {
		return C.dcsctp_init_abort(to, room, size, header, C.uint32_t(initiateTag), C.uint32_t(fault))
	})
}

// AddsAddresses returns whether an INIT adds addresses to an association that is there already (section 5.2.2): an ABORT under its
// InitiateTag answers it, with AddNewAddresses, and the association stays as it is. known are the association's addresses, as
// parameters: the Bytes of each IPv4 Address and IPv6 Address, one after the other. The address that the packet came from isn't
// in the INIT: look at it yourself. Each of the INIT's addresses is compared with each known one, both of which may be the peer's:
// bound how many you keep.
func (chunk Chunk) AddsAddresses(known []byte) bool {
	list, _ := chunk.list()
	return bool(C.dcsctp_adds_addresses(bytesOf(list), C.size_t(len(list)), bytesOf(known), C.size_t(len(known))))
}

// Rules are rules of the RFCs that Packet.Check doesn't look at, which accepts a packet that breaks them: a set of bits, one for
// each. The section of each says what is done with such a packet, if anything is.
type Rules uint32

// Has returns whether all of these rules are in the set.
func (r Rules) Has(rules Rules) bool { return r&rules == rules }

// List returns the rules that are in the set, each as a set of its own, in the order of their bits.
func (r Rules) List() []Rules {
	var list []Rules
	for ; r != 0; r &= r - 1 {
		list = append(list, r&-r)
	}
	return list
}

// Name returns the name of a rule, as sctp_dump writes it: words with hyphens. "unknown" of another set than of one rule.
func (r Rules) Name() string { return r.words().name }

// Text returns what breaks a rule, in a few words. "unknown" of another set than of one rule.
func (r Rules) Text() string { return r.words().text }

func (r Rules) words() words {
	if r&(r-1) != 0 {
		return wordsAt(nil, 0)
	}
	return wordsAt(rules[:], uint64(bits.TrailingZeros32(uint32(r))))
}

// String returns the names of the rules that are in the set, with blanks between them; "-" where there is none.
func (r Rules) String() string {
	var names []string
	for _, rule := range r.List() {
		names = append(names, rule.Name())
	}
	if names == nil {
		return "-"
	}
	return strings.Join(names, " ")
}

// Known is what is known of the association that a packet belongs to. Of its zero value: nothing.
type Known struct {
	RefusesZero bool // the end that it goes to sent INIT or INIT ACK without Zero Checksum Acceptable (RFC 9653 section 4)
	HasData     bool // an end sent DATA
	HasIData    bool // an end sent I-DATA
}

// BrokenRules returns the rules that the packet breaks. Its common header and its chunks are looked at, up to the first chunk
// whose length is impossible: a field that isn't there breaks no rule. Its CRC32c is computed here.
func (p Packet) BrokenRules(known Known) Rules {
	it := *(*C.struct_dcsctp_known)(unsafe.Pointer(&known))
	return Rules(C.go_broken_rules(bytesOf(p), C.size_t(len(p)), it))
}

// (These have the layout of C's.)
var (
	_ = [unsafe.Offsetof(C.struct_dcsctp_association{}.awaits_cookie)]byte{} == [unsafe.Offsetof(Association{}.AwaitsCookie)]byte{}
	_ = [C.sizeof_struct_dcsctp_known]byte{} == [unsafe.Sizeof(Known{})]byte{}
	_ = [C.sizeof_struct_dcsctp_header]byte{} == [unsafe.Sizeof(Header{})]byte{}
)

// worded returns the words for a number; for one without words what it is, and the number.
func worded(number uint32, what string, words ...string) string {
	if number < uint32(len(words)) {
		return words[number]
	}
	return fmt.Sprintf("%s %d", what, number)
}

// unsealed returns a small packet that a function of C writes: none has more than 28 bytes.
func (h Header) unsealed(write func(*C.uint8_t, C.size_t, *C.size_t, *C.struct_dcsctp_header) C.uint32_t) (Packet, error) {
	packet, size := make(Packet, 28), C.size_t(0)
	if err := errorOf(write(bytesOf(packet), C.size_t(len(packet)), &size, (*C.struct_dcsctp_header)(unsafe.Pointer(&h)))); err != nil {
		return nil, err
	}
	return packet[:size], nil
}
