// SPDX-License-Identifier: Apache-2.0

package davgyuti

// #include "calls.h"
import "C"

import (
	"errors"
	"fmt"
	"unsafe"
)

// Chunks after AUTH (RFC 4895) and State Cookies (section 5.1.3), by HMACs with SHA-1 or SHA-256 under keys of any length.
// Two HMACs are compared to their end, wherever they differ; nothing is proved of the time that this takes.

// IsListed returns whether a chunk of this type has to come after AUTH: list is the value of the receiver's Chunk List, in
// which INIT, INIT ACK, SHUTDOWN COMPLETE and AUTH are ignored (RFC 4895 section 3.2).
func (t ChunkType) IsListed(list []byte) bool {
	return bool(C.dcsctp_is_listed(bytesOf(list), C.size_t(len(list)), C.uint8_t(t)))
}

// SharedKey returns an association shared key (RFC 4895 section 6.1): the endpoint pair shared key, which may be empty, and
// then the key vectors of both ends in the order that the section gives, whichever is passed first. A key vector is the
// parameters Random, Chunk List and Requested HMAC Algorithm that an end sent, in this order, each with its header and
// without padding: their Bytes.
func SharedKey(pairKey, one, other []byte) []byte {
	output := make([]byte, len(pairKey)+len(one)+len(other))
	var size C.size_t
	C.dcsctp_shared_key(bytesOf(output), C.size_t(len(output)), &size, bytesOf(pairKey), C.size_t(len(pairKey)),
		bytesOf(one), C.size_t(len(one)), bytesOf(other), C.size_t(len(other)))
	return output[:size]
}

// VerifyAuth returns whether the chunk is an AUTH whose HMAC, of the packet from the chunk on, is right under an
// association shared key (RFC 4895 section 6.3). False also where its HMAC identifier is another than 1 and 3, or its HMAC
// is not as long as that of SHA-1 or SHA-256.
func (chunk Chunk) VerifyAuth(key []byte) bool {
	bytes := chunk.toEnd()
	return bool(C.dcsctp_verify_auth(bytesOf(key), C.size_t(len(key)), bytesOf(bytes), C.size_t(len(bytes))))
}

// SignAuth writes the HMAC into an AUTH chunk where it lies, whose field has to be as long (RFC 4895 section 6.2): add the
// AUTH with an HMAC of zeros, then the chunks that it authenticates, sign, and seal the packet after that. ErrBadValue, and
// nothing is changed, where VerifyAuth would return false whatever the HMAC is.
func (chunk Chunk) SignAuth(key []byte) error {
	bytes, apart := chunk.toEnd(), append([]byte(nil), key...)
	if !C.dcsctp_sign_auth(bytesOf(apart), C.size_t(len(apart)), bytesOf(bytes), C.size_t(len(bytes))) {
		return ErrBadValue
	}
	return nil
}

// toEnd returns the packet from the chunk on.
func (chunk Chunk) toEnd() []byte {
	packet := chunk.packet()
	return packet.part(chunk.Offset, len(packet)-chunk.Offset)
}

// A Cookie is what a State Cookie says: what its sender needs to set up the association, and for how long (section 5.1.3).
// Local is the end that seals and opens it.
type Cookie struct {
	Created         uint64 // in microseconds, on your clock
	Lifespan        uint64 // in microseconds
	LocalTag        uint32 // the initiate tag of the INIT ACK
	PeerTag         uint32 // that of the INIT
	LocalTieTag     uint32 // the Local Tie-Tag (section 5.2.2): 0 where the INIT came without an association
	PeerTieTag      uint32 // the Peer's Tie-Tag, likewise
	LocalInitialTSN uint32 // the initial TSN of the INIT ACK
	PeerInitialTSN  uint32 // that of the INIT
	LocalPort       uint16
	PeerPort        uint16
	OutboundStreams uint16 // on which the local end sends
	InboundStreams  uint16
	// Extra are further bytes of yours, of any length: the peer's addresses, the parameters of its INIT, AUTH's key vectors; of
	// one that was opened a part of it.
	Extra []byte
}

// cookieSize is the size of a State Cookie without further bytes.
const cookieSize = 80

// numbersOf returns the numbers of a Cookie, or of C's, which has the same before the further bytes.
func numbersOf(cookie unsafe.Pointer) *[unsafe.Offsetof(Cookie{}.Extra)]byte {
	return (*[unsafe.Offsetof(C.struct_dcsctp_cookie{}.extra_offset)]byte)(cookie)
}

// Seal returns the State Cookie, with an HMAC under a key that nobody else knows.
func (cookie Cookie) Seal(key []byte) []byte {
	output := make([]byte, cookieSize+len(cookie.Extra))
	var size C.size_t
	var it C.struct_dcsctp_cookie
	*numbersOf(unsafe.Pointer(&it)) = *numbersOf(unsafe.Pointer(&cookie))
	C.dcsctp_seal_cookie(bytesOf(output), C.size_t(len(output)), &size, bytesOf(key), C.size_t(len(key)), &it,
		bytesOf(cookie.Extra), C.size_t(len(cookie.Extra)))
	return output[:size]
}

// ErrInvalidCookie says that bytes aren't a State Cookie that was sealed under the key: the packet is discarded, without an
// answer.
var ErrInvalidCookie = errors.New("davgyuti: no State Cookie that was sealed under the key")

// A StaleCookieError says that a State Cookie was sealed under the key, but is no longer good. The cause Stale Cookie has
// the lower 32 bits of its Staleness (section 3.3.10.3).
type StaleCookieError struct {
	Cookie    Cookie // what it says
	Staleness uint64 // for how many microseconds it hasn't been good
}

// Error returns what it means, and for how long the cookie hasn't been good.
func (e *StaleCookieError) Error() string {
	return fmt.Sprintf("davgyuti: a State Cookie that is stale for %d microseconds", e.Staleness)
}

// OpenCookie opens a State Cookie at a time in microseconds, on the clock by which it was sealed. It is good from before it
// was created, on a clock that was set back, to the end of its life. The error is ErrInvalidCookie or a *StaleCookieError.
func OpenCookie(key, bytes []byte, now uint64) (Cookie, error) {
	var it C.struct_dcsctp_cookie
	var staleness C.uint64_t
	state := C.dcsctp_open_cookie(bytesOf(key), C.size_t(len(key)), bytesOf(bytes), C.size_t(len(bytes)), C.uint64_t(now), &it,
		&staleness)
	if state == C.DCSCTP_COOKIE_INVALID {
		return Cookie{}, ErrInvalidCookie
	}
	cookie := Cookie{Extra: Packet(bytes).part(int(it.extra_offset), int(it.extra_size))}
	*numbersOf(unsafe.Pointer(&cookie)) = *numbersOf(unsafe.Pointer(&it))
	if state == C.DCSCTP_COOKIE_STALE {
		return Cookie{}, &StaleCookieError{cookie, uint64(staleness)}
	}
	return cookie, nil
}
