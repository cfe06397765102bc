// SPDX-License-Identifier: Apache-2.0

package davgyuti_test

import (
	"bytes"
	"fmt"
	"math"
	"testing"

	"davgyuti.example/davgyuti"
)

// What is authenticated: the rows are those of the repository's tests/c/auth.c, whose HMACs are those that Python's hmac gives of
// bytes that were laid out by hand.

var (
	aKey = []byte("a key")

	sealedCookie = ofHex("0e7f54ce817b4159983e9114aa8511194e5e71af023a055c38cb78f905a9ac0400000000000f4240" +
		"000000000393870001020304050607081112131415161718090a0b0c0d0e0f1013881389000a0014c0000201")

	aCookie = davgyuti.Cookie{Created: 1000000, Lifespan: 60000000, LocalTag: own, PeerTag: peer, LocalTieTag: 0x11121314,
		PeerTieTag: 0x15161718, LocalInitialTSN: other, PeerInitialTSN: 0x0d0e0f10, LocalPort: 5000, PeerPort: 5001, OutboundStreams: 10, InboundStreams: 20,
		Extra: []byte{192, 0, 2, 1}}

	// AUTH, with SHA-1 and with SHA-256, and a DATA chunk after it.
	signedChunks = []davgyuti.Packet{
		ofHex("0f00001c00000001c7495116c0ef32e9165201fbb044c4bb612e9d0e0003001400000001000200030000003361620000"),
		ofHex("0f00002800000003e95e27d95bf24d454ec42d0f7ae79c824a09c532620996ed19b3d3a3d9ec3d35" +
			"0003001400000001000200030000003361620000"),
	}
)

func TestCookie(t *testing.T) {
	equal(t, "sealed", aCookie.Seal(aKey), sealedCookie)
	// Good to the end of its life, and on a clock that was set back.
	for _, now := range []uint64{0, 1000000, 61000000} {
		cookie, err := davgyuti.OpenCookie(aKey, sealedCookie, now)
		equal(t, fmt.Sprint(now), []interface{}{cookie, err}, []interface{}{aCookie, nil})
	}
	for now, staleness := range map[uint64]uint64{61000001: 1, math.MaxUint64: math.MaxUint64 - 61000000} {
		cookie, err := davgyuti.OpenCookie(aKey, sealedCookie, now)
		equal(t, "stale", []interface{}{cookie, err},
			[]interface{}{davgyuti.Cookie{}, &davgyuti.StaleCookieError{Cookie: aCookie, Staleness: staleness}})
	}
	isInvalid := func(what string, key, bytes []byte) {
		t.Helper()
		cookie, err := davgyuti.OpenCookie(key, bytes, 1000000)
		equal(t, what, []interface{}{cookie, err}, []interface{}{davgyuti.Cookie{}, davgyuti.ErrInvalidCookie})
	}
	// Cut off, with a byte changed, or under another key.
	changed := append([]byte(nil), sealedCookie...)
	for i := range changed {
		isInvalid("cut off", aKey, changed[:i])
		changed[i] ^= 1
		isInvalid("changed", aKey, changed)
		changed[i] ^= 1
	}
	isInvalid("another key", aKey[:4], sealedCookie)
	isInvalid("no key", nil, sealedCookie)
	isInvalid("nothing", nil, nil)
	// Without a key, and without further bytes.
	bare := davgyuti.Cookie{Created: 1000000}
	cookie, err := davgyuti.OpenCookie(nil, bare.Seal(nil), 1000000)
	equal(t, "extra", len(cookie.Extra), 0)
	cookie.Extra = nil
	equal(t, "bare", []interface{}{cookie, err}, []interface{}{bare, nil})

	equal(t, "text", (&davgyuti.StaleCookieError{Staleness: 1}).Error(), "davgyuti: a State Cookie that is stale for 1 microseconds")
}

func TestAuth(t *testing.T) {
	chunkOf := func(bytes davgyuti.Packet) davgyuti.Chunk {
		chunk, _ := bytes.ChunkAt(0)
		return chunk
	}
	for i, wanted := range signedChunks {
		macSize := []int{20, 32}[i]
		equal(t, "right", chunkOf(wanted).VerifyAuth(aKey), true)
		equal(t, "another key", chunkOf(wanted).VerifyAuth(aKey[:4]), false)
		signed := append(davgyuti.Packet(nil), wanted...)
		copy(signed[8:], bytes.Repeat([]byte{0xa5}, macSize))
		equal(t, "unsigned", chunkOf(signed).VerifyAuth(aKey), false)
		equal(t, "signed", chunkOf(signed).SignAuth(aKey), nil)
		equal(t, "signed", signed, wanted)
		for at := range signed {
			equal(t, "cut off", chunkOf(signed[:at]).VerifyAuth(aKey), false)
			signed[at] ^= 1
			equal(t, "changed", chunkOf(signed).VerifyAuth(aKey), false)
			signed[at] ^= 1
		}
		// No AUTH, another length, another identifier: nothing is written.
		for _, place := range []int{0, 3, 7} {
			changed := append(davgyuti.Packet(nil), wanted...)
			changed[place] ^= 4
			before := append(davgyuti.Packet(nil), changed...)
			equal(t, "refused", chunkOf(changed).SignAuth(aKey), davgyuti.ErrBadValue)
			equal(t, "refused", changed, before)
		}
		equal(t, "cut off", chunkOf(signed[:7+macSize]).SignAuth(aKey), davgyuti.ErrBadValue)
		// A chunk of a packet is authenticated with what follows it alone; and a key may lie in the packet.
		packet := append(append(davgyuti.Packet(nil), sealed("0b000004")...), signed...)
		auth, _ := packet.ChunkAt(16)
		equal(t, "in a packet", auth.VerifyAuth(aKey), true)
		equal(t, "a key in it", auth.SignAuth(packet[24:30]), nil)
		equal(t, "a key in it", auth.VerifyAuth(signed[8:14]), true)
	}
	equal(t, "no chunk", davgyuti.Chunk{}.SignAuth(nil), davgyuti.ErrBadValue)
	chunk := chunkOf(signedChunks[0])
	for _, offset := range []int{-1, 49, math.MaxInt, math.MinInt} {
		chunk.Offset = offset
		equal(t, "no offset", []interface{}{chunk.VerifyAuth(aKey), chunk.SignAuth(aKey)},
			[]interface{}{false, davgyuti.ErrBadValue})
	}
}

// RFC 4895 section 3.2, and 6.1: the smaller number first; of two that are equal, the shorter.
func TestKeys(t *testing.T) {
	for number := 0; number < 256; number++ {
		listed := davgyuti.ChunkType(number).IsListed([]byte{0xc1, 0x80, 1, 2, 14, 15})
		equal(t, fmt.Sprint(number), listed, number == 0xc1 || number == 0x80)
	}
	equal(t, "no list", davgyuti.ChunkASCONF.IsListed(nil), false)
	for _, c := range []struct{ one, other, key []byte }{
		{[]byte{1, 2}, []byte{1, 3}, []byte{'p', 1, 2, 1, 3}},
		{[]byte{1, 3}, []byte{2}, []byte{'p', 2, 1, 3}},
		{[]byte{0, 5}, []byte{5}, []byte{'p', 5, 0, 5}},
		{[]byte{0, 1, 1}, []byte{1, 2}, []byte{'p', 0, 1, 1, 1, 2}},
		{[]byte{7}, []byte{7}, []byte{'p', 7, 7}},
	} {
		equal(t, "key", davgyuti.SharedKey([]byte("p"), c.one, c.other), c.key)
		equal(t, "key", davgyuti.SharedKey([]byte("p"), c.other, c.one), c.key)
		equal(t, "no pair's key", davgyuti.SharedKey(nil, c.other, c.one), c.key[1:])
	}
	equal(t, "nothing", len(davgyuti.SharedKey(nil, nil, nil)), 0)
}
