// SPDX-License-Identifier: Apache-2.0
// What is authenticated: the rows are those of the repository's tests/c/auth.c, whose HMACs are those that Python's hmac gives of
// bytes that were laid out by hand.
import assert from 'node:assert/strict';
import { test } from 'node:test';
import * as davgyuti from 'davgyuti';

const { ChunkType, CookieState, Result, WriteError, isListed, openCookie, sealCookie, sharedKey, signAuth, verifyAuth } = davgyuti;
const bytes = hex => Uint8Array.from(Buffer.from(hex.replace(/\s/g, ''), 'hex'));
const NOTHING = new Uint8Array(0);
const KEY = new TextEncoder().encode('a key');

/** Bytes with a bit of one of them changed. */
const changed = (bytes, at, bit = 1) => bytes.map((it, i) => (i === at ? it ^ bit : it));

test('State Cookies', () => {
  const wanted = bytes('0e7f54ce817b4159983e9114aa8511194e5e71af023a055c38cb78f905a9ac0400000000000f4240'
    + '000000000393870001020304050607081112131415161718090a0b0c0d0e0f1013881389000a0014c0000201');
  const says = {
    created: 1000000n, lifespan: 60000000n, localTag: 0x01020304, peerTag: 0x05060708, localTieTag: 0x11121314,
    peerTieTag: 0x15161718, localInitialTsn: 0x090a0b0c, peerInitialTsn: 0x0d0e0f10, localPort: 5000, peerPort: 5001,
    outboundStreams: 10, inboundStreams: 20, extra: bytes('c0000201'),
  };
  const sealed = sealCookie(KEY, says);
  assert.deepEqual(sealed, wanted);
  // Good to the end of its life, and on a clock that was set back.
  for (const now of [0n, 1000000n, 61000000n])
    assert.deepEqual(openCookie(KEY, wanted, now), { state: CookieState.GOOD, cookie: says });
  assert.equal(openCookie(KEY, wanted, 0n).cookie.extra.buffer, wanted.buffer);
  const last = 2n ** 64n - 1n;
  for (const [now, staleness] of [[61000001n, 1n], [last, last - 61000000n]])
    assert.deepEqual(openCookie(KEY, wanted, now), { ...openCookie(KEY, wanted, 0n), state: CookieState.STALE, staleness });
  // Cut off, with a byte changed, or under another key.
  const invalid = { state: CookieState.INVALID };
  wanted.forEach((_, i) => {
    assert.deepEqual(openCookie(KEY, wanted.subarray(0, i), 1000000n), invalid);
    assert.deepEqual(openCookie(KEY, changed(wanted, i), 1000000n), invalid);
  });
  for (const [key, it] of [[KEY.subarray(0, 4), wanted], [NOTHING, wanted], [NOTHING, NOTHING]])
    assert.deepEqual(openCookie(key, it, 1000000n), invalid);
  // Without a key, without Tie-Tags, and without further bytes.
  const { localTieTag, peerTieTag, extra, ...rest } = says, without = sealCookie(NOTHING, rest);
  assert.equal(without.length, wanted.length - extra.length);
  assert.deepEqual(sealed, wanted); // a later call leaves it
  assert.deepEqual(openCookie(NOTHING, without, 1000000n).cookie, { ...rest, localTieTag: 0, peerTieTag: 0, extra: NOTHING });

  for (const it of [{ ...says, created: 1 }, { ...says, extra: 'text' }, { ...rest, localTag: undefined }, null])
    assert.throws(() => sealCookie(KEY, it), TypeError);
  for (const it of [{ ...says, lifespan: 2n ** 64n }, { ...says, created: -1n }, { ...says, peerPort: 65_536 }])
    assert.throws(() => sealCookie(KEY, it), RangeError);
  assert.throws(() => openCookie(KEY, wanted, 0), TypeError);
  assert.throws(() => openCookie(KEY, wanted, -1n), RangeError);
});

// AUTH, and a DATA chunk after it.
test('AUTH', () => {
  const refused = error => error instanceof WriteError && error.code === Result.BAD_VALUE;
  const rows = [
    ['0f00001c00000001 c7495116c0ef32e9165201fbb044c4bb612e9d0e 0003001400000001000200030000003361620000', 20],
    ['0f00002800000003 e95e27d95bf24d454ec42d0f7ae79c824a09c532620996ed19b3d3a3d9ec3d35 0003001400000001000200030000003361620000', 32],
  ];
  for (const [hex, macSize] of rows) {
    const wanted = bytes(hex), it = wanted.slice().fill(0xa5, 8, 8 + macSize);
    assert.deepEqual([verifyAuth(KEY, wanted), verifyAuth(KEY.subarray(0, 4), wanted), verifyAuth(KEY, it)], [true, false, false]);
    assert.equal(signAuth(KEY, it), it);
    assert.deepEqual(it, wanted);
    wanted.forEach((_, i) => {
      assert.equal(verifyAuth(KEY, changed(wanted, i)), false);
      assert.equal(verifyAuth(KEY, wanted.subarray(0, i)), false);
    });
    // No AUTH, another length, another identifier: nothing is written.
    for (const place of [0, 3, 7]) {
      const other = changed(wanted, place, 4);
      assert.throws(() => signAuth(KEY, other), refused);
      assert.deepEqual(other, changed(wanted, place, 4));
    }
    for (const cut of [wanted.slice(0, 7 + macSize), NOTHING])
      assert.throws(() => signAuth(KEY, cut), refused);
  }
  // A key of more than 64 bytes is hashed (RFC 2104 section 2).
  const long = Uint8Array.from({ length: 65 }, (_, i) => i);
  const wanted = bytes('0f00002800000003 1fcb5ccf1bedea2fcf77ea5189facab5cae519a42dfcf1210e93779854404b22 0003001400000001000200030000003361620000');
  assert.deepEqual(signAuth(long, bytes(rows[1][0])), wanted);
  assert.equal(verifyAuth(long, wanted), true);
  assert.throws(() => verifyAuth('a key', NOTHING), TypeError);
});

// RFC 4895 section 3.2, and 6.1: the smaller number first; of two that are equal, the shorter.
test('Chunk Lists, and association shared keys', () => {
  const list = Uint8Array.of(0xc1, 0x80, 1, 2, 14, 15);
  for (let type = 0; type < 256; type++)
    assert.equal(isListed(list, type), type === 0xc1 || type === 0x80);
  assert.equal(isListed(NOTHING, ChunkType.ASCONF), false);
  const rows = [
    [[1, 2], [1, 3], [1, 2, 1, 3]],
    [[1, 3], [2], [2, 1, 3]],
    [[0, 5], [5], [5, 0, 5]],
    [[0, 1, 1], [1, 2], [0, 1, 1, 1, 2]],
    [[7], [7], [7, 7]],
  ];
  const pairKey = Uint8Array.of(0x70);
  for (const [one, other, key] of rows) {
    for (const [a, b] of [[one, other], [other, one]])
      assert.deepEqual(sharedKey(pairKey, Uint8Array.from(a), Uint8Array.from(b)), Uint8Array.of(0x70, ...key));
  }
  assert.deepEqual(sharedKey(NOTHING, NOTHING, NOTHING), NOTHING);
});
