// SPDX-License-Identifier: Apache-2.0
// What a stack needs besides packets: bare chunks, items of a type and bytes, flags, checksums of zero. The bytes are by hand,
// from the sections that are named.
import assert from 'node:assert/strict';
import { test } from 'node:test';
import {
  Builder, CauseCode, ChunkType, Fault, ParameterType, Result, WriteError, canonical, cause, check, dataFlags, firstFault, needsChecksum,
  parameter, parameters, readChunk, report, seal, text, withFlags, word,
} from 'davgyuti';

const bytes = hex => Uint8Array.from(Buffer.from(hex.replace(/\s/g, ''), 'hex'));
const PORTS = { sourcePort: 5000, destinationPort: 5001, verificationTag: 0x01020304 };
const zeroed = hex => bytes(`1388 1389 01020304 00000000 ${hex}`);
const NUMBERS = '00000001 00000002 0003 0004 00000005';

test('a chunk without a packet around it', () => {
  const whole = bytes(`01000019 ${NUMBERS} c0fe 0005 61 000000`), bare = whole.slice(0, 25);
  for (const given of [whole, bare]) {
    const chunk = readChunk(given), [{ type, bytes: its, next }] = parameters(chunk);
    assert.deepEqual([chunk.offset, chunk.valueOffset, chunk.next, chunk.init.initialTsn], [0, 4, given.length, 5]);
    assert.deepEqual([chunk.bytes, chunk.value.buffer], [bare, given.buffer]);
    assert.deepEqual([type, its, next], [0xc0fe, bytes('c0fe0005 61'), 25]);
    const builder = new Builder(PORTS);
    assert.equal(builder.lastChunk(), null);
    builder.addCookieAck().addChunk(chunk.type, chunk.flags, chunk.value);
    assert.deepEqual(builder.lastChunk().bytes, bare);
    assert.deepEqual(builder.removeLast().lastChunk().bytes, bytes('0b000004'));
  }
});

test('what a chunk that was taken back leaves is not written', () => {
  const builder = new Builder(PORTS).addChunk(0xfe, 0, new Uint8Array(40).fill(255)).removeLast();
  builder.addIData({ tsn: 1, stream: 2, mid: 3, payload: bytes('61') }).addChunk(ChunkType.RE_CONFIG).addReConfig({ type: 17, newStreams: 5 });
  assert.deepEqual(builder.finish({ checksum: false }), zeroed('40030015 00000001 0002 0000 00000003 00000000 61 000000'
    + '82000010 0011000c 00000000 0005 0000'));
});

test('another packet by the same builder', () => {
  const builder = new Builder({ ...PORTS, room: 60 }).addChunk(0xfe, 255, new Uint8Array(41).fill(255)), other = { sourcePort: 1, destinationPort: 2 };
  const before = builder.finish();
  for (const [ports, error] of [[{ sourcePort: 65_536 }, RangeError], [{ ...other, verificationTag: -1 }, RangeError], [null, TypeError]])
    assert.throws(() => builder.reset(ports), error);
  assert.deepEqual(builder.finish(), before);
  for (const [ports, header] of [[other, '0001 0002 01020304'], [{ verificationTag: 9 }, '0001 0002 00000009'], [undefined, '0001 0002 00000009']]) {
    assert.equal(builder.reset(ports), builder);
    assert.deepEqual([builder.size, builder.room, builder.lastChunk()], [12, 60, null]);
    for (const add of [() => builder.addParameter(1), () => builder.removeLast()])
      assert.throws(add, { code: Result.BAD_PLACE });
    builder.addIData({ tsn: 1, stream: 2, mid: 3, payload: bytes('61') }).addChunk(ChunkType.RE_CONFIG).addReConfig({ type: 17, newStreams: 5 });
    assert.deepEqual(builder.finish({ checksum: false }), bytes(`${header} 00000000 40030015 00000001 0002 0000 00000003 00000000 61 000000`
      + '82000010 0011000c 00000000 0005 0000'));
    assert.throws(() => builder.addCookieEcho(new Uint8Array(5)), { code: Result.NO_ROOM });
  }
});

test('a chunk that is an object of the caller\'s is read by its value', () => {
  const value = bytes(`${NUMBERS} c0fe0005 61000000 80010008 00000007`);
  const items = [...parameters({ type: ChunkType.INIT_ACK, flags: 0, valueOffset: 1000, value })];
  assert.deepEqual(items.map(it => [it.offset, it.next, it.value.length, it.method]), [[1016, 1024, 1, undefined], [1024, 1032, 4, 7]]);
});

test('what is no chunk', () => {
  for (const [hex, code, offset] of [
    ['', Result.FAULT_SIZE, 0],
    ['0b0000', Result.FAULT_SIZE, 3],
    ['0b000003', Result.FAULT_LENGTH, 0],
    ['0a000009 616263 00', Result.FAULT_LENGTH, 0],
    ['0400000c 0001 0009 61626364', Result.FAULT_LENGTH, 4],
    ['82000010 0010 000c 00000001 00000007', Result.FAULT_VALUE, 4],
    // Something behind it: half a chunk, a chunk, padding twice.
    ['0b000004 00', Result.FAULT_LENGTH, 4],
    ['0b000004 0b000004', Result.FAULT_LENGTH, 4],
    ['0a000005 61 000000 00000000', Result.FAULT_LENGTH, 8],
    // A packet has at most 65,535 bytes, and 12 of them before its first chunk.
    [`0a00fff4${'00'.repeat(65_520)}`, Result.FAULT_SIZE, 65_523],
    [`0a00ffff${'00'.repeat(99_999)}`, Result.FAULT_SIZE, 65_523],
  ]) {
    assert.throws(() => readChunk(bytes(hex)), error => {
      assert.ok(error instanceof Fault);
      assert.deepEqual([error.code, error.offset], [code, offset]);
      return true;
    });
  }
  assert.equal(readChunk(bytes(`0a00fff3${'00'.repeat(65_519)}`)).value.length, 65_519);
  assert.throws(() => readChunk('0b000004'), TypeError);
});

test('parameters and error causes of a type and bytes', () => {
  const made = [parameter(13, bytes('00000001 00000002 00000003 0004')), parameter(13, { requestNumber: 1, responseNumber: 2, lastTsn: 3, streams: [4] })];
  for (const it of made)
    assert.deepEqual([it.offset, it.next, it.reConfig.streams, it.bytes], [0, 18, [4], bytes('000d0012 00000001 00000002 00000003 0004')]);
  assert.deepEqual([cause(9, { tsn: 5 }), cause(2, { types: [7] })].map(it => it.bytes), [bytes('00090008 00000005'), bytes('0002000a 00000001 0007')]);
  assert.equal(parameter(ParameterType.ZERO_CHECKSUM_ACCEPTABLE, bytes('00000001')).method, 1);
  assert.deepEqual(cause(CauseCode.COOKIE_RECEIVED_WHILE_SHUTTING_DOWN).bytes, bytes('000a0004'));
  assert.deepEqual(parameter(0xffff).name, 'parameter type 65535 (0xffff)');
  assert.equal(parameter(1, new Uint8Array(65_531)).bytes.length, 65_535);
  for (const make of [parameter, cause]) {
    assert.throws(() => make(1, new Uint8Array(65_532)), error => error instanceof WriteError && error.code === Result.BAD_VALUE);
    assert.throws(() => make(65_536), RangeError);
    assert.throws(() => make('1'), TypeError);
    assert.throws(() => make(1, 'a'), TypeError);
  }
});

// RFC 9260 section 3.3.1: the bits I, U, B and E, of which E is the lowest.
test('the flags of DATA', () => {
  for (let flags = 0; flags < 16; flags++) {
    const data = withFlags({ tsn: 1, stream: 2, mid: 3, payload: bytes('61'), isEnd: true }, flags | 0xf0);
    const bits = [data.isEnd, data.isBeginning, data.isUnordered, data.immediateAck];
    assert.deepEqual(bits, [1, 2, 4, 8].map(bit => (flags & bit) !== 0));
    assert.deepEqual([data.tsn, dataFlags(data)], [1, flags]);
    for (const name of ['addData', 'addIData']) {
      const chunk = new Builder(PORTS)[name](data).lastChunk();
      assert.deepEqual([chunk.flags, dataFlags(chunk.data)], [flags, flags]);
    }
  }
  assert.equal(dataFlags({}), 0);
  assert.throws(() => dataFlags({ isEnd: 1 }), TypeError);
  assert.throws(() => dataFlags(3), TypeError);
  assert.throws(() => withFlags({}, 256), RangeError);
  assert.throws(() => withFlags(undefined, 1), TypeError);
});

// RFC 9653 section 5.2: INIT, COOKIE ECHO and ASCONF; what answers a packet out of the blue reflects its tag.
test('checksums of zero where they are allowed', () => {
  const allowed = { allowedZeroChecksum: true }, wrong = { code: Result.FAULT_CHECKSUM, offset: 8 };
  for (const hex of [`01000014 ${NUMBERS}`, '0a000005 61 000000', 'c1000008 00000001', '06010004', '0e010004']) {
    for (const before of ['', '0b000004']) {
      const packet = zeroed(before + hex);
      assert.equal(needsChecksum(packet), true);
      assert.deepEqual(firstFault(packet, allowed), wrong);
      assert.throws(() => check(packet, allowed), Fault);
      check(packet, { ...allowed, zeroChecksum: true });
      check(packet, { ...allowed, anyChecksum: true });
      check(packet, { ...allowed, word: word(bytes('000000000000000000000000f62e80b0')) }); // (which is 0)
      check(seal(packet), allowed);
    }
  }
  for (const hex of [`02ff0014 ${NUMBERS}`, '0b000004', '06000004', '0e000004', '04010008 0001 0004', 'c8010004']) {
    const packet = zeroed(hex);
    assert.equal(needsChecksum(packet), false);
    check(packet, allowed);
    for (const write of [canonical, text, report])
      assert.deepEqual(write(packet, allowed), write(packet, { anyChecksum: true }));
    assert.deepEqual(firstFault(packet), wrong);
    packet[11] = 1;
    assert.deepEqual(firstFault(packet, allowed), wrong);
  }
  // The size comes first, then the checksum, then the chunks, from the left.
  for (let size = 0; size < 16; size++) {
    const packet = zeroed('01000004').subarray(0, size);
    assert.equal(needsChecksum(packet), false);
    assert.deepEqual(firstFault(packet, allowed), { code: Result.FAULT_SIZE, offset: size });
  }
  assert.deepEqual(firstFault(zeroed('0b000003 01000004'), allowed), { code: Result.FAULT_LENGTH, offset: 12 });
  assert.deepEqual(firstFault(zeroed('01000004 0b000003'), allowed), wrong);
  assert.throws(() => check(zeroed('0b000004'), { allowedZeroChecksum: 1 }), TypeError);
  assert.throws(() => needsChecksum('0b000004'), TypeError);
  assert.equal(ChunkType.ASCONF, 0xc1);
});
