// SPDX-License-Identifier: Apache-2.0
// What is refused, and what lies in the memory: nothing leaks, and no bytes reach outside of what they were given.
import assert from 'node:assert/strict';
import { test } from 'node:test';
import { runInNewContext } from 'node:vm';
import * as davgyuti from 'davgyuti';
import library from '../library.js';

const { Builder, ChunkType, Fault, Result, WriteError } = davgyuti, { call, view } = library;
const bytes = hex => Uint8Array.from(Buffer.from(hex.replace(/\s/g, ''), 'hex'));
const PORTS = { sourcePort: 1, destinationPort: 2, verificationTag: 3 };
const DATA = { tsn: 1, stream: 2, isBeginning: true, isEnd: true, payload: bytes('68656c6c6f') };
const COOKIE = {
  created: 1n, lifespan: 2n, localTag: 3, peerTag: 4, localInitialTsn: 5, peerInitialTsn: 6, localPort: 7, peerPort: 8, outboundStreams: 9,
  inboundStreams: 10,
};
const INIT = { initiateTag: 1, aRwnd: 2, outboundStreams: 3, inboundStreams: 4, initialTsn: 5 };
const is = (code, offset, message = davgyuti.resultText(code) + (offset === undefined ? '' : ` at byte ${offset}`)) => error => {
  const kind = offset === undefined ? WriteError : Fault;
  assert.ok(error instanceof kind && error instanceof Error);
  assert.deepEqual([error.code, error.offset], [code, offset]);
  assert.equal(String(error), `${kind.name}: ${message}`);
  assert.deepEqual(Object.keys(error), offset === undefined ? ['code'] : ['code', 'offset']);
  return true;
};

/** One of every call. */
function everything() {
  const packet = new Builder({ ...PORTS, room: 1200 }).addData(DATA).addInit(INIT).addParameter(7, bytes('616263'))
    .addSack({ cumulativeTsnAck: 1, aRwnd: 2, blocks: [{ start: 2, end: 3 }], duplicates: [4] }).finish();
  davgyuti.check(packet);
  davgyuti.setTag(packet, 9);
  assert.deepEqual(davgyuti.firstFault(packet), { code: Result.FAULT_CHECKSUM, offset: 8 });
  davgyuti.seal(packet);
  davgyuti.canonical(packet);
  davgyuti.text(packet);
  davgyuti.report(packet);
  for (const chunk of davgyuti.chunks(packet))
    [...davgyuti.parameters(chunk)];
  davgyuti.cleanBlocks([{ start: 5, end: 9 }, { start: 2, end: 4 }]);
  davgyuti.reply(davgyuti.header(packet), davgyuti.Answer.ABORT);
  davgyuti.openCookie(packet, davgyuti.sealCookie(packet, COOKIE), 0n);
  davgyuti.sharedKey(packet, packet, packet);
  return packet;
}

test('a million calls leave the memory as it was', () => {
  const packet = everything();
  const before = view().buffer.byteLength;
  for (let i = 0; i < 300_000; i++) {
    davgyuti.text(packet);
    davgyuti.report(packet);
    davgyuti.canonical(packet);
    davgyuti.firstFault(packet.subarray(0, i % packet.length));
  }
  for (let i = 0; i < 20_000; i++)
    everything();
  assert.equal(view().buffer.byteLength, before);
  assert.ok(before <= 4 << 20, `${before} bytes`);
});

test('what was allocated is free again', () => {
  // Of each size a freed block is the next that is handed out: where a call keeps none, it is there again.
  const packet = everything();
  for (let size = 16n; size < 1n << 16n; size *= 2n) {
    const block = call('malloc', size);
    call('free', block);
    davgyuti.text(packet);
    davgyuti.report(packet);
    davgyuti.canonical(packet);
    const again = call('malloc', size);
    call('free', again);
    assert.ok(again !== 0n && again % 16n === 0n);
  }
});

test('what lies beside the bytes in the memory stays', () => {
  const guards = Array.from({ length: 64 }, (_, i) => [call('malloc', BigInt(16 << i % 8)), 16 << i % 8, 255 & (i * 37 + 1)]);
  const guarded = ([at, size]) => new Uint8Array(view().buffer, Number(at), size);
  for (const guard of guards)
    guarded(guard).fill(guard[2]);
  let seed = 1;
  const random = most => {
    seed = Math.imul(seed, 1103515245) + 12345 >>> 0;
    return (seed >>> 8) % most;
  };
  const types = Object.values(ChunkType);
  for (let i = 0; i < 20_000; i++) {
    const packet = Uint8Array.from({ length: random(90) }, () => random(256));
    for (let at = 12; at + 4 <= packet.length; at += 4 + random(5) * 4)
      packet.set([types[random(types.length)], random(8), 0, random(40)], at);
    const copy = packet.slice();
    const isOnly = davgyuti.firstFault(packet, { anyChecksum: true }) === null && [...davgyuti.chunks(packet)].length === 1;
    if (isOnly)
      davgyuti.readChunk(packet.subarray(12));
    else
      assert.throws(() => davgyuti.readChunk(packet.subarray(12)), Fault);
    const policy = { anyChecksum: true, strictPadding: random(2) === 1 };
    if (davgyuti.firstFault(packet, policy) === null) {
      davgyuti.canonical(packet, policy);
      davgyuti.text(packet, policy);
      davgyuti.report(packet, policy);
    }
    for (const chunk of davgyuti.chunks(packet)) {
      // A chunk that was changed is read as what it says.
      const other = { flags: chunk.flags, value: chunk.value, type: types[random(types.length)], valueOffset: random(1 << 30) };
      for (const it of [...davgyuti.parameters(chunk), ...davgyuti.causes(chunk), ...davgyuti.parameters(other), ...davgyuti.causes(other)])
        assert.ok(it.value.byteOffset >= 0 && it.value.byteOffset + it.value.length <= packet.length);
    }
    assert.deepEqual(packet, copy);
  }
  for (const guard of guards) {
    assert.ok(guarded(guard).every(it => it === guard[2]));
    call('free', guard[0]);
  }
});

test('the views are of the bytes that were given', () => {
  const large = new Uint8Array(100);
  const packet = new Builder(PORTS).addData(DATA).finish();
  large.set(packet, 7);
  const part = large.subarray(7, 7 + packet.length);
  const [{ data, value }] = davgyuti.chunks(part);
  assert.equal(data.payload.buffer, large.buffer);
  assert.equal(data.payload.byteOffset, 7 + 28);
  assert.equal(value.byteOffset, 7 + 16);
  davgyuti.setTag(part, 0xfffffffe);
  assert.deepEqual(large.subarray(0, 7), new Uint8Array(7));
  assert.deepEqual(large.subarray(11, 15), bytes('fffffffe'));
});

test('faults have a code and an offset', () => {
  const packet = new Builder(PORTS).addData(DATA).finish();
  davgyuti.check(packet);
  assert.equal(davgyuti.firstFault(packet), null);
  const word = davgyuti.word(new Uint8Array(16)); // (that of another packet)
  assert.throws(() => davgyuti.check(packet, { word }), is(Result.FAULT_CHECKSUM, 8));
  davgyuti.check(packet, { word, anyChecksum: true });
  for (const name of ['check', 'canonical', 'text', 'report']) {
    assert.throws(() => davgyuti[name](packet.subarray(0, 15)), is(Result.FAULT_SIZE, 15));
    assert.throws(() => davgyuti[name](new Uint8Array(0)), is(Result.FAULT_SIZE, 0));
    assert.throws(() => davgyuti[name](new Uint8Array(70_000)), is(Result.FAULT_SIZE, 65_535));
  }
  const full = new Uint8Array(65_536);
  full.set(new Builder(PORTS).addChunk(200, 0, new Uint8Array(65_516)).finish());
  assert.equal(davgyuti.firstFault(full.subarray(0, 65_532)), null);
  assert.deepEqual(davgyuti.firstFault(full, { anyChecksum: true }), { code: Result.FAULT_SIZE, offset: 65_535 });
  assert.equal(davgyuti.firstFault(full.subarray(0, 65_535)).code, Result.FAULT_CHECKSUM);
  const dirty = packet.slice();
  dirty[34] = 1;
  davgyuti.seal(dirty);
  davgyuti.check(dirty);
  assert.throws(() => davgyuti.check(dirty, { strictPadding: true }), is(Result.FAULT_PADDING, 34));
  assert.deepEqual(davgyuti.canonical(dirty), new Builder(PORTS).addData(DATA).finish({ checksum: false }));
  const zero = davgyuti.canonical(packet);
  assert.throws(() => davgyuti.check(zero), is(Result.FAULT_CHECKSUM, 8));
  davgyuti.check(zero, { zeroChecksum: true });
  assert.equal(davgyuti.header(packet.subarray(0, 11)), null);
  assert.deepEqual([...davgyuti.chunks(packet.subarray(0, 15))], []);
  assert.throws(() => davgyuti.seal(packet.subarray(0, 11)), is(Result.BAD_PLACE, undefined, 'fewer than 12 bytes'));
  assert.throws(() => davgyuti.setTag(packet.subarray(0, 11), 1), is(Result.BAD_PLACE, undefined, 'fewer than 12 bytes'));
});

test('a builder that cannot add says why, and stays', () => {
  assert.throws(() => new Builder({ ...PORTS, room: 11 }), is(Result.NO_ROOM));
  const builder = new Builder({ ...PORTS, room: 40 }).addData(DATA);
  const before = builder.finish();
  assert.equal(before.length, 36);
  assert.throws(() => builder.addData(DATA), is(Result.NO_ROOM));
  for (const reason of [bytes('ff'), 'a\ud800', '\udc00\ud800'])
    assert.throws(() => builder.addAbort(reason), is(Result.BAD_VALUE));
  assert.throws(() => builder.addChunk(200, 0, new Uint8Array(65_532)), is(Result.BAD_VALUE));
  assert.deepEqual(builder.finish(), before);
  builder.addCookieAck();
  assert.equal(builder.size, 40);
  assert.throws(() => builder.addParameter(1), is(Result.NO_ROOM));
  assert.deepEqual(builder.removeLast().finish(), before);
  assert.equal(builder.removeLast().size, 12);
  assert.throws(() => builder.removeLast(), is(Result.BAD_PLACE, undefined, 'no chunk to remove'));
  const noChunk = is(Result.BAD_PLACE, undefined, 'no chunk to add to');
  assert.throws(() => builder.addParameter(1), noChunk);
  assert.throws(() => builder.addCause(2, { types: [] }), noChunk);
  const list = new Builder(PORTS).addChunk(ChunkType.RE_CONFIG);
  assert.throws(() => list.addReConfig({ type: 12 }), is(Result.BAD_VALUE));
  assert.throws(() => list.addReConfig({ type: 16, result: 7 }), is(Result.BAD_VALUE));
  assert.equal(list.size, 16);
  const full = new Builder(PORTS).addChunk(200, 0, new Uint8Array(65_516));
  assert.equal(full.finish().length, 65_532);
  assert.throws(() => full.addCookieAck(), is(Result.NO_ROOM));
});

test('two builders, and other calls between', () => {
  const alone = [1, 2].map(tsn => new Builder(PORTS).addData({ ...DATA, tsn }).addInit(INIT).addParameter(0x8001, { method: tsn }).finish());
  const [first, second] = [new Builder(PORTS), new Builder({ ...PORTS, room: 50_000 })];
  first.addData({ ...DATA, tsn: 1 });
  second.addData({ ...DATA, tsn: 2 });
  everything();
  first.addInit(INIT);
  for (const chunk of davgyuti.chunks(alone[0]))
    [...davgyuti.parameters(chunk)];
  second.addInit(INIT).addParameter(0x8001, { method: 2 });
  first.addParameter(0x8001, { method: 1 });
  assert.deepEqual([first.finish(), second.finish()], alone);
});

test('cleanBlocks', () => {
  const block = (start, end) => ({ start, end });
  assert.deepEqual(davgyuti.cleanBlocks([block(9, 9), block(2, 3), block(4, 5), block(8, 7), block(5, 6)]), [block(2, 6), block(9, 9)]);
  assert.deepEqual(davgyuti.cleanBlocks([]), []);
});

test('values of another type or size are refused', () => {
  for (const it of [null, undefined, 'ab', [1], new ArrayBuffer(20), new DataView(new ArrayBuffer(20)), new Uint16Array(20), 5]) {
    for (const name of ['check', 'firstFault', 'canonical', 'text', 'report', 'word', 'header', 'chunks', 'seal'])
      assert.throws(() => davgyuti[name](it), TypeError);
    assert.throws(() => new Builder(PORTS).addCookieEcho(it), TypeError);
  }
  const packet = new Builder(PORTS).addData(DATA).finish();
  for (const it of [-1, 65_536, 1.5, NaN, Infinity, '1', null, undefined, 1n, {}, Symbol('1')]) {
    const error = typeof it === 'number' ? RangeError : TypeError;
    assert.throws(() => new Builder({ ...PORTS, sourcePort: it }), error);
    assert.throws(() => new Builder(PORTS).addData({ ...DATA, stream: it }), error);
    assert.throws(() => new Builder(PORTS).addInit({ ...INIT, inboundStreams: it }), error);
    assert.throws(() => new Builder(PORTS).addSack({ cumulativeTsnAck: 1, aRwnd: 1, blocks: [{ start: 2, end: it }] }), error);
    assert.throws(() => new Builder(PORTS).addInit(INIT).addCause(2, { types: [it] }), error);
    assert.throws(() => davgyuti.cleanBlocks([{ start: it, end: 1 }]), error);
  }
  for (const it of [-1, 2 ** 32, 1.5, NaN])
    assert.throws(() => davgyuti.setTag(packet, it), RangeError);
  for (const it of [0, 1, 'true', null]) {
    assert.throws(() => davgyuti.check(packet, { anyChecksum: it }), TypeError);
    assert.throws(() => new Builder(PORTS).addData({ ...DATA, isEnd: it }), TypeError);
  }
  davgyuti.check(packet);
  davgyuti.check(Buffer.from(packet));
  davgyuti.check(runInNewContext('Uint8Array').from(packet));
});

test('what is no list is no empty one', () => {
  const builder = new Builder(PORTS).addChunk(ChunkType.RE_CONFIG), { size } = builder;
  for (const it of [5, {}, { length: 1, 0: 1 }, '', '12', null, true]) {
    assert.throws(() => builder.addReConfig({ type: 13, streams: it }), TypeError);
    assert.throws(() => builder.addSack({ cumulativeTsnAck: 1, aRwnd: 2, blocks: it }), TypeError);
    assert.throws(() => builder.addSack({ cumulativeTsnAck: 1, aRwnd: 2, duplicates: it }), TypeError);
    for (const name of ['addForwardTsn', 'addIForwardTsn'])
      assert.throws(() => builder[name]({ newCumulativeTsn: 1, streams: it }), TypeError);
    assert.throws(() => builder.addCause(2, { types: it }), TypeError);
    assert.throws(() => davgyuti.cleanBlocks(it), TypeError);
  }
  assert.equal(builder.size, size);
  builder.addReConfig({ type: 13, streams: new Set([1, 2]) }).addReConfig({ type: 14, streams: Uint16Array.of(3) });
  const [chunk] = davgyuti.chunks(builder.finish());
  assert.deepEqual([...davgyuti.parameters(chunk)].map(it => it.reConfig.streams), [[1, 2], [3]]);
});

test('options are objects, and flags true or false', () => {
  const builder = new Builder(PORTS).addData(DATA), packet = builder.finish();
  for (const it of [0, 1, '', 'no', null, {}]) {
    assert.throws(() => builder.addAbort('', { tagReflected: it }), TypeError);
    assert.throws(() => builder.addShutdownComplete({ tagReflected: it }), TypeError);
    assert.throws(() => builder.finish({ checksum: it }), TypeError);
  }
  for (const it of [false, true, 5, 'strictPadding', null, Symbol('1')]) {
    for (const name of ['check', 'firstFault', 'canonical', 'text', 'report'])
      assert.throws(() => davgyuti[name](packet, it), { name: 'TypeError', message: /^policy is .*, and not an object$/ });
    for (const call of [() => builder.addAbort('', it), () => builder.addShutdownComplete(it), () => builder.finish(it)])
      assert.throws(call, { name: 'TypeError', message: /^options is .*, and not an object$/ });
  }
  assert.deepEqual(builder.addAbort(undefined, undefined).removeLast().finish(undefined), packet);
  assert.deepEqual(builder.finish({ checksum: undefined }), packet);
});

test('a TypeError names what it refuses', () => {
  const builder = new Builder(PORTS).addChunk(ChunkType.RE_CONFIG);
  const said = {
    'options is undefined, and not an object': () => new Builder(),
    'reConfig is undefined, and not an object': () => builder.addReConfig(),
    'data is undefined, and not an object': () => builder.addData(),
    'init is null, and not an object': () => builder.addInit(null),
    'sack is undefined, and not an object': () => builder.addSack(),
    'shutdown is undefined, and not an object': () => builder.addShutdown(),
    'forwardTsn is undefined, and not an object': () => builder.addForwardTsn(),
    'an item of streams is 5, and not an object': () => builder.addForwardTsn({ newCumulativeTsn: 1, streams: [5] }),
    'an item of streams is "5", and not a number': () => builder.addReConfig({ type: 13, streams: ['5'] }),
    'an item of blocks is null, and not an object': () => davgyuti.cleanBlocks([null]),
    'types is 5, and not a list': () => builder.addCause(2, { types: 5 }),
    'chunk is undefined, and not an object': () => davgyuti.parameters(),
    'sourcePort is "5000", and not a number': () => new Builder({ ...PORTS, sourcePort: '5000' }),
    'verificationTag is 1n, and not a number': () => new Builder({ ...PORTS, verificationTag: 1n }),
    'cookie is undefined, and not a Uint8Array': () => builder.addCookieEcho(),
    'payload is [object Array], and not a Uint8Array': () => builder.addData({ ...DATA, payload: [1] }),
    [`bytes is "${'0'.repeat(40)}".., and not a Uint8Array`]: () => davgyuti.check('0'.repeat(1000)),
  };
  for (const [message, call] of Object.entries(said))
    assert.throws(call, { name: 'TypeError', message });
  assert.equal(builder.size, 16);
});

test('objects whose fields run code', () => {
  const builder = new Builder(PORTS);
  const expected = new Builder(PORTS).addData(DATA).finish();
  builder.addData({ ...DATA, get tsn() { everything(); return 1; } });
  assert.deepEqual(builder.finish(), expected);
  assert.equal(davgyuti.firstFault(expected, { get strictPadding() { everything(); return true; } }), null);
});

test('after an exception in the module there is a new one', () => {
  const builder = new Builder(PORTS).addData(DATA);
  // (no call of the package passes such an address)
  assert.throws(() => call('dcsctp_word', 0xffff_0000n, 0x7fff_ffffn), WebAssembly.RuntimeError);
  assert.deepEqual(builder.addCookieAck().finish(), new Builder(PORTS).addData(DATA).addCookieAck().finish());
  const expected = davgyuti.report(everything());
  let depth = 0;
  const deep = () => {
    depth++;
    try {
      deep();
    } catch {
      // Near the end of the stack.
    }
    try {
      davgyuti.report(everything());
    } catch (error) {
      assert.ok(error instanceof RangeError, error);
    }
  };
  try {
    deep();
  } catch (error) {
    assert.ok(error instanceof RangeError, error);
  }
  assert.ok(depth > 100);
  assert.equal(davgyuti.report(everything()), expected);
});

test('a builder holds no more than its packet needs', () => {
  const before = process.memoryUsage().arrayBuffers;
  const builders = Array.from({ length: 1000 }, () => new Builder(PORTS).addData(DATA));
  assert.ok(process.memoryUsage().arrayBuffers - before < 1000 * 1000);
  assert.ok(builders.every(it => it.size === 36 && it.room === 65_532));
});

test('more bytes than a packet has are refused before they are copied', () => {
  const many = new Uint8Array(2 ** 30), before = view().buffer.byteLength;
  for (const name of ['check', 'canonical', 'text', 'report'])
    assert.throws(() => davgyuti[name](many), is(Result.FAULT_SIZE, 65_535));
  assert.deepEqual(davgyuti.firstFault(many.subarray(1)), { code: Result.FAULT_SIZE, offset: 65_535 });
  assert.throws(() => davgyuti.check(many.subarray(2 ** 28)), is(Result.FAULT_SIZE, 65_535));
  assert.ok(view().buffer.byteLength - before < 1 << 20);
});

test('bytes that no memory holds', () => {
  assert.throws(() => davgyuti.word(new Uint8Array(2 ** 30)), is(Result.NO_MEMORY));
  davgyuti.check(new Builder(PORTS).addData(DATA).finish());
});
