// SPDX-License-Identifier: Apache-2.0
// What `read` gives is what `check`, `header` and `chunks` give, of packets and of what is none.
import assert from 'node:assert/strict';
import { readFileSync } from 'node:fs';
import { test } from 'node:test';
import { inspect } from 'node:util';
import * as davgyuti from 'davgyuti';

const { Builder, ChunkType, Fault, causes, chunks, parameters, read } = davgyuti;
const POLICIES = [{}, { zeroChecksum: true, strictPadding: true }, { anyChecksum: true }, { allowedZeroChecksum: true }];
const FIELDS = ['type', 'name', 'flags', 'offset', 'valueOffset', 'next', 'value', 'bytes', 'data', 'sack', 'init', 'shutdown', 'forwardTsn'];
const ITEM_FIELDS = ['type', 'code', 'name', 'offset', 'next', 'value', 'bytes', 'method', 'tsn', 'types', 'reConfig'];
const fieldsOf = (it, names = FIELDS) => Object.fromEntries(names.map(name => [name, it[name]]));
const itemsOf = items => Array.from(items, it => fieldsOf(it, ITEM_FIELDS));

/** Compares what is read in one call with what the single calls read; returns whether it is a packet. */
function compare(bytes, policy) {
  const fault = davgyuti.firstFault(bytes, policy);
  if (fault !== null) {
    assert.throws(() => read(bytes, policy), error => {
      assert.ok(error instanceof Fault);
      assert.deepEqual({ code: error.code, offset: error.offset }, fault);
      return true;
    });
    return false;
  }
  const packet = read(bytes, policy), single = [...chunks(bytes)];
  assert.deepEqual(packet.header, davgyuti.header(bytes));
  assert.deepEqual(packet.chunks.map(it => fieldsOf(it)), single.map(it => fieldsOf(it)));
  packet.chunks.forEach((chunk, i) => {
    assert.deepEqual(itemsOf(parameters(chunk)), itemsOf(parameters(single[i])));
    assert.deepEqual(itemsOf(causes(chunk)), itemsOf(causes(single[i])));
  });
  return true;
}

test('the rows are those of the single calls', () => {
  const examples = readFileSync(new URL('../../../examples/packets.txt', import.meta.url), 'utf8').split('\n')
    .map(line => line.replace(/\s|#.*/g, '')).filter(line => /^([0-9a-f]{2})+$/i.test(line)).map(line => Uint8Array.from(Buffer.from(line, 'hex')));
  assert.ok(examples.length > 3);
  let seed = 1;
  const random = most => {
    seed = Math.imul(seed, 1103515245) + 12345 >>> 0;
    return (seed >>> 8) % most;
  };
  const types = Object.values(ChunkType), counts = [0, 0];
  for (let i = 0; i < 20_000; i++) {
    let packet = Uint8Array.from({ length: random(90) }, () => random(256));
    for (let at = 12; at + 4 <= packet.length; at += 4 + random(5) * 4)
      packet.set([types[random(types.length)], random(8), 0, random(40)], at);
    if (i % 4 === 0) {
      packet = examples[random(examples.length)].slice();
      packet[random(packet.length)] = random(256);
    }
    if (packet.length >= 12 && random(2) === 1)
      davgyuti.seal(packet);
    counts[compare(packet, POLICIES[random(POLICIES.length)]) ? 0 : 1]++;
  }
  for (const packet of examples) {
    for (const policy of POLICIES)
      compare(packet, policy);
  }
  assert.ok(counts[0] > 500 && counts[1] > 500, `${counts}`);
});

test('packets of the largest size', () => {
  const ports = { sourcePort: 1, destinationPort: 2, verificationTag: 3 }, acks = new Builder(ports);
  while (acks.size < acks.room)
    acks.addCookieAck();
  const { chunks: rows } = read(acks.finish());
  assert.equal(rows.length, 16_380);
  assert.ok(rows.every((it, i) => it.type === ChunkType.COOKIE_ACK && it.offset === 12 + 4 * i && it.value.length === 0));
  const blocks = Array.from({ length: 16_000 }, (_, i) => ({ start: i, end: 65_535 - i }));
  const [{ sack }] = read(new Builder(ports).addSack({ cumulativeTsnAck: 1, aRwnd: 2, blocks, duplicates: [7] }).finish()).chunks;
  assert.deepEqual([sack.blocks, sack.duplicates, sack.isInOrder], [blocks, [7], false]);
  for (const size of [0, 11, 12, 15, 65_536, 70_000])
    compare(new Uint8Array(size), { anyChecksum: true });
});

test('lists are those of their packet, whatever is called in between', () => {
  const ports = { sourcePort: 1, destinationPort: 2, verificationTag: 3 };
  const of = n => new Builder(ports)
    .addSack({ cumulativeTsnAck: n, aRwnd: 2, blocks: [{ start: n, end: n + 1 }], duplicates: [n, n + 1] })
    .addForwardTsn({ newCumulativeTsn: n, streams: [{ stream: n, ssn: n + 1 }] })
    .addHeartbeat(new Uint8Array(n).fill(n))
    .addChunk(ChunkType.RE_CONFIG).addReConfig({ type: 14, requestNumber: n, streams: [n, n + 2] }).addParameter(0x8001, { method: n })
    .addChunk(ChunkType.ERROR).addCause(2, { types: [n, n + 3] }).addCause(9, { tsn: n }).finish();
  const between = [() => {}, () => read(of(9)), () => davgyuti.report(of(9)), () => davgyuti.cleanBlocks([{ start: 1, end: 2 }]), () => of(60_000 % 251)];
  for (const call of between) {
    for (const bytes of [of(7), Buffer.from(of(7)), new Uint8Array([...of(7), 0, 0]).subarray(0, of(7).length)]) {
      const single = [...chunks(bytes)], packet = read(bytes);
      packet.chunks.forEach((chunk, i) => {
        call();
        assert.deepEqual(fieldsOf(chunk), fieldsOf(single[i]));
        const wanted = [itemsOf(parameters(single[i])), itemsOf(causes(single[i]))];
        call();
        assert.deepEqual([itemsOf(parameters(chunk)), itemsOf(causes(chunk))], wanted);
      });
    }
  }
});

test('blocks are in order where each begins two past the end before it', () => {
  for (const [isInOrder, ...pairs] of [
    [true], [true, [2, 3]], [true, [2, 3], [5, 5]], [true, [2, 65533], [65535, 65535]],
    [false, [1, 3]], [false, [0, 0]], [false, [3, 2]], [false, [2, 3], [4, 4]], [false, [2, 3], [3, 4]], [false, [5, 6], [2, 3]],
    [false, [2, 3], [5, 6], [7, 8], [10, 11], [13, 14]], [false, [9, 9], [2, 3], [5, 6]],
  ]) {
    const blocks = pairs.map(([start, end]) => ({ start, end })), sack = { cumulativeTsnAck: 1, aRwnd: 2, blocks };
    const packet = new Builder({ sourcePort: 1, destinationPort: 2, verificationTag: 3 }).addSack(sack).finish();
    assert.ok(compare(packet));
    assert.equal(read(packet).chunks[0].sack.isInOrder, isInOrder, JSON.stringify(pairs));
  }
});

test('the longest lists', () => {
  const shorts = all => all.flatMap(it => [it >> 8, it & 255]);
  for (const [type, numbers, item] of [
    [ChunkType.RE_CONFIG, 0, [15, 8, 0, 1]], [ChunkType.RE_CONFIG, 0, [13, 18, 0, 1, 0, 2, 0, 3, 4, 0]], [ChunkType.RE_CONFIG, 0, [99, 4]],
    [ChunkType.ERROR, 0, [9, 8, 0x8000, 1]], [ChunkType.ERROR, 0, [2, 12, 0, 2, 5, 6]], [ChunkType.INIT, 16, [0x8001, 8, 0, 1]],
    [ChunkType.FORWARD_TSN, 4, [1, 2]], [ChunkType.I_FORWARD_TSN, 4, [1, 1, 0x8000, 2]],
  ]) {
    const bytes = shorts(item), count = Math.floor((65_516 - numbers) / bytes.length), size = 16 + numbers + count * bytes.length;
    const packet = new Uint8Array(size);
    packet.set([type, 0, ...shorts([size - 12])], 12);
    for (let i = 0; i < count; i++)
      packet.set(bytes, 16 + numbers + i * bytes.length);
    assert.ok(compare(packet, { anyChecksum: true }));
    const [chunk] = read(packet, { anyChecksum: true }).chunks;
    assert.equal([...parameters(chunk), ...causes(chunk), ...chunk.forwardTsn?.streams ?? []].length, count);
  }
});

test('whatever becomes of the bytes that were read, nothing is thrown, and numbers stay', () => {
  const packet = new Builder({ sourcePort: 1, destinationPort: 2, verificationTag: 3 }).addInit({ initiateTag: 1, aRwnd: 2,
    outboundStreams: 3, inboundStreams: 4, initialTsn: 5 }).addParameter(7, new Uint8Array(5))
    .addSack({ cumulativeTsnAck: 7, aRwnd: 8, blocks: [{ start: 9, end: 10 }, { start: 12, end: 13 }], duplicates: [11] })
    .addChunk(ChunkType.ERROR).addCause(2, { types: [15, 16] }).addCause(9, { tsn: 17 }).finish();
  for (let i = 0; i < 2000; i++) {
    const bytes = packet.slice(), { chunks: all } = read(bytes), kept = {};
    for (let k = 0; k < 30; k++)
      bytes[Math.imul(i * 30 + k, 2654435761) >>> 8 & 127] = Math.imul(i + k, 40503) >>> 4;
    if (i % 2 === 1)
      davgyuti.word(bytes); // (which takes its place in the memory)
    davgyuti.readSack(all[1], kept);
    for (const chunk of all)
      assert.ok([...parameters(chunk), ...causes(chunk)].every(it => it.value.length <= bytes.length) && fieldsOf(chunk));
    const [{ init }, { sack }] = all;
    assert.deepEqual([init.initialTsn, sack.aRwnd, sack.blocks.length, sack.duplicates.length], [5, 8, 2, 1]);
    assert.deepEqual(sack, kept);
  }
});

// RFC 6525 section 4.5: after the number of new streams come two reserved bytes, which a receiver ignores.
test('the value of what has fields is what was read', () => {
  const request = '0011 000c 2bc42959 8002 000c'.replace(/ /g, '');
  const packet = Uint8Array.from(Buffer.from(`00010002000000030000000082000010${request}`, 'hex'));
  for (const [chunk] of [[...chunks(packet)], read(packet, { anyChecksum: true }).chunks]) {
    const [{ reConfig, value, bytes }] = parameters(chunk);
    assert.deepEqual([reConfig.requestNumber, reConfig.newStreams], [0x2bc42959, 0x8002]);
    assert.deepEqual([Buffer.from(value).toString('hex'), Buffer.from(bytes).toString('hex')], [request.slice(8), request]);
  }
});

test('chunks are read as they are asked for', () => {
  const bytes = Uint8Array.from(Buffer.from('000100020000000300000000' + '0b000004' + '0e000004' + '08000004', 'hex')), all = chunks(bytes);
  assert.equal(all[Symbol.iterator](), all);
  assert.equal(all.next().value.type, ChunkType.COOKIE_ACK);
  bytes[16] = ChunkType.COOKIE_ECHO;
  assert.equal(all.next().value.type, ChunkType.COOKIE_ECHO);
  bytes[23] = 5; // (which is more than there is)
  assert.deepEqual([...all, all.next()], [{ value: undefined, done: true }]);
  for (const it of [undefined, 'a', [1], new Uint16Array(8)])
    assert.throws(() => chunks(it), TypeError);
});

// The bytes are by hand, from RFC 9260 sections 3.3.1, 3.3.2, 3.3.4 and 3.3.10.2, RFC 6525 section 4.1 and RFC 9653 section 4.
test('what JSON has, and what is shown', () => {
  const bytes = Uint8Array.from(Buffer.from(`0001 0002 00000003 00000000
    00 03 0013 00000007 0002 0003 00000033 6105ff 00
    01 00 0021 00000001 00000002 0003 0004 00000005 8001 0008 00000001 0007 0005 61 000000
    03 00 0018 00000001 00000002 0001 0001 0003 0004 00000009
    82 00 0016 000d 0012 00000001 00000002 00000003 0004 0000
    09 00 000c 0002 0008 00000000
    63 01 0005 ff 000000`.replace(/\s/g, ''), 'hex'));
  const wanted = [
    { type: 0, name: 'DATA', flags: 3, offset: 12, next: 32, data: { tsn: 7, stream: 2, ssn: 3, ppid: 51, payload: '6105ff', isEnd: true,
      isBeginning: true, isUnordered: false, immediateAck: false, mid: 0, fsn: 0 } },
    { type: 1, name: 'INIT', flags: 0, offset: 32, next: 68,
      init: { initiateTag: 1, aRwnd: 2, outboundStreams: 3, inboundStreams: 4, initialTsn: 5 }, parameters: [
        { type: 0x8001, name: 'Zero Checksum Acceptable', offset: 52, next: 60, method: 1 },
        { type: 7, name: 'State Cookie', offset: 60, next: 65, value: '61' },
      ] },
    { type: 3, name: 'SACK', flags: 0, offset: 68, next: 92,
      sack: { cumulativeTsnAck: 1, aRwnd: 2, blocks: [{ start: 3, end: 4 }], duplicates: [9], isInOrder: true } },
    { type: 130, name: 'RE-CONFIG', flags: 0, offset: 92, next: 116, parameters: [
      { type: 13, name: 'Outgoing SSN Reset Request', offset: 96, next: 114, reConfig: { type: 13, requestNumber: 1, responseNumber: 2,
        lastTsn: 3, streams: [4], result: 0, nextTsns: null, newStreams: 0 } },
    ] },
    { type: 9, name: 'ERROR', flags: 0, offset: 116, next: 128,
      causes: [{ code: 2, name: 'Missing Mandatory Parameter', offset: 120, next: 128, types: [] }] },
    { type: 99, name: 'chunk type 99 (0x63)', flags: 1, offset: 128, next: 136, value: 'ff' },
  ];
  const packet = read(bytes, { anyChecksum: true }), shown = (it, depth = null) => inspect(it, { depth, breakLength: Infinity });
  assert.equal(JSON.stringify(packet.chunks), JSON.stringify(wanted));
  assert.equal(JSON.stringify(packet.header), '{"sourcePort":1,"destinationPort":2,"verificationTag":3,"checksum":0}');
  const [, init, , , error, other] = packet.chunks, zero = "type: 32769, name: 'Zero Checksum Acceptable', offset: 52, next: 60, method: 1";
  assert.equal(shown(other), "Chunk { type: 99, name: 'chunk type 99 (0x63)', flags: 1, offset: 128, next: 136, value: Uint8Array(1) [ 255 ] }");
  assert.equal(shown([...parameters(init)][0]), `Parameter { ${zero} }`);
  assert.ok(shown(init).includes(`, inboundStreams: 4, initialTsn: 5 }, parameters: [ Parameter { ${zero} }, Parameter { type: 7, `));
  assert.equal(shown(error, 1), "Chunk { type: 9, name: 'ERROR', flags: 0, offset: 116, next: 128, causes: [ Cause [Object] ] }");
  // Of a value that isn't one of its type its bytes are shown.
  const [broken] = chunks(Uint8Array.from(Buffer.from('00010002000000030000000001000005ff', 'hex')));
  assert.equal(JSON.stringify(broken), '{"type":1,"name":"INIT","flags":0,"offset":12,"next":17,"value":"ff"}');
  const builder = new Builder({ sourcePort: 1, destinationPort: 2, verificationTag: 3, room: 16 }).addCookieAck();
  const chunk = { type: 11, name: 'COOKIE ACK', flags: 0, offset: 12, next: 16 };
  const its = { sourcePort: 1, destinationPort: 2, verificationTag: 3, size: 16, room: 16, chunks: [{ ...chunk, value: '' }] };
  assert.equal(JSON.stringify(builder), JSON.stringify(its));
  assert.equal(shown(builder, 0), 'Builder { sourcePort: 1, destinationPort: 2, verificationTag: 3, size: 16, room: 16, chunks: [Array] }');
});
