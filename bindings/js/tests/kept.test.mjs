// SPDX-License-Identifier: Apache-2.0
// What `readSack` reads into an object that is kept is what `sack` gives, and nothing else is changed.
import assert from 'node:assert/strict';
import { test } from 'node:test';
import * as davgyuti from 'davgyuti';

const { Builder, ChunkType, chunks, read, readChunk, readSack } = davgyuti;
const PORTS = { sourcePort: 1, destinationPort: 2, verificationTag: 3 };

let seed = 7;
function random(most) {
  seed = Math.imul(seed, 1103515245) + 12345 >>> 0;
  return (seed >>> 8) % most;
}
const number = () => random(0x10000) * 0x10000 + random(0x10000);

/** A SACK as `sack` has it, with so many blocks and duplicate TSNs. */
function sackOf(blockCount, duplicateCount, isInOrder = true) {
  const blocks = [];
  for (let start = 2; blocks.length < blockCount; start += 3)
    blocks.push({ start, end: start + random(2) });
  if (!isInOrder)
    blocks[random(blockCount)] = { start: 0x8000 + random(0x8000), end: random(0x8000) };
  return { cumulativeTsnAck: number(), aRwnd: number(), blocks, duplicates: Array.from({ length: duplicateCount }, number), isInOrder };
}
const packetOf = (...sacks) => sacks.reduce((builder, it) => builder.addSack(it), new Builder(PORTS)).finish();
const sackIn = sack => read(packetOf(sack)).chunks[0];

/** Each way a chunk is given: its bytes in the memory, or no longer; its lists asked for before, or not; and not by `read`. */
const WAYS = {
  held: bytes => read(bytes).chunks[0],
  gone(bytes) {
    const [chunk] = read(bytes).chunks;
    davgyuti.word(new Uint8Array(100).fill(255));
    return chunk;
  },
  asked(bytes) {
    const [chunk] = read(bytes).chunks;
    assert.ok(chunk.sack);
    return chunk;
  },
  chunks: bytes => [...chunks(bytes)][0],
  readChunk: bytes => readChunk(bytes.subarray(davgyuti.FIRST_CHUNK)),
};

for (const [name, way] of Object.entries(WAYS)) {
  test(`SACKs of all sizes into one object: ${name}`, () => {
    const kept = {}, counts = [0, 1, 2, 3, 5, 8, 9, 10, 19, 20, 40, 300, 8000];
    for (let i = 0; i < 300; i++) {
      const blockCount = counts[random(counts.length)];
      const wanted = sackOf(blockCount, counts[random(i % 3 === 0 ? counts.length : 3)], blockCount === 0 || random(2) === 0);
      const bytes = packetOf(wanted), inMore = new Uint8Array([0, 0, 0, ...bytes, 0]).subarray(3, 3 + bytes.length);
      const chunk = way(i % 2 === 0 ? bytes : inMore);
      assert.equal(readSack(chunk, kept), kept);
      assert.deepEqual(kept, wanted);
      // (nor are lists that it has afterwards those of the chunk)
      assert.deepEqual(chunk.sack, wanted);
      assert.ok(chunk.sack.blocks !== kept.blocks && chunk.sack.duplicates !== kept.duplicates);
      assert.ok(chunk.sack.blocks.every((it, k) => it !== kept.blocks[k]));
    }
  });
}

test('an object, its lists and its blocks are used again', () => {
  for (const way of Object.values(WAYS)) {
    const kept = {};
    readSack(way(packetOf(sackOf(30, 4))), kept);
    const { blocks, duplicates } = kept;
    for (const count of [30, 25, 5, 31, 0, 12]) {
      const before = [...blocks], wanted = sackOf(count, count);
      readSack(way(packetOf(wanted)), kept);
      assert.deepEqual(kept, wanted);
      assert.ok(kept.blocks === blocks && kept.duplicates === duplicates);
      assert.ok(blocks.slice(0, before.length).every((it, i) => it === before[i]));
    }
  }
});

test('what `sack` gave stays when other SACKs are read, unless it is what they are read into', () => {
  const [one, other, third] = [sackOf(3, 2), sackOf(4, 1, false), sackOf(2, 2)];
  const all = read(packetOf(one, other, third)).chunks, kept = {}, { sack } = all[0];
  for (const chunk of [all[1], all[0], all[2], all[1]])
    readSack(chunk, kept);
  assert.deepEqual([sack, kept], [one, other]);
  assert.equal(all[0].sack, sack);
  assert.deepEqual(all.map(it => it.sack), [one, other, third]);
  // What a chunk has is read into itself, and then what another one has.
  assert.equal(readSack(all[0], sack), sack);
  assert.deepEqual(sack, one);
  readSack(all[1], sack);
  assert.deepEqual([all[0].sack, all[1].sack], [other, other]);
});

test('any object takes a SACK', () => {
  const wanted = sackOf(3, 2, false), numbers = Object.freeze([1, 2, 3, 4]);
  for (const way of Object.values(WAYS)) {
    for (const kept of [
      {}, { blocks: null, duplicates: null }, { blocks: 'ab', duplicates: new Uint32Array(2) }, { blocks: {}, isInOrder: true },
      { blocks: [], duplicates: [...numbers] }, { blocks: [null, undefined, { end: 1 }, null], duplicates: [] }, Object.create(null),
      { blocks: [, { start: 7 }, , ,], duplicates: [, , ,] }, { isInOrder: 1, blocks: new Array(50), duplicates: new Array(50) },
    ]) {
      assert.equal(readSack(way(packetOf(wanted)), kept), kept);
      assert.deepEqual({ ...kept }, wanted);
    }
    // What is frozen says so, and so does what is no object.
    const { freeze } = Object;
    for (const kept of [freeze({}), { blocks: freeze([1]), duplicates: [] }, { blocks: [freeze({})] }, { blocks: [1] }])
      assert.throws(() => readSack(way(packetOf(wanted)), kept), TypeError);
    for (const kept of [undefined, null, 1, 'ab'])
      assert.throws(() => readSack(way(packetOf(wanted)), kept), TypeError);
  }
  for (const chunk of [undefined, null, 1])
    assert.throws(() => readSack(chunk, {}), TypeError);
});

test('a chunk that is no SACK changes nothing', () => {
  const bytes = new Builder(PORTS).addShutdown({ cumulativeTsnAck: 1 }).addCookieAck().addForwardTsn({ newCumulativeTsn: 2 })
    .addChunk(ChunkType.NR_SACK, 0, new Uint8Array(16)).finish();
  const wanted = sackOf(3, 2), kept = {};
  readSack(sackIn(wanted), kept);
  const { blocks, duplicates } = kept;
  for (const chunk of [...read(bytes).chunks, ...chunks(bytes)]) {
    assert.equal(readSack(chunk, kept), undefined);
    assert.equal(readSack(chunk, Object.freeze({})), undefined);
    assert.deepEqual(kept, wanted);
    assert.ok(kept.blocks === blocks && kept.duplicates === duplicates);
  }
});
