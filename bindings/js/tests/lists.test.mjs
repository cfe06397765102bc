// SPDX-License-Identifier: Apache-2.0
// Values and texts of thousands of bytes; a word of 0; and where memory is full.
import assert from 'node:assert/strict';
import { copyFileSync, mkdtempSync, readFileSync, rmSync, writeFileSync } from 'node:fs';
import { createRequire } from 'node:module';
import { tmpdir } from 'node:os';
import { join } from 'node:path';
import { test } from 'node:test';
import { fileURLToPath } from 'node:url';
import * as davgyuti from 'davgyuti';

const { Builder, Result, causes, chunks } = davgyuti;
const PORTS = { sourcePort: 1, destinationPort: 2, verificationTag: 3 };

function written(write) {
  const builder = new Builder(PORTS);
  write(builder);
  const packet = builder.finish();
  davgyuti.check(packet, { strictPadding: true });
  return packet;
}

test('values of thousands of bytes', () => {
  for (const size of [5000, 65_000]) {
    const payload = Uint8Array.from({ length: size }, (_, i) => i % 251);
    const data = { tsn: 1, stream: 2, isBeginning: true, isEnd: true, payload };
    for (const add of ['addData', 'addIData']) {
      const packet = written(it => it[add](data));
      assert.deepEqual([...chunks(packet)][0].data.payload, payload);
      const canonical = packet.slice();
      canonical.fill(0, 8, 12);
      assert.deepEqual(davgyuti.canonical(packet), canonical);
    }
  }
});

// How many fit into a length of 16 bits (RFC 9260 sections 3.2 and 3.2.1), and how many into a packet of 65,532 bytes.
test('lists that are full, and those that never end', () => {
  function* endless(it) {
    for (;;)
      yield it;
  }
  const { parameter } = davgyuti, block = { start: 2, end: 3 }, tsns = { cumulativeTsnAck: 1, aRwnd: 2 }, [reset, random] = [{ type: 13 }, 0x8002];
  for (const [item, most, add] of [
    [block, 16_376, (it, blocks) => it.addSack({ ...tsns, blocks })],
    [7, 16_376, (it, duplicates) => it.addSack({ ...tsns, duplicates })],
    [{ stream: 1 }, 16_378, (it, streams) => it.addForwardTsn({ newCumulativeTsn: 1, streams })],
    [{ stream: 1 }, 8189, (it, streams) => it.addIForwardTsn({ newCumulativeTsn: 1, streams })],
    [7, 32_750, (it, streams) => it.addChunk(130).addReConfig({ ...reset, streams })],
    [7, 32_754, (it, types) => it.addChunk(9).addCause(2, { types })],
    [5, 32_756, (it, types) => it.addChunk(1).addRegisteredParameter(12, { types })],
    [parameter(random), 16_378, (it, parameters) => it.addChunk(9).addRegisteredCause(8, { parameters })],
  ]) {
    const builder = new Builder(PORTS), full = add(new Builder(PORTS), new Array(most).fill(item)).size;
    assert.ok(full > 65_528 && full <= 65_532, `${add} ${full}`);
    assert.throws(() => add(builder, new Array(most + 2).fill(item)), { name: 'WriteError' });
    const { size } = builder;
    assert.throws(() => add(builder.reset(), endless(item)), { code: Result.BAD_VALUE });
    assert.equal(builder.size, size);
  }
  const counts = { cumulativeTsnAck: 1, aRwnd: 2, counts: endless(0), lists: new Uint8Array(0) };
  assert.deepEqual(davgyuti.registeredChunk(new Builder(PORTS).addRegisteredChunk(16, counts).lastChunk()).counts, [0, 0, 0]);
});

test('texts of thousands of bytes', () => {
  const reason = 'zu spät, '.repeat(600);
  for (const count of [400, 13_000]) {
    const packet = written(it => {
      it.addAbort(reason);
      for (let i = 0; i < count; i++)
        it.addCookieAck();
    });
    assert.equal(new TextDecoder().decode([...causes([...chunks(packet)][0])][0].value), reason);
    const text = davgyuti.text(packet), report = davgyuti.report(packet);
    assert.ok(text.startsWith('source=1 destination=2 tag=3 ') && text.endsWith('\nCOOKIE-ACK'.repeat(count)), `${text.length}`);
    assert.ok(report.startsWith('source 1, destination 2, ') && report.endsWith(`${'\nCOOKIE ACK'.repeat(count)}\n`));
    assert.ok(report.includes(`"${reason}"`), `${report.length}`);
  }
});

test('a word of 0 that is passed', () => {
  const packet = written(it => it.addCookieAck()), zero = packet.slice();
  zero.fill(0, 8, 12);
  // (whose CRC32c, by another program, is 0)
  const word = davgyuti.word(Uint8Array.from(Buffer.from('000000000000000000000000f62e80b0', 'hex')));
  assert.deepEqual([word.number, JSON.stringify(word)], [0, '{"number":0}']);
  // Only what `word` returned is one.
  for (const it of [0, davgyuti.header(packet).checksum, null, { number: 0 }, Object.create(word), { ...word }]) {
    for (const name of ['check', 'canonical', 'text', 'report', 'read', 'firstFault'])
      assert.throws(() => davgyuti[name](zero, { word: it }), { name: 'TypeError', message: /^word is / });
  }
  for (const name of ['check', 'canonical', 'text', 'report']) {
    davgyuti[name](zero, { word });
    assert.throws(() => davgyuti[name](packet, { word }), { code: Result.FAULT_CHECKSUM, offset: 8 });
  }
  assert.equal(davgyuti.firstFault(zero, { word }), null);
  assert.deepEqual(davgyuti.firstFault(packet, { word }), { code: Result.FAULT_CHECKSUM, offset: 8 });
});

test('no CRC32c is computed where any checksum is accepted', () => {
  const packet = written(it => it.addData({ tsn: 1, stream: 2, payload: new Uint8Array(60_000) }));
  for (const name of ['read', 'check', 'firstFault', 'text']) {
    // (of 60,028 bytes it takes some ten times as long as the rest; the least of many counts)
    const [without, computed] = [{ anyChecksum: true }, {}].map(policy => {
      const took = Array.from({ length: 100 }, () => {
        const begin = process.hrtime.bigint();
        davgyuti[name](packet, policy);
        return Number(process.hrtime.bigint() - begin);
      });
      return Math.min(...took);
    });
    assert.ok(2 * without < computed, `${name}: ${without} and ${computed} ns`);
  }
});

test('where memory is full', () => {
  const folder = mkdtempSync(join(tmpdir(), 'dcsctp-')), path = name => fileURLToPath(new URL(`../${name}`, import.meta.url));
  try {
    // The same module, whose memory has 32 pages at most: its section, a 5, has three bytes (one memory, no limit, the pages it
    // begins with), and gets a fourth.
    const wasm = readFileSync(path('dcsctp.wasm')), at = wasm.indexOf(Buffer.from([5, 3, 1, 0]));
    assert.ok(at > 0 && wasm[at + 4] < 32);
    const limited = Buffer.concat([wasm.subarray(0, at), Buffer.from([5, 4, 1, 1, wasm[at + 4], 32]), wasm.subarray(at + 5)]);
    writeFileSync(join(folder, 'dcsctp.wasm'), limited);
    for (const name of ['davgyuti.js', 'kinds.js', 'library.js', 'node.js'])
      copyFileSync(path(name), join(folder, name));
    const own = createRequire(import.meta.url)(join(folder, 'node.js'));
    const { call } = createRequire(import.meta.url)(join(folder, 'library.js'));

    const noMemory = { name: 'WriteError', code: Result.NO_MEMORY };
    const packet = written(it => it.addAbort('why').addSack({ cumulativeTsnAck: 1, aRwnd: 2, blocks: [{ start: 2, end: 3 }] }));
    const known = ['canonical', 'text', 'report'].map(name => [name, davgyuti[name](packet)]);
    for (const [name, expected] of known)
      assert.deepEqual(own[name](packet), expected);
    const taken = [];
    for (let size = 1n << 21n; size >= 16n; size /= 2n) {
      for (let block; (block = call('malloc', size)) !== 0n;)
        taken.push(block);
    }
    // The package has its blocks, and the library none: a report and a canonical packet need none.
    let refusals = 0;
    for (; ;) {
      assert.deepEqual(own.report(packet), known[2][1]);
      assert.deepEqual(own.canonical(packet), known[0][1]);
      own.check(packet);
      assert.throws(() => own.check(packet.subarray(0, 15)), { code: Result.FAULT_SIZE });
      try {
        assert.deepEqual(own.text(packet), known[1][1]);
        break;
      } catch (error) {
        assert.deepEqual({ ...error, name: error.name }, noMemory);
        refusals++;
        call('free', taken.pop());
      }
    }
    assert.ok(refusals > 0);
    assert.throws(() => own.word(new Uint8Array(1 << 20)), noMemory);
    taken.forEach(block => call('free', block));
    for (const [name, expected] of known)
      assert.deepEqual(own[name](packet), expected);
  } finally {
    rmSync(folder, { recursive: true });
  }
});
