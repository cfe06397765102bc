// SPDX-License-Identifier: Apache-2.0
// What is asked of whoever receives a packet, beyond the vectors: what is refused, where there is no room, and the rules by their names.
import assert from 'node:assert/strict';
import { readFileSync } from 'node:fs';
import { test } from 'node:test';
import * as davgyuti from 'davgyuti';

const { Action, Builder, ChunkType, InitFault, Result, Rule, chunks, ruleName } = davgyuti;
const bytes = hex => Uint8Array.from(Buffer.from(hex.replace(/\s/g, ''), 'hex'));
const PORTS = { sourcePort: 5000, destinationPort: 5001, verificationTag: 7 };
const HEADER = { ...PORTS, checksum: 0 };
const packet = new Builder(PORTS).addCookieAck().finish();

test('what an action asks for', () => {
  const actions = [Action.STOP, Action.STOP_AND_REPORT, Action.SKIP, Action.SKIP_AND_REPORT];
  assert.deepEqual(actions.map(davgyuti.actionReports), [false, true, false, true]);
  assert.deepEqual(actions.map(davgyuti.actionSkips), [false, false, true, true]);
});

test('what is of another type is refused', () => {
  for (const call of [
    () => davgyuti.actionReports('1'), () => davgyuti.unrecognizedParameter('1'), () => davgyuti.verifyTag(packet, null),
    () => davgyuti.verifyTag(packet, { ownTag: 1, peerTag: 2, hasPeerTag: 1, awaitsCookie: false }), () => davgyuti.outOfTheBlue(packet),
    () => davgyuti.reply(null, davgyuti.Answer.ABORT), () => davgyuti.initFault(packet), () => davgyuti.initRefusal(1, true),
    () => davgyuti.brokenRules('packet'), () => davgyuti.brokenRules(packet, { hasData: 1 }), () => davgyuti.brokenRules(packet, null),
    () => davgyuti.addsAddresses(null, packet), () => new Builder(PORTS).addUnrecognizedChunks('packet', []),
    () => new Builder(PORTS).addInitAck({}), () => new Builder(PORTS).addUnrecognizedParametersError(null, []),
  ])
    assert.throws(call, TypeError);
  for (const call of [
    () => davgyuti.unrecognizedChunk(256), () => davgyuti.reply(HEADER, -1), () => davgyuti.initAbort(HEADER, -1, InitFault.TAG_ZERO),
    () => new Builder(PORTS).addUnrecognizedChunks(packet, [256]), () => new Builder(PORTS).addUnrecognizedParametersError(
      chunks(packet).next().value, [0x10000]),
  ])
    assert.throws(call, RangeError);
});

test('where there is no room, nothing changes', () => {
  const [init] = chunks(new Builder(PORTS).addInit({ initiateTag: 1, aRwnd: 2, outboundStreams: 3, inboundStreams: 4, initialTsn: 5 })
    .addParameter(0xc001, bytes('0102')).addAddresses(['10.0.0.1']).finish());
  const came = new Builder(PORTS).addChunk(0xc1, 0, bytes('01')).finish();
  for (const [add, write] of [
    ['addAbort', it => it.addNewAddresses(init, new Uint8Array(0))], ['addAbort', it => it.addUnrecognizedParameters(init, [])],
    ['addCookieAck', it => it.addUnrecognizedParametersError(init, [])], ['addCookieAck', it => it.addUnrecognizedChunks(came, [])],
  ]) {
    const enough = new Builder(PORTS)[add](), old = enough.size;
    write(enough);
    const short = new Builder({ ...PORTS, room: enough.size - 1 })[add](), before = short.finish();
    assert.throws(() => write(short), { name: 'WriteError', code: Result.NO_ROOM });
    assert.deepEqual(short.finish(), before);
    // (what was added is the last chunk, or belongs to it)
    assert.ok(enough.size > old && enough.lastChunk().type === (add === 'addAbort' ? ChunkType.ABORT : ChunkType.ERROR));
  }
  assert.throws(() => new Builder(PORTS).addNewAddresses(init, new Uint8Array(0)), { code: Result.BAD_PLACE });
  assert.throws(() => new Builder(PORTS).addUnrecognizedParameters(init, []), { code: Result.BAD_PLACE });
});

// The rows of one packet in examples/rules.txt, whose names are in no order.
test('the rules that a packet breaks', () => {
  const lines = readFileSync(new URL('../../../examples/rules.txt', import.meta.url), 'utf8').split('\n');
  const rows = lines.filter(it => !it.startsWith('#')).map(it => it.split(' = ')).filter(it => it.length === 2 && !it[0].includes('/'));
  assert.ok(rows.length > 100);
  const seen = new Set();
  for (const [hex, names] of rows) {
    const found = davgyuti.brokenRules(bytes(hex));
    assert.deepEqual(found.map(ruleName).sort(), names.split(' ').filter(it => it !== '-').sort(), hex);
    found.forEach(it => seen.add(it));
  }
  assert.deepEqual([...seen].sort((one, other) => one - other), Object.values(Rule));
});
