// SPDX-License-Identifier: Apache-2.0
// Tries the scripts without a browser: over made lines, whose keys are those of docs/DUMP.md, and over what the program prints
// of captures. usage: node page/tests/units.mjs
import assert from 'node:assert/strict';
import { spawnSync } from 'node:child_process';
import { readdirSync, readFileSync } from 'node:fs';
import { inspect } from 'node:util';
import { reasonOf, sentencesOf } from '../src/answer.mjs';
import { Associations } from '../src/associations.mjs';
import { channelFilter, Channels } from '../src/channels.mjs';
import { Diagram, wantedRow } from '../src/diagram.mjs';
import { cArray, hexadecimal, linkOf, packetsIn, pcapOf, testRow } from '../src/copies.mjs';
import { isMessage, isOf, messageFilter, packetsOf } from '../src/fates.mjs';
import { bytesOf, Fields, nodesOf, ownersOf, valueOf } from '../src/fields.mjs';
import { namedApart } from '../src/files.mjs';
import { filterOf, FOUND, strangeWords } from '../src/filter.mjs';
import {
  associationOf, groupOf, isAssociation, isChannel, isSummary, KINDS, MOST_TEXT, pairsOf, parsed, Rows, skippedText, WORDS,
} from '../src/keys.mjs';
import { basesOf, rowsToRead, trackOver, trackText } from '../src/graph.mjs';
import { infoOf } from '../src/info.mjs';
import { chunkLabel, chunksLabel, fitted, groupOfRow } from '../src/labels.mjs';
import { drawPacket, endText } from '../src/list.mjs';
import { countsText, Messages } from '../src/messages.mjs';
import { compressed, lineIn, packInto, uncompressed } from '../src/packed.mjs';
import { run } from '../src/program.mjs';
import {
  BAND, common, DOUBLED, durationText, lastAt, LEAST, longOf, partsOf, placesOf, rateOf, ROW, stepWithin, WIDEST,
} from '../src/scale.mjs';
import { signsOf } from '../src/signs.mjs';
import { shareAt } from '../src/split.mjs';
import { Store } from '../src/store.mjs';
import { storyOf } from '../src/story.mjs';
import { sorted } from '../src/table.mjs';
import { counted, hex, shown, sized } from '../src/text.mjs';
import { acknowledgedBy, bringersOf, firstSendings, missingBefore, repeatsOf } from '../src/ties.mjs';
import { COLUMN_MEANINGS, fieldName, MEANINGS } from '../src/words.mjs';
import { compareRow } from './table.mjs';
import { bytes, chunk, init, ip, packet as packetOf, pcap, sack, udp } from './traffic.mjs';

// ---- in the place of a browser and of a Worker

/** An element: its parts, and its attributes as they were given. */
class Element {
  parts = [];
  dataset = {};
  append(...parts) {
    this.parts.push(...parts);
  }
  setAttribute(name, value) {
    this[name] = value;
  }
  addEventListener() {}
  get textContent() {
    return this.parts.map(it => it.textContent ?? it).join('');
  }
}

const made = () => new Element(), posted = [];
let scale = 'even';
Object.assign(globalThis, {
  document: { createElement: made, createElementNS: made, getElementById: () => ({ value: scale, replaceChildren() {} }) },
  FileReaderSync: class { readAsArrayBuffer = it => it; },
  onmessage: undefined, postMessage: it => posted.push(structuredClone(it)),
});
await import('../src/worker.mjs');

/** What the page keeps of a text of lines that the Worker has read. */
function storeOfText(text) {
  const bytes = new TextEncoder().encode(text), store = new Store();
  onmessage({ data: { files: [['lines', { slice: (from, to) => bytes.subarray(from, to) }]] } });
  assert.equal(posted.pop().errors, '');
  posted.splice(0).forEach(it => store.add(it));
  store.finish();
  return store;
}

/** An object as the program prints it, whose time is a number. */
const lineOf = it => JSON.stringify(it).replace(/"time":"(-?[\d.]+)"/, '"time":$1');
const storeOf = (...objects) => storeOfText(objects.map(lineOf).join('\n'));
const rowsOf = store => Array.from({ length: store.count }, (_, row) => row);

// ---- rows

const started = performance.now();
let tried = 0, failed = 0;

/** Tries a function over rows: what it is given, and last what it has to return. */
function each(name, of, rows) {
  for (const row of rows) {
    const given = row.slice(0, -1);
    tried++;
    try {
      assert.deepEqual(of(...given), row.at(-1));
    } catch (error) {
      failed++;
      console.log(`page: ${name}, ${inspect(given, { breakLength: Infinity }).slice(0, 200)}: ${error.message}`);
    }
  }
}

const A = { from: '10.0.0.1', to: '2001:db8::2', source: 40000, destination: 9900, tag: 20 };
const B = { from: '2001:db8::2', to: '10.0.0.1', source: 9900, destination: 40000, tag: 10 };
const packet = (number, end, chunks, others) => ({ packet: number, ...end, length: 100, verdict: 'right', chunks, ...others });
const data = (tsn, others) => ({ chunk: 0, name: 'DATA', tsn, stream: 0, ...others });

// ---- times

// 1700000000 is 19,675 days, of which 2023-11-14 is the last, and 80,000 s: 22 h, 13 min and 20 s
each('a time', (time, direction) => storeOf(packet(1, A, [], { time, direction })).time(0, false), [
  ['1700000000.000120', '2023-11-14 22:13:20.000120'],
  ['1700000000.5', '2023-11-14 22:13:20.5'],
  ['1700000000.123456789', '2023-11-14 22:13:20.123456789'],
  ['1700000000.1234567891234567890', '2023-11-14 22:13:20.123456789'],
  ['951868799.0', '2000-02-29 23:59:59.0'],
  ['-1.000001', '1969-12-31 23:59:58.999999'],
  ['-0.5', '1969-12-31 23:59:59.5'],
  ['-86400.000', '1969-12-31 00:00:00.000'],
  // (719,162 days are from 0001-01-01 to 1970-01-01)
  ['-62135596800.0', '0001-01-01 00:00:00.0'],
  ['253402300800.0', '+010000-01-01 00:00:00.0'],
  ['63594.101', 'incoming', '17:39:54.101'], // 17 * 3600 + 39 * 60 + 54
  ['3599.001', 'outgoing', '00:59:59.001'],
  [undefined, ''],
]);
// A log over midnight, at noon of its second day, and a line that comes a little late.
const night = ['86399.5', '1.25', '86399.75', '43200.0', '86399.0', '0.0'];
const overMidnight = storeOf(...night.map((time, i) => packet(i + 1, A, [], { time, direction: 'incoming' })));
each('a time of a log over midnight', row => [overMidnight.time(row, true), overMidnight.wholeTime(row)], [
  [0, ['0.0', '23:59:59.5']],
  [1, ['1.75', '00:00:01.25, day 2 of the log']],
  [2, ['0.25', '23:59:59.75']],
  [3, ['43200.5', '12:00:00.0, day 2 of the log']],
  [4, ['86399.5', '23:59:59.0, day 2 of the log']],
  [5, ['86400.5', '00:00:00.0, day 3 of the log']],
]);
each('a whole time', time => storeOf(packet(1, A, [], { time })).wholeTime(0), [
  ['951868799.0', '2000-02-29 23:59:59.0 UTC'], [undefined, ''],
]);
const storeAt = times => storeOf(...times.map((time, i) => packet(i + 1, A, [], { time })));
each('a time since the first', (...times) => storeAt(times).time(times.length - 1, true), [
  ['1700000000.900000', '1700000001.100000', '0.200000'],
  ['1700000001.100000', '1700000000.900000', '-0.200000'],
  ['5.5', '3.0', '-2.5'],
  ['5.0', '3.5', '-1.5'],
  ['5.5', '7.0', '1.5'],
  ['5.5', '5.5', '0.0'],
  [undefined, '7.25', '99.50', '92.25'],
  ['-0.25', '0.50', '0.75'],
  ['-2.25', '-1.50', '0.75'],
  ['0.25', '-0.50', '-0.75'],
  ['7.25', undefined, ''],
]);
// Two associations at once, of which one is silent for 1.5 s; a packet without a time, and a line between them.
const C = { from: '10.0.0.3', to: '10.0.0.4', source: 1, destination: 2, tag: 30 };
const both = storeOf(
  packet(1, A, [], { time: '1.25' }), packet(2, C, [], { time: '1.5' }), packet(3, B, [], { time: '1.75' }), packet(4, C, []),
  { line: 5, skipped: 'no packet' }, packet(6, C, [], { time: '3.0' }), packet(7, A, [], { time: '2.00' }), packet(8, A, [], { time: '1.75' }),
);
each('a time since the previous', row => both.timeBy(row, 'previous'), [
  [0, ''], [1, ''], [2, '0.50'], [3, ''], [4, ''], [5, '1.5'], [6, '0.25'], [7, '-0.25'],
]);
each('a silence', text => rowsOf(both).filter(filterOf(text).test(both)).join(' '), [
  ['silence:>0.5', '5'], ['silence:0.5', '2'], ['silence:0.25-1', '2 6'], ['silence:<9', '2 5 6 7'], ['-silence:>0.3', '0 1 3 6 7'],
]);
each('how long all took', (...times) => storeAt(times).span, [
  ['1700000000.900000', '1700000001.100000', 2e8], [undefined, '7.25', '99.50', undefined, 9.225e10], ['5.5', 0], [undefined, undefined],
]);
each('nanoseconds between', (...times) => storeAt(times).between(0, 1), [
  ['1700000000.000000001', '1700000002.000000000', 1999999999],
  ['3.5', '1.25', -2250000000],
  [undefined, '1.0', undefined],
]);

// ---- what the program says of DATA: sent before, filling a gap, after a gap

const LAST = 2 ** 32 - 1;
const flagsOf = (store, row) => ['repeated', 'late', 'jump'].filter(it => store.has(row, it)).join('+') || '-';
each('what is said of TSNs', others => flagsOf(storeOf(packet(1, A, [data(5)], others)), 0), [
  [{}, '-'], [{ repeated: 1 }, 'repeated'], [{ late: 2 }, 'late'], [{ missing: 5 }, 'jump'],
  [{ repeated: 1, late: 1, missing: 1 }, 'repeated+late+jump'], [{ repeated: 0, late: 'x', missing: null }, '-'],
]);

// ---- a capture

const SACK = { chunk: 3, name: 'SACK', cumulative_tsn_ack: LAST, blocks: [] };
const sent = (number, end, time, chunks, others) => packet(number, end, chunks, { time: `170000000${time}`, ...others });
const FIRST = { association: 1, end: 0, ...A }, SECOND = { association: 1, end: 1, ...B };
const capture = storeOf(
  { file: 'a.pcap' },
  sent(1, { ...FIRST, tag: 0 }, '0.000000', [{ chunk: 1, name: 'INIT', initiate_tag: 10, initial_tsn: LAST }]),
  sent(2, SECOND, '0.250000', [{ chunk: 2, name: 'INIT ACK', initiate_tag: 20 }]),
  sent(3, FIRST, '0.500000', [data(LAST, { stream: 1, ppid: 51, ppid_name: 'WebRTC String', text: 'Hello, 漢字' })], { length: 40, warnings: [{}] }),
  sent(4, FIRST, '2.000000', [data(1, { stream: 2, ppid: 99 }), data(2, { stream: 2, ppid: 50, ppid_name: 'WebRTC DCEP', message: 3, message_name: 'DATA_CHANNEL_OPEN', label: 'Chat' })], { missing: 1 }),
  sent(5, SECOND, '2.100000', [{ ...SACK, blocks: [{ start: 2, end: 3, first_tsn: 1, last_tsn: 2 }] }], { verdict: 'zero' }),
  sent(6, FIRST, '2.200000', [data(0)], { late: 1 }),
  sent(7, FIRST, '2.300000', [data(0)], { verdict: 'wrong', expected: 5, repeated: 1 }),
  packet(8, SECOND, [SACK], { fault: { kind: 'length', offset: 32, reason: 'COOKIE ACK: length 3' } }),
  packet(9, FIRST, [{ chunk: 0, name: 'DATA' }], { captured: 26, verdict: 'unknown' }),
  { record: 10, skipped: 'a fragment' },
  packet(11, { association: 2, end: 0, source: 1, destination: 2, tag: 3 }, [{ chunk: 66 }, { chunk: 16, name: 'NR-SACK', cumulative_tsn_ack: 9 }]),
  { association: 1, ends: [A, B].map(it => ({ addresses: [it.from], port: it.source, tag: 30 - it.tag })) },
  { association: 2, ends: [{ addresses: [], port: 1 }, { addresses: [], port: 2, tag: 3 }] },
  { packets: 10, skipped: 1, fragment: 1 },
);
const numbers = rows => rows.map(row => capture.columns.number[row]).join(' ');
const cells = line => line.parts.map(it => it.textContent).join(' | ');

// (after the file's row, the row of a packet is its number)
const FROM_A = '10.0.0.1:40000 → [2001:db8::2]:9900', FROM_B = '[2001:db8::2]:9900 → 10.0.0.1:40000';
/** The cells of rows, with what their lines say. */
async function drawnRows(store) {
  const drawn = rowsOf(store).map(row => drawPacket(store, row, 'since'));
  await store.objects(rowsOf(store));
  await new Promise(resolve => setTimeout(resolve));
  return drawn.map(cells);
}
const captureRows = await drawnRows(capture);
each('a row', row => captureRows[row], [
  [0, 'a.pcap'],
  [1, `1 | 0.000000 | ${FROM_A} | 0x00000000 | INITtag 0x0000000a · initial TSN 4294967295`],
  [2, `2 | 0.250000 | ${FROM_B} | 0x0000000a | INIT ACKtag 0x00000014`],
  [3, `3 | 0.500000 | ${FROM_A} | 0x00000014 | DATAwarning“Hello, 漢字” · TSN 4294967295 · stream 1 · WebRTC String`],
  [4, `4 | 2.000000 | ${FROM_A} | 0x00000014 | DATA ×2gap beforeDATA_CHANNEL_OPEN “Chat” · TSN 1–2 · stream 2 · ppid 99 · WebRTC DCEP`],
  [5, `5 | 2.100000 | ${FROM_B} | 0x0000000a | SACKzero checksumgapsacknowledges 4294967295 and 1–2`],
  [6, `6 | 2.200000 | ${FROM_A} | 0x00000014 | DATAfills a gapTSN 0 · stream 0`],
  [7, `7 | 2.300000 | ${FROM_A} | 0x00000014 | DATAwrong checksumsent againTSN 0 · stream 0`],
  [8, `8 |  | ${FROM_B} | 0x0000000a | SACKrefusedacknowledges 4294967295COOKIE ACK: length 3`],
  [9, `9 |  | ${FROM_A} | 0x00000014 | DATAcut off`],
  [10, '10 |  | skipped: a fragment'],
  [11, '11 |  | 1 → 2 | 0x00000003 | chunk 66NR-SACKacknowledges 9'],
]);
const rowOf = object => cells(drawPacket(storeOf(object), 0, 'since'));
each('a row of a log', direction => rowOf(packet(1, { source: 1, destination: 2 }, [], { direction })), [
  ['incoming', '1 |  | incoming 1 → 2 |  | '],
  ['outgoing', '1 |  | outgoing 1 → 2 |  | '],
]);
each('a row of what was skipped', rowOf, [
  [{ record: 7, skipped: 'a fragment' }, '7 |  | skipped: a fragment'],
  [{ line: 7, skipped: 'not a packet' }, ' |  | line 7 skipped: not a packet'],
]);
each('TSNs of a row', (...tsns) => infoOf(packet(1, A, tsns.map(it => data(it)))).split('TSN ')[1], [
  [LAST, 0, 1, 5, '4294967295–1, 5 · stream 0'],
  [1, 3, 5, 7, '1, 3, 5 .. · stream 0'],
]);

// (keys and names as in docs/DUMP.md)
const whole = { ppid: 51, ppid_name: 'WebRTC String', unordered: false, beginning: true, end: true, payload_size: 5, text: 'hello' };
const opened = { ppid: 50, ppid_name: 'WebRTC DCEP', payload_size: 16, message: 3, message_name: 'DATA_CHANNEL_OPEN', label: 'chat', channel_type_name: 'reliable ordered' };
const reset = (...parameters) => ({ chunk: 130, name: 'RE-CONFIG', parameters });
each('what a row says', (...chunks) => infoOf({ chunks }), [
  [data(5, whole), '“hello” · TSN 5 · stream 0 · WebRTC String · 5 bytes'],
  [data(5, { ...whole, unordered: true, text: 'a\nb' }), '“a\\u000ab” · TSN 5 · stream 0 · WebRTC String · unordered · 5 bytes'],
  [data(5, opened), 'DATA_CHANNEL_OPEN “chat” reliable ordered · TSN 5 · stream 0 · WebRTC DCEP · 16 bytes'],
  [data(5, { ...opened, message_name: 'DATA_CHANNEL_ACK', label: undefined, channel_type_name: undefined, payload_size: 1 }),
    'DATA_CHANNEL_ACK · TSN 5 · stream 0 · WebRTC DCEP · 1 byte'],
  [data(5, { beginning: true, end: false, payload_size: 1200 }), 'TSN 5 · stream 0 · first fragment · 1,200 bytes'],
  [data(6, { beginning: false, end: false }), 'TSN 6 · stream 0 · middle fragment'],
  [data(7, { beginning: false, end: true }), 'TSN 7 · stream 0 · last fragment'],
  [data(5, { ...whole, text: 'a' }), data(6, { ...whole, stream: 3, text: 'b' }), '“a” · “b” · TSN 5–6 · stream 0, 3 · WebRTC String · 10 bytes'],
  [{ ...SACK, a_rwnd: 1000 }, data(5), 'TSN 5 · stream 0 · acknowledges 4294967295 · a_rwnd 1000'],
  [{ ...SACK, blocks: [[2, 2], [4, 6]].map(([first_tsn, last_tsn]) => ({ first_tsn, last_tsn })), duplicates: [{ tsn: 7 }] },
    'acknowledges 4294967295 and 2, 4–6 · duplicate 7'],
  [{ ...SACK, chunk: 16, nr_blocks: [{ first_tsn: 4, last_tsn: 6 }] }, 'acknowledges 4294967295 and 4–6'],
  [{ chunk: 1, initiate_tag: 10, a_rwnd: 5, outbound_streams: 3, inbound_streams: 4, initial_tsn: 9, parameters: [{ parameter: 7, name: 'x' }] },
    'tag 0x0000000a · initial TSN 9 · streams 3 out, 4 in · a_rwnd 5'],
  [{ chunk: 192, new_cumulative_tsn: 9, streams: [{ stream: 1, ssn: 2 }, { stream: 4, ssn: 2 }] }, 'new TSN 9 · skips in stream 1, 4'],
  [{ chunk: 7, cumulative_tsn_ack: 9 }, 'acknowledges 9'],
  [reset({ parameter: 13, name: 'Outgoing SSN Reset Request', streams: [{ stream: 1 }, { stream: 2 }] }), 'resets stream 1, 2'],
  [reset({ parameter: 13, name: 'Outgoing SSN Reset Request', streams: [] }), 'resets all streams'],
  [reset({ parameter: 14, name: 'Incoming SSN Reset Request', streams: [{ stream: 1 }] }), 'asks to reset stream 1'],
  [reset({ parameter: 16, name: 'Re-configuration Response', result: 1, result_name: 'Success - Performed' }), 'Success - Performed'],
  [reset({ parameter: 17, name: 'Add Outgoing Streams Request', new_streams: 5 }), 'Add Outgoing Streams Request 5'],
  [{ chunk: 6, causes: [{ cause: 12, name: 'User-Initiated Abort', text: 'enough' }, { cause: 99 }] }, 'User-Initiated Abort “enough” · cause 99'],
  [{ chunk: 11 }, ''],
  // What the program didn't print.
  [data(5, { text: 5, payload_size: 'x', message_name: {}, beginning: 1 }), 'TSN 5 · stream 0'],
  [{ chunk: 6, causes: 5, streams: [null, 5, {}], duplicates: {}, a_rwnd: '1' }, ''],
  [reset(null, 5, {}), 'parameter undefined'],
]);
each('a long row', () => infoOf({ chunks: Array(50).fill({ chunk: 7, cumulative_tsn_ack: 9 }) }).split(' · ').length, [[12]]);

const ALL = '0 1 2 3 4 5 6 7 8 9 11';
each('a filter', text => {
  const filter = filterOf(text), passed = rowsOf(capture).filter(filter.test(capture));
  return [numbers(passed), ...strangeWords(capture, filter, passed.length)].join('; ');
}, [
  ['', ALL], ['accepted', '1 2 3 4 5 6 7 11'], ['refused', '8'], ['cut', '9'], ['skipped', '10'], ['file', '0'],
  ['-file', '1 2 3 4 5 6 7 8 9 11'],
  ['-skipped', ALL], ['skipped,refused', '8 10'], ['skipped -data', '10'], ['-accepted,skipped', '0 8 9'], ['wrong', '7'], ['zero', '5'], ['repeated', '7'],
  ['late', '6'], ['jump', '4'], ['gaps', '5'], ['warned', '3'], ['incoming', ''],
  ['chunk:SACK', '5 8'], ['sack', '5 8'], ['chunk:3', '5 8'], ['chunk:0x10', '11'], ['chunk:init-ack', '2'], ['INIT_ACK', '2'],
  ['chunk:66', '11'], ['chunk:sack,init', '1 5 8'], ['-chunk:data,sack', '0 1 2 11'], ['init,sack gaps', '5'],
  ['port:1', '11'], ['port:9900', '1 2 3 4 5 6 7 8 9'], ['source:9900', '2 5 8'], ['destination:9900', '1 3 4 6 7 9'],
  ['source:1-2', '11'], ['tag:0x14', '3 4 6 7 9'], ['tag:0x0A', '2 5 8'], ['tag:20', '3 4 6 7 9'], ['tag:0', '1'],
  ['address:10.0', '1 2 3 4 5 6 7 8 9'], ['address:2001:DB8:', '1 2 3 4 5 6 7 8 9'], ['address:0.0', ''],
  ['stream:1', '3'], ['stream:0-1', '3 6 7'], ['ppid:51', '3'], ['ppid:webrtc', '3 4'], ['ppid:webrtc-dcep', '4'],
  ['ppid:99', '4'], ['tsn:0', '4 6 7'], ['tsn:2', '4'], ['tsn:2-4294967295', '3 4'], ['ack:4294967295', '5 8'], ['ack:0', ''],
  ['packet:0', ''], ['packet:3-5', '3 4 5'], ['packet:10', ''], ['length:40', '3'],
  ['association:1', '1 2 3 4 5 6 7 8 9'], ['association:2', '11'], ['association:1-2 tag:3', '11'],
  ['packet:4-', '4 5 6 7 8 9 11'], ['packet:>8', '9 11'], ['packet:<=2', '1 2'], ['length:<100', '3'], ['length:>=100', '1 2 4 5 6 7 8 9 11'],
  ['time:2-2.2', '4 5 6'], ['time:2.1', '5'], ['time:>2.2', '7'], ['time:<0.25', '1'], ['-time:0-', '0 8 9 11'],
  ['ppid:dcep', '4'], ['ppid:string', '3'], ['message:open', '4'], ['message:3', '4'], ['message:ack', ''], ['label:HA', '4'], ['label:x', ''],
  ['text:hello', '3'], ['text:"hello, 漢字"', '3'], ['text:漢', '3'], ['text:dinner,"o, "', '3'], ['text:dinner', ''], ['-text:o -data', '0 1 2 5 8 11'],
  ['port:x', `${ALL}; port:x (port: takes a number, as 5, 5-9, 5- or >5)`], ['packet:>', `${ALL}; packet:> (packet: takes a number, as 5, 5-9, 5- or >5)`],
  ['packet:1-2-3', `${ALL}; packet:1-2-3 (packet: takes a number, as 5, 5-9, 5- or >5)`], ['port:1.5', `${ALL}; port:1.5 (port: takes a number, as 5, 5-9, 5- or >5)`],
  ['time:x', `${ALL}; time:x (time: takes seconds, as 1.5-2)`], ['silence:-', `${ALL}; silence:- (silence: takes seconds, as 1.5-2)`], ['ppid:-', `${ALL}; ppid:- (ppid: takes a name or a text)`], ['-', `${ALL}; -`],
  ['chnk:data', `${ALL}; chnk:data (near it: chunk:data)`], ['-assoc:1', `${ALL}; -assoc:1 (near it: association:1)`],
  ['repaeted', '; repaeted (near it: repeated)'], ['SCAK', '; scak (near it: sack)'], ['hello', '; hello (as a text: text:hello)'],
  ['hello,sack', '5 8'],
  // (what marks and buttons say)
  ['"sent again"', '7'], ['"Fills a gap"', '6'], ['"filled a gap"', '6'], ['"gap before"', '4'], ['"SACK with gaps"', '5'], ['"wrong checksum"', '7'],
  ['"zero checksum"', '5'], ['"cut off"', '9'], ['warning', '3'], ['-"sent again" tsn:0', '4 6'], ['"gap before","sent again"', '4 7'],
]);
// A FORWARD-TSN is found by the TSN that it skips to, also one that is beside DATA, before and after 2^32.
const forward = tsn => ({ chunk: 192, name: 'FORWARD-TSN', new_cumulative_tsn: tsn });
const skips = storeOf(packet(1, A, [forward(5)]), packet(2, A, [data(9), forward(6)]), packet(3, A, [forward(4294967295), data(1)]), packet(4, A, [forward(8)]));
each('what is skipped, by its TSN', text => rowsOf(skips).filter(filterOf(text).test(skips)).map(it => it + 1).join(' '), [
  ['tsn:5', '1'], ['tsn:6', '2'], ['tsn:9', '2'], ['tsn:4294967295', '3'], ['tsn:1', '3'], ['tsn:7-8', '4'], ['tsn:0', ''],
]);
each('an unknown key', text => strangeWords(capture, filterOf(text), 1)[0].split(' source:')[0], [['colour:1', 'colour:1 (known: port:']]);
// (of a packet's texts and of a label only the beginning is kept)
const longText = storeOf(packet(1, A, [data(5, { text: 'a'.repeat(MOST_TEXT - 1) + 'bc', message: 3, label: 'd'.repeat(MOST_TEXT) + 'e' }), data(6, { text: 'f' })]));
each('a long text', text => rowsOf(longText).filter(filterOf(text).test(longText)).length, [
  ['text:ab', 1], ['text:c', 0], ['text:f', 0], ['label:d', 1], ['label:e', 0],
]);
// What was found: as many as its filter passes.
const many = (count, line) => Array(count).fill(line), gaps = { ...SACK, blocks: [{ first_tsn: 1, last_tsn: 2 }] };
const found = storeOf(
  ...many(2, packet(1, A, [], { fault: {} })), ...many(3, packet(1, A, [], { captured: 1 })),
  ...many(4, packet(1, A, [], { verdict: 'wrong' })), ...many(5, packet(1, A, [], { warnings: [{}] })),
  ...many(6, packet(1, A, [gaps])), ...many(7, { line: 1, skipped: 'x' }),
  ...many(8, packet(1, A, [data(5)], { late: 1 })), ...many(9, packet(1, A, [data(5)], { repeated: 2 })), ...many(10, packet(1, A, [data(5)], { missing: 3 })),
);
each('packets, of which none is skipped', () => found.packets, [[2 + 3 + 4 + 5 + 6 + 8 + 9 + 10]]);
each('what was found', word => {
  const [, , count] = FOUND.find(([its]) => its === word);
  return [count(found), rowsOf(found).filter(filterOf(word).test(found)).length];
}, [
  ['refused', [2, 2]], ['cut', [3, 3]], ['wrong', [4, 4]], ['warned', [5, 5]], ['gaps', [6, 6]], ['skipped', [7, 7]],
  ['late', [8, 8]], ['repeated', [9, 9]], ['jump', [10, 10]],
]);

each('an association', number => {
  const { rows, senderOf } = capture.rowsOf(capture.associations[number - 1]);
  return rows.map(row => row + 'AB'[senderOf(row)]).join(' ');
}, [[1, '1A 2B 3A 4A 5B 6A 7A 8B 9A'], [2, '11A']]);
each('the association of a row', row => capture.associationOf(row)?.association, [
  [0, undefined], [1, 1], [8, 1], [10, undefined], [11, 2],
]);

// ---- the diagram

/** What the diagram draws of a store's first association, as far as it passes. */
async function drawnOf(store, passes = () => true) {
  const [association] = store.associations, nothing = () => {};
  const unseen = { clientWidth: 0, scrollTop: 0, replaceChildren: nothing, removeAttribute: nothing, setAttribute: nothing, querySelectorAll: () => [] };
  const held = { rows: [], box: unseen, overview: { svg: unseen }, graph: { show: nothing, mark: nothing }, levels: { even: 0, time: 0 }, width: 800 };
  const diagram = Object.assign(Object.create(Diagram.prototype), held);
  diagram.render({ store, association, passed: rowsOf(store).filter(passes), clock: 'since' });
  const svg = diagram.arrows([0, diagram.rows.length], await store.objects(diagram.rows), 1000);
  return Object.assign(svg, { heads: diagram.heads(), over: classed(svg, 'over')[0] });
}
const classed = (it, name) => it.parts.filter(part => part.class?.split(' ')[0] === name);
const texts = (it, name) => classed(it, name).map(part => part.textContent);
const linesOf = arrow => classed(arrow, 'way').map(it => [it.x1, it.y1, it.x2])[0];
const drawn = await drawnOf(capture);
each('an arrow', i => {
  const arrow = classed(drawn, 'arrow')[i], [from, , to] = linesOf(arrow);
  return `${from < to ? '→' : '←'} ${arrow['aria-label']}`;
}, [
  [0, '→ packet 1: INIT tag 0x0000000a, initial TSN 4294967295'],
  [1, '← packet 2: INIT ACK tag 0x00000014'],
  [2, '→ packet 3: DATA 4294967295 stream 1 “Hello, 漢字”, warning'],
  [3, '→ packet 4: DATA 1 stream 2 ppid 99 | DATA 2 stream 2 DATA_CHANNEL_OPEN “Chat”, gap before'],
  [4, '← packet 5: SACK 4294967295, gap blocks 1–2, gaps'],
  [5, '→ packet 6: DATA 0 stream 0, fills a gap'],
  [6, '→ packet 7: DATA 0 stream 0, wrong checksum, sent again, first sent in packet 6'],
  [7, '← packet 8: SACK 4294967295, refused COOKIE ACK: length 3'],
  [8, '→ packet 9: DATA'],
]);
each('a packet’s group', (...types) => groupOfRow(storeOf(packet(1, A, types.map(it => it ? { chunk: it } : data(1)))), 0), [
  // (an error comes first, and user data before what is bundled with it)
  [3, 0, 'data'], [0, 9, 'abort'], [9, 10, 'abort'], [10, 3, 'setup'], [99, 'other'], ['other'],
]);
const twice = await drawnOf(storeOf(packet(1, A, [data(1)]), packet(2, A, [data(1)], { repeated: 1 })));
each('a curve to the first packet', () => classed(twice.over, 'tie').length, [[1]]);
each('a colour', i => classed(drawn, 'arrow')[i].class, [
  [0, 'arrow setup accepted'], [4, 'arrow ack accepted zero gaps'], [6, 'arrow data accepted wrong repeated'], [7, 'arrow ack refused'],
]);
const log = storeOf(...['incoming', 'outgoing'].map(it => packet(1, { source: 5, destination: 5, direction: it }, [])));
const others = await drawnOf(capture, row => ![2, 4, 6].includes(row));
each('beside arrows, and above', texts, [
  [drawn.over, 'silence', ['1.5 s without a packet']],
  // (from packet 3 at 0.5 s to packet 5 at 2.1 s)
  [others.over, 'silence', ['1.6 s, 1 packet hidden']],
  [drawn.heads, 'end', ['10.0.0.1:4000010.0.0.1:40000', '[2001:db8::2]:9900[2001:db8::2]:9900']],
  [drawn.heads, 'dim', ['tag 0x0000000a', 'tag 0x00000014']],
  [(await drawnOf(log)).heads, 'end', ['remote:5remote:5', 'local:5local:5']],
]);
// A repeat is tied to the first sending by a curve, or says where it was if that isn't drawn.
const shownLabel = (svg, i) => classed(classed(svg, 'arrow')[i], 'label')[0].textContent;
each('what a repeat says', (svg, i) => [classed(svg.over, 'tie').length, shownLabel(svg, i)], [
  [drawn, 6, [1, 'DATA 0 stream 0, wrong checksum, sent again']],
  [others, 3, [0, 'DATA 0 stream 0, wrong checksum, sent again, first sent in packet 6']],
]);

// ---- where arrows are

const S = 1e9, MS = 1e6, layout = (gaps, rate) => {
  const { places, breaks } = placesOf([NaN, ...gaps], ROW, rate, S);
  return [Array.from(places), [...breaks]];
};
each('places', layout, [
  [[], undefined, [[0], []]],
  // Evenly, with a band for a silence of a second.
  [[5, 0.999 * S, NaN], undefined, [[0, ROW, 2 * ROW, 3 * ROW], []]],
  [[5, S, 5], undefined, [[0, ROW, 2 * ROW + BAND, 3 * ROW + BAND], [2]]],
  // To scale, but not nearer than arrows can be; what is too long is broken. Times can be unknown, or go back.
  [[10 * MS, 20 * MS, 40 * MS], 2 / MS, [[0, 20, 60, 140], []]],
  [[0, 1, NaN, -5 * S], 2 / MS, [[0, 1, 2, 3, 4].map(it => it * LEAST), []]],
  // (what is cut short grows by as much with each doubling)
  [[10 * MS, 120 * MS, 10 * MS], 2 / MS, [[0, 20, 20 + WIDEST, 40 + WIDEST], []]],
  [[10 * MS, 240 * MS, 10 * MS], 2 / MS, [[0, 20, 20 + WIDEST + DOUBLED, 40 + WIDEST + DOUBLED], [2]]],
  [[10 * MS, 960 * MS, 10 * MS], 2 / MS, [[0, 20, 20 + WIDEST + 3 * DOUBLED, 40 + WIDEST + 3 * DOUBLED], [2]]],
]);
// A silence is four times what most gaps are within, from 0.1 s to 1 s.
const gapsOf = (count, most, ...others) => Float64Array.from([NaN, ...Array.from({ length: count }, (_, i) => most * (i + 1) / count), ...others]);
each('from when on it is a silence', (...gaps) => Math.round(longOf(gapsOf(...gaps)) / MS), [
  [100, 100 * MS, 384], [100, 100 * MS, 700 * MS, 384], [100, 5 * MS, 100], [100, 30 * S, 1000], [0, 0, 1000], [0, 0, -5 * S, 1000],
]);
each('arrows of a burst after 99 s', () => {
  const gaps = Float64Array.of(NaN, 20 * MS, 99 * S, 0.2 * MS, 0.3 * MS, 0.4 * MS), { places, breaks } = placesOf(gaps, ROW, rateOf(gaps), S);
  return [places.every((it, i) => !i || it - places[i - 1] >= 14), [...breaks], places.at(-1) < 1000];
}, [[[true, [1, 2], true]]]);
// (that of the middle is as far as one that is drawn evenly)
each('a scale', gaps => Math.round(1e9 * rateOf(Float64Array.from(gaps)) / ROW), [
  [[NaN, 1, 2, 3], 500000000], [[NaN, -5, 0, 4], 250000000], [[NaN, ...Array(30000).fill(5)], 200000000],
]);
each('no scale', gaps => rateOf(Float64Array.from(gaps)), [[[], undefined], [[NaN], undefined], [[NaN, 0, -1], undefined]]);
each('a step', stepWithin, [[1, 1], [1.9, 1], [2, 2], [4.9, 2], [5, 5], [9, 5], [10, 10], [35e6, 20e6], [7e8, 5e8]]);
each('the last that isn’t after', lastAt, [
  [[0, 10, 20], -5, 0], [[0, 10, 20], 0, 0], [[0, 10, 20], 9, 0], [[0, 10, 20], 10, 1], [[0, 10, 20], 99, 2], [[], 5, 0],
]);
each('what is in both', common, [[[1, 3, 5], [0, 1, 2, 5, 6], [1, 5]], [[1, 2], [], []], [[], [1], []], [[7, 9], [1, 2, 3, 9], [9]]]);
each('a duration', durationText, [
  [99 * S, '99 s'], [1234.5 * S, '1,230 s'], [1.5 * S, '1.5 s'], [210.04 * MS, '210 ms'], [1200e3, '1.2 ms'], [350e3, '350 µs'], [40, '40 ns'],
]);
const groups = 'data data ack data'.split(' '), itsMarks = [['refused'], [], [], ['repeated', 'refused']];
each('parts of a height', (places, count) => partsOf(Float64Array.from(places), 100, count, i => groups[i], i => itsMarks[i]), [
  [[0, 10, 19, 99], 5, [
    { at: 0, count: 3, group: 'data', marks: ['refused'] }, { at: 4, count: 1, group: 'data', marks: ['repeated', 'refused'] },
  ]],
  [[50, 100], 2, [{ at: 1, count: 2, group: 'data', marks: ['refused'] }]],
]);
scale = 'time';
const scaled = await drawnOf(storeAt(['1.0', '1.1', '1.15', '1.25', '9.25']));
const places = classed(scaled, 'arrow').map(it => linesOf(it)[1]);
each('a place to scale', i => (places[i] - places[0]) / (places[1] - places[0]), [[0, 0], [1, 1], [2, 1.5], [3, 2.5]]);
each('a silence to scale', texts, [[scaled.over, 'silence', ['8 s without a packet']], [scaled.heads, 'dim', ['100 ms']]]);
scale = 'even';

// More pixels than a browser scrolls: each place is reached, also the end.
function scrolled(last, to) {
  const held = { places: Float64Array.of(0, last), box: { clientHeight: 550, scrollTop: 0 }, update() {} };
  const diagram = Object.assign(Object.create(Diagram.prototype), held);
  diagram.scrollTo(to);
  return diagram;
}
each('where a diagram is scrolled to', (last, to) => {
  const { box, offset } = scrolled(last, to);
  return [box.scrollTop < 16e6, Math.round(offset)];
}, [[1000, 300, [true, 300]], [1000, -5, [true, 0]], [40e6, 12345678, [true, 12345678]], [40e6, 0, [true, 0]]]);
each('the end of a diagram', last => {
  const { offset, view, height } = scrolled(last, Infinity);
  return Math.abs(offset + view - height) < 1 && height > last;
}, [[1000, true], [40e6, true]]);

// ---- what packets have to do with each other (TSNs are serial numbers, RFC 1982)

const acked = sack => ({ ...SACK, ...sack });
const exchange = storeOf(...[
  [A, data(LAST)], [A, data(0), data(1)], [A, data(2)], [B, acked({ cumulative_tsn_ack: LAST })], [A, data(0)], [A, data(4)],
  [B, acked({ cumulative_tsn_ack: 0, blocks: [{ first_tsn: 2, last_tsn: 2 }, { first_tsn: 4, last_tsn: 5 }] })], [A, data(1), data(5)],
  [B, acked({ cumulative_tsn_ack: 5 }), data(0)], [B, acked({ cumulative_tsn_ack: 5 })], [A, { chunk: 7, name: 'SHUTDOWN', cumulative_tsn_ack: 0 }],
].map(([end, ...chunks], i) => packet(i + 1, end, chunks, { repeated: [4, 7].includes(i) ? 1 : 0 })));
const [pair] = exchange.associations, { rows: exchanged, senderOf: senderIn } = exchange.rowsOf(pair);
const firsts = firstSendings(exchange, exchanged, senderIn);
each('first sendings', number => repeatsOf(exchange, firsts, senderIn, number - 1).map(([tsn, row]) => `${tsn}: ${row + 1}`).join(' '), [
  [1, ''], [2, ''], [5, '0: 2'], [6, ''], [8, '1: 2'], [9, ''],
]);
const chunksIn = await exchange.objects(exchanged);
each('what is acknowledged', number =>
  acknowledgedBy(exchange, exchanged, senderIn, number - 1, chunksIn[number - 1].chunks).map(it => it + 1).join(' '), [
  [1, ''], [4, '1'], [7, '2 3 5 6'], [9, '2 3 6 8'], [10, ''], [11, '9'],
]);

// What is missing before a packet, and what became of it: TSN 1 comes later, 2 is skipped, and 5 never comes. After 2^32 - 1 comes 0.
const skipping = storeOf(...[
  [A, data(LAST)], [A, data(3)], [B, data(2)], [A, data(1)], [A, { chunk: 192, new_cumulative_tsn: 0, streams: [] }], [A, data(6), data(4)], [A, data(0)],
  [B, { chunk: 192, new_cumulative_tsn: 9, streams: [] }], [A, { chunk: 194, new_cumulative_tsn: 3, streams: [] }],
].map(([end, ...chunks], i) => packet(i + 1, end, chunks, { missing: { 1: 3, 5: 1 }[i] })));
const { rows: skippingRows, senderOf: senderOfSkipping } = skipping.rowsOf(skipping.associations[0]);
const skippingFirsts = firstSendings(skipping, skippingRows, senderOfSkipping);
const missingAt = (number, count) => missingBefore(skipping, skippingFirsts, senderOfSkipping, number - 1, count);
each('what is missing', missingAt, [[2, 3, [2, 1, 0]], [2, 2, [2, 1]], [6, 1, [5]], [2, 0, []]]);
const broughtTo = [];
for (const [number, count] of [[2, 3], [6, 1]])
  broughtTo.push((await bringersOf(skipping, skippingRows, skippingFirsts, senderOfSkipping, number - 1, missingAt(number, count))).map(it => `${it.tsn}: ${it.by === undefined ? 'never' : it.by + 1}${it.isSkipped ? ' skipped' : ''}`).join(', '));
each('what became of it', i => broughtTo[i], [[0, '2: 9 skipped, 1: 4, 0: 7'], [1, '5: never']]);

// ---- what arrows say

each('a label', chunkLabel, [
  [data(1000, { ...whole, stream: 1 }), 'DATA 1000 stream 1 “hello”'],
  [data(5, opened), 'DATA 5 stream 0 DATA_CHANNEL_OPEN “chat” reliable ordered'],
  [data(5, { beginning: true, end: false, payload_size: 1200, ppid: 53, ppid_name: 'WebRTC Binary' }), 'DATA 5 stream 0 WebRTC Binary 1,200 bytes first fragment'],
  [data(0, { ppid: 0 }), 'DATA 0 stream 0 ppid 0'],
  [acked({ cumulative_tsn_ack: 1005, a_rwnd: 5, blocks: [{ first_tsn: 1007, last_tsn: 1009 }], duplicates: [{ tsn: 7 }] }), 'SACK 1005, gap blocks 1007–1009, duplicate 7'],
  [{ chunk: 192, name: 'FORWARD-TSN', new_cumulative_tsn: 9, streams: [{ stream: 1, ssn: 2 }] }, 'FORWARD-TSN new TSN 9, skips in stream 1'],
  [reset({ parameter: 13, name: 'x', streams: [{ stream: 1 }, { stream: 2 }] }), 'RE-CONFIG resets stream 1, 2'],
  [{ chunk: 6, name: 'ABORT', causes: [{ cause: 12, name: 'User-Initiated Abort', text: 'enough' }] }, 'ABORT User-Initiated Abort “enough”'],
  [{ chunk: 7, name: 'SHUTDOWN', cumulative_tsn_ack: 9 }, 'SHUTDOWN 9'],
  [{ chunk: 99 }, 'chunk 99'],
]);
each('labels of chunks', count => chunksLabel(Array(count).fill({ chunk: 11, name: 'COOKIE ACK' }), 2), [
  [1, 'COOKIE ACK'], [2, 'COOKIE ACK | COOKIE ACK'], [1002, 'COOKIE ACK | COOKIE ACK | 1,000 more'],
]);
each('a label that fits', fitted, [
  ['DATA 1', '', 10, ['DATA 1', '']], ['DATA 1', '', 5, ['DATA…', '']], ['', 'refused', 10, ['', 'refused']],
  ['DATA 1 stream 1', 'sent again', 30, ['DATA 1 stream 1', ', sent again']],
  ['DATA 1 stream 1', 'sent again', 20, ['DATA 1…', ', sent again']],
  ['DATA 1', 'refused COOKIE ACK: length 3', 20, ['DATA…', ', refused COOK…']],
  ['漢字漢字', '', 8, ['漢字漢字', '']], ['漢字漢字', '', 7, ['漢字漢…', '']],
]);
const asked = (text, store = capture) => {
  const isWanted = wantedRow(store, text);
  return isWanted && rowsOf(store).filter(it => store.isPacket(it)).find(isWanted);
};
// (1700000000 is 22:13:20)
each('where to go', text => asked(text), [
  ['5', 5], ['#5', 5], ['99', undefined], ['0.25', 2], ['+0.25', 2], ['0.3 s', 3], ['2s', 4], ['2.25', 7], ['3 s', undefined],
  ['22:13:22', 4], ['22:13:22.15', 6], ['23:00', undefined], ['x', undefined], ['', undefined], ['1-2', undefined],
]);

// ---- associations that the program didn't print

const flow = (source, destination, tag, others) =>
  ({ source, destination, tag, from: `10.0.0.${source}`, to: `10.0.0.${destination}`, ...others });
each('pairs of ends', (...flows) => pairsOf(flows).map(it => it?.join('.') ?? '-').join(' '), [
  [flow(1, 2, 20), flow(2, 1, 10), {}, flow(1, 3, 20), flow(1, 2, 21), '1.0 1.1 - 2.0 1.0'],
  [...['outgoing', 'incoming'].map(it => ({ source: 5, destination: 5, direction: it })), '1.0 1.1'],
  [...['T', 'U', 'T'].map(it => ({ source: 5, destination: 6, transport: it })), '1.0 2.0 1.0'],
  [...['a', 'b'].map(it => ({ source: 5, destination: 6, from: it })), '1.0 2.0'],
]);
each('an association of a flow', associationOf, [
  [7, flow(1, 2, 20), 0, { association: 7, ends: [{ addresses: ['10.0.0.1'], port: 1 }, { addresses: ['10.0.0.2'], port: 2 }] }],
  [7, flow(1, 2, 20), 1, { association: 7, ends: [{ addresses: ['10.0.0.2'], port: 2 }, { addresses: ['10.0.0.1'], port: 1 }] }],
  [7, { source: 1, destination: 2, transport: 'T' }, 0,
    { association: 7, ends: [{ addresses: [], port: 1 }, { addresses: [], port: 2 }], transport: 'T' }],
]);
const of = (association, end) => ({ association, end }), twoEnds = [{ port: 1 }, { port: 2 }];
/** Whose packets they are: rows by their associations, those with an addition in the order in which they are listed. */
each('whose packets they are', (...objects) => {
  const store = storeOf(...objects);
  const packets = store.associations.map(it => {
    const { rows, senderOf } = store.rowsOf(it);
    return `${it.association}: ${rows.map(row => store.columns.number[row] + 'AB'[senderOf(row)]).join(' ')}`;
  });
  return packets.join(', ');
}, [
  // As the program says, of associations that left the table, and so are printed between packets, too.
  [packet(1, A, [], of(1, 0)), packet(2, B, [], of(1, 1)), packet(3, A, [], of(2, 0)), { association: 1, ends: twoEnds, left_table: true },
    packet(4, A, [], of(1, 0)), packet(5, A, []), packet(6, B, [], of(3, 1)), { association: 3, ends: twoEnds }, { association: 2, ends: twoEnds },
    '1: 1A 2B 4A, 2: 3A, 3: 6B'],
  // It was stopped before it printed them, or some of them.
  [packet(1, A, [], of(1, 0)), packet(2, B, [], of(1, 1)), packet(3, B, [], of(2, 1)), '1: 1A 2B, 2: 3B'],
  [packet(1, A, [], of(1, 0)), packet(2, B, [], of(2, 1)), { association: 2, ends: twoEnds }, '1: 1A, 2: 2B'],
  // These keys are missing.
  [packet(1, A, []), packet(2, B, []), packet(3, { source: 1, destination: 2 }, []), { skipped: 'x' }, packet(4, {}, []), '1: 1A 2B, 2: 3A'],
  [packet(1, A, []), { association: 5, ends: twoEnds }, '5: '],
  // What the program didn't print.
  ...[of(1), of(1, 2), of(-1, 0), of(0.5, 0), of(2 ** 32, 0), of('1', 0)].map(it => [packet(1, A, [], of(1, 0)), packet(2, A, [], it), '1: 1A']),
  [packet(1, A, []), packet(2, A, [], of(1, 0)), { association: 0, ends: twoEnds }, '1: 2A'],
]);
each('ends of an association that was not printed', () => storeOf(packet(1, B, [], of(4, 1))).associations, [
  [[{ association: 4, ends: [{ addresses: ['10.0.0.1'], port: 40000 }, { addresses: ['2001:db8::2'], port: 9900 }] }]],
]);

// ---- the table of associations, each of whose numbers is another one

const KEYS = ['port', 'tag', 'refused', 'zero_checksums', 'wrong_checksums', 'inits', 'i_data', 'first_tsn', 'last_tsn',
  'repeated', 'first_repeated', 'missing', 'forward_tsns', 'skipped', 'sacks', 'sacks_with_gaps', 'least_a_rwnd', 'heartbeats'];
const numbered = first => ({
  ...Object.fromEntries(KEYS.map((key, i) => [key, first + i])), packets: 1000 * first, data: 2000 * first, bytes: 1e6 * first,
  round_trip: { count: first + 50, least: first / 1e6, median: first / 8000, greatest: first },
});
const tableOf = (view, list) => Object.assign(Object.create(view.prototype), { list });
function tableRow(association) {
  const row = tableOf(Associations, [association]).draw(0);
  return Object.fromEntries(row.parts.map(it => [it.dataset.title, it.parts.map(line => line.textContent)]));
}
const association = {
  association: 7,
  ends: [{ addresses: ['10.0.0.1', '10.0.0.2'], ...numbered(100) }, { addresses: ['2001:db8::1'], ...numbered(300) }],
  began: { packet: 3, chunk: 'INIT' }, established: { packet: 4 }, ended: { packet: 99, chunk: 'ABORT', by: 1 },
};
const NONE = Object.fromEntries(['Packets', 'DATA', 'Bytes', 'Sent again', 'Missing', 'Refused', 'Gap SACKs'].map(it => [it, '– / –']));
NONE.Silence = '–';
const joined = row => Object.fromEntries(Object.entries(row).map(([head, lines]) => [head, lines.join(' / ')]));
/** The lines of a column, with where they lead and what is said where nothing is. */
const linesIn = (table, title, it) => table.columns.find(its => its[0] === title)[2](it).map(([text, whole, at]) => [text, at ? at.packet : whole]);
each('where the table leads', (title, its) => linesIn(Associations.prototype, title, { ...association, ...its }), [
  ['Began', {}, [['3 INIT', 3]]], ['Ended', {}, [['99 ABORT', 99]]], ['Ended', { ended: undefined }, [['–', 'No end was captured.']]],
  ['Began', { midway: true }, [['midway', 3]]], ['Silence', {}, [['–', 'No two packets have a time.']]],
]);
// Between packets of one association: the other one's don't break a silence, nor do packets without a time.
const timed = (number, association, time) => ({ ...packet(number, A, [], { association, end: 0 }), time });
const silent = storeOf(timed(1, 1, '1.0'), timed(2, 2, '1.1'), timed(3, 1, '1.5'), timed(4, 2, '4.5'), timed(5, 1, '5.7'), timed(6, 1, undefined), timed(7, 1, '5.9'), timed(8, 3, '6.0'));
each('the longest silence', number => linesIn(Object.assign(tableOf(Associations, []), { silences: silent.silences() }), 'Silence', { association: number }), [
  [1, [['4.2 s', 5]]], [2, [['3.4 s', 4]]], [3, [['–', 'No two packets have a time.']]],
]);
each('the order by silences', () => {
  const table = Object.assign(tableOf(Associations, []), { silences: silent.silences() });
  return sorted(table.columns, [2, 3, 1].map(association => ({ association, ends: [] })), 'Silence', true).map(it => it.association).join(' ');
}, [['1 2 3']]);
each('the table', it => joined(tableRow(it)), [
  [association, {
    'No.': '7', 'Ends': '10.0.0.1:100 10.0.0.2:100 / [2001:db8::1]:300', 'Packets': '100,000 / 300,000',
    'DATA': '200,000 / 600,000', 'Bytes': '100.0 MB / 300.0 MB', 'Sent again': '109 / 309', 'Missing': '111 / 311',
    'Refused': '102 / 302', 'Gap SACKs': '115 / 315', 'Median trip': '12.5 ms / 37.5 ms', 'Silence': '–', 'Began': '3 INIT', 'Ended': '99 ABORT',
  }],
  [{ association: 8, ends: [{ port: 1 }, { port: 2, round_trip: { median: 0.0204 } }], midway: true, began: { packet: 1 } },
    { ...NONE, 'No.': '8', 'Ends': '1 / 2', 'Median trip': '– / 20.4 ms', 'Began': 'midway', 'Ended': '–' }],
  [{ association: 9, ends: [{ port: 1 }, { port: 2 }], began: { packet: 1, file: 'a.pcap', chunk: 'INIT' }, ended: { packet: 2, file: 'b.pcap', chunk: 'ABORT' } },
    { ...NONE, 'No.': '9', 'Ends': '1 / 2', 'Median trip': '– / –', 'Began': '1 INIT / of a.pcap', 'Ended': '2 ABORT / of b.pcap' }],
]);

each('bytes', sized, [
  [0, '0 B'], [999, '999 B'], [1000, '1.0 kB'], [18_372_000, '18.4 MB'], [999_949, '999.9 kB'], [999_950, '1.0 MB'], [5e12, '5.0 TB'],
]);
const three = [[1, 9, 300], [2, 1000, 10], [3]].map(([association, ...packets]) =>
  ({ association, ends: [{ port: 30 - association, packets: packets[0] }, { port: 2, packets: packets[1] }], ended: packets[0] && { packet: 11 - association } }));
each('the order of associations', (...by) => sorted(Associations.prototype.columns, three, ...by).map(it => it.association).join(' '), [
  ['No.', false, '1 2 3'], ['No.', true, '3 2 1'], ['Packets', true, '2 1 3'], ['Packets', false, '1 2 3'], ['Ends', false, '3 2 1'],
  ['Ended', false, '2 1 3'], ['DATA', true, '1 2 3'],
]);
// ---- data channels: RFC 8832 section 5 and RFC 6525 section 4

const fate = others => ({ message_of: 1, end: 0, stream: 1, ssn: 0, unordered: false, ppid: 51, ppid_name: 'WebRTC String', size: 5, fragments: 1,
  first_tsn: 2, last_tsn: 2, sent_packet: 1, ...others });
const isAcked = { acknowledged_packet: 2, delay: 0.0015 };
const dcepOpen = (stream, others) => data(1, { stream, ppid: 50, message: 3, label: 'chat', protocol: 'p', channel_type_name: 'reliable ordered', reliability: 0, priority: 256, ...others });
const message = (stream, others) => data(2, { stream, ppid: 51, ppid_name: 'WebRTC String', payload_size: 5, beginning: true, end: true, ...others });
const dcepAck = data(3, { stream: 1, ppid: 50, message: 2, end: true, payload_size: 1 });
const resets = (request, ...streams) => reset({ parameter: 13, request, streams: streams.map(stream => ({ stream })) });
const answers = (response, result, result_name) => reset({ parameter: 16, response, result, result_name });
/** Packets of an association's ends, which are numbered: each an end, chunks and what else it has. */
const ofEnds = packets => packets.map(([end, chunks, others], i) => packet(i + 1, end ? B : A, chunks, { association: 1, end, ...others }));
/** A row of the table of channels, its lines by their heads. */
function channelRow(store) {
  const table = tableOf(Channels, []);
  table.arrange = list => Object.assign(table, { list });
  table.show(store);
  return Object.fromEntries(table.draw(0).parts.map(it => [it.dataset.title, it.parts.map(line => line.textContent).join(' / ')]));
}
const ofLog = direction => ({ direction, from: undefined, to: undefined, source: 5000, destination: 5000 });
const traffic = others => ({ messages: 0, bytes: 0, repeated: 0, abandoned: 0, unacknowledged: 0, ...others });
/** A channel as the program prints it: that is opened by DCEP, or a stream's messages. */
const dcep = (others, ...ends) => ({ channel_of: 1, stream: 1, label: 'chat', protocol: 'p', channel_type: 0, channel_type_name: 'reliable ordered', reliability: 0, priority: 256,
  opened_by: 0, opened: 1.5, opened_packet: 1, ...others, ends: [traffic(ends[0]), traffic(ends[1])] });
const ofStream = (others, ...ends) => ({ channel_of: 1, stream: 1, ...others, ends: [traffic(ends[0]), traffic(ends[1])] });
each('a channel', it => isChannel({ ...dcep(), ...it }), [
  [{}, true], [{ others: true, stream: undefined }, true], [{ stream: undefined }, false], [{ channel_of: null }, false], [{ ends: [traffic()] }, false], [{ ends: [traffic(), {}] }, false],
  [{ label: 5 }, false], [{ label: undefined, label_bytes: 'ff' }, true], [{ resets: [{ end: 0, packet: 5 }] }, true], [{ resets: {} }, false], [{ resets: [{ end: 2, packet: 5 }] }, false],
  [{ resets: [null] }, false], [{ ends: [traffic(), traffic({ delay: 5 })] }, false], [{ opened_by: [] }, false],
]);
const inOne = [packet(1, A, [message(1)], { association: 1, end: 0 })], NO_TRAFFIC = '0 / 0';
const ROW_OF_CHANNEL = {
  'Association': '1', 'Stream': '1', 'Label': 'chat / p', 'Payload': '–', 'Reliability': 'reliable ordered', 'Ends': '10.0.0.1:40000 / [2001:db8::2]:9900', 'Opened': 'OPEN 1 / –',
  'Messages': NO_TRAFFIC, 'Bytes': '0 B / 0 B', 'Sent again': NO_TRAFFIC, 'Abandoned': NO_TRAFFIC, 'Longest': '–', 'Closed': '–',
};
each('the table of channels', (...objects) => channelRow(storeOf(...inOne, ...objects)), [
  [dcep(), ROW_OF_CHANNEL],
  [dcep({ acknowledged_packet: 2, resets: [{ end: 0, packet: 4, result: 1, result_name: 'Success - Performed', response_packet: 5 }, { end: 1, packet: 6 }] },
    { messages: 1234, bytes: 2000, delay: { greatest: 1.25, greatest_packet: 9 } }, { repeated: 2, abandoned: 3, delay: {} }), {
    ...ROW_OF_CHANNEL, 'Opened': 'OPEN 1 / ACK 2', 'Messages': '1,234 / 0', 'Bytes': '2.0 kB / 0 B', 'Sent again': '0 / 2', 'Abandoned': '0 / 3', 'Longest': '1.25 s / –',
    'Closed': 'first end: reset 4, 5: Performed / second end: reset 6, no response' }],
  [dcep({ opened_by: 1, opened_by_both: true, label: undefined, label_bytes: 'ff', label_cut: true, protocol: '<b>\u202e\0', channel_type: 9, channel_type_name: undefined,
    resets: [{ end: 1, packet: 4, result: 77, response_packet: 5 }] }), {
    ...ROW_OF_CHANNEL, 'Label': '0xff … / <b>\\u202e\\u0000', 'Reliability': 'type 9', 'Opened': 'OPEN, too / OPEN 1', 'Closed': 'second end: reset 4, 5: result 77' }],
  // The payload protocols are those of its messages, or the stream's own.
  [fate(isAcked), fate({ ...isAcked, ppid: 50, ppid_name: 'WebRTC DCEP' }), fate({ ppid: 9, ppid_name: undefined }), fate({ stream: 2, ppid: 8, ppid_name: undefined }), dcep(),
    { ...ROW_OF_CHANNEL, 'Payload': 'WebRTC String / ppid 9' }],
  [ofStream({ ppid: 18, ppid_name: 'S1AP' }), { ...ROW_OF_CHANNEL, 'Label': '–', 'Payload': 'S1AP', 'Reliability': '–', 'Opened': '–' }],
  [ofStream({ ppid: 99 }), { ...ROW_OF_CHANNEL, 'Label': '–', 'Payload': 'ppid 99', 'Reliability': '–', 'Opened': '–' }],
]);
each('which end of a log is the local one', direction => channelRow(storeOf(packet(1, A, [], { association: 1, end: 0, ...ofLog(direction) }), dcep())).Ends, [
  ['outgoing', 'local 5000 / remote 5000'], ['incoming', 'remote 5000 / local 5000'],
]);
// What found no room is counted; a channel has its number.
each('other channels', (...objects) => (it => [it.channels.map(its => its.channel).join(' '), it.unlisted])(storeOf(...objects)), [
  [dcep(), dcep({ stream: 3 }), ofStream({ others: true, stream: undefined }, { messages: 5 }, { messages: 2 }), ['1 2', 7]],
]);
// RFC 8832 section 5.1: the parameter of a partially reliable channel is a number of retransmissions, or of milliseconds.
each('how a channel resends', (type, reliability) => channelRow(storeOf(dcep({ channel_type_name: type, reliability }))).Reliability, [
  ['reliable unordered', 5, 'reliable unordered'],
  ['partial reliable rexmit ordered', 3, 'partial reliable rexmit ordered / at most 3 retransmissions'],
  ['partial reliable timed unordered', 500, 'partial reliable timed unordered / at most 500 ms'],
]);
each('a channel’s filter', it => rowsOf(capture).filter(filterOf(channelFilter(it)).test(capture)).map(row => capture.columns.number[row]).join(' '), [
  [{ channel_of: 1, stream: 2 }, '4'], [{ channel_of: 1, stream: 0 }, '6 7'],
]);
// What resets its stream or skips in it is found, too (RFC 6525 section 4.1, RFC 3758 section 3.2); a response names no stream.
const onStreams = [[data(1, { stream: 1 })], [resets(7, 1, 2)], [answers(7, 1)], [{ chunk: 192, new_cumulative_tsn: 9, streams: [{ stream: 2, ssn: 1 }] }], [resets(8, 1)]];
const onStream = storeOf(...ofEnds(onStreams.map(chunks => [0, chunks])));
each('packets of a stream', stream => rowsOf(onStream).filter(filterOf(`stream:${stream}`).test(onStream)).map(row => row + 1).join(' '), [
  [1, '1 2 5'], [2, '2 4'], [3, ''],
]);
each('a channel’s fields', () => nodesOf(storeOf(dcep()).channels[0]).map(it => it.label).join(' ').slice(0, 53), [
  ['channel channel_of stream label protocol channel_type'],
]);

// ---- messages, by the keys of docs/DUMP.md

each('a message', it => isMessage({ ...fate(), ...it }), [
  [{}, true], [{ ...isAcked, waited_for_tsn: 0 }, true], [{ end: 2 }, false], [{ message_of: 'x' }, false], [{ first_tsn: undefined }, false],
  [{ size: 1.5 }, false], [{ ppid_name: 5 }, false], [{ changed_tsn: {} }, false], [{ closed_first: null }, false], [{ abandoned_by: ['x'] }, false],
]);
/** A row of the table of messages, its lines by their heads, and what is said above it. */
function messageRow(store, at = 0) {
  const table = Object.assign(tableOf(Messages, []), { store });
  table.arrange = list => Object.assign(table, { list });
  table.show(store);
  return Object.fromEntries(table.draw(at).parts.map(it => [it.dataset.title, it.parts.map(line => line.textContent).join(' / ')]));
}
const sentRows = [packet(1, A, [data(2, { stream: 1, ssn: 0 })], { association: 1, end: 0, time: '1700000000.5' }),
  packet(2, B, [{ chunk: 3, cumulative_tsn_ack: 2 }], { association: 1, end: 1, time: '1700000000.501500' })];
const ROW_OF_MESSAGE = {
  'No.': '1', 'Association': '1', 'From': 'first end / 10.0.0.1:40000', 'Stream': '1 / ssn 0', 'Payload': 'WebRTC String', 'Size': '5 B', 'TSN': '2 / 1 fragment',
  'Sent': 'in 1 / 0.0 s', 'Fate': 'acknowledged / in 2', 'Delay': '1.5 ms', 'Remarks': '',
};
each('the table of messages', it => messageRow(storeOf(...sentRows, fate(it))), [
  [isAcked, ROW_OF_MESSAGE],
  [{ abandoned_by: 'FORWARD-TSN', abandoned_packet: 2 }, { ...ROW_OF_MESSAGE, 'Fate': 'abandoned / in 2', 'Delay': '–' }],
  [{ ssn: undefined, mid: 7, unordered: true, ppid: 99, ppid_name: undefined, size: 2000, fragments: 3, first_tsn: LAST, last_tsn: 1, end: 1, sent_packet: 9,
    missing: 2, first_missing_fsn: 1 }, {
    ...ROW_OF_MESSAGE, 'From': 'second end / [2001:db8::2]:9900', 'Stream': '1 / mid 7, unordered', 'Payload': 'ppid 99', 'Size': '2.0 kB', 'TSN': '4294967295–1 / 3 fragments',
    'Sent': 'in 9', 'Fate': 'not acknowledged', 'Delay': '–', 'Remarks': 'FSN 1 and 1 more never seen' }],
  [{ ...isAcked, repeated: 3, first_repeated_tsn: 2, repeated_after: 1.422, changed_tsn: 2, contradictory: true, no_beginning: true, no_end: true, waited_for_tsn: 1,
    closed_first: 1, closed_last: 2 }, {
    ...ROW_OF_MESSAGE, 'Remarks': 'TSN 2 sent again after 1.42 s, 3 repeats in all; TSN 2 sent again with other bytes; fragments contradict one another; ' +
      'beginning not seen; end not seen / waited for TSN 1 of its stream; peer’s window was 0 from 1 to 2' }],
  [{ ...isAcked, waited_for_tsn: 1, waited_for_ssn: 0 }, { ...ROW_OF_MESSAGE, 'Remarks': 'waited for SSN 0, TSN 1 not seen yet' }],
  [{ ...isAcked, waited_for_tsn: 1, waited_for_mid: 7 }, { ...ROW_OF_MESSAGE, 'Remarks': 'waited for MID 7, TSN 1 not seen yet' }],
  [{ ...isAcked, repeated: 1, first_repeated_tsn: 2, missing: 1, first_missing_tsn: 3, closed_first: 1, closed_last: 1 }, {
    ...ROW_OF_MESSAGE, 'Remarks': 'TSN 2 sent again; TSN 3 never seen / peer’s window was 0 in 1' }],
  // What the program didn't print is text, whatever it is.
  [{ ...isAcked, ppid_name: '<b>\u202e\0', delay: {}, repeated_after: 'x', repeated: 1, first_repeated_tsn: 2 },
    { ...ROW_OF_MESSAGE, 'Payload': '<b>\\u202e\\u0000', 'Delay': '–', 'Remarks': 'TSN 2 sent again' }],
]);
each('a time of a message', line => parsed(line).sent, [['{"message_of":1,"sent":1700000000.123456789}', '1700000000.123456789']]);
// At most 10,000 of those of which there is no more to say, and 10,000 of the others; all are counted.
const ofMany = storeOf(...Array.from({ length: 10001 }, () => fate(isAcked)), ...Array.from({ length: 10002 }, (_, i) => fate({ abandoned_packet: i })),
  fate({ ...isAcked, repeated: 1 }), { data_not_followed: 12 });
each('too many messages', () => [ofMany.messages.length, ofMany.messages.at(-1).message, countsText(ofMany.fates, ofMany.unfollowed)], [[[20000, 20001,
  '20,004 messages: 10,002 acknowledged, 10,002 abandoned, 1 sent again. 20,000 of them are listed: the first of those that were acknowledged without more to say, ' +
  'and the first of the others. 12 DATA found no room, and are of none.']]]);
each('messages, counted', (...fates) => countsText(storeOf(...fates.map(fate)).fates), [
  [isAcked, '1 message: 1 acknowledged.'], [isAcked, {}, '2 messages: 1 acknowledged, 1 not acknowledged.'],
]);
each('a fragment', (chunk, it) => isOf({ ...data(2, { stream: 1, ssn: 0, unordered: false }), ...chunk }, fate(it)), [
  [{}, {}, true], [{ tsn: 3 }, {}, false], [{ tsn: 3 }, { last_tsn: 3 }, true], [{ tsn: 1 }, { last_tsn: 3 }, false], [{ stream: 2 }, {}, false], [{ ssn: 1 }, {}, false],
  [{ unordered: true }, {}, false], [{ tsn: 0 }, { first_tsn: LAST, last_tsn: 1 }, true], [{ chunk: 64, ssn: undefined, mid: 4 }, { ssn: undefined, mid: 4 }, true],
  [{ chunk: 64, ssn: undefined, mid: 4 }, { ssn: undefined, mid: 5 }, false],
]);
// A message's packets are those of its fragments, with repeats, and the one that acknowledged or abandoned it.
const spread = storeOf(...ofEnds([[0, [data(LAST, { stream: 1, ssn: 0 })]], [0, [data(0, { stream: 1, ssn: 0 }), data(1, { stream: 1, ssn: 1 })]], [1, [data(0, { stream: 1, ssn: 0 })]],
  [0, [data(0, { stream: 1, ssn: 1 })]], [1, [{ chunk: 3, cumulative_tsn_ack: 0 }]], [0, [data(LAST, { stream: 1, ssn: 0 })], { repeated: 1 }]]));
const over0 = fate({ first_tsn: LAST, last_tsn: 0, acknowledged_packet: 5 });
const [rowsOfIt, rowsOfOne] = [await packetsOf(spread, over0), await packetsOf(spread, fate({ first_tsn: 1, last_tsn: 1, ssn: 1, abandoned_packet: 6 }))];
each('packets of a message', rows => rows.map(row => row + 1).join(' '), [[rowsOfIt, '1 2 5 6'], [rowsOfOne, '2 6']]);
const many100 = storeOf(...ofEnds(Array.from({ length: 100 }, () => [0, []])));
each('a message’s filter', (store, it, rows) => messageFilter(store, it, rows), [
  [spread, over0, rowsOfIt, 'association:1 packet:1-2,5-6'], [spread, over0, rowsOfOne, 'association:1 packet:2,6'],
  [many100, over0, Array.from({ length: 50 }, (_, i) => 2 * i), 'association:1 stream:1 tsn:4294967295-,0-0'],
  [many100, fate({ last_tsn: 9 }), Array.from({ length: 50 }, (_, i) => 2 * i), 'association:1 stream:1 tsn:2-9'],
]);
each('what it passes', text => rowsOf(spread).filter(filterOf(text).test(spread)).map(row => row + 1).join(' '), [['association:1 packet:1-2,5-6', '1 2 5 6']]);
// A packet is found by its number, also where lines were skipped, and in each of several files.
const withSkipped = storeOf({ file: 'a' }, packet(1, A, []), { line: 7, skipped: 'x' }, packet(2, A, []), { file: 'b' }, packet(1, A, []), { record: 2, skipped: 'x' },
  packet(3, A, []));
each('the row of a packet', (number, name) => withSkipped.rowOf(number, name), [[1, 'a', 1], [2, 'a', 3], [1, 'b', 5], [3, 'b', 7], [2, 'b', -1], [9, 'a', -1]]);

// ---- the graph of TSNs

/** All marks of the graph of a store's packets: kind, end, milliseconds, TSNs from the base, and the packet. */
async function marksOf(store) {
  const { rows, senderOf } = store.rowsOf({ association: 1 }), bases = basesOf(store, rows, senderOf), { wanted: read } = rowsToRead(store, rows), objects = await store.objects(read);
  const first = firstSendings(store, rows, senderOf), marks = [];
  const put = (kind, end, x, y, row, last) => marks.push(`${kind} ${end} ${x / 1e6} ${y}${last === undefined ? '' : `-${last}`} ${row + 1}`);
  trackOver({ store, rows, senderOf, repeats: row => repeatsOf(store, first, senderOf, row) }, bases, new Map(read.map((row, i) => [row, objects[i]])), put);
  return [bases.join(' '), ...marks];
}
const block = (first_tsn, last_tsn) => ({ first_tsn, last_tsn });
const graphed = await marksOf(storeOf(...ofEnds([
  [0, [data(LAST), data(0)], { time: '1.0' }], [0, [data(2)], { time: '1.5' }], [1, [{ chunk: 3, cumulative_tsn_ack: 0, blocks: [block(2, 2)] }, data(70)], { time: '1.75' }],
  [0, [data(1), data(0)], { time: '2.0', repeated: 1 }], [1, [{ chunk: 3, cumulative_tsn_ack: 2 }], { time: '2.5' }], [0, [{ chunk: 16, cumulative_tsn_ack: 70, nr_blocks: [block(72, 73)] }], { time: '3.0' }],
  [1, [{ chunk: 7, cumulative_tsn_ack: 2 }], { time: '3.25' }],
])));
each('the graph', () => graphed, [[['4294967295 70', 'sent 0 0 0 1', 'sent 0 0 1 1', 'sent 0 500 3 2', 'sent 1 750 0 3', 'acked 0 750 1 3', 'gaps 0 750 3-3 3', 'sent 0 1000 2 4',
  'again 0 1000 1 4', 'acked 0 1500 3 5', 'acked 1 2000 0 6', 'gaps 1 2000 2-3 6', 'acked 0 2250 3 7']]]);
// Without times packets are counted; without DATA the first TSN that is acknowledged is the base.
const untimed = await marksOf(storeOf(...ofEnds([[1, [{ chunk: 3, cumulative_tsn_ack: 9 }]], [1, [{ chunk: 3, cumulative_tsn_ack: 12 }]]])));
each('a graph without times and DATA', () => untimed, [[['9 ', 'acked 0 0 0 1', 'acked 0 0.000001 3 2']]]);
const withGaps = storeOf(...Array.from({ length: 5000 }, (_, i) => packet(i + 1, B, [{ chunk: 3, cumulative_tsn_ack: 1, blocks: [block(3, 3)] }], { association: 1, end: 1 })));
each('too many gaps', () => (({ wanted, step }) => [wanted.length, step])(rowsToRead(withGaps, rowsOf(withGaps))), [[[1667, 3]]]);
const drawnTrack = { sent: 1500, again: 2, acked: 3, gaps: 1, least: 0, most: 1499, last: 1498 };
each('what a panel says', (...by) => trackText(...by), [
  [0, LAST, drawnTrack, 'First end: 1,500 TSNs sent, 4294967295 to 1498, 2 sent again, acknowledged to 1497, 1 gap block'],
  [0, 0, { ...drawnTrack, gaps: 9 }, 21, 'First end: 1,500 TSNs sent, 0 to 1499, 2 sent again, acknowledged to 1498, 9 gap blocks of 1 in 21 packets with some'],
  [1, 5, { ...drawnTrack, again: 0, acked: 0, gaps: 0 }, 'Second end: 1,500 TSNs sent, 5 to 1504, not acknowledged'],
  [1, 5, { ...drawnTrack, sent: 0, again: 0, gaps: 0, last: 0 }, 'Second end: no DATA, acknowledged to 5'],
]);

// ---- what happened, in a line

const storyText = store => storyOf(store).map(clause => clause.map(([text]) => text).join(', ')).join('; ');
const leads = store => storyOf(store).flat().map(([, to]) => to.filter ?? to.view ?? to.packet).join(' ');
const wholeEnds = [{ port: 1, packets: 5, data: 9, repeated: 1, missing: 0 }, { port: 2, packets: 5, data: 3, repeated: 0, missing: 2 }];
const told = (number, others) => ({ association: number, ends: wholeEnds, began: { packet: 1, chunk: 'INIT' }, ...others });
const dataRows = [packet(1, A, [data(5)], { association: 1, end: 0 }), packet(2, A, [data(5)], { association: 1, end: 0, repeated: 1 })];
const bad = packet(9, A, [], { fault: { kind: 'length', offset: 12, reason: 'COOKIE ACK: length 3, but 4 are needed' } });
const up = { established: { packet: 4, chunk: 'COOKIE ACK', after: 0.0424 } }, shut = { ended: { packet: 29, chunk: 'SHUTDOWN COMPLETE', by: 0 } };
each('a story', (...objects) => [storyText(storeOf(...objects)), leads(storeOf(...objects))], [
  [...dataRows, bad, told(1, { ...up, ...shut }), [
    '1 association; up after 42 ms, shut down; 12 DATA, 1 sent again, 2 never seen; 1 packet refused: COOKIE ACK: length 3, but 4 are needed',
    'associations 4 29 chunk:data,i-data repeated jump refused']],
  [bad, bad, told(1), told(2, up), told(3, { ended: { packet: 5, chunk: 'ABORT' } }), [
    '3 associations; the first never up; 1 more never up, 1 more aborted; 6 never seen; 2 packets refused, the first: COOKIE ACK: length 3, but 4 are needed',
    'associations 1 associations associations jump refused']],
  [packet(1, A, []), told(1, { midway: true, ended: { packet: 5, chunk: 'ABORT', cause_name: 'User-Initiated Abort' } }), [
    '1 association; seen from its midst on, aborted: User-Initiated Abort; 2 never seen', 'associations 1 5 jump']],
  // It was stopped.
  [...dataRows, ['1 association; 2 packets with DATA, 1 sent again', 'associations chunk:data,i-data repeated']],
  [{ line: 1, skipped: 'x' }, ['', '']],
]);
// More than half of the TSNs of one association: of 100 DATA, 34 that repeat 66; but not few, or of all associations together.
const sentTwice = (number, data, repeated) => ({ association: number, ends: [{ packets: 1, data, repeated }, { packets: 1, data: 0, repeated: 0 }] });
each('the same packets twice', (...associations) => storyText(storeOf(...dataRows, ...associations)).match(/most of.*/)?.[0], [
  [sentTwice(1, 100, 33), undefined], [sentTwice(1, 10, 5), undefined], [sentTwice(1, 1000, 0), sentTwice(2, 100, 34), 'most of association 2: are these the same packets twice?'],
]);
each('a span', after => storyText(storeOf(packet(1, A, []), told(1, { established: { packet: 4, after }, ends: [{}, {}] }))).split('; ')[1], [
  [0.00084, 'up after 0.8 ms'], [0.0424, 'up after 42 ms'], [1.055, 'up after 1,055 ms'], [12.34, 'up after 12.3 s'], [undefined, 'up'],
]);

// ---- what is taken from the page

each('hexadecimal', hexadecimal, [[[], ''], [[0, 15, 255], '000fff']]);
each('an array in C', cArray, [
  [Uint8Array.from([0, 255]), 'static const unsigned char packet[2] = {\n  0x00, 0xff,\n};\n'],
  [new Uint8Array(13), `static const unsigned char packet[13] = {\n  ${Array(12).fill('0x00,').join(' ')}\n  0x00,\n};\n`],
]);
each('a link', linkOf, [
  ['https://a.example/sctp.html#hex=ff', Uint8Array.from([1, 171]), 'https://a.example/sctp.html#hex=01ab'],
  ['https://a.example/', Uint8Array.of(1), Uint8Array.of(2, 3), 'https://a.example/#hex=01,0203'],
  ['https://a.example/', new Uint8Array(3988), `https://a.example/#hex=${'00'.repeat(3988)}`],
  ['https://a.example/', new Uint8Array(3989), undefined], ['https://a.example/', new Uint8Array(), undefined],
  ['https://a.example/', undefined], ['https://a.example/', Uint8Array.of(1), new Uint8Array(), undefined],
  ['https://a.example/', ...Array(50).fill(Uint8Array.of(1)), `https://a.example/#hex=01${',01'.repeat(49)}`],
  ['https://a.example/', ...Array(51).fill(Uint8Array.of(1)), undefined],
]);
// The rows of packets in crates/test_rows/stdin: chunks behind a header of 12 bytes, by four bytes.
each('a row of a test', testRow, [
  [Uint8Array.from([...Array(12).fill(9), 10, 0, 0, 5, 127]), 'packet 0a000005 7f'],
  [Uint8Array.from([...Array(12).fill(9), 11, 0, 0, 4]), 'packet 0b000004'], [new Uint8Array(12), undefined],
]);
each('the packets in an address', packetsIn, [
  ['#hex=01,0203', '01\n0203'], ['#hex=01,', ''], ['#hex=,', ''], ['#hex=01,2', ''], ['#example', undefined],
  ['', undefined], ['#a', undefined], ['#hex=', ''], ['#hex=0', ''], ['#hex=01aB', '01aB'], ['#hex=0x', ''], ['#hex=<img>', ''],
  ['#hex=01\n1', ''], [`#hex=${'0'.repeat(131070)}`, '0'.repeat(131070)], [`#hex=${'0'.repeat(131072)}`, ''],
]);
// The pcap file format has a header of 24 bytes, whose last four are the link type, and one of 16 for each packet.
each('a pcap file', (...packets) => hexadecimal(new Uint8Array(pcapOf(packets))).slice(40), [
  [{ seconds: 1, nanos: 2, length: 9, bytes: Uint8Array.from([7, 8]) }, { seconds: -1, nanos: 5, length: 0, bytes: new Uint8Array(1) },
    'f8000000' + '01000000' + '02000000' + '02000000' + '09000000' + '0708' + '00000000' + '00000000' + '01000000' + '01000000' + '00'],
]);

// ---- words, and the line between a view and the details

each('what a count means', word => MEANINGS[word]?.length > 20, FOUND.map(([word]) => [word, true]));
each('what a column means', title => COLUMN_MEANINGS[title]?.length > 10, Object.keys(tableRow(association)).map(it => [it, true]));
each('the share of a view', shareAt, [
  [300, 100, 500, 50], [100, 100, 500, 15], [0, 100, 500, 15], [900, 100, 500, 85], [204, 100, 500, 26],
]);

// ---- what is wrong

each('notes', object => Fields.prototype.notesOf.call({}, object).map(it => it.textContent), [
  [packet(1, A, []), []],
  [{ fault: { kind: 'value', offset: 16, reason: 'SACK: x', section: 'RFC 9260 section 3.3.4', sentence: 'A sentence.' } },
    ['Refused: value at byte 16: SACK: x. A sentence. (RFC 9260 section 3.3.4)']],
  // (lines of another program's version)
  [{ captured: 26, length: 1036, fault: { kind: 'size', offset: 9, reason: 'x' } }, ['Cut off, and wrong: size at byte 9: x. ',
  'Only 26 of 1,036 bytes were captured.']],
  [{ verdict: 'wrong', expected: 0xabc }, ['The checksum is wrong: it has to be 0x00000abc. (RFC 9260 section 6.8)']],
  [{ warnings: [{ rule: 'r', section: 's', sentence: 't' }] }, ['r: t (s)']],
]);
each('what was passed over', skippedText, [
  [{ skipped: 99, not_sctp: 1234, fragment: 2, cut: 3, malformed: 4, too_long: 5, unknown: 6, link_type: 7 },
    '; passed over: 1,234 not SCTP, 2 fragments, 3 cut, 4 malformed, 5 too long, 6 not known, 7 link type'],
  [{ skipped: 3, not_sctp: 0, cut: 3 }, '; passed over: 3 cut'],
  [{ skipped: 0, not_sctp: 0 }, ''],
  [undefined, ''],
]);

// ---- what isn't SCTP

// RFC 6347 section 4.1: type, version, epoch and sequence number, length. RFC 8489 section 5: type, length, cookie, transaction.
const dtls = (type, version, length = 40) => bytes([1, type], [2, version], [4, 0, 0], [2, length], new Uint8Array(40));
const stun = cookie => bytes([2, 1, 8], [4, cookie, 1, 2, 3], new Uint8Array(8));
const captured = (...payloads) => pcap(payloads.map((it, i) => [i, udp('10.0.0.1', '10.0.0.2', 5000, 6000, it)]));
each('signs', it => signsOf(typeof it === 'string' ? bytes(it) : it).join(' '), [
  ['', 'empty'], ['138813880102030400000000 0b000004', ''], ['[1:2:ERROR] x', ''], ['[14413:14448:1127/055920.1:VERBOSE1:x', ''],
  [bytes([1, 0x1f, 0x8b, 8]), 'gzip'], [bytes([1, 0x28, 0xb5, 0x2f, 0xfd]), 'zstd'], ['BZh9', 'bzip2'], ['PK\x03\x04', 'zip'],
  [bytes([1, 0xfd], '7zXZ', [1, 0]), 'xz'], [bytes('7z', [1, 0xbc, 0xaf, 0x27, 0x1c]), '7z'], [bytes([1, 4, 0x22, 0x4d, 0x18]), 'lz4'],
  ['{"a": 1}', 'json'], [' {\n "a": 1}', 'json'], ['[{"a": 1}]', 'json'], ['{}', 'json'],
  ['{"getUserMedia": [], "PeerConnections": {}}', 'json internals'],
  [pcap([]), 'capture'], [captured(bytes('hello')), 'capture'],
  [captured(dtls(22, 0xfefd)), 'capture dtls'], [captured(dtls(23, 0xfeff)), 'capture dtls'], [captured(stun(0x2112a442)), 'capture stun'],
  [captured(dtls(22, 0xfefd), stun(0x2112a442)), 'capture dtls stun'],
  // Another type, version, length or cookie isn't one.
  [captured(dtls(19, 0xfefd), dtls(27, 0xfefd), dtls(22, 0x0303), dtls(22, 0xfefd, 41), stun(0x2112a443)), 'capture'],
]);
const NO_PACKET = 'sctp_dump: no SCTP packet was found (in UDP, --udp-port says the port)\n';
const saidOf = (errors, files = 0) => sentencesOf({ errors, kinds: [0, 0, 0, 0, files] });
each('sentences', saidOf, [
  ['', []], [NO_PACKET, []],
  ['sctp_dump: a.pcap: ends inside a record\n', ['The file ends inside a packet: what comes before it was read.']],
  ['sctp_dump: a.pcap: ends inside a record\n', 2, ['a.pcap: The file ends inside a packet: what comes before it was read.']],
  ["sctp_dump: -: link type 147 isn't read (--help names those that are)\n",
    ['Its frames are of link type 147, which isn’t read. Record by `tcpdump -i any`: its frames are read.']],
  ['RuntimeError: unreachable', ['The reader stopped by a fault of its own. Please report it, with the file if you may.']],
  ['another `b`\u202e', ["another 'b'\\u202e"]],
]);
each('why there is no packet', (signs, errors, summary, isStopped) =>
  reasonOf({ signs, errors, summary, isStopped, kinds: [0, 0, 0, 0, 0] }).title, [
  [[], '', undefined, true, 'Stopped before the first packet'],
  [['zstd'], NO_PACKET, {}, 'This file is compressed by zstd'],
  [['json', 'internals'], '', undefined, 'This is a dump of webrtc-internals'],
  [['json'], '', undefined, 'This is JSON, but not of sctp_dump'],
  [['capture', 'dtls'], NO_PACKET, { not_sctp: 40 }, 'This capture is encrypted by DTLS'],
  [['capture', 'stun'], NO_PACKET, { not_sctp: 40 }, 'This is a call of WebRTC'],
  [['capture'], NO_PACKET, { not_sctp: 1 }, 'None of 1 packet is SCTP'],
  [['empty'], '', {}, 'This file is empty'],
  [['capture'], '', {}, 'No packet is in this file'],
  [['capture'], 'sctp_dump: -: ends in the file header\n', {}, 'No packet is in this file'],
  [[], NO_PACKET, { unknown: 3 }, 'No line of this text is a packet'],
]);

// ---- a packet's fields

const TREE = {
  packet: 1, tag: 3, 'tag@': [4, 4], bytes: '00',
  chunks: [{
    chunk: 3, '@': [12, 24], 'chunk@': [12, 1], name: 'SACK', flags: 0, 'flags@': [13, 1],
    cumulative_tsn_ack: 9, 'cumulative_tsn_ack@': [16, 4],
    blocks: [{ '@': [28, 4], start: 2, 'start@': [28, 2], end: 3, 'end@': [30, 2] }], duplicates: [],
  }, { chunk: 66, '@': [36, -1] }],
  fault: { kind: 'length', offset: 36 },
};
const nodes = nodesOf(TREE);
each('a field', i => {
  const { label, value, place, depth, parent, group, end } = nodes[i];
  const bytes = place ? `${place.from}, ${place.to}` : '';
  return `${depth} ${label}=${value} [${bytes}] in ${nodes[parent]?.label ?? '-'} ${group ?? '-'} up to ${end}`;
}, [
  [0, '0 packet=1 [] in - - up to 1'],
  [1, '0 tag=3 [4, 8] in - - up to 2'],
  [2, '0 SACK=chunk 3, cumulative_tsn_ack 9 [12, 36] in - ack up to 11'],
  [3, '1 chunk=3 [12, 13] in SACK ack up to 4'],
  [4, '1 name=SACK [] in SACK ack up to 5'],
  [5, '1 flags=0 [13, 14] in SACK ack up to 6'],
  [6, '1 cumulative_tsn_ack=9 [16, 20] in SACK ack up to 7'],
  [7, '1 blocks 1=start 2, end 3 [28, 32] in SACK ack up to 10'],
  [8, '2 start=2 [28, 30] in blocks 1 ack up to 9'],
  [9, '2 end=3 [30, 32] in blocks 1 ack up to 10'],
  [10, '1 duplicates= [] in SACK ack up to 11'],
  [11, '0 chunks 2=chunk 66 [] in - other up to 13'],
  [12, '1 chunk=66 [] in chunks 2 other up to 13'],
  [13, '0 fault= [] in - - up to 16'],
]);
each('a packet’s tunnels', tunnels => nodesOf({ packet: 1, tunnels }).map(it => `${it.depth} ${it.label}=${it.value}`).join(', '), [
  [[{ kind: 'GTP-U', from: '192.0.2.1', to: '192.0.2.2', identifier: 2561 }, { kind: 'IP', from: '10.1.0.1', to: '10.1.0.2' }],
    '0 packet=1, 0 tunnels 1=identifier 2561, 1 kind=GTP-U, 1 from=192.0.2.1, 1 to=192.0.2.2, 1 identifier=2561, ' +
    '0 tunnels 2=, 1 kind=IP, 1 from=10.1.0.1, 1 to=10.1.0.2'],
]);
// A key that has a place alone: its value is in the packet's bytes, as far as they were captured.
each('a field with a place alone', (bytes, ...place) => {
  const [, size, payload] = nodesOf({ packet: 1, bytes, payload_size: 2, 'payload@': place }), none = { label: 'none' };
  const { label, value, place: { from, to } = {} } = payload ?? none;
  return `${size.label}, ${label}=${value} ${from}-${to}`;
}, [
  ['000102030405', 2, 3, 'payload_size, payload=020304 2-5'],
  ['000102', 2, 3, 'payload_size, payload=02 2-5'],
  ['0001', 2, 3, 'payload_size, payload= 2-5'],
  [undefined, 2, 3, 'payload_size, payload= 2-5'],
  ['0001', -1, 3, 'payload_size, none=undefined undefined-undefined'],
]);
each('its place among its siblings', i => `${nodes[i].position} of ${nodes[i].siblings}`, [
  [0, '1 of 5'], [2, '3 of 5'], [3, '1 of 6'], [8, '1 of 2'], [9, '2 of 2'], [10, '6 of 6'], [12, '1 of 1'], [13, '5 of 5'],
]);
// RFC 9260 sections 3.1 and 3.3.4; a name or a count of the page itself is no field.
each('the name of a field', i => nodes[i].name, [
  [0, undefined], [1, 'Verification Tag'], [2, undefined], [3, 'Chunk Type'], [4, undefined], [5, 'Chunk Flags'], [6, 'Cumulative TSN Ack'],
  [7, 'Gap Ack Block'], [8, 'Gap Ack Block Start'], [9, 'Gap Ack Block End'], [10, 'Duplicate TSN'], [11, undefined], [13, undefined],
]);
// RFC 9260 sections 3.3.1, 3.3.2 and 3.3.10; RFC 6525 section 4.1; RFC 8832 section 5.1.
each('the name of a field in lists', (key, ...lists) => fieldName(lists, key), [
  ['initiate_tag', 'chunks', 'Initiate Tag'], ['end', 'chunks', 'E bit: ending fragment'], ['end', undefined],
  ['last_tsn', 'chunks', 'parameters', 'Sender’s Last Assigned TSN'], ['length', 'chunks', 'causes', 'Cause Length'],
  ['reliability', 'chunks', 'Reliability Parameter'], ['stream', 'chunks', 'parameters', 'streams', 'Stream Number'],
  ['stream', 'chunks', 'streams', 'Stream Identifier'], ['tag', 'ends', undefined], ['verdict', 'Whether the Checksum is right'],
  // RFC 5061 sections 4.2 and 4.3, RFC 4895 section 4.1
  ['correlation_id', 'chunks', 'parameters', 'causes', 'parameters', 'ASCONF Correlation ID'],
  ['hmac_identifier', 'chunks', 'parameters', 'causes', 'HMAC Identifier'],
  ['type', 'chunks', 'causes', 'parameters', 'chunk_types', 'Chunk Type'],
]);
// The deepest field of each byte.
each('the field of a byte', byte => nodes[ownersOf(nodes, 34)[byte]]?.label, [
  [3, undefined], [4, 'tag'], [7, 'tag'], [8, undefined], [12, 'chunk'], [13, 'flags'], [14, 'SACK'], [19, 'cumulative_tsn_ack'],
  [20, 'SACK'], [29, 'start'], [30, 'end'], [33, 'SACK'], [34, undefined],
]);
each('bytes', text => [...bytesOf(text)], [['0a1bff', [10, 27, 255]], ['', []], [undefined, []], [5, []]]);
each('a value', node => valueOf(node).textContent, [
  // (docs/DUMP.md: a packet's `end` and an event's `by` are places in `ends`; DATA and blocks of SACK have another `end`)
  [{ label: 'end', depth: 0, value: 0 }, '0 first end'], [{ label: 'by', depth: 1, value: 1 }, '1 second end'], [{ label: 'end', depth: 2, value: 1 }, '1'],
  [{ value: 5, place: { from: 16, to: 20 } }, '5 0x00000005'],
  [{ value: 5, place: { from: 16, to: 18 } }, '5 0x0005'],
  [{ value: 5, place: { from: 16, to: 24 } }, '5'],
  [{ value: 5 }, '5'], [{ value: false }, 'false'], [{ value: 'a<b' }, 'a<b'], [{ value: [1, 2] }, '1, 2'],
  [{ value: [] }, 'none'],
]);

// ---- lines that come from elsewhere

each('a line', it => KINDS[new Rows().row(it)?.kind], [
  [packet(1, A, [data(5, { blocks: [{}] })]), 'accepted'], [packet(1, A, [], { captured: 5, fault: {} }), 'cut'],
  [{ file: 'a' }, 'file'], [{ line: 5, skipped: 'x' }, 'skipped'],
  [null, undefined], [5, undefined], [[], undefined], [{ packet: 1 }, undefined], [{ packet: '1', chunks: [] }, undefined],
  [packet(1, A, {}), undefined], [packet(1, A, [data('5')]), undefined], [packet(1, A, [{}]), undefined],
  [packet(1, { ...A, tag: 0.5 }, []), undefined],
  [{ file: 5 }, undefined], [{ skipped: 5 }, undefined],
]);
each('an association, or none', isAssociation, [
  [association, true], [{ association: 1, ends: [{}, {}] }, true], [{ association: 1, ends: [{}, {}], transport: null }, true],
  [{ association: 1, ends: [{}] }, false], [{ association: 1 }, false], [{ association: 1, ends: [{}, 5] }, false],
  [{ association: 1, ends: [{}, { port: 'x' }] }, false], [{ packets: 1 }, false], [null, false],
]);
each('a summary, or none', isSummary, [[{ packets: 1 }, true], [{ packets: 'x' }, false], [{ skipped: 1 }, false]]);
// More than one batch, and pieces of a file that end inside of a character.
const textOf = i => '漢'.repeat(500 + i % 3);
const lines = Array.from({ length: 3000 }, (_, i) => ({ line: i, skipped: textOf(i) }));
const long = storeOfText([...lines, { file: 'end' }].map(lineOf).join('\nno line\n'));
const read = await long.objects(rowsOf(long)), noteOf = row => long.notes[long.columns.note[row]];
each('batches', () => [long.batches.length > 1, long.count, noteOf(2999), noteOf(3000)], [[[true, 3001, textOf(2999), 'end']]]);
each('the lines of rows', () => read.slice(0, 3000), [[lines]]);

// ---- packed lines

/** The text of a packed line, and the line that is made of it again. */
function packedTexts(line) {
  const before = 7, bytes = new TextEncoder().encode(line), room = new Uint8Array(before + bytes.length + 1);
  const [textEnd, end] = packInto(bytes, room, before);
  return [room.subarray(before, textEnd), lineIn(room.subarray(before, end))].map(it => new TextDecoder().decode(it));
}
each('a packed line', packedTexts, [
  ['{"packet":1,"bytes":"00ff0a10","chunks":[]}', '{"packet":1,"bytes":"","chunks":[]}'], ['{"bytes":""}', '{"bytes":""}'],
  ['{"bytes":"226279746573223a22"}', '{"bytes":""}'], ['{"bytes":"00","bytes":"11"}', '{"bytes":"","bytes":"11"}'],
  ['{"text":"漢\\"bytes\\":\\"00","bytes":"11"}', '{"text":"漢\\"bytes\\":\\"00","bytes":""}'],
  // (what isn't as the program prints it stays)
  ...['', '{}', '"bytes":"', '{"bytes":"00', '{"bytes":"00f"}', '{"bytes":"00FF"}', '{"bytes":5}', '{"bytes@":"00"}'].map(it => [it, it]),
].map(([line, text]) => [line, [text, line]]));

let last = 1;
const random = most => (last = Math.imul(last, 48271) >>> 0) % 65521 % most;
const someOf = (count, most) => Uint8Array.from({ length: count }, () => random(most));
/** Bytes of which the last 300 are the first ones, so many bytes before. */
const repeating = back => someOf(back + 300, 256).copyWithin(back, 0, 300);
const linesOfText = new TextEncoder().encode(lines.slice(0, 100).map(lineOf).join('\n'));
each('what is compressed', content => {
  const packed = compressed(content);
  return [Buffer.compare(uncompressed(packed), content), packed.length <= content.length + content.length / 128 + 32];
}, [
  ...Array.from({ length: 40 }, (_, i) => someOf(i, 256)), ...Array.from({ length: 40 }, (_, i) => new Uint8Array(i)),
  ...[270, 271, 525, 526, 1e6].flatMap(it => [new Uint8Array(it + 12), new Uint8Array(it + 13), someOf(it, 256), someOf(it, 2), someOf(it, 4)]),
  ...[300, 65534, 65535, 65536, 200000].map(repeating), linesOfText,
].map(it => [it, [0, true]]));
each('how small', content => compressed(content).length <= content.length / 20, [[new Uint8Array(1e6), true], [linesOfText, true]]);
/** What the tool lz4 makes of it, as a block of its older file format. */
function byTool(content) {
  const block = compressed(content).subarray(4), size = new Uint8Array(Uint32Array.of(block.length).buffer);
  return spawnSync('lz4', ['-dc'], { input: Buffer.concat([Buffer.of(2, 0x21, 0x4c, 0x18), size, block]), maxBuffer: 1 << 24 }).stdout;
}
if (!spawnSync('lz4', ['--version']).error) {
  each('by another program', content => Buffer.compare(byTool(content), content), [
    ...[1, 12, 13, 300].map(it => someOf(it, 2)), new Uint8Array(1e6), someOf(1e6, 256), someOf(1e6, 4), repeating(65535), linesOfText,
  ].map(it => [it, 0]));
}
// (1 literal and a match of 19 bytes; 16 literals, and a match of 4 at them; the last literals)
each('a block', (...block) => Buffer.from(uncompressed(Uint8Array.of(...block))).toString(), [
  [0, 0, 0, 45, 0x1f, 97, 1, 0, 0, 0xf0, 1, ...Buffer.from('0123456789abcdef'), 16, 0, 0x50, ...Buffer.from('fghij'), `${'a'.repeat(20)}0123456789abcdef0123fghij`],
  [0, 0, 0, 0, 0, ''],
]);

// ---- texts

// (types by IANA's registry)
const GROUPS = '0 data 1 setup 2 setup 3 ack 4 alive 5 alive 6 abort 7 end 8 end 9 abort 10 setup 11 setup 14 end 15 other ' +
  '16 ack 64 data 130 forward 192 forward 193 other 194 forward';
each('a group', groupOf, [...GROUPS.matchAll(/(\d+) (\w+)/g)].map(([, type, group]) => [Number(type), group]));
each('where an end is', endText, [
  ['10.0.0.1', 5, '10.0.0.1:5'], ['::1', 5, '[::1]:5'], [undefined, 5, '5'], [undefined, undefined, ''],
]);
const apart = names => namedApart(names.map(name => ({ name })));
each('names of files', (...names) => apart(names).map(([name, it]) => `${name} of ${it.name}`), [
  ['a', 'b', ['a of a', 'b of b']],
  ['a', 'a', 'a (2)', 'a', ['a of a', 'a (2) of a', 'a (2) (2) of a (2)', 'a (3) of a']],
  ['-', '--help', ['./- of -', './--help of --help']],
]);
each('a text', shown, [
  ['a<b', 300, 'a<b'], ['a\nb\u202e\u2028', 300, 'a\\u000ab\\u202e\\u2028'], ['12345', 5, '12345'],
  ['x'.repeat(1234), 5, 'xxxxx … (1,234 characters)'],
  // (the fillers of Hangul, a selector of a variation, and Braille without a dot: Unicode shows none of them)
  ['\u115f\u3164\ufe0f\u2800\u{e0100}', 300, '\\u115f\\u3164\\ufe0f\\u2800\\ue0100'], ['⠁ é', 300, '⠁ é'],
]);
each('hexadecimal', hex, [[255, 8, '0x000000ff'], [LAST, 8, '0xffffffff'], [5, 2, '0x05']]);
each('a count', counted, [[1, 'row', '1 row'], [1234, 'row', '1,234 rows'], [0, 'row', '0 rows'], [2, 'x', 'y', '2 y']]);

// ---- what the program prints

const root = new URL('../../', import.meta.url), bytesOfFile = name => new Uint8Array(readFileSync(new URL(name, root)));
const module = new WebAssembly.Module(bytesOfFile('dist/sctp_dump.wasm'));

/** What the page keeps of a capture. */
function storeOfCapture(content) {
  const parts = [];
  let at = 0;
  const input = { read: size => content.subarray(at, at += Math.min(size, content.length - at)) };
  run(module, { words: WORDS, open: () => input, print: it => parts.push(it.slice()), report: () => {} });
  return storeOfText(Buffer.concat(parts).toString());
}

/** The page finds by itself which packets an end of an association sent, its DATA, and which TSNs were sent again. */
function countsOf(store, association) {
  const { rows, senderOf } = store.rowsOf(association), seen = [new Set(), new Set()], counts = [[0, 0], [0, 0], [0, 0]];
  for (const row of rows) {
    const end = senderOf(row), tsns = store.tsns(row), again = tsns.filter(it => seen[end].has(it));
    counts[0][end]++;
    counts[1][end] += tsns.length;
    counts[2][end] += again.length;
    tsns.forEach(it => seen[end].add(it));
  }
  return counts;
}
const saidIn = ({ ends }) => [ends.map(it => it.packets), ends.map(it => it.data), ends.map(it => it.repeated ?? 0)];

for (const name of ['tests/dump/data/usrsctp.pcap', 'tests/dump/data/chromium-both.log', 'page/sample.pcap']) {
  const store = storeOfCapture(bytesOfFile(name));
  each(`${name}: associations`, () => store.associations.length > 0, [[true]]);
  each(`${name}: the table`, it => compareRow(tableRow(it), it), store.associations.map(it => [it, undefined]));
  each(`${name}: packets, DATA and repeats`, it => countsOf(store, it), store.associations.map(it => [it, saidIn(it)]));
  each(`${name}: repeated`, row => store.has(row, 'repeated'), repeatedRows(store));
}

/** Whether each row with DATA has a TSN that its association's end had sent before. */
function repeatedRows(store) {
  return store.associations.flatMap(it => {
    const { rows, senderOf } = store.rowsOf(it), seen = [new Set(), new Set()];
    return rows.map(row => {
      const own = seen[senderOf(row)], isAgain = store.tsns(row).some(tsn => own.has(tsn));
      store.tsns(row).forEach(tsn => own.add(tsn));
      return [row, isAgain];
    });
  });
}

// Whose packet it is, by the program: packets with no tag that an end chose, and INITs that weren't answered.
const places2 = [1, 2].map(it => `10.0.0.${it}`);
const fromEnd = end => (tag, ...chunks) => ip(places2[end], places2[1 - end], packetOf(1 + end, 2 - end, tag, ...chunks));
const [a, b] = [0, 1].map(fromEnd), abort = chunk(6, 0), opening = tag => a(0, init(tag, 1));
const tagless = [
  [opening(10), a(0, sack(1)), b(0, sack(1))],
  [opening(10), a(0, abort), opening(11), a(0, abort), a(0, abort)],
  [opening(10), b(10, abort), opening(11), a(0, abort), b(11, abort)],
  [opening(10), a(77, sack(1)), a(78, sack(1)), b(10, sack(1))],
  [a(5, chunk(6, 1)), b(5, chunk(14, 1))],
  [a(0, sack(1)), a(0, sack(1)), b(0, sack(1))],
];
const captures = [...tagless.map(records => pcap(records.map((it, i) => [i, it]))),
  ...readdirSync(new URL('crates/sctp_dump/data', root)).map(it => bytesOfFile(`crates/sctp_dump/data/${it}`))];
each('packets of associations', content => {
  const store = storeOfCapture(content);
  return store.associations.map(it => countsOf(store, it)[0].join(' '));
}, captures.map(it => [it, storeOfCapture(it).associations.map(({ ends }) => ends.map(end => end.packets).join(' '))]));
each('the association of a packet', content => {
  const store = storeOfCapture(content);
  return rowsOf(store).map(row => store.associationOf(row)?.association ?? '-').join(' ');
}, [
  [captures[1], '1 1 2 2 2'], [captures[2], '1 1 2 2 2'], [captures[3], '1 1 - 1'],
]);

const seconds = ((performance.now() - started) / 1000).toFixed(1);
console.log(`page: scripts without a browser: ${tried - failed} rows passed, ${failed} failed (${seconds} s)`);
process.exitCode = failed ? 1 : 0;
