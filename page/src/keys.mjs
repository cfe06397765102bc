// SPDX-License-Identifier: Apache-2.0
// What the page knows of the keys that `sctp_dump --json` prints: a row of the list for each line. The tree of a packet's
// fields knows none: it shows each key as it comes, and `KEY@` as its place.
import { CHUNK_GROUPS } from './registry.mjs';

export { WORDS, KINDS, FLAGS, MOST_TEXT, COLUMNS, OF_DAY, groupOf, isData, isText, isNumber, isObject, parsed, isAssociation, isSummary };
export { isChannel, isNotFollowed };
export { Rows, pairsOf, associationOf, skippedText };

/** The program's words: a line of JSON for each packet, with places, broken rules, associations, messages and channels. */
const WORDS = ['--json', '--places', '--check', '--associations', '--messages', '--channels'];

/** The kinds of lines that become rows. */
const KINDS = ['accepted', 'refused', 'cut', 'skipped', 'file'];

/** What a packet can have, as bits. As the program says, its DATA has a TSN that was sent before: `repeated`; one that only a
    later one was before: `late`; or TSNs are missing before it: `jump`. `gaps`: a SACK has blocks. `line`: what was skipped is
    a line of a text, and its number is that of the line, where packets are numbered by themselves. */
const FLAGS = {
  wrong: 1, zero: 2, incoming: 4, outgoing: 8, repeated: 16, late: 32, jump: 64, gaps: 128, warned: 256, data: 512, sack: 1024,
  line: 2048,
};

/** So many characters of a packet's texts, and of a label, can be found. */
const MOST_TEXT = 100;

/** The columns of the rows, and their types: 67 bytes a row. `association` is 0 where a row is of none, or else `end` says which
    of its ends sent the packet. `batch`, `offset` and `size` say where its line is. */
const COLUMNS = {
  kind: Uint8Array, digits: Uint8Array, flags: Uint16Array, file: Uint16Array, number: Float64Array, seconds: Float64Array,
  nanos: Uint32Array, flow: Uint32Array, summary: Uint32Array, note: Uint32Array, length: Uint32Array, tsn: Uint32Array,
  ack: Uint32Array, association: Uint32Array, end: Uint8Array, batch: Uint32Array, offset: Uint32Array, size: Uint32Array,
};

/** Bit of `digits`: the time is one of day, as in logs. The other bits are one more than its decimals; 0: it is unknown. */
const OF_DAY = 128;

/** Types of chunks by what they are for: the page has a colour for each, and one for all others. */
const GROUPS = new Map(Object.entries(CHUNK_GROUPS).flatMap(([group, types]) => types.map(type => [type, group])));

/** @param {number} type */
function groupOf(type) {
  return GROUPS.get(type) ?? 'other';
}

const SACK = 3;

/** @param {Chunk} chunk */
function isData(chunk) {
  return groupOf(chunk.chunk) === 'data' && chunk.tsn !== undefined;
}

// ---- whether an object is as the program prints it, since lines that come from elsewhere can be anything

/** @type {(it: unknown) => it is string} */
const isText = it => typeof it === 'string';
const isNumber = Number.isSafeInteger;
const isObject = it => typeof it === 'object' && it !== null && !Array.isArray(it);
const isNone = it => it === undefined;
const mayBeText = it => isNone(it) || isText(it);
const mayBeNumber = it => isNone(it) || isNumber(it);
const mayBeObject = it => isNone(it) || isObject(it);
const mayBeList = (it, test) => isNone(it) || Array.isArray(it) && it.every(test);

const isBlock = it => isObject(it) && mayBeNumber(it.first_tsn) && mayBeNumber(it.last_tsn);
const isChunk = it => isObject(it) && isNumber(it.chunk) && mayBeText(it.name) && mayBeNumber(it.tsn) && mayBeNumber(it.stream) &&
  mayBeNumber(it.ppid) && mayBeText(it.ppid_name) && mayBeNumber(it.cumulative_tsn_ack) && mayBeNumber(it.new_cumulative_tsn) && mayBeList(it.blocks, isBlock);
const isPacket = it => isNumber(it.packet) && Array.isArray(it.chunks) && it.chunks.every(isChunk) && mayBeText(it.time) &&
  mayBeText(it.direction) && mayBeText(it.transport) && mayBeText(it.from) && mayBeText(it.to) && mayBeNumber(it.length) &&
  mayBeNumber(it.captured) && mayBeNumber(it.source) && mayBeNumber(it.destination) && mayBeNumber(it.tag) &&
  mayBeText(it.verdict) && mayBeNumber(it.expected) && mayBeList(it.warnings, isObject) &&
  (isNone(it.fault) || isObject(it.fault) && mayBeNumber(it.fault.offset)) &&
  (isNone(it.association) || it.association >>> 0 === it.association && (it.end === 0 || it.end === 1));
const isEnd = it => isObject(it) && mayBeNumber(it.port) && mayBeNumber(it.tag) && mayBeList(it.addresses, isText) &&
  mayBeObject(it.round_trip);

/** Whether an object is an association.
    @type {(it: any) => it is Association} */
const isAssociation = it => isObject(it) && isNumber(it.association) && it.association > 0 && (it.transport === null || mayBeText(it.transport)) &&
  Array.isArray(it.ends) && it.ends.length === 2 && it.ends.every(isEnd) && mayBeObject(it.began) && mayBeObject(it.ended);

/** Whether an object is the summary.
    @type {(it: any) => it is Summary} */
const isSummary = it => isObject(it) && isNumber(it.packets) && mayBeNumber(it.skipped);

const TRAFFIC = ['messages', 'bytes', 'repeated', 'abandoned', 'unacknowledged'];
const isTraffic = it => isObject(it) && TRAFFIC.every(key => isNumber(it[key])) && (isNone(it.delay) || isObject(it.delay) && mayBeNumber(it.delay.greatest_packet));
const isReset = it => isObject(it) && (it.end === 0 || it.end === 1) && isNumber(it.packet) && mayBeNumber(it.result) && mayBeText(it.result_name) &&
  mayBeNumber(it.response_packet);

/** Whether an object is a channel, or sums up others.
    @type {(it: any) => it is Channel} */
const isChannel = it => isObject(it) && isNumber(it.channel_of) && (it.others === true || isNumber(it.stream)) && mayBeList(it.resets, isReset) &&
  Array.isArray(it.ends) && it.ends.length === 2 && it.ends.every(isTraffic) &&
  ['label', 'label_bytes', 'protocol', 'protocol_bytes', 'channel_type_name', 'ppid_name'].every(key => mayBeText(it[key])) &&
  ['ppid', 'channel_type', 'reliability', 'opened_by', 'opened_packet', 'acknowledged_packet'].every(key => mayBeNumber(it[key]));

/** Whether an object says how many DATA chunks are followed in no message.
    @type {(it: any) => it is { data_not_followed: number }} */
const isNotFollowed = it => isObject(it) && isNumber(it.data_not_followed);

const TIME = /"time":(-?[\d.]+)/, TIMES = new RegExp(TIME, 'g'), OTHER_TIMES = /"(sent|opened|acknowledged)":(-?[\d.]+)/g;

/** The object of a line, in which a time stays the text of its digits: a double hasn't enough for nanoseconds.
    @param {string} line */
function parsed(line) {
  if (!line.startsWith('{"packet"'))
    return JSON.parse(/^{"(message|channel)_of"/.test(line) ? line.replace(OTHER_TIMES, '"$1":"$2"') : line.replace(TIMES, '"time":"$1"'));
  // (a packet has one time: its line, which can be long, isn't copied)
  const packet = JSON.parse(line);
  if (typeof packet.time === 'number')
    packet.time = TIME.exec(line)?.[1];
  return packet;
}

// ---- rows

/** Texts or objects by numbers: one of an equal key has the same number, and `take` gives those since it was last called. */
class Interned {
  numbers = new Map();
  fresh = [];

  constructor(first) {
    this.number('', () => first);
  }

  number(key, make = () => key) {
    let found = this.numbers.get(key);
    if (found === undefined) {
      found = this.numbers.size;
      this.numbers.set(key, found);
      this.fresh.push(make());
    }
    return found;
  }

  take() {
    const taken = this.fresh;
    this.fresh = [];
    return taken;
  }
}

/** The seconds, nanoseconds and digits of a time, as `1700000000.000120`: of a log, since its midnight. Before 1970 the
    seconds are below 0, and the nanoseconds are after them.
    @param {boolean} isOfDay */
function timeOf(text, isOfDay) {
  const found = /^(-?)(\d+)\.(\d+)$/.exec(text ?? '');
  if (!found)
    return { seconds: 0, nanos: 0, digits: 0 };
  const [, sign, whole, decimals] = found, part = Number(decimals.slice(0, 9).padEnd(9, '0')), isBorrowed = sign && part > 0;
  return {
    seconds: sign ? -whole - (isBorrowed ? 1 : 0) : Number(whole),
    nanos: isBorrowed ? 1e9 - part : part,
    digits: (isOfDay ? OF_DAY : 0) + Math.min(decimals.length, 9) + 1,
  };
}

/** The TSN that a packet's first FORWARD-TSN or I-FORWARD-TSN skips to.
    @param {Chunk[]} chunks */
const forwardOf = chunks => chunks.find(it => it.new_cumulative_tsn !== undefined)?.new_cumulative_tsn;

/** The streams that RE-CONFIG resets (RFC 6525 section 4), and those in which FORWARD-TSN and I-FORWARD-TSN skip messages.
    @param {Chunk} chunk */
function streamsOf({ streams, parameters }) {
  if (!streams && !parameters)
    return [];
  const lists = [streams, ...Array.isArray(parameters) ? parameters.filter(isObject).map(it => it.streams) : []].filter(Array.isArray);
  return lists.flat().filter(isObject).map(it => it.stream).filter(isNumber);
}

/** What chunks a packet has: their names in runs, their types, the streams of DATA and those that are reset or skipped in, and
    of DATA the payload protocols, how far each TSN is from the first one, and the messages and labels of DCEP; and how far the
    TSN that a FORWARD-TSN skips to is from that; and how many TSNs are missing before them.
    @param {Chunk[]} chunks */
function chunkSummary(chunks, missing = 0) {
  /** @type {Run[]} */
  const runs = [];
  const types = new Set(), streams = new Set(), ppids = new Map(), tsns = [], messages = [], labels = [];
  let first;
  for (const chunk of chunks) {
    const last = runs.at(-1);
    if (last && last.type === chunk.chunk)
      last.count++;
    else
      runs.push({ type: chunk.chunk, name: chunk.name, count: 1 });
    types.add(chunk.chunk);
    streamsOf(chunk).forEach(it => streams.add(it));
    if (!isData(chunk))
      continue;
    first ??= chunk.tsn;
    tsns.push(Number(chunk.tsn) - Number(first));
    streams.add(chunk.stream);
    if (chunk.ppid !== undefined)
      ppids.set(chunk.ppid, chunk.ppid_name ?? '');
    if (chunk.message !== undefined)
      messages.push([chunk.message, String(chunk.message_name ?? '')]);
    if (isText(chunk.label))
      labels.push(chunk.label.slice(0, MOST_TEXT));
  }
  const names = [...new Set(runs.map(run => run.name ?? ''))];
  const forward = forwardOf(chunks);
  return {
    runs, types: [...types], names, streams: [...streams], ppids: [...ppids], tsns, missing, messages, labels,
    forward: forward === undefined ? undefined : forward - Number(first ?? forward),
  };
}

/** Makes rows of lines. */
class Rows {
  /** Between which ends, with which tag: one for the packets of one direction of an association. */
  flows = new Interned({});
  summaries = new Interned(chunkSummary([]));
  notes = new Interned('');
  /** Numbers of texts, of which the keys of flows and summaries are made. */
  texts = new Map();
  file = 0;

  /** The row of a line's object, or undefined if it is the summary or an association. */
  row(it) {
    if (!isObject(it))
      return;
    if (isPacket(it))
      return this.packet(it);
    if (typeof it.file === 'string')
      return { kind: KINDS.indexOf('file'), file: ++this.file, note: this.notes.number(it.file) };
    if (typeof it.skipped === 'string')
      return this.skipped(it);
  }

  skipped({ record, line, skipped }) {
    return {
      kind: KINDS.indexOf('skipped'), file: this.file, number: Number(record ?? line ?? 0), note: this.notes.number(skipped),
      flags: line === undefined ? 0 : FLAGS.line,
    };
  }

  /** @param {Packet} it */
  packet(it) {
    const { from, to, source, destination, tag, direction, transport, chunks, fault } = it;
    const kind = it.captured !== undefined ? 'cut' : fault ? 'refused' : 'accepted';
    const { seconds, nanos, digits } = timeOf(it.time, direction !== undefined), missing = Math.max(0, Number(it.missing) || 0);
    let flags = (FLAGS[it.verdict] ?? 0) | (FLAGS[direction] ?? 0) | (it.warnings?.length ? FLAGS.warned : 0) |
      (Number(it.repeated) > 0 ? FLAGS.repeated : 0) | (Number(it.late) > 0 ? FLAGS.late : 0) | (missing ? FLAGS.jump : 0);
    let key = '', tsn, ack = 0, text = '';
    for (const chunk of chunks) {
      key += `${chunk.chunk} ${this.numberOf(chunk.name)} ${streamsOf(chunk)} `;
      if (isData(chunk)) {
        tsn ??= Number(chunk.tsn);
        key += `${Number(chunk.tsn) - tsn} ${chunk.stream} ${chunk.ppid} ${this.numberOf(chunk.ppid_name)} `;
        if (chunk.message !== undefined)
          key += `${chunk.message} ${this.numberOf(chunk.message_name)} ${this.numberOf(chunk.label)} `;
        flags |= FLAGS.data;
        if (isText(chunk.text) && text.length < MOST_TEXT)
          text += `${chunk.text.slice(0, MOST_TEXT)}\n`;
      } else if (chunk.chunk === SACK && chunk.cumulative_tsn_ack !== undefined) {
        flags |= FLAGS.sack | (chunk.blocks?.length ? FLAGS.gaps : 0);
        ack = chunk.cumulative_tsn_ack;
      }
    }
    const forward = forwardOf(chunks);
    tsn ??= forward;
    if (forward !== undefined)
      key += `to ${forward - Number(tsn)} `;
    if (missing)
      key += `after ${missing}`;
    const place = `${this.numberOf(from)} ${this.numberOf(to)} ${source} ${destination} ${tag} ${this.numberOf(direction)} ${this.numberOf(transport)}`;
    return {
      kind: KINDS.indexOf(kind), file: this.file, number: it.packet, note: fault ? this.notes.number(String(fault.reason ?? '')) : 0,
      seconds, nanos, digits, length: it.length ?? 0, flags, tsn: tsn ?? 0, ack, association: it.association ?? 0, end: it.end ?? 0,
      flow: this.flows.number(place, () => ({ from, to, source, destination, tag, direction, transport })),
      summary: this.summaries.number(key, () => chunkSummary(chunks, missing)), text: text.slice(0, MOST_TEXT).toLowerCase(),
    };
  }

  numberOf(text) {
    let found = this.texts.get(text);
    if (found === undefined)
      this.texts.set(text, found = this.texts.size);
    return found;
  }
}

// ---- associations

/** Whose packets those of each flow are, if the program doesn't say it: `[association, end]`, or nothing where no port is known.
    The packets between the same ends are one association's; the end that is first in `flows` is its first one.
    @param {Flow[]} flows */
function pairsOf(flows) {
  const pairs = new Map(), other = { incoming: 'outgoing', outgoing: 'incoming' };
  return flows.map(({ from, to, source, destination, direction, transport }) => {
    if (source === undefined)
      return;
    const ends = [[from, source, direction], [to, destination, other[direction]]].map(it => JSON.stringify(it));
    const key = JSON.stringify([...ends].sort().concat(transport ?? []));
    if (!pairs.has(key))
      pairs.set(key, { association: pairs.size + 1, first: ends[0] });
    const { association, first } = pairs.get(key);
    return [association, ends[0] === first ? 0 : 1];
  });
}

/** An association that the program didn't print, of a flow of its packets and the end that sent these.
    @param {number} association
    @param {Flow} flow
    @param {number} end
    @returns {any} */
function associationOf(association, { from, to, source, destination, transport }, end) {
  const ends = [[from, source], [to, destination]].map(([address, port]) => ({ addresses: address === undefined ? [] : [address], port }));
  return { association, ends: end ? ends.reverse() : ends, ...transport !== undefined && { transport } };
}

/** What the summary says of what holds no packet, of which most has no line. */
function skippedText(summary) {
  const kinds = {
    not_sctp: 'not SCTP', fragment: 'fragments', cut: 'cut', malformed: 'malformed', too_long: 'too long', unknown: 'not known',
    link_type: 'link type',
  };
  const counts = Object.keys(kinds).filter(it => summary?.[it] > 0).map(it => `${summary[it].toLocaleString('en')} ${kinds[it]}`);
  return counts.length ? `; passed over: ${counts.join(', ')}` : '';
}
