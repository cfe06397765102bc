// SPDX-License-Identifier: Apache-2.0
// User messages of a capture, as the program says what became of each: these are gathered line by line. And which packets are a
// message's, by their DATA or by what they did to it.
import { isData, isNumber, isObject, isText } from './keys.mjs';

export { Fates, isMessage, isOf, packetsOf, messageFilter };

/** So many messages are kept of which more is to say than that they were sent and acknowledged, and so many others. */
const MOST_MESSAGES = 10000;
/** So many ranges of packets a filter has at most. */
const MOST_RANGES = 40;

const NUMBERS = ['stream', 'size', 'fragments', 'first_tsn', 'last_tsn', 'sent_packet'];
const MAYBE_NUMBERS = ['ssn', 'mid', 'ppid', 'acknowledged_packet', 'abandoned_packet', 'repeated', 'first_repeated_tsn', 'changed_tsn', 'missing',
  'first_missing_tsn', 'first_missing_fsn', 'waited_for_tsn', 'waited_for_ssn', 'waited_for_mid', 'closed_first', 'closed_last'];
const MAYBE_TEXTS = ['ppid_name', 'abandoned_by', 'sent_file', 'acknowledged_file', 'abandoned_file'];
/** What there is to say of a message, by the keys. */
const REMARKS = ['repeated', 'changed_tsn', 'missing', 'contradictory', 'no_beginning', 'no_end', 'waited_for_tsn', 'closed_first'];

/** Whether an object is a message, as the program prints it.
    @type {(it: any) => it is Message} */
const isMessage = it => isObject(it) && isNumber(it.message_of) && (it.end === 0 || it.end === 1) && NUMBERS.every(key => isNumber(it[key])) &&
  MAYBE_NUMBERS.every(key => it[key] === undefined || isNumber(it[key])) && MAYBE_TEXTS.every(key => it[key] === undefined || isText(it[key]));

class Fates {
  /** How many there are, how many of them are kept, and what became of all. */
  counts = { all: 0, kept: 0, acknowledged: 0, abandoned: 0, repeated: 0 };
  kept = [0, 0];
  /** @type {Message[]} */
  fresh = [];

  /** Takes a message.
      @param {Message} it */
  add(it) {
    const { counts } = this, isAcknowledged = it.acknowledged_packet !== undefined;
    counts.all++;
    counts.acknowledged += isAcknowledged ? 1 : 0;
    counts.abandoned += it.abandoned_packet !== undefined ? 1 : 0;
    counts.repeated += Number(it.repeated) > 0 ? 1 : 0;
    if (++this.kept[!isAcknowledged || REMARKS.some(key => it[key] !== undefined) ? 1 : 0] > MOST_MESSAGES)
      return;
    counts.kept++;
    this.fresh.push(Object.assign({ message: 0 }, it, { message: counts.all }));
  }

  /** Those that were kept since it was last called. */
  take() {
    return this.fresh.splice(0);
  }
}

/** Whether TSNs are from one to another: they are serial numbers (RFC 1982). */
const isWithin = (tsn, { first_tsn, last_tsn }) => (tsn - first_tsn | 0) >= 0 && (last_tsn - tsn | 0) >= 0;

/** Whether a chunk is a fragment of a message, of whose end its packet is.
    @param {Chunk} chunk
    @param {Message} message */
const isOf = (chunk, message) => isData(chunk) && chunk.stream === message.stream && isWithin(chunk.tsn, message) &&
  chunk.ssn === message.ssn && chunk.mid === message.mid && (chunk.unordered === true) === (message.unordered === true);

/** The rows of a message: those with its fragments, and the one that acknowledged or abandoned it.
    @param {import('./store.mjs').Store} store
    @param {Message} message */
async function packetsOf(store, message) {
  const { message_of: association, end, stream, acknowledged_packet, acknowledged_file, abandoned_packet, abandoned_file } = message;
  const { rows, senderOf } = store.rowsOf({ association }), { summary } = store.columns;
  const can = rows.filter(row => senderOf(row) === end && store.has(row, 'data') && store.summaries[summary[row]].streams.includes(stream) &&
    store.tsns(row).some(tsn => isWithin(tsn, message)));
  const objects = await store.objects(can), own = can.filter((row, i) => objects[i].chunks?.some(it => isOf(it, message)));
  /** @type {[number | undefined, string | undefined][]} */
  const others = [[acknowledged_packet, acknowledged_file], [abandoned_packet, abandoned_file]];
  const ends = others.map(([packet, file]) => packet === undefined ? -1 : store.rowOf(packet, file));
  return [...own, ...ends.filter(row => row >= 0 && !own.includes(row))].sort((a, b) => a - b);
}

/** The filter that passes these rows of a message, though of several files others can have their numbers; of very many rows, those of
    its TSNs.
    @param {import('./store.mjs').Store} store
    @param {Message} message
    @param {number[]} rows */
function messageFilter(store, { message_of, stream, first_tsn, last_tsn }, rows) {
  /** @type {number[][]} */
  const ranges = [];
  for (const number of new Set(rows.map(row => store.columns.number[row]))) {
    const last = ranges.at(-1);
    if (last && number === last[1] + 1)
      last[1]++;
    else
      ranges.push([number, number]);
  }
  const texts = first_tsn <= last_tsn ? [`${first_tsn}-${last_tsn}`] : [`${first_tsn}-`, `0-${last_tsn}`];
  return `association:${message_of} ` + (ranges.length > MOST_RANGES ? `stream:${stream} tsn:${texts}`
    : `packet:${ranges.map(([first, last]) => first === last ? first : `${first}-${last}`)}`);
}
