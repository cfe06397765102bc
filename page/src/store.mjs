// SPDX-License-Identifier: Apache-2.0
// What was read: a row of numbers for each line, and the lines themselves, packed, in Blobs, which the browser may keep on disk.
import { associationOf, COLUMNS, FLAGS, isAssociation, isChannel, isNotFollowed, isSummary, KINDS, OF_DAY, pairsOf, parsed } from './keys.mjs';
import { lineIn, uncompressed } from './packed.mjs';

export { Store };

/** So many batches of lines are kept as they were before they were compressed. */
const MOST_HELD = 4;

/** WebRTC's protocol that opens channels (RFC 8832 section 8.1), and so many others of a stream are named. */
const DCEP = 50, MOST_PROTOCOLS = 4;

/** @type {(it: Channel | Message) => string} */
const payloadOf = ({ ppid, ppid_name }) => ppid_name ?? `ppid ${ppid}`;

const decoder = new TextDecoder();

/** @type {Result} */
const NO_RESULT = { errors: '', signs: [] };

class Store {
  count = 0;
  /** @type {Columns} */
  columns = /** @type {any} */ (Object.fromEntries(Object.entries(COLUMNS).map(([name, type]) => [name, new type(1024)])));
  /** @type {Flow[]} */
  flows = [];
  /** @type {ChunkSummary[]} */
  summaries = [];
  /** @type {string[]} */
  notes = [];
  /** @type {Blob[]} */
  batches = [];
  /** What was compressed in those that were asked for last, by their places.
      @type {Map<number, Promise<Uint8Array>>} */
  held = new Map();
  /** @type {Association[]} */
  associations = [];
  /** Counts of rows by kind, and of packets by flag. */
  kinds = KINDS.map(() => 0);
  flags = Object.fromEntries(Object.keys(FLAGS).map(it => [it, 0]));
  /** @type {Summary | undefined} */
  summary;
  read = 0;
  /** At the end: what was said on standard error, and what the files' first bytes show. */
  errors = '';
  /** @type {string[]} */
  signs = [];
  isAtEnd = false;
  isStopped = false;
  /** Files' numbers by their names, if there are several. */
  files = new Map();
  /** The beginning of each row's texts, in small letters. */
  texts = /** @type {string[]} */ ([]);
  /** Channels, and how many messages are on those that found no room.
      @type {Channel[]} */
  channels = [];
  unlisted = 0;
  /** User messages, how many there are and what became of them, and how many DATA chunks are of none.
      @type {Message[]} */
  messages = [];
  fates = { all: 0, kept: 0, acknowledged: 0, abandoned: 0, repeated: 0 };
  unfollowed = 0;
  /** The first row that has a time.
      @type {number | undefined} */
  first;
  /** For each of the first `linked` rows the one before it in its association, and of each association the latest row. They are
      made once they are asked for. */
  links = new Uint32Array();
  linked = 0;
  latest = /** @type {Map<number, number>} */ (new Map());
  /** At the end: nanoseconds from that to the last row that has a time.
      @type {number | undefined} */
  span;

  /** How many packets there are: accepted ones, refused ones, and those that were cut off. */
  get packets() {
    return this.kinds[0] + this.kinds[1] + this.kinds[2];
  }

  /** Adds what the Worker posted.
      @param {Batch} batch */
  add({ lines, columns, objects, read, flows, summaries, notes, texts, messages, fates }) {
    const more = columns.kind.length;
    for (const [name, column] of Object.entries(this.columns)) {
      if (column.length < this.count + more) {
        this.columns[name] = new COLUMNS[name](2 * (this.count + more));
        this.columns[name].set(column.subarray(0, this.count));
      }
      this.columns[name].set(columns[name], this.count);
    }
    for (let row = this.count; row < this.count + more; row++)
      this.addDays(row);
    this.count += more;
    this.read = read;
    this.batches.push(lines);
    flows.forEach(it => this.flows.push(it));
    summaries.forEach(it => this.summaries.push(it));
    notes.forEach(it => this.notes.push(it));
    texts.forEach(it => this.texts.push(it));
    messages.forEach(it => this.messages.push(it));
    this.fates = fates;
    for (const it of objects) {
      if (isAssociation(it))
        this.associations.push(it);
      else if (isSummary(it))
        this.summary = it;
      else if (isChannel(it))
        this.addChannel(it);
      else if (isNotFollowed(it))
        this.unfollowed = it.data_not_followed;
    }
    columns.kind.forEach((it, i) => {
      this.kinds[it]++;
      if (KINDS[it] === 'file')
        this.files.set(this.notes[columns.note[i]], columns.file[i]);
    });
    // (few rows differ in what they have)
    const counts = new Map();
    for (const it of columns.flags)
      counts.set(it, (counts.get(it) ?? 0) + 1);
    for (const [bits, count] of counts) {
      for (const [name, bit] of Object.entries(FLAGS))
        this.flags[name] += bits & bit ? count : 0;
    }
  }

  /** Adds a channel, or counts the messages of others.
      @param {Channel} it */
  addChannel(it) {
    if (it.others)
      this.unlisted += it.ends[0].messages + it.ends[1].messages;
    else
      this.channels.push(Object.assign({ channel: 0 }, it, { channel: this.channels.length + 1 }));
  }

  /** Puts a time of day on the day that brings it nearest to the latest one, from the first day on: a log goes on after midnight.
      @param {number} row */
  addDays(row) {
    const { seconds, digits } = this.columns, second = seconds[row];
    if (!(digits[row] & OF_DAY) || second < 0 || second >= 86400)
      return;
    const days = Math.round(((this.latestOfDay ?? second) - second) / 86400);
    seconds[row] += 86400 * Math.max(0, days);
    this.latestOfDay = Math.max(this.latestOfDay ?? 0, seconds[row]);
  }

  /** @param {number} row */
  at(row) {
    const it = { row };
    for (const name in this.columns)
      it[name] = this.columns[name][row];
    return it;
  }

  /** The TSNs of a row's DATA.
      @param {number} row */
  tsns(row) {
    const first = this.columns.tsn[row];
    return this.summaries[this.columns.summary[row]].tsns.map(it => (first + it) >>> 0);
  }

  /** The TSN that a row's FORWARD-TSN skips to, or undefined.
      @param {number} row */
  forward(row) {
    const { forward } = this.summaries[this.columns.summary[row]];
    return forward === undefined ? undefined : (this.columns.tsn[row] + forward) >>> 0;
  }

  /** Whether a row is a packet: neither what was skipped nor a file.
      @param {number} row */
  isPacket(row) {
    return this.columns.kind[row] < 3;
  }

  /** @param {number} row
      @param {FlagName} flag */
  has(row, flag) {
    return (this.columns.flags[row] & FLAGS[flag]) !== 0;
  }

  /** What was compressed in a batch.
      @param {number} batch */
  contentOf(batch) {
    const found = this.held.get(batch) ?? this.batches[batch].arrayBuffer().then(it => uncompressed(new Uint8Array(it)));
    this.held.delete(batch);
    this.held.set(batch, found);
    if (this.held.size > MOST_HELD)
      this.held.delete(this.held.keys().next().value);
    return found;
  }

  /** The lines of these rows.
      @param {number[]} rows */
  async lines(rows) {
    const { batch, offset, size } = this.columns, lines = [];
    for (const row of rows)
      lines.push(lineIn((await this.contentOf(batch[row])).subarray(offset[row], offset[row] + size[row])));
    return lines;
  }

  /** The objects of these rows, read from their lines.
      @param {number[]} rows
      @returns {Promise<Line[]>} */
  async objects(rows) {
    return (await this.lines(rows)).map(it => parsed(decoder.decode(it)));
  }

  /** The program is at its end, or was stopped. */
  finish({ errors, signs } = NO_RESULT, isStopped = false) {
    Object.assign(this, { errors, signs, isAtEnd: true, isStopped });
    this.complete();
    let last = this.count - 1;
    while (last > 0 && !this.columns.digits[last])
      last--;
    this.span = this.since(last);
  }

  /** Makes the associations that the program didn't print: of the rows that have their numbers, or else, if there is none at
      all, of pairs of ends. */
  complete() {
    const { association, end, flow } = this.columns, known = new Set(this.associations.map(it => it.association));
    if (!known.size && !association.some(it => it)) {
      const pairs = pairsOf(this.flows);
      for (let row = 0; row < this.count; row++)
        [association[row], end[row]] = pairs[flow[row]] ?? [0, 0];
      this.linked = 0;
      this.latest.clear();
    }
    for (let row = 0; row < this.count; row++) {
      if (association[row] && !known.has(association[row])) {
        known.add(association[row]);
        this.associations.push(associationOf(association[row], this.flows[flow[row]], end[row]));
      }
    }
    this.associations.sort((a, b) => a.association - b.association);
    const byNumber = new Map(this.associations.map(it => [it.association, it]));
    const sides = this.sides(), payloads = this.payloads();
    for (const channel of this.channels) {
      channel.payload = channel.ppid !== undefined ? [payloadOf(channel)] : [...payloads.get(`${channel.channel_of} ${channel.stream}`) ?? []];
      channel.ends.forEach((end, i) => {
        const own = byNumber.get(channel.channel_of)?.ends[i], side = sides.get(channel.channel_of)?.[i];
        Object.assign(end, { ...side && { side }, addresses: own?.addresses, port: own?.port });
      });
    }
  }

  /** The payload protocols of the messages that are kept, without DCEP, by association and stream: a few of each.
      @returns {Map<string, Set<string>>} */
  payloads() {
    const found = new Map();
    for (const it of this.messages) {
      const key = `${it.message_of} ${it.stream}`, own = found.get(key) ?? new Set();
      if (it.ppid !== undefined && it.ppid !== DCEP && own.size < MOST_PROTOCOLS)
        found.set(key, own.add(payloadOf(it)));
    }
    return found;
  }

  /** Which of an association's ends is the local one, by its number: of a log that is known.
      @returns {Map<number, string[]>} */
  sides() {
    const { association, end, flow } = this.columns, sides = new Map();
    for (let row = 0; row < this.count; row++) {
      const { direction } = this.flows[flow[row]];
      if (direction !== undefined && !sides.has(association[row]))
        sides.set(association[row], (direction === 'outgoing') === (end[row] === 0) ? ['local', 'remote'] : ['remote', 'local']);
    }
    return sides;
  }

  /** The rows of an association's packets, and who sent each.
      @param {{ association: number }} association
      @returns {{ rows: number[], senderOf: SenderOf }} */
  rowsOf(association) {
    const { columns } = this, rows = [];
    for (let row = 0; row < this.count; row++) {
      if (columns.association[row] === association.association)
        rows.push(row);
    }
    return { rows, senderOf: row => columns.end[row] };
  }

  /** The association that a packet's row belongs to.
      @param {number} row */
  associationOf(row) {
    const number = this.columns.association[row];
    return number ? this.associations.find(it => it.association === number) : undefined;
  }

  /** The longest time without a packet of each association, by its number, and the packet after it.
      @returns {Map<number, Silence>} */
  silences() {
    const { association, number, file } = this.columns, last = new Map(), longest = new Map();
    const names = new Map([...this.files].map(([name, its]) => [its, name]));
    for (let row = 0; row < this.count; row++) {
      const its = association[row], before = last.get(its);
      if (!its)
        continue;
      const nanos = before === undefined ? undefined : this.between(before, row);
      if (nanos !== undefined && nanos >= 0 && !(longest.get(its)?.nanos >= nanos))
        longest.set(its, { nanos, packet: number[row], file: names.get(file[row]) });
      last.set(its, row);
    }
    return longest;
  }

  /** The row of a packet by its number, and the name of its file if there are several.
      @param {number} packet
      @param {string | undefined} file */
  rowOf(packet, file) {
    const { number, file: files } = this.columns, wanted = this.files.get(file) ?? 0;
    const isIt = row => number[row] === packet && row < this.count && this.isPacket(row) && files[row] === wanted;
    const isBefore = row => files[row] < wanted || files[row] === wanted && number[row] < packet;
    let [least, most] = [0, this.count];
    while (least < most) {
      const middle = least + most >> 1;
      if (isBefore(middle))
        least = middle + 1;
      else
        most = middle;
    }
    // (lines of a text that were skipped have other numbers than packets)
    return isIt(least) ? least : number.findIndex((it, row) => isIt(row));
  }

  /** Nanoseconds since the first row that has a time, or undefined.
      @param {number} row */
  since(row) {
    if (!this.columns.digits[row])
      return;
    this.first ??= this.columns.digits.findIndex(it => it);
    return this.between(this.first, row);
  }

  /** Nanoseconds from one row's time to another's, or undefined.
      @param {number} first
      @param {number} row */
  between(first, row) {
    const { seconds, nanos, digits } = this.columns;
    if (digits[first] && digits[row])
      return (seconds[row] - seconds[first]) * 1e9 + nanos[row] - nanos[first];
  }

  /** The packet before a row's in its association, of those that have a time, or the row itself if it is the first.
      @param {number} row */
  previous(row) {
    const { association, digits } = this.columns;
    if (this.links.length < this.count) {
      const links = new Uint32Array(2 * this.count);
      links.set(this.links);
      this.links = links;
    }
    for (; this.linked < this.count; this.linked++) {
      const at = this.linked;
      this.links[at] = this.latest.get(association[at]) ?? at;
      if (this.isPacket(at) && digits[at])
        this.latest.set(association[at], at);
    }
    return this.links[row];
  }

  /** Nanoseconds from the packet before a row's in its association, or undefined.
      @param {number} row */
  silence(row) {
    const previous = this.previous(row);
    return previous === row ? undefined : this.between(previous, row);
  }

  /** A row's time as text, with all that is known: by UTC, and of a log the day, if it isn't the first.
      @param {number} row */
  wholeTime(row) {
    const { seconds, digits } = this.columns, day = Math.floor(seconds[row] / 86400);
    return digits[row] ? this.time(row, false) + (digits[row] & OF_DAY ? day ? `, day ${day + 1} of the log` : '' : ' UTC') : '';
  }

  /** A row's time as text, by a clock.
      @param {number} row
      @param {State['clock']} clock */
  timeBy(row, clock) {
    if (clock === 'previous')
      return this.silence(row) === undefined ? '' : this.difference(this.previous(row), row);
    return this.time(row, clock === 'since');
  }

  /** From one row's time to another's, as text with the digits of the other.
      @param {number} first
      @param {number} row */
  difference(first, row) {
    const { seconds, nanos } = this.columns;
    let whole = seconds[row] - seconds[first], part = nanos[row] - nanos[first];
    const sign = whole < 0 || whole === 0 && part < 0 ? '-' : '';
    if (sign)
      [whole, part] = [-whole, -part];
    if (part < 0)
      [whole, part] = [whole - 1, part + 1e9];
    return `${sign}${whole}${this.fraction(row, part)}`;
  }

  /** Nanoseconds as a fraction, with the digits of a row's time.
      @param {number} row
      @param {number} nanos */
  fraction(row, nanos) {
    const decimals = (this.columns.digits[row] & ~OF_DAY) - 1;
    return decimals ? `.${String(nanos).padStart(9, '0').slice(0, decimals)}` : '';
  }

  /** A row's time as text: since the first one, or as it is, by UTC.
      @param {number} row
      @param {boolean} isSince */
  time(row, isSince) {
    const { seconds, nanos, digits } = this.columns;
    if (!digits[row])
      return '';
    if (isSince) {
      this.first ??= digits.findIndex(it => it);
      return this.difference(this.first, row);
    }
    const two = it => String(Math.floor(it)).padStart(2, '0');
    const second = seconds[row], ofDay = (second % 86400 + 86400) % 86400;
    const clock = `${two(ofDay / 3600)}:${two(ofDay / 60 % 60)}:${two(ofDay % 60)}${this.fraction(row, nanos[row])}`;
    const date = new Date(second * 1000);
    return digits[row] & OF_DAY || Number.isNaN(date.getTime()) ? clock : `${date.toISOString().split('T')[0]} ${clock}`;
  }
}
