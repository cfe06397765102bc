// SPDX-License-Identifier: Apache-2.0
// Reads, checks, prints and writes SCTP packets (RFC 9260). davgyuti.d.ts says what each of these does.
'use strict';

// (`this` is a CommonJS module's exports; in a module of a browser it is undefined)
const {
  version, isLoaded, load, call, firstFaultOf, view, big, refuse, number, u16, u32, bigNumber, truth, record, isList, isBytes, Block, Struct,
  numbersOf, u16sIn, Result, Action, TagVerdict, Answer, InitFault, Refusal, CookieState, ChunkType, ParameterType, CauseCode,
  ReConfigResult, Rule, RESULT_TEXTS, RULE_TEXTS, DATA_FLAGS, LIST_OFFSETS, hasCauses, STRUCTS, CHUNK_NAMES, CHUNK_FIELDS,
  PARAMETER_NAMES, PARAMETER_FIELDS, CAUSE_NAMES, CAUSE_FIELDS, readChunkValue, readLists, contents, hasParameterFields,
  readParameter, hasCauseFields, readCause, writeParameter, writeCause, Kinds,
} = this ? { ...require('./library.js'), ...require('./kinds.js') } : globalThis[Symbol.for('davgyuti')];

const FIRST_CHUNK = 12;
const TAG_REFLECTED = 1;

const resultText = code => RESULT_TEXTS[number(code, 'u32', 'code')] ?? 'unknown result';

// (the name of a constant, as sctp_dump writes it)
const RULE_NAMES = new Map(Object.entries(Rule).map(([name, rule]) => [rule, name.toLowerCase().replace(/_/g, '-')]));

const ruleName = rule => RULE_NAMES.get(number(rule, 'u32', 'rule')) ?? 'unknown';
const ruleText = rule => RULE_TEXTS.get(number(rule, 'u32', 'rule')) ?? 'unknown';

/** A function that gives the name of a number; of one that has none, what it is and the number. */
const namer = (names, type, what, digits) => it =>
  names.get(number(it, type, what)) ?? `${what} ${it} (0x${it.toString(16).padStart(digits, '0')})`;

const chunkName = namer(CHUNK_NAMES, 'u8', 'chunk type', 2);
const parameterName = namer(PARAMETER_NAMES, 'u16', 'parameter type', 4);
const causeName = namer(CAUSE_NAMES, 'u16', 'cause code', 4);

const isKnownChunk = type => CHUNK_NAMES.has(type);
const isKnownParameter = type => PARAMETER_NAMES.has(type);
const isKnownCause = code => CAUSE_NAMES.has(code);

class Fault extends Error {
  constructor(code, offset) {
    super(`${resultText(code)} at byte ${offset}`);
    this.code = code;
    this.offset = offset;
  }

  get name() {
    return 'Fault';
  }
}

class WriteError extends Error {
  constructor(code, message = resultText(code)) {
    super(message);
    this.code = code;
  }

  get name() {
    return 'WriteError';
  }
}

// ---- the memory: where everything lies

const structs = Object.fromEntries(Object.entries(STRUCTS).map(([name, types]) => [name, new Struct(types)]));
// What a list in C has of numbers, and what a function writes.
const U16 = new Struct({ it: 'u16' });
const U64 = new Struct({ it: 'u64' });
const SIZE = new Struct({ it: 'size' });

// The bytes that are read; those that are written; the packet that is built; a struct that a function takes, and one that it writes;
// a list or a key.
const [input, output, packet, taken, answer, list] = Array.from({ length: 6 }, () => new Block());
// The packet of `read` that the input has.
let inInput = null;
const STRUCT = 128;
const NOTHING = new Uint8Array(0);

function reserve(block, size) {
  if (!block.reserve(size))
    throw new WriteError(Result.NO_MEMORY);
  return block.at;
}

/** Copies bytes into a block of the memory: the words for a pointer and its length. */
function put(block, bytes, name = 'bytes') {
  if (block === input)
    inInput = null;
  reserve(block, isBytes(bytes, name).length);
  block.put(bytes);
  return [block.at, big(bytes.length)];
}

/** The same of a list of structs, by what `values` gave. */
function putAll(block, struct, all) {
  if (block === input)
    inInput = null;
  reserve(block, all.length * struct.size);
  all.forEach((values, i) => struct.write(block.from + i * struct.size, values));
  return [block.at, big(all.length)];
}

const putNumbers = (block, struct, numbers) => putAll(block, struct, numbers.map(it => [it]));

/** Where a function takes a struct, or writes one. */
const place = block => reserve(block, STRUCT);

/** Where a struct lies that a function takes. */
function structOf(struct, object, name) {
  const values = struct.values(object, name), at = place(taken);
  struct.write(taken.from, values);
  return at;
}

// ---- reading a whole packet

/** A part of the caller's bytes, where they lie. */
const part = (bytes, offset, size) => new Uint8Array(bytes.buffer, bytes.byteOffset + offset, size);

/** What a checksum field has to be. `word` alone makes one: a packet's own field, passed as its word, would be right always. */
class Word {
  #number;

  constructor(number) {
    this.#number = number;
  }

  get number() {
    return this.#number;
  }

  static numberOf(it) {
    return Object(it) === it && #number in it ? it.#number : refuse(it, 'word', 'what `word` returned');
  }
}

/** How many of a packet's bytes are put into the memory: more than 65,535 are refused by their size, so at most one too many is copied. */
const sizeOf = bytes => Math.min(bytes.length, 65_536);

/** Puts a packet and a policy where the functions take them. Returns the packet's word: undefined where it has to be computed, as it is
    compared, or said. */
function asked(bytes, policy, isSaid = false) {
  const { anyChecksum = false, zeroChecksum = false, allowedZeroChecksum = false, strictPadding = false, word: given } =
    record(policy, 'policy');
  truth(anyChecksum, 'anyChecksum');
  truth(zeroChecksum, 'zeroChecksum');
  truth(strictPadding, 'strictPadding');
  truth(allowedZeroChecksum, 'allowedZeroChecksum');
  const word = given === undefined ? undefined : Word.numberOf(given);
  put(input, isBytes(bytes, 'bytes').length > 65_536 ? part(bytes, 0, 65_536) : bytes);
  const isZero = zeroChecksum || (allowedZeroChecksum && header(bytes)?.checksum === 0 && !needsChecksum(bytes));
  place(taken);
  // (at once: to write a struct by its fields takes longer than to check a short packet)
  view().setUint32(taken.from, anyChecksum | isZero << 8 | strictPadding << 16, true);
  return anyChecksum && !isSaid ? word ?? 0 : word;
}

function firstFault(bytes, policy = {}) {
  const word = asked(bytes, policy), code = firstFaultOf(input.at, big(sizeOf(bytes)), word, taken.at, place(answer));
  return code === Result.OK ? null : { code, offset: view().getUint32(answer.from, true) };
}

function check(bytes, policy = {}) {
  const fault = firstFault(bytes, policy);
  if (fault !== null)
    throw new Fault(fault.code, fault.offset);
}

/** The bytes that a function writes, where they lie. */
function written(name, bytes, policy) {
  const word = asked(bytes, policy, name === 'dcsctp_report'), at = place(answer), its = [input.at, big(sizeOf(bytes))];
  const words = [...its, word ?? call('dcsctp_word', ...its), taken.at];
  reserve(output, 4096);
  let code = call(name, ...words, output.at, BigInt(output.room), at);
  if (code === Result.NO_ROOM) {
    reserve(output, SIZE.read(answer.from).it);
    code = call(name, ...words, output.at, BigInt(output.room), at);
  }
  if (code !== Result.OK) {
    check(bytes, policy);
    throw new WriteError(code);
  }
  return output.bytes(0, SIZE.read(answer.from).it);
}

const utf8 = new TextDecoder('utf-8', { fatal: true, ignoreBOM: true });

const canonical = (bytes, policy = {}) => written('dcsctp_canonical', bytes, policy).slice();
const text = (bytes, policy = {}) => utf8.decode(written('dcsctp_print', bytes, policy));
const report = (bytes, policy = {}) => utf8.decode(written('dcsctp_report', bytes, policy));
const word = bytes => new Word(call('dcsctp_word', ...put(input, bytes)) >>> 0);

const CHECKSUMMED = [ChunkType.INIT, ChunkType.COOKIE_ECHO, ChunkType.ASCONF];
const REFLECTING = [ChunkType.ABORT, ChunkType.SHUTDOWN_COMPLETE];

function needsChecksum(bytes) {
  for (const { type, flags } of chunks(bytes)) {
    if (CHECKSUMMED.includes(type) || (REFLECTING.includes(type) && (flags & TAG_REFLECTED) !== 0))
      return true;
  }
  return false;
}

// ---- reading the parts of a packet

const HEADER = 4, MOST_READ = 65_535;

/** Bytes that are read. Each part of them has them, and views of them are made when they are asked for. */
const packetOf = (bytes, own = new DataView(bytes.buffer, bytes.byteOffset, bytes.length), shift = 0) =>
  ({ bytes, own, shift, buffer: null, base: 0 });

/** The view in which the bytes of a packet are, and where they begin in it: of one that `read` read the memory, while it has them.
    (To make a view takes longer than to read most chunks.) */
function viewOf(packet) {
  if (packet.own === null && (inInput !== packet || !input.isHeld))
    packet.own = new DataView(packet.bytes.buffer, packet.bytes.byteOffset, packet.bytes.length);
  return packet.own ?? view();
}
const fromOf = packet => (packet.own === null ? input.from : 0);

/** A view of a packet's bytes. (What is asked of them is kept, as to ask takes as long as to make the view.) */
function partOf(packet, offset, size) {
  if (size === 0)
    return NOTHING;
  if (packet.buffer === null) {
    packet.buffer = packet.bytes.buffer;
    packet.base = packet.bytes.byteOffset;
  }
  return new Uint8Array(packet.buffer, packet.base + offset, size);
}

/** Two numbers of 16 bits as one: so has each offset and size in a packet. What is read is kept in few words, as a packet can have
    16,380 chunks. */
const both = (high, low) => high << 16 | low;
const high = it => it >>> 16;
const low = it => it & 0xffff;

/** Reads the lists of a chunk into an object, which may be its own. (A private method would have esbuild 0.17 make all private fields
    slow.) */
let fillLists;
/** What chunks have by their types. */
let getters;

/** A chunk that was read: where it is, what its value says, and the packet, whose `bytes` are the caller's. */
class Chunk {
  #packet;
  #kind;
  #place;
  #content;

  static {
    const of = (chunk, one, other) => {
      const type = chunk.#kind & 0xff;
      return (type === one || type === other) && chunk.#content !== null ? chunk.#content : undefined;
    };
    const bytesOf = (chunk, from) => partOf(chunk.#packet, high(chunk.#place) + from, low(chunk.#place) - from);
    fillLists = (chunk, it, to) =>
      readLists(chunk.type, it, to, viewOf(chunk.#packet), fromOf(chunk.#packet) + high(chunk.#place));
    getters = Object.getOwnPropertyDescriptors(contents(of, bytesOf, fillLists));
  }

  constructor(packet, memory, from, offset, end) {
    const head = memory.getInt32(from + offset), type = head >>> 24, flags = head >> 16 & 0xff, size = low(head);
    const valueOffset = offset + HEADER, next = Math.min(offset + (size + 3 & ~3), end);
    this.#packet = packet;
    this.#kind = both(next, flags << 8 | type);
    this.#place = both(valueOffset, size - HEADER);
    this.#content = size === HEADER ? null : readChunkValue(memory, type, flags, from + valueOffset, from + offset + size);
  }

  get type() {
    return this.#kind & 0xff;
  }

  get name() {
    return chunkName(this.type);
  }

  get flags() {
    return low(this.#kind) >> 8;
  }

  get offset() {
    return high(this.#place) - HEADER;
  }

  get valueOffset() {
    return high(this.#place);
  }

  get next() {
    return high(this.#kind);
  }

  get value() {
    return partOf(this.#packet, high(this.#place), low(this.#place));
  }

  get bytes() {
    return partOf(this.#packet, this.offset, HEADER + low(this.#place));
  }

  /** Reads a SACK into an object of the caller's; returns whether it is one whose lists weren't read before. */
  static fillSack(chunk, sack) {
    const it = chunk.#content;
    if (chunk.type !== ChunkType.SACK || typeof it?.blocks !== 'number')
      return false;
    sack.cumulativeTsnAck = it.cumulativeTsnAck;
    sack.aRwnd = it.aRwnd;
    fillLists(chunk, it, sack);
    return true;
  }

  /** Its parameters or error causes. */
  static items(chunk, isCause) {
    const at = high(chunk.#place), size = low(chunk.#place);
    return itemsIn(chunk.#packet, at + (LIST_OFFSETS.get(chunk.type) ?? size), at + size, isCause);
  }

  static is(chunk) {
    return #packet in chunk;
  }
}
// (in a static block esbuild 0.17 and Rollup mistake both `Chunk` and `this`)
Object.defineProperties(Chunk.prototype, getters);
const CONTENTS = Object.keys(getters);

/** The parameters or error causes between two places, up to the first that isn't whole. */
function itemsIn(packet, at, end, isCause) {
  const its = viewOf(packet), from = fromOf(packet), all = [];
  for (let next; at + HEADER <= end; at = next) {
    const head = its.getInt32(from + at), type = high(head), size = low(head) - HEADER;
    if (size < 0 || at + HEADER + size > end)
      break;
    next = Math.min(at + (HEADER + size + 3 & ~3), end);
    const item = new Item(packet, type, at + HEADER, size, next, isCause);
    // (to call them of all takes longer than to make the item)
    if (isCause ? hasCauseFields(type) : hasParameterFields(type))
      (isCause ? readCause : readParameter)(item, its, type, from + at + HEADER, from + at + HEADER + size);
    all.push(item);
  }
  return all;
}

/** A parameter or an error cause that was read. What it has besides its value is its own. */
class Item {
  #packet;
  #kind;
  #place;
  #isCause;

  constructor(packet, type, valueOffset, valueSize, next, isCause) {
    this.#packet = packet;
    this.#kind = both(next, type);
    this.#place = both(valueOffset, valueSize);
    this.#isCause = isCause;
  }

  get type() {
    return this.#isCause ? undefined : low(this.#kind);
  }

  get code() {
    return this.#isCause ? low(this.#kind) : undefined;
  }

  get name() {
    return (this.#isCause ? causeName : parameterName)(low(this.#kind));
  }

  get offset() {
    return high(this.#place) - HEADER + this.#packet.shift;
  }

  get next() {
    return high(this.#kind) + this.#packet.shift;
  }

  get value() {
    return partOf(this.#packet, high(this.#place), low(this.#place));
  }

  get bytes() {
    return partOf(this.#packet, high(this.#place) - HEADER, HEADER + low(this.#place));
  }
}

// ---- what is shown of it, and written in JSON

/** What is in JSON of a value, where bytes are hexadecimal. */
function inJson(it) {
  if (ArrayBuffer.isView(it))
    return Array.from(it, byte => byte.toString(16).padStart(2, '0')).join('');
  if (Array.isArray(it))
    return it.map(inJson);
  return Object(it) === it ? it.toJSON?.() ?? Object.fromEntries(Object.entries(it).map(([name, each]) => [name, inJson(each)])) : it;
}

/** Gives the objects of a class what JSON and node's inspection ask for: `fieldsOf` has their fields. */
const show = ({ prototype }, nameOf, fieldsOf) => Object.defineProperties(prototype, {
  toJSON: { value() { return inJson(fieldsOf(this)); } },
  [Symbol.for('nodejs.util.inspect.custom')]: {
    value(depth, options, inspect) { return `${nameOf(this)} ${inspect(fieldsOf(this), { ...options, depth })}`; },
  },
});

/** Of what a part may hold that which is there, or else its value. */
function heldBy(part, names, items = {}) {
  const held = { ...Object.fromEntries(names.filter(name => part[name] !== undefined).map(name => [name, part[name]])), ...items };
  return Object.keys(held).length > 0 ? held : { value: part.value };
}

show(Chunk, () => 'Chunk', chunk => {
  const { type, name, flags, offset, next } = chunk, isCause = hasCauses(type), items = Chunk.items(chunk, isCause);
  const list = items.length > 0 ? { [isCause ? 'causes' : 'parameters']: items } : {};
  return { type, name, flags, offset, next, ...heldBy(chunk, CONTENTS, list) };
});

show(Word, () => 'Word', ({ number }) => ({ number }));

show(Item, ({ code }) => (code === undefined ? 'Parameter' : 'Cause'), item => {
  const { type, code, name, offset, next } = item;
  return { ...(code === undefined ? { type } : { code }), name, offset, next, ...heldBy(item, Object.keys(item)) };
});

const headerIn = (memory, from) => ({
  sourcePort: memory.getUint16(from),
  destinationPort: memory.getUint16(from + 2),
  verificationTag: memory.getUint32(from + 4),
  checksum: memory.getUint32(from + 8),
});

const header = bytes => (isBytes(bytes, 'bytes').length < FIRST_CHUNK ? null : headerIn(packetOf(bytes).own, 0));

function read(bytes, policy = {}) {
  check(bytes, policy);
  const memory = view(), from = input.from, end = bytes.length, packet = packetOf(bytes, null);
  const first = new Chunk(packet, memory, from, FIRST_CHUNK, end);
  inInput = packet;
  return { header: headerIn(memory, from), chunks: first.next < end ? allFrom(first, packet, memory, from, end) : [first] };
}

/** All chunks of a packet that was accepted, as it lies in the memory: each length is right. (To have an array grow takes as long as to
    make the chunks, and to make one of a size longer than one of one chunk.) */
function allFrom(first, packet, memory, from, end) {
  let count = 1;
  for (let at = first.next; at < end; count++)
    at += memory.getUint16(from + at + 2) + 3 & ~3;
  const all = new Array(count);
  all[0] = first;
  for (let i = 1; i < count; i++)
    all[i] = new Chunk(packet, memory, from, all[i - 1].next, end);
  return all;
}

/** The chunks from a place of a packet's bytes on, up to the first that isn't whole, each as it is asked for. */
function* chunksFrom(at, packet) {
  const end = Math.min(packet.bytes.length, MOST_READ);
  while (at + HEADER <= end) {
    const size = packet.own.getUint16(at + 2);
    if (size < HEADER || at + size > end)
      return;
    const chunk = new Chunk(packet, packet.own, 0, at, end);
    yield chunk;
    at = chunk.next;
  }
}

const chunks = bytes => chunksFrom(FIRST_CHUNK, packetOf(isBytes(bytes, 'bytes')));

/** The chunk that bytes begin with, if it is whole. */
const firstChunk = bytes => chunksFrom(0, packetOf(bytes)).next().value;

/** A builder of what is read again, without its packet. */
const bare = () => new Builder({ sourcePort: 0, destinationPort: 0, verificationTag: 0 });

function readSack(chunk, sack) {
  record(sack, 'sack');
  if (Chunk.is(record(chunk, 'chunk')) && Chunk.fillSack(chunk, sack))
    return sack;
  const it = chunk.sack;
  return it === undefined ? undefined : readSack(bare().addSack(it).lastChunk(), sack);
}

function readChunk(bytes) {
  const { length } = isBytes(bytes, 'bytes'), chunk = firstChunk(bytes), end = chunk?.next ?? Math.min(length, 65_536);
  const packet = new Uint8Array(FIRST_CHUNK + end);
  packet.set(bytes.subarray(0, end), FIRST_CHUNK);
  const fault = firstFault(packet, { anyChecksum: true });
  if (fault)
    throw new Fault(fault.code, fault.offset - FIRST_CHUNK);
  if (end < length)
    throw new Fault(Result.FAULT_LENGTH, end);
  return chunk;
}

const dataFlags = data => Object.entries(DATA_FLAGS).reduce((flags, [name, bit]) =>
  flags | (truth(record(data, 'data')[name] ?? false, name) ? bit : 0), 0);

function withFlags(data, flags) {
  number(flags, 'u8', 'flags');
  const bits = Object.entries(DATA_FLAGS).map(([name, bit]) => [name, (flags & bit) !== 0]);
  return { ...record(data, 'data'), ...Object.fromEntries(bits) };
}

/** A value that is read alone, without its packet, in which it begins at a place. */
const alone = (value, base) => packetOf(isBytes(value, 'value').subarray(0, MOST_READ), undefined, base);

/** The parameters or error causes of a chunk that is an object of the caller's: of its value alone. */
function itemsOf({ type, value, valueOffset }, isCause) {
  const packet = alone(value, number(valueOffset, 'size', 'valueOffset')), { length } = packet.bytes;
  return itemsIn(packet, LIST_OFFSETS.get(number(type, 'u8', 'type')) ?? length, length, isCause);
}

const lister = isCause => chunk =>
  (hasCauses(record(chunk, 'chunk').type) === isCause ? (Chunk.is(chunk) ? Chunk.items : itemsOf)(chunk, isCause) : []).values();

const parameters = lister(false);
const causes = lister(true);

/** A parameter or an error cause of a type and a value, or of the fields of one. */
function itemOf(isCause, type, value, name) {
  let bytes = NOTHING;
  number(type, 'u16', name);
  if (ArrayBuffer.isView(value)) {
    const size = HEADER + isBytes(value, 'value').length;
    if (size > 65_535)
      throw new WriteError(Result.BAD_VALUE);
    bytes = new Uint8Array(size);
    bytes.set([type >> 8, type & 255, size >> 8, size & 255]);
    bytes.set(value, HEADER);
  } else {
    const isRegistered = (isCause ? CAUSE_FIELDS : PARAMETER_FIELDS).has(type);
    const call = `add${isRegistered ? 'Registered' : ''}${isCause ? 'Cause' : 'Parameter'}`;
    bytes = bare().addChunk(ChunkType.ERROR)[call](type, value).lastChunk().value;
  }
  return itemsIn(packetOf(bytes), 0, bytes.length, isCause)[0];
}

const parameter = (type, value = NOTHING) => itemOf(false, type, value, 'type');
const cause = (code, value = NOTHING) => itemOf(true, code, value, 'code');

// ---- the rest of IANA's registry

/** A value whose fields a function reads of the words for it; null where they aren't there. It begins at a place of its packet. */
function registeredOf(fields, name, value, base, words, isChunk) {
  if (!fields || !call(name, ...words, place(answer)))
    return null;
  const it = structs.registered.read(answer.from), end = it.restOffset + it.restSize;
  const read = isChunk ? { flags: it.flags } : {};
  for (const [name, form, ...names] of fields) {
    switch (form) {
      case 'u32':
      case 'u16':
        read[name] = names.length === 1 ? it[names[0]] : names.map(each => it[each]);
        break;
      case 'address':
        read.addressBytes = part(value, it.addressOffset, it.addressSize);
        read[name] = addressText(read.addressBytes);
        break;
      case 'parameters':
      case 'causes':
        read[name] = itemsIn(alone(value, base), it.restOffset, end, form === 'causes');
        break;
      case 'shorts':
        read[name] = u16sIn(packetOf(value).own, it.restOffset, it.restSize >> 1);
        break;
      default:
        read[name] = part(value, it.restOffset, it.restSize);
    }
  }
  return read;
}

/** A function that reads what a chunk, a parameter or an error cause holds, by its type or code. */
const reader = (what, key, width, fields, name) => (given, type = record(given, what)[key]) => {
  if (record(given, what)[key] !== type)
    return null;
  const { flags, value, valueOffset, offset } = given, size = isBytes(value, 'value').length, isChunk = what === 'chunk';
  const base = isChunk ? number(valueOffset, 'size', 'valueOffset') : number(offset, 'size', 'offset') + HEADER;
  number(type, width, key);
  const words = [...put(input, value), place(taken)];
  if (isChunk)
    structs.chunk.write(taken.from, [type, number(flags, 'u8', 'flags'), 0, size, size]);
  else
    structs.parameter.write(taken.from, [type, 0, size, size]);
  return registeredOf(fields.get(type), name, value, base, words, isChunk);
};

const registeredChunk = reader('chunk', 'type', 'u8', CHUNK_FIELDS, 'dcsctp_registered_chunk');
const registeredParameter = reader('parameter', 'type', 'u16', PARAMETER_FIELDS, 'dcsctp_registered_parameter');
const registeredCause = reader('cause', 'code', 'u16', CAUSE_FIELDS, 'dcsctp_registered_cause');

function addresses(items) {
  const types = [ParameterType.IPV4_ADDRESS, ParameterType.IPV6_ADDRESS];
  return Array.from(items, it => types.includes(record(it, 'a parameter').type) ? registeredParameter(it)?.address : undefined)
    .filter(it => it !== undefined);
}

/** The text of an address's octets: in IPv6 as RFC 5952 has it, which is how URLs are written. */
function addressText(octets) {
  if (octets.length === 4)
    return octets.join('.');
  const groups = Array.from({ length: 8 }, (_, i) => (octets[2 * i] << 8 | octets[2 * i + 1]).toString(16));
  return new URL(`http://[${groups.join(':')}]`).hostname.slice(1, -1);
}

/** The octets of an address that is text or bytes; refuses what is none. */
function addressOf(address, name) {
  if (typeof address !== 'string')
    return isBytes(address, name);
  const octets = address.split('.').map(Number);
  if (octets.length === 4 && octets.every(it => it < 256) && octets.join('.') === address)
    return Uint8Array.from(octets);
  let host = null;
  try {
    host = new URL(`http://[${address.replace(/[^0-9a-f:.]/gi, '%')}]`).hostname.slice(1, -1);
  } catch {
    refuse(address, name, 'an address');
  }
  const [front, back] = host.split('::').map(it => (it === '' ? [] : it.split(':')));
  const groups = back === undefined ? front : [...front, ...Array(8 - front.length - back.length).fill('0'), ...back];
  return Uint8Array.from(groups.map(it => parseInt(it, 16)).flatMap(it => [it >> 8, it & 255]));
}

/** The bytes of items one after the other, each with its padding up to a multiple of 4, but the last one; none after more than a chunk
    has room for. */
function joined(items, name) {
  const all = [];
  let size = 0;
  for (const it of isList(items, name)) {
    const bytes = isBytes(record(it, `an item of ${name}`).bytes, 'bytes'), at = size + 3 & ~3;
    all.push([bytes, at]);
    size = at + bytes.length;
    if (size > 65_535)
      break;
  }
  const whole = new Uint8Array(size);
  all.forEach(([bytes, at]) => whole.set(bytes, at));
  return whole;
}

/** What a function takes of the fields of a value: the values of its struct, and the bytes that the address and the rest lie in. */
function registeredValues(fields, given, isChunk) {
  const { flags = 0 } = record(given, 'fields');
  const it = Object.fromEntries(structs.registered.fields.map(({ name }) => [name, 0]));
  let address = NOTHING, rest = NOTHING;
  for (const [name, form, ...names] of fields) {
    const value = given[name];
    switch (form) {
      case 'u32':
      case 'u16': {
        const all = names.length === 1 ? [value] : numbersOf(value, name, each => each, names.length);
        names.forEach((each, i) => { it[each] = number(all[i], form, name); });
        break;
      }
      case 'address':
        address = addressOf(value, name);
        break;
      case 'parameters':
      case 'causes':
        rest = joined(value ?? [], name);
        break;
      case 'shorts':
        rest = Uint8Array.from(numbersOf(value ?? [], name, u16).flatMap(each => [each >> 8, each & 255]));
        break;
      default:
        rest = isBytes(value ?? NOTHING, name);
    }
  }
  if (isChunk)
    it.flags = number(flags, 'u8', 'flags');
  Object.assign(it, { addressSize: address.length, restOffset: address.length, restSize: rest.length });
  const bytes = new Uint8Array(address.length + rest.length);
  bytes.set(address);
  bytes.set(rest, address.length);
  return [it, bytes];
}

// ---- changing a packet in place

function changed(bytes, name, ...words) {
  const code = call(name, ...put(input, bytes), ...words);
  if (code !== Result.OK)
    throw new WriteError(code, 'fewer than 12 bytes');
  bytes.set(input.bytes(0, bytes.length));
  return bytes;
}

const seal = bytes => changed(bytes, 'dcsctp_seal');
const setTag = (bytes, verificationTag) =>
  changed(bytes, 'dcsctp_set_tag', number(verificationTag, 'u32', 'verificationTag'));

// ---- writing a packet

const MOST = 65_532;
const utf8Bytes = new TextEncoder();

/** The bytes of a value that has to be text in UTF-8. */
function textBytes(text, name) {
  const isText = typeof text === 'string', bytes = isText ? utf8Bytes.encode(text) : isBytes(text, name);
  try {
    // (of half a surrogate pair the encoder makes something else)
    if (isText ? !/\p{Surrogate}/u.test(text) : utf8.decode(bytes) !== null)
      return bytes;
  } catch {
    // It isn't UTF-8.
  }
  throw new WriteError(Result.BAD_VALUE);
}

/** A packet that is written: its bytes, of which it has `size`, and where its chunks begin. */
class Output {
  bytes = NOTHING;
  view = null;
  size = 0;
  starts = [];

  constructor(room) {
    this.room = room;
  }

  /** Has a new size from now on. */
  resize(size) {
    if (size > this.room)
      throw new WriteError(Result.NO_ROOM);
    if (size > this.bytes.length) {
      // (less takes as long to make, and has to grow)
      const bytes = new Uint8Array(Math.min(Math.max(2 * size, 512), this.room));
      bytes.set(this.bytes);
      this.bytes = bytes;
      this.view = new DataView(bytes.buffer);
    }
    this.size = size;
  }

  /** Adds bytes that begin with a header, and are part of a chunk: returns where what follows the header lies. */
  #add(start, word, size) {
    const at = this.size;
    if (at + size - start > 65_535)
      this.refuse();
    this.resize(at + (size + 3 & ~3));
    this.view.setInt32(at, word << 16 | size);
    this.view.setUint16(start + 2, at + size - start);
    this.bytes.fill(0, at + size, this.size);
    return at + HEADER;
  }

  chunk(type, flags, valueSize) {
    const start = this.size, at = this.#add(start, type << 8 | flags, HEADER + valueSize);
    this.starts.push(start);
    return at;
  }

  item(type, valueSize) {
    const start = this.starts.at(-1);
    if (start === undefined)
      throw new WriteError(Result.BAD_PLACE, 'no chunk to add to');
    return this.#add(start, type, HEADER + valueSize);
  }

  /** Adds a chunk whose list has this. */
  around(chunk, flags, type, value) {
    const at = this.chunk(chunk, flags, HEADER + value.length);
    this.view.setInt32(at, type << 16 | HEADER + value.length);
    this.bytes.set(value, at + HEADER);
  }

  refuse() {
    throw new WriteError(Result.BAD_VALUE);
  }
}

const INIT_NUMBERS = LIST_OFFSETS.get(ChunkType.INIT);

/** The parameters of a chunk, as they lie in its value, and where they begin in its packet. */
function listOf(chunk, name) {
  const { type, value, valueOffset } = record(chunk, name), { length } = isBytes(value, 'value');
  const from = Math.min(LIST_OFFSETS.get(type) ?? length, length);
  return [value.subarray(from), number(valueOffset, 'size', 'valueOffset') + from];
}

/** Where a program stops that reports what it doesn't know, as an offset of what it looked at; null where it stops at nothing. */
function stopOf(bytes, base) {
  const end = SIZE.read(answer.from).it;
  return end < bytes.length ? base + end : null;
}

class Builder extends Kinds {
  #out;

  constructor(options) {
    const { sourcePort, destinationPort, verificationTag, room = MOST } = record(options, 'options');
    const out = new Output(Math.min(number(room, 'size', 'room'), MOST));
    super(out);
    this.#out = out;
    this.#begin(sourcePort, destinationPort, verificationTag);
  }

  #begin(sourcePort, destinationPort, verificationTag) {
    const out = this.#out;
    u16(sourcePort, 'sourcePort');
    u16(destinationPort, 'destinationPort');
    u32(verificationTag, 'verificationTag');
    out.resize(FIRST_CHUNK);
    out.view.setUint16(0, sourcePort);
    out.view.setUint16(2, destinationPort);
    out.view.setUint32(4, verificationTag);
    out.starts.length = 0;
    return this;
  }

  reset(options = {}) {
    const { view } = this.#out;
    const { sourcePort = view.getUint16(0), destinationPort = view.getUint16(2), verificationTag = view.getUint32(4) } = record(options, 'options');
    return this.#begin(sourcePort, destinationPort, verificationTag);
  }

  get size() {
    return this.#out.size;
  }

  get room() {
    return this.#out.room;
  }

  /** Has the library add to the packet; returns where what it added begins. */
  #ask(name, ...words) {
    const out = this.#out, old = out.size;
    reserve(packet, out.room);
    packet.put(out.bytes.subarray(0, old));
    const at = place(taken);
    SIZE.write(taken.from, [old]);
    const code = call(name, packet.at, big(out.room), at, ...words);
    if (code !== Result.OK)
      throw new WriteError(code);
    out.resize(SIZE.read(taken.from).it);
    out.bytes.set(packet.bytes(0, out.size));
    return old;
  }

  /** The same of what may add a chunk. */
  #askChunk(name, ...words) {
    const start = this.#ask(name, ...words);
    if (this.size > start)
      this.#out.starts.push(start);
    return this;
  }

  /** The same of what adds to the list of the last chunk. */
  #askItem(name, ...words) {
    const start = this.#out.starts.at(-1);
    if (start === undefined)
      throw new WriteError(Result.BAD_PLACE, 'no chunk to add to');
    this.#ask(name, big(start), ...words);
    return this;
  }

  addChunk(type, flags = 0, value = NOTHING) {
    number(type, 'u8', 'type');
    number(flags, 'u8', 'flags');
    const at = this.#out.chunk(type, flags, isBytes(value, 'value').length);
    this.#out.bytes.set(value, at);
    return this;
  }

  addHeartbeat(info) {
    this.#out.around(ChunkType.HEARTBEAT, 0, ParameterType.HEARTBEAT_INFO, isBytes(info, 'info'));
    return this;
  }

  addHeartbeatAck(info) {
    this.#out.around(ChunkType.HEARTBEAT_ACK, 0, ParameterType.HEARTBEAT_INFO, isBytes(info, 'info'));
    return this;
  }

  addAbort(reason = '', options = {}) {
    const { tagReflected = false } = record(options, 'options'), flags = truth(tagReflected, 'tagReflected') ? TAG_REFLECTED : 0;
    this.#out.around(ChunkType.ABORT, flags, CauseCode.USER_INITIATED_ABORT, textBytes(reason, 'reason'));
    return this;
  }

  #addItem(write, type, value) {
    if (ArrayBuffer.isView(value) || !write(this.#out, type, value)) {
      const at = this.#out.item(type, isBytes(value, 'value').length);
      this.#out.bytes.set(value, at);
    }
    return this;
  }

  addParameter(type, value = NOTHING) {
    return this.#addItem(writeParameter, u16(type, 'type'), value);
  }

  addCause(code, value = NOTHING) {
    return this.#addItem(writeCause, u16(code, 'code'), value);
  }

  /** The words for the type and the fields of a value. */
  #registered(fields, type, given) {
    const [it, bytes] = registeredValues(fields.get(type) ?? [], given, fields === CHUNK_FIELDS), at = place(answer);
    structs.registered.write(answer.from, structs.registered.values(it));
    return [type, at, ...put(input, bytes)];
  }

  addRegisteredChunk(type, fields) {
    return this.#askChunk('dcsctp_add_registered_chunk', ...this.#registered(CHUNK_FIELDS, number(type, 'u8', 'type'), fields));
  }

  addRegisteredParameter(type, fields) {
    return this.#askItem('dcsctp_add_registered_parameter', ...this.#registered(PARAMETER_FIELDS, u16(type, 'type'), fields));
  }

  addRegisteredCause(code, fields) {
    return this.#askItem('dcsctp_add_registered_cause', ...this.#registered(CAUSE_FIELDS, u16(code, 'code'), fields));
  }

  addAddresses(addresses) {
    for (const address of addresses)
      this.addRegisteredParameter(`${address}`.includes(':') ? ParameterType.IPV6_ADDRESS : ParameterType.IPV4_ADDRESS, { address });
    return this;
  }

  addUnrecognizedParameters(init, known) {
    const types = numbersOf(known, 'known', u16, Infinity), { value, valueOffset } = record(init, 'init');
    const base = number(valueOffset, 'size', 'valueOffset'), bytes = isBytes(value, 'value').subarray(INIT_NUMBERS);
    this.#askItem('dcsctp_add_unrecognized_parameters', ...put(input, bytes), ...putNumbers(output, U16, types), place(answer));
    return stopOf(bytes, base + INIT_NUMBERS);
  }

  addUnrecognizedParametersError(chunk, known) {
    const types = numbersOf(known, 'known', u16, Infinity), [bytes, base] = listOf(chunk, 'chunk');
    const words = [...put(input, bytes), ...putNumbers(output, U16, types), place(answer)];
    this.#askChunk('dcsctp_add_unrecognized_parameters_error', ...words);
    return stopOf(bytes, base);
  }

  addUnrecognizedChunks(bytes, known) {
    const types = Uint8Array.from(numbersOf(known, 'known', (it, name) => number(it, 'u8', name), Infinity));
    this.#askChunk('dcsctp_add_unrecognized_chunks', ...put(input, bytes), ...put(output, types), place(answer));
    return stopOf(bytes, 0);
  }

  addNewAddresses(init, known) {
    const [bytes] = listOf(init, 'init');
    return this.#askItem('dcsctp_add_new_addresses', ...put(input, bytes), ...put(output, known, 'known'));
  }

  removeLast() {
    if (this.#out.starts.length === 0)
      throw new WriteError(Result.BAD_PLACE, 'no chunk to remove');
    this.#out.size = this.#out.starts.pop();
    return this;
  }

  lastChunk() {
    const { bytes, size, starts } = this.#out;
    return starts.length === 0 ? null : firstChunk(bytes.slice(starts.at(-1), size));
  }

  finish(options = {}) {
    const { checksum = true } = record(options, 'options'), isSealed = truth(checksum, 'checksum');
    const bytes = this.#out.bytes.slice(0, this.size);
    return isSealed ? seal(bytes) : bytes;
  }
}

show(Builder, () => 'Builder', builder => {
  const { size, room } = builder, bytes = builder.finish({ checksum: false }), { checksum, ...fields } = header(bytes);
  return { ...fields, size, room, chunks: Array.from(chunks(bytes)) };
});

// ---- what is asked of whoever receives a packet

const unrecognizedChunk = type => call('dcsctp_unrecognized_chunk', number(type, 'u8', 'type'));
const unrecognizedParameter = type => call('dcsctp_unrecognized_parameter', number(type, 'u16', 'type'));
const actionReports = action => [Action.STOP_AND_REPORT, Action.SKIP_AND_REPORT].includes(number(action, 'u32', 'action'));
const actionSkips = action => [Action.SKIP, Action.SKIP_AND_REPORT].includes(number(action, 'u32', 'action'));

function verifyTag(bytes, association) {
  const at = structOf(structs.association, association, 'association');
  return call('dcsctp_verify_tag', ...put(input, bytes), at);
}

/** What may be left out of what is known. */
const NOTHING_KNOWN = { refusesZero: false, hasData: false, hasIData: false };

function brokenRules(bytes, known = {}) {
  const at = structOf(structs.known, { ...NOTHING_KNOWN, ...record(known, 'known') });
  const bits = call('dcsctp_broken_rules', ...put(input, bytes), at);
  return Object.values(Rule).filter(it => bits & it);
}

const bit = (value, name) => (truth(value, name) ? 1 : 0);
const outOfTheBlue = (bytes, isUnicast) => call('dcsctp_out_of_the_blue', ...put(input, bytes), bit(isUnicast, 'isUnicast'));
const initFault = (bytes, isAck) => call('dcsctp_init_fault', ...put(input, bytes), bit(isAck, 'isAck'));
const initRefusal = (fault, isAck, inCookieWait) =>
  call('dcsctp_init_refusal', number(fault, 'u32', 'fault'), bit(isAck, 'isAck'), bit(inCookieWait, 'inCookieWait'));

/** What a function writes into so many bytes at most. */
function made(most, name, ...words) {
  const at = place(answer), code = call(name, reserve(output, most), big(most), at, ...words);
  if (code !== Result.OK)
    throw new WriteError(code);
  return output.bytes(0, SIZE.read(answer.from).it).slice();
}

function reply(header, answer) {
  number(answer, 'u32', 'answer');
  return made(16, 'dcsctp_reply', structOf(structs.header, header, 'header'), answer);
}

function initAbort(header, initiateTag, fault) {
  number(initiateTag, 'u32', 'initiateTag');
  number(fault, 'u32', 'fault');
  return made(28, 'dcsctp_init_abort', structOf(structs.header, header, 'header'), initiateTag, fault);
}

const addsAddresses = (init, known) =>
  call('dcsctp_adds_addresses', ...put(input, listOf(init, 'init')[0]), ...put(list, known, 'known')) !== 0;

// ---- what is authenticated, under keys of yours

const isListed = (chunkList, type) =>
  call('dcsctp_is_listed', ...put(input, chunkList, 'chunkList'), number(type, 'u8', 'type')) !== 0;

function sharedKey(pairKey, one, other) {
  const words = [...put(input, pairKey, 'pairKey'), ...put(list, one, 'one'), ...put(packet, other, 'other')];
  return made(pairKey.length + one.length + other.length, 'dcsctp_shared_key', ...words);
}

const verifyAuth = (key, bytes) => call('dcsctp_verify_auth', ...put(list, key, 'key'), ...put(input, bytes)) !== 0;

function signAuth(key, bytes) {
  if (!call('dcsctp_sign_auth', ...put(list, key, 'key'), ...put(input, bytes)))
    throw new WriteError(Result.BAD_VALUE, 'no AUTH whose HMAC can be written');
  bytes.set(input.bytes(0, bytes.length));
  return bytes;
}

function sealCookie(key, cookie) {
  const whole = { localTieTag: 0, peerTieTag: 0, extra: NOTHING, ...record(cookie, 'cookie'), extraOffset: 0, extraSize: 0 };
  const most = 80 + isBytes(whole.extra, 'extra').length, at = structOf(structs.cookie, whole);
  return made(most, 'dcsctp_seal_cookie', ...put(input, key, 'key'), at, ...put(list, whole.extra));
}

function openCookie(key, bytes, now) {
  bigNumber(now, 'now');
  const words = [...put(list, key, 'key'), ...put(input, bytes), now];
  const state = call('dcsctp_open_cookie', ...words, place(taken), place(answer));
  if (state === CookieState.INVALID)
    return { state };
  const { extraOffset, extraSize, ...numbers } = structs.cookie.read(taken.from);
  const cookie = { ...numbers, extra: part(bytes, extraOffset, extraSize) };
  return state === CookieState.GOOD ? { state, cookie } : { state, cookie, staleness: U64.read(answer.from).it };
}

// ---- the blocks of a SACK that is to be sent

function cleanBlocks(blocks) {
  const { gapAckBlock } = structs, values = Array.from(isList(blocks, 'blocks'), it => gapAckBlock.values(it, 'an item of blocks'));
  const count = Number(call('dcsctp_clean_blocks', ...putAll(input, gapAckBlock, values)));
  return Array.from({ length: count }, (_, i) => gapAckBlock.read(input.from + i * gapAckBlock.size));
}

// ---- the WebAssembly

const versionNumber = () => call('dcsctp_version_number') >>> 0;

async function init(wasm) {
  const given = await wasm;
  if (isLoaded())
    return;
  if (given?.ok === false)
    throw new Error(`${given.url}: ${given.status} ${given.statusText}`);
  const code = typeof given?.arrayBuffer === 'function' ? await given.arrayBuffer() : given;
  // (of a module it gives the instance alone)
  const made = await WebAssembly.instantiate(code);
  load(made.module ?? code, made.instance ?? made);
}

const davgyuti = {
  init, version, versionNumber, Result, FIRST_CHUNK, ChunkType, TAG_REFLECTED, ParameterType, CauseCode, ReConfigResult, resultText,
  chunkName, parameterName, causeName, isKnownChunk, isKnownParameter, isKnownCause, Fault, WriteError, check, firstFault, canonical, text, report,
  word, needsChecksum, header, chunks, read, readSack, readChunk, dataFlags, withFlags, parameters, parameter, causes, cause,
  registeredChunk, registeredParameter, registeredCause, addresses, seal, setTag, Builder, cleanBlocks, Action, unrecognizedChunk,
  unrecognizedParameter, actionReports, actionSkips, TagVerdict, verifyTag, Answer, outOfTheBlue, reply, InitFault, initFault, Refusal,
  initRefusal, initAbort, addsAddresses, Rule, ruleName, ruleText, brokenRules, isListed, sharedKey, verifyAuth, signAuth, sealCookie,
  CookieState, openCookie,
};
if (this)
  module.exports = davgyuti;
else
  globalThis[Symbol.for('davgyuti')] = davgyuti;
