// SPDX-License-Identifier: Apache-2.0
// The repository's registry/vectors: bytes, and what they mean. VECTORS names one more file of kinds.
import assert from 'node:assert/strict';
import { readFileSync } from 'node:fs';
import { test } from 'node:test';
import * as davgyuti from 'davgyuti';

const { Builder, CauseCode, ChunkType, FIRST_CHUNK, ParameterType, Result, causes, chunks, parameters, read } = davgyuti;
const PORTS = { sourcePort: 5000, destinationPort: 5001, verificationTag: 0x01020304 };
const ANY = { anyChecksum: true };
const hex = bytes => Buffer.from(bytes.buffer, bytes.byteOffset, bytes.length).toString('hex');
const bytes = text => Uint8Array.from(Buffer.from(text, 'hex'));
const packetOf = text => bytes(`138813890102030400000000${text}`);
const camel = name => name.replace(/_(\w)/g, (_, letter) => letter.toUpperCase());
const linesOf = file => readFileSync(file, 'utf8').trimEnd().split('\n').map(it => [it, JSON.parse(it)]);
const ours = name => linesOf(new URL(`../../../registry/vectors/${name}.jsonl`, import.meta.url));

/** Compares each line of a file in a way; the first that differs is named. */
function compare(lines, way) {
  assert.ok(lines.length > 0);
  for (const [line, it] of lines) {
    try {
      way(it);
    } catch (error) {
      error.message = `${line}\n${error.message}`;
      throw error;
    }
  }
}

// ---- fields

/** What a field says: bytes in hexadecimal, and of an object each member that isn't 0, false, empty or null. */
function plain(value) {
  if (ArrayBuffer.isView(value))
    return hex(value);
  if (Array.isArray(value))
    return value.map(plain);
  return Object(value) === value ? said(Object.entries(value)) : value;
}
const isSaid = it => it !== null && it !== false && it !== 0 && it !== undefined && it.length !== 0;
const said = entries => Object.fromEntries(entries.map(([name, it]) => [camel(name), plain(it)]).filter(([, it]) => isSaid(it)));

const LEVELS = { chunk: ChunkType, parameter: ParameterType, cause: CauseCode };
const PARTS = { parameters: 'parameter', causes: 'cause' };

/** What a vector says of a chunk or an item: the number of its type, its flags, its fields, and what is in its list. */
function wantedOf(level, { kind, type, code, flags = 0, tag_reflected: tagReflected, parameters: its, causes: others, ...rest }) {
  const number = kind === undefined ? type ?? code : LEVELS[level][kind];
  const list = its?.map(it => wantedOf('parameter', it)) ?? others?.map(it => wantedOf('cause', it)) ?? [];
  return { number, flags: tagReflected ? 1 : flags, fields: said(Object.entries(rest)), list };
}

/** The same of what was read: a value that is bytes has the field's name that the vector gives. */
function readOf(it, wanted) {
  const { type, code, flags = 0, data, init, sack, shutdown, forwardTsn, reConfig, method, tsn, types, value } = it;
  const { type: own, isInOrder, ...content } = data ?? init ?? sack ?? shutdown ?? forwardTsn ?? reConfig ?? { method, tsn, types };
  const list = [...code === undefined && flags !== undefined && it.valueOffset !== undefined ? [...parameters(it), ...causes(it)] : []];
  const fields = said(Object.entries(content)), names = Object.keys(wanted.fields);
  if (Object.keys(fields).length === 0 && names.length === 1 && typeof wanted.fields[names[0]] === 'string')
    fields[names[0]] = hex(value);
  if (own !== undefined)
    assert.equal(own, type);
  // (of the kinds that have no reserved flags written: a vector says those of others alone)
  const isBit = wanted.flags !== 0 || type === ChunkType.ABORT || type === ChunkType.SHUTDOWN_COMPLETE;
  const shown = !isBit ? 0 : type === ChunkType.ABORT || type === ChunkType.SHUTDOWN_COMPLETE ? flags & 1 : flags;
  return { number: type ?? code, flags: shown, fields, list: list.map((each, i) => readOf(each, wanted.list[i] ?? wanted)) };
}

// ---- writing

const named = Object.fromEntries(Object.entries(ChunkType).map(([name, type]) =>
  [type, `add_${name.toLowerCase()}`.replace(/_(\w)/g, (_, letter) => letter.toUpperCase())]));
const BYTES = new Set(['payload', 'cookie', 'info', 'reason', 'chunk', 'information', 'value', 'chunkTypes']);
/** Fields as they are given to be written. */
const given = it => (Array.isArray(it) ? it.map(given) : Object(it) !== it ? it
  : Object.fromEntries(Object.entries(it).map(([name, of]) => [camel(name), BYTES.has(camel(name)) ? bytes(of) : given(of)])));

function addItems(builder, list, level) {
  const [add, type] = level === 'causes' ? ['addCause', CauseCode] : ['addParameter', ParameterType];
  for (const { kind, type: number, code, ...fields } of list) {
    const all = given(fields);
    const value = Object.keys(all).length === 0 ? [] : [Object.values(all).find(it => ArrayBuffer.isView(it)) ?? all];
    builder[add](kind === undefined ? number ?? code : type[kind], ...value);
  }
}

function add(builder, { kind, parameters: its, causes: others, type, flags, value, tag_reflected: tagReflected, ...rest }) {
  const list = its ?? others, name = named[ChunkType[kind]];
  if (kind === undefined) {
    builder.addChunk(type, flags, bytes(value));
  } else if (list === undefined || kind.startsWith('INIT')) {
    const fields = given(rest);
    if (kind === 'COOKIE_ECHO')
      builder.addCookieEcho(fields.cookie);
    else
      builder[name](tagReflected === undefined ? fields : { tagReflected });
  } else {
    builder.addChunk(ChunkType[kind], tagReflected ? 1 : 0);
  }
  addItems(builder, list ?? [], others ? 'causes' : 'parameters');
}

function kinds({ bytes: text, fault, chunks: wanted, written = text, strict }) {
  const packet = packetOf(text), first = davgyuti.firstFault(packet, ANY), codes = { code: Result[`FAULT_${fault?.[0].toUpperCase()}`] };
  assert.deepEqual(first, fault === undefined ? null : { ...codes, offset: fault[1] });
  if (fault !== undefined) {
    assert.throws(() => read(packet, ANY), davgyuti.Fault);
    // What isn't of its kind has no fields.
    for (const chunk of chunks(packet)) {
      const at = [chunk, ...parameters(chunk), ...causes(chunk)].find(it => it.offset === fault[1]);
      if (at !== undefined && (fault[0] === 'length' || fault[0] === 'value')) {
        const { data, init, sack, shutdown, forwardTsn, reConfig, method, tsn, types } = at;
        assert.deepEqual([data, init, sack, shutdown, forwardTsn, reConfig, method, tsn, types], Array(9).fill(undefined));
      }
    }
    return;
  }
  const all = wanted.map(it => wantedOf('chunk', it));
  for (const its of [[...chunks(packet)], read(packet, ANY).chunks])
    assert.deepEqual(its.map((it, i) => readOf(it, all[i])), all);
  const padding = davgyuti.firstFault(packet, { ...ANY, strictPadding: true });
  assert.deepEqual(padding, strict === undefined ? null : { code: Result.FAULT_PADDING, offset: strict[1] });
  const builder = new Builder(PORTS);
  wanted.forEach(it => add(builder, it));
  assert.equal(hex(builder.finish({ checksum: false })).slice(2 * FIRST_CHUNK), written);
}

test('kinds', () => compare(ours('kinds'), kinds));

// A value of any size is of its kind where `check` accepts it there; but a list may end too early.
test('sizes', () => {
  const hasFields = it => ['data', 'init', 'sack', 'shutdown', 'forwardTsn', 'reConfig', 'method', 'tsn', 'types'].some(name => it[name] !== undefined);
  for (const [level, types] of Object.entries({ chunk: [0, 1, 2, 3, 7, 64, 192, 194], parameter: [13, 14, 15, 16, 17, 18, 0x8001], cause: [2, 9] })) {
    for (const [type, size] of types.flatMap(it => Array.from({ length: 41 }, (_, i) => [it, i]))) {
      for (const value of [[], [0, 0, 0, (size - 4) / 2], Array.from({ length: size }, (_, i) => Math.imul(i + size + type, 2654435761) >>> 24)]) {
        const packet = packetOf(itemIn(level, type, hex(Uint8Array.from({ length: size }, (_, i) => value[i] ?? 0))));
        const isKind = davgyuti.firstFault(packet, ANY) === null;
        if (isKind || size < 16 || level !== 'chunk' || ![1, 2].includes(type))
          assert.equal(hasFields(BARE[level](chunks(packet).next().value)), isKind, `${level} ${type} of ${size} bytes`);
      }
    }
  }
});
if (process.env.VECTORS)
  test('the kinds in VECTORS', () => compare(linesOf(process.env.VECTORS), kinds));

// ---- the rest of IANA's registry

const OTHER = { data: 'bytes', host_name: 'name' };
const BARE = { chunk: it => it, parameter: it => parameters(it).next().value, cause: it => causes(it).next().value };
const READ = { chunk: davgyuti.registeredChunk, parameter: davgyuti.registeredParameter, cause: davgyuti.registeredCause };
const itemBytes = ({ type, code, value }) => (code === undefined ? davgyuti.parameter(type, bytes(value)) : davgyuti.cause(code, bytes(value)));
const shorts = number => number.toString(16).padStart(4, '0');

/** An item in a packet: a chunk, or a chunk with it as its list. */
function itemIn(level, type, value, flags = 0) {
  const size = value.length / 2 + 4, padding = '00'.repeat(-size & 3);
  if (level === 'chunk')
    return `${shorts(type << 8 | flags)}${shorts(size)}${value}${padding}`;
  return `${level === 'cause' ? '0900' : '8200'}${shorts(size + 4)}${shorts(type)}${shorts(size)}${value}${padding}`;
}

function registered({ level, type, value, fields, written = value, refused }) {
  const call = `addRegistered${level[0].toUpperCase()}${level.slice(1)}`;
  const begun = () => (level === 'chunk' ? new Builder(PORTS) : new Builder(PORTS).addChunk(level === 'cause' ? ChunkType.ERROR : ChunkType.RE_CONFIG));
  const own = fields && Object.fromEntries(Object.entries(fields).map(([name, it]) => [OTHER[name] ?? camel(name),
    PARTS[name] ? it.map(itemBytes) : typeof it === 'string' ? bytes(it) : it]));
  if (refused)
    return assert.throws(() => begun()[call](type, own), { name: 'WriteError', code: Result.BAD_VALUE });
  const packet = packetOf(itemIn(level, type, value, type ^ 255)), ways = [[...chunks(packet)]];
  if (davgyuti.firstFault(packet, ANY) === null)
    ways.push(read(packet, ANY).chunks);
  for (const [chunk] of ways) {
    const it = BARE[level](chunk), found = READ[level](it), { address, addressBytes, flags, ...rest } = found ?? {};
    if (fields === null) {
      assert.equal(found, null);
      continue;
    }
    const items = name => rest[name]?.map(each => ({ [name === 'causes' ? 'code' : 'type']: each.code ?? each.type, value: hex(each.value) }));
    const lists = Object.fromEntries(Object.keys(PARTS).filter(name => rest[name]).map(name => [name, items(name)]));
    const others = Object.entries({ ...rest, ...lists, ...addressBytes && { address: addressBytes } }).map(([name, of]) => [name, plainItem(of)]);
    assert.deepEqual(Object.fromEntries(others), Object.fromEntries(Object.entries(fields).map(([name, of]) => [OTHER[name] ?? camel(name), of])));
    assert.equal(READ[level](it, type ^ 1), null);
    assert.equal(flags, level === 'chunk' ? type ^ 255 : undefined);
    for (const again of [own, found]) {
      const chunk = begun()[call](type, again).lastChunk();
      assert.equal(hex(chunk.bytes).slice(level === 'chunk' ? 8 : 16), written);
      assert.equal(chunk.flags, again.flags ?? 0);
    }
  }
  return undefined;
}
const plainItem = it => (ArrayBuffer.isView(it) ? hex(it) : it);

test('the rest of the registry', () => compare(ours('registered'), registered));

// ---- what is asked of whoever receives a packet

const headerOf = it => Object.fromEntries([...Object.entries(it), ['checksum', 0]].map(([name, of]) => [camel(name), of]));
const firstOf = it => chunks(bytes(it.packet)).next().value;
const nullFor = call => {
  try {
    return hex(davgyuti.seal(call()));
  } catch (error) {
    assert.equal(error.code, Result.BAD_VALUE);
    return null;
  }
};
/** What a builder has after its header, and where the program stops, counted from a place. */
function added(builder, write, base) {
  const stop = write(builder);
  return [hex(builder.finish({ checksum: false })).slice(2 * FIRST_CHUNK), stop === null ? null : stop - base];
}
const ZEROS = { initiateTag: 0, aRwnd: 0, outboundStreams: 0, inboundStreams: 0, initialTsn: 0 };
const CALLS = {
  unrecognized_chunk: it => davgyuti.unrecognizedChunk(it.type),
  unrecognized_parameter: it => davgyuti.unrecognizedParameter(it.type),
  verify_tag: it => davgyuti.verifyTag(bytes(it.packet),
    { ownTag: it.own_tag, peerTag: it.peer_tag ?? 0, hasPeerTag: it.peer_tag !== null, awaitsCookie: it.awaits_cookie }),
  out_of_the_blue: it => davgyuti.outOfTheBlue(bytes(it.packet), it.is_unicast),
  init_fault: it => davgyuti.initFault(bytes(it.packet), it.is_ack),
  init_refusal: it => davgyuti.initRefusal(davgyuti.InitFault[it.fault], it.is_ack, it.in_cookie_wait),
  reply: it => nullFor(() => davgyuti.reply(headerOf(it.header), davgyuti.Answer[it.answer])),
  init_abort: it => nullFor(() => davgyuti.initAbort(headerOf(it.header), it.initiate_tag, davgyuti.InitFault[it.fault])),
  adds_addresses: it => davgyuti.addsAddresses(firstOf(it), bytes(it.known)),
  add_new_addresses: it =>
    hex(new Builder(PORTS).addChunk(ChunkType.ABORT).addNewAddresses(firstOf(it), bytes(it.known)).lastChunk().bytes),
  add_unrecognized_parameters: it => added(new Builder(PORTS).addInitAck(ZEROS), to => to.addUnrecognizedParameters(firstOf(it), it.known), 32),
  add_unrecognized_parameters_error: it => added(new Builder(PORTS), to => to.addUnrecognizedParametersError(firstOf(it), it.known),
    16 + ([ChunkType.INIT, ChunkType.INIT_ACK].includes(firstOf(it).type) ? 16 : 0)),
  add_unrecognized_chunks: it => added(new Builder(PORTS), to => to.addUnrecognizedChunks(bytes(it.packet), it.known), 0),
  broken_rules: it => davgyuti.brokenRules(bytes(it.packet), { refusesZero: it.refuses_zero, hasData: it.has_data, hasIData: it.has_i_data }),
};
const RETURNED = {
  unrecognized_chunk: 'Action', unrecognized_parameter: 'Action', verify_tag: 'TagVerdict', out_of_the_blue: 'Answer', init_fault: 'InitFault',
  init_refusal: 'Refusal',
};

test('calls', () => compare(ours('calls'), it => {
  const found = CALLS[it.call](it), constants = davgyuti[RETURNED[it.call]];
  let wanted = constants ? constants[it.returns] : it.returns;
  if (it.call === 'broken_rules')
    wanted = it.returns.map(name => davgyuti.Rule[name]);
  if (it.end !== undefined)
    wanted = [it.returns.padEnd(it.returns.length + 7 & ~7, '0'), it.end];
  assert.deepEqual(found, wanted);
}));
