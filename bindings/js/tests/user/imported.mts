// SPDX-License-Identifier: Apache-2.0
// What TypeScript knows of the package: this compiles, but for each line below a @ts-expect-error, which must not.
import {
  Builder, CauseCode, Chunk, ChunkType, CookieState, Fault, FaultCode, Packet, Parameter, ParameterType, ReConfigResult, ReConfigType, Result,
  Rule, UncheckedChunk, WriteError, brokenRules, cause as causeOf, causes, check, chunks, dataFlags, firstFault, header, init,
  isKnownChunk, needsChecksum, openCookie, outOfTheBlue, parameter, parameters, read, readChunk, readSack, registeredCause,
  registeredChunk, registeredParameter, ruleName, withFlags, word,
} from 'davgyuti';
// @ts-expect-error it is no part of the interface
import { Needed } from 'davgyuti';
// @ts-expect-error there is no default export
import davgyuti from 'davgyuti';

declare const bytes: Uint8Array;
const numbers: number[] = [];

for (const chunk of chunks(bytes)) {
  const its: UncheckedChunk = chunk;
  if (chunk.type === ChunkType.DATA) {
    // @ts-expect-error the bytes weren't checked
    numbers.push(chunk.data.tsn);
    numbers.push(chunk.data?.tsn ?? its.type);
  }
}

// @ts-expect-error of bytes that weren't checked there may be none
numbers.push(header(bytes).sourcePort);
numbers.push(header(bytes)?.sourcePort ?? 0);
check(bytes);
const packet: Packet = bytes;
numbers.push(header(bytes).sourcePort);
// @ts-expect-error a part of a packet is none
const part: Packet = bytes.subarray(12);

/** What a chunk has is said by its type. */
function numberOf(chunk: Chunk): number {
  // @ts-expect-error not every chunk has data
  numbers.push(chunk.data.tsn);
  switch (chunk.type) {
    case ChunkType.DATA:
    case ChunkType.I_DATA:
      return chunk.data.tsn;
    case ChunkType.SACK:
      // @ts-expect-error a SACK has no data
      numbers.push(chunk.data.tsn);
      return chunk.sack.aRwnd;
    case ChunkType.INIT:
    case ChunkType.INIT_ACK:
      return chunk.init.initiateTag;
    case 99:
      return chunk.value.length;
    // @ts-expect-error a type is a byte
    case 256:
      return 0;
    default:
      return chunk.bytes.length;
  }
}

/** What a parameter or an error cause has, by what is asked of it. */
function itemsOf(chunk: Chunk): void {
  for (const it of parameters(chunk)) {
    if (it.reConfig) {
      const type: ReConfigType = it.type, same: 13 | 14 | 15 | 16 | 17 | 18 = type;
      numbers.push(same, ...it.reConfig.streams);
    } else if (it.method !== undefined) {
      const type: typeof ParameterType.ZERO_CHECKSUM_ACCEPTABLE = it.type;
      numbers.push(type, it.method, ...it.bytes);
    }
    // @ts-expect-error not every parameter has a method
    numbers.push(it.method);
  }
  for (const it of causes(chunk)) {
    if (it.types) {
      const code: typeof CauseCode.MISSING_MANDATORY_PARAMETER = it.code;
      numbers.push(code, ...it.types);
    }
  }
}

for (const chunk of chunks(packet)) {
  numbers.push(chunk.sack?.aRwnd ?? numberOf(chunk));
  itemsOf(chunk);
}

const known: ChunkType[] = numbers.filter(isKnownChunk);
const type: ParameterType = ParameterType.STATE_COOKIE, cause: CauseCode = 13, result: ReConfigResult = 6;
// @ts-expect-error no chunk that has a name has this type
const unknown: ChunkType = 99;
const item: Parameter = { type: 0x8002, name: '', value: bytes, bytes, offset: 0, next: 0 };

const fault = firstFault(bytes, { strictPadding: true });
if (fault) {
  const { code, offset }: { code: FaultCode; offset: number } = fault;
  // @ts-expect-error a fault is none of writing
  const isNoRoom = code === Result.NO_ROOM;
  numbers.push(code === Result.FAULT_SIZE ? offset : new Fault(code, offset).message.length, Number(isNoRoom));
}
try {
  new Builder({ sourcePort: 1, destinationPort: 2, verificationTag: 3 })
    // @ts-expect-error a SACK has a window
    .addSack({ cumulativeTsnAck: 1 });
} catch (error) {
  if (error instanceof WriteError && error.code === Result.NO_ROOM)
    // @ts-expect-error only a Fault has a place
    numbers.push(error.offset);
}
declare const builder: Builder;
builder.addReConfig({ type: ParameterType.RECONFIGURATION_RESPONSE, responseNumber: 1, result: ReConfigResult.PERFORMED });
// @ts-expect-error no RE-CONFIG has such a parameter
builder.addReConfig({ type: ParameterType.STATE_COOKIE });
// @ts-expect-error no response has such a result
builder.addReConfig({ type: 16, result: 7 });
// @ts-expect-error where nothing is said, nothing is passed
check(bytes, { word: undefined });
check(bytes, { word: word(bytes) });
// @ts-expect-error a word is what `word` returned, not the packet's own checksum
check(bytes, { word: header(packet).checksum });

export { cause, davgyuti, item, known, Needed, part, result, type, unknown };

// A chunk without a packet around it was checked; so its type says what it has.
const bare: Chunk = readChunk(bytes);
if (bare.type === ChunkType.INIT)
  numbers.push(bare.init.initiateTag);
const made: Parameter = parameter(ParameterType.STATE_COOKIE, bytes);
numbers.push(made.type, causeOf(CauseCode.NO_USER_DATA, { tsn: 1 }).tsn ?? 0, dataFlags({ isEnd: true }));
const data = withFlags({ tsn: 1, stream: 2, payload: bytes }, 3);
new Builder({ sourcePort: 1, destinationPort: 2, verificationTag: 3 }).addData(data).lastChunk()?.bytes;
if (!needsChecksum(bytes))
  check(bytes, { allowedZeroChecksum: true });

// The rules that a packet breaks, and what isn't recognized.
const broken: Rule[] = brokenRules(bytes, { hasData: true });
numbers.push(...broken.filter(it => it !== Rule.PORT_ZERO), ruleName(broken[0] ?? 0).length);
// @ts-expect-error nothing is known by this name
brokenRules(bytes, { data: true });
for (const chunk of [readChunk(bytes), ...read(bytes).chunks])
  numbers.push(builder.addUnrecognizedParameters(chunk, [ParameterType.STATE_COOKIE]) ?? builder.addUnrecognizedChunks(bytes, new Set([0])) ?? 0);
// @ts-expect-error it may stop nowhere
numbers.push(builder.addUnrecognizedChunks(bytes, []));

// The rest of the registry: a type says which fields there are.
for (const chunk of chunks(packet)) {
  const asconf = registeredChunk(chunk, ChunkType.ASCONF), sack = registeredChunk(chunk, ChunkType.NR_SACK);
  // @ts-expect-error it may be of another type
  numbers.push(asconf.sequenceNumber);
  // @ts-expect-error an ASCONF has no HMAC
  numbers.push(asconf?.hmac.length);
  for (const request of asconf?.parameters ?? []) {
    const { address, addressBytes } = registeredParameter(request, ParameterType.ADD_IP_ADDRESS) ?? { address: '', addressBytes: bytes };
    numbers.push(address.length, ...addressBytes, ...registeredParameter(request, ParameterType.SUPPORTED_ADDRESS_TYPES)?.types ?? []);
  }
  numbers.push(sack?.counts[2] ?? 0, Object.keys(registeredChunk(chunk) ?? {}).length);
  // @ts-expect-error DATA has a kind of its own
  registeredChunk(chunk, ChunkType.DATA);
  if (asconf)
    numbers.push(builder.addRegisteredChunk(ChunkType.ASCONF, asconf).size, asconf.flags);
}
builder.addRegisteredChunk(ChunkType.ASCONF, { sequenceNumber: 1, address: bytes, parameters: [
  parameter(ParameterType.ADD_IP_ADDRESS, { correlationId: 1, address: '192.0.2.1' }),
] }).addRegisteredParameter(ParameterType.SUPPORTED_ADDRESS_TYPES, { types: new Set([5, 6]) }).addRegisteredCause(CauseCode.OUT_OF_RESOURCE, {});
builder.addRegisteredChunk(ChunkType.AUTH, { key: 1, hmacIdentifier: 3 });
// @ts-expect-error an address is missing
builder.addRegisteredChunk(ChunkType.ASCONF, { sequenceNumber: 1 });
// @ts-expect-error a State Cookie has no fields
parameter(ParameterType.STATE_COOKIE, { name: bytes });

/** What a cookie has is said by its state. */
function stalenessOf(): bigint {
  const opened = openCookie(bytes, bytes, 1n);
  switch (opened.state) {
    case CookieState.GOOD:
      return opened.cookie.created;
    case CookieState.STALE:
      return opened.staleness;
    default:
      // @ts-expect-error an invalid one has neither
      return opened.cookie.created;
  }
}
// @ts-expect-error a time is a bigint
openCookie(bytes, bytes, Number(stalenessOf()));
// @ts-expect-error whether it is unicast is missing
outOfTheBlue(bytes);

// A SACK is read into an object that is kept.
const kept = {};
for (const chunk of read(bytes).chunks) {
  if (chunk.type === ChunkType.SACK)
    numbers.push(readSack(chunk, kept).aRwnd, ...readSack(chunk, chunk.sack).blocks.map(it => it.end));
  // @ts-expect-error not every chunk is a SACK
  numbers.push(readSack(chunk, kept).aRwnd);
  numbers.push(...readSack(chunk, { blocks: [], isInOrder: true })?.duplicates ?? []);
}
// @ts-expect-error it is no list
readSack(readChunk(bytes), { blocks: 5 });

// It begins with bytes, or what has them.
init(bytes).then(() => check(bytes));
// @ts-expect-error the name of a file is none
init('dcsctp.wasm');
