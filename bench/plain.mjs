// SPDX-License-Identifier: Apache-2.0
// Reads packets by the package davgyuti, and by a plain loop over a DataView in two passes and in one, with their CRC32c and without;
// bench/packages.py says what such a program does.
//
// usage: node plain.mjs ROUNDS MILLIS FILE..
import { readFileSync } from 'node:fs';
import { ChunkType, causes, parameters, read, readSack } from '../bindings/js/node.mjs';

// ---- by the package

const sumOfValue = value => (value.length > 0 ? value.length + value[0] : 0);

function sumOfItems(chunk) {
  let sum = 0;
  for (const { type, value } of parameters(chunk))
    sum += type + sumOfValue(value);
  for (const { code, value } of causes(chunk))
    sum += code + sumOfValue(value);
  return sum;
}

function sumOfData({ tsn, mid, fsn, ppid, stream, ssn, isUnordered, isBeginning, isEnd, immediateAck, payload }) {
  return tsn + mid + fsn + ppid + stream + ssn + isUnordered + isBeginning + isEnd + immediateAck + sumOfValue(payload);
}

function sumOfSack({ cumulativeTsnAck, aRwnd, blocks, duplicates }) {
  let sum = cumulativeTsnAck + aRwnd;
  for (const { start, end } of blocks)
    sum += start + end;
  for (const tsn of duplicates)
    sum += tsn;
  return sum;
}

function sumOfForwardTsn({ newCumulativeTsn, streams }) {
  let sum = newCumulativeTsn;
  for (const { stream, ssn, mid, isUnordered } of streams)
    sum += stream + ssn + mid + isUnordered;
  return sum;
}

function sumOfInit({ initiateTag, aRwnd, outboundStreams, inboundStreams, initialTsn }) {
  return initiateTag + aRwnd + outboundStreams + inboundStreams + initialTsn;
}

// What SACKs are read into.
const kept = {};

function sumOfChunk(chunk) {
  switch (chunk.type) {
    case ChunkType.DATA:
    case ChunkType.I_DATA:
      return sumOfData(chunk.data);
    case ChunkType.INIT:
    case ChunkType.INIT_ACK:
      return sumOfInit(chunk.init) + sumOfItems(chunk);
    case ChunkType.SACK:
      return sumOfSack(readSack(chunk, kept));
    case ChunkType.HEARTBEAT:
    case ChunkType.HEARTBEAT_ACK:
    case ChunkType.ABORT:
    case ChunkType.ERROR:
    case ChunkType.RE_CONFIG:
      return sumOfItems(chunk);
    case ChunkType.SHUTDOWN:
      return chunk.shutdown.cumulativeTsnAck;
    case ChunkType.FORWARD_TSN:
    case ChunkType.I_FORWARD_TSN:
      return sumOfForwardTsn(chunk.forwardTsn);
    default:
      return sumOfValue(chunk.value);
  }
}

function byThePackage(bytes, policy) {
  let packet;
  try {
    packet = read(bytes, policy);
  } catch {
    return 0;
  }
  let sum = 1;
  for (const chunk of packet.chunks)
    sum += chunk.type + sumOfChunk(chunk);
  return sum;
}

// ---- by a plain loop

/** How many of the bytes up to an end a chunk, a parameter or an error cause takes, with its padding; 0 for a wrong length. */
function stepOf(view, at, end) {
  if (end - at < 4)
    return 0;
  const length = view.getUint16(at + 2);
  return length < 4 || length > end - at ? 0 : Math.min(length + 3 & ~3, end - at);
}

/** Whether a value is one of a parameter's type (RFC 3758 section 3.1, RFC 6525 section 4, RFC 9653 section 4). */
function isParameter(view, type, at, size) {
  switch (type) {
    case 13: return size >= 12 && size % 2 === 0;
    case 14: return size >= 4 && size % 2 === 0;
    case 16: return (size === 8 || size === 16) && view.getUint32(at + 4) <= 6;
    case 17: case 18: return size === 8;
    case 15: case 0x8001: return size === 4;
    case 0xc000: return size === 0;
    default: return true;
  }
}

/** Whether a value is one of an error cause's code (RFC 9260 section 3.3.10). */
function isCause(view, code, at, size) {
  switch (code) {
    case 2: return size >= 4 && size === 4 + 2 * view.getUint32(at);
    case 9: return size === 4;
    case 10: return size === 0;
    default: return true;
  }
}

function areItems(view, at, end, isItem) {
  for (let step; at < end; at += step) {
    step = stepOf(view, at, end);
    if (step === 0 || !isItem(view, view.getUint16(at), at + 4, view.getUint16(at + 2) - 4))
      return false;
  }
  return true;
}

/** Whether a value is one of a chunk's type (RFC 3758 section 3.2, RFC 6525 section 3.1, RFC 8260 section 2, RFC 9260 section
    3.3). */
function isChunk(view, type, at, size) {
  switch (type) {
    case 0: return size >= 12;
    case 64: return size >= 16;
    case 1: case 2: return size >= 16 && areItems(view, at + 16, at + size, isParameter);
    case 3: return size >= 12 && size === 12 + 4 * (view.getUint16(at + 8) + view.getUint16(at + 10));
    case 4: case 5: case 130: return areItems(view, at, at + size, isParameter);
    case 6: case 9: return areItems(view, at, at + size, isCause);
    case 7: return size === 4;
    case 8: case 11: case 14: return size === 0;
    case 10: return size > 0;
    case 192: return size >= 4 && size % 4 === 0;
    case 194: return size >= 4 && size % 8 === 4;
    default: return true;
  }
}

function isPacket(view) {
  const end = view.byteLength;
  if (end < 16 || end > 65535)
    return false;
  for (let at = 12, step; at < end; at += step) {
    step = stepOf(view, at, end);
    if (step === 0 || !isChunk(view, view.getUint8(at), at + 4, view.getUint16(at + 2) - 4))
      return false;
  }
  return true;
}

const sumOfBytes = (view, at, end) => (at < end ? end - at + view.getUint8(at) : 0);

function sumOfList(view, at, end) {
  let sum = 0;
  for (let step; at < end; at += step) {
    step = stepOf(view, at, end);
    sum += view.getUint16(at) + sumOfBytes(view, at + 4, at + view.getUint16(at + 2));
  }
  return sum;
}

/** The sum over a chunk that was checked: where its value begins and ends. */
function sumOf(view, type, flags, at, end) {
  const bits = (flags & 1) + (flags >> 1 & 1) + (flags >> 2 & 1) + (flags >> 3 & 1);
  let sum = 0;
  switch (type) {
    case 0:
      sum = bits + view.getUint32(at) + view.getUint16(at + 4) + view.getUint16(at + 6) + view.getUint32(at + 8);
      return sum + sumOfBytes(view, at + 12, end);
    case 64:
      sum = bits + view.getUint32(at) + view.getUint16(at + 4) + view.getUint32(at + 8) + view.getUint32(at + 12);
      return sum + sumOfBytes(view, at + 16, end);
    case 1: case 2:
      sum = view.getUint32(at) + view.getUint32(at + 4) + view.getUint16(at + 8) + view.getUint16(at + 10);
      return sum + view.getUint32(at + 12) + sumOfList(view, at + 16, end);
    case 3: {
      sum = view.getUint32(at) + view.getUint32(at + 4);
      const duplicates = at + 12 + 4 * view.getUint16(at + 8);
      for (at += 12; at < duplicates; at += 4)
        sum += view.getUint16(at) + view.getUint16(at + 2);
      for (; at < end; at += 4)
        sum += view.getUint32(at);
      return sum;
    }
    case 4: case 5: case 6: case 9: case 130:
      return sumOfList(view, at, end);
    case 7:
      return view.getUint32(at);
    case 192:
      sum = view.getUint32(at);
      for (at += 4; at < end; at += 4)
        sum += view.getUint16(at) + view.getUint16(at + 2);
      return sum;
    case 194:
      sum = view.getUint32(at);
      for (at += 4; at < end; at += 8)
        sum += view.getUint16(at) + (view.getUint8(at + 3) & 1) + view.getUint32(at + 4);
      return sum;
    default:
      return sumOfBytes(view, at, end);
  }
}

// RFC 9260 appendix A.
const TABLE = Int32Array.from({ length: 256 }, (_, crc) => {
  for (let bit = 0; bit < 8; bit++)
    crc = crc >>> 1 ^ 0x82f63b78 * (crc & 1);
  return crc;
});

function crcOf(bytes, at, end, crc) {
  for (; at < end; at++)
    crc = crc >>> 8 ^ TABLE[(crc ^ bytes[at]) & 255];
  return crc;
}

const ZERO = new Uint8Array(4);

/** Whether a packet has its CRC32c, which is computed with zero in its place. */
const isSealed = (bytes, view) =>
  bytes.length >= 12 && view.getInt32(8, true) === ~crcOf(bytes, 12, bytes.length, crcOf(ZERO, 0, 4, crcOf(bytes, 0, 8, -1)));

/** Checks a packet, and then reads it. */
function inTwoPasses(bytes, hasChecksum) {
  const view = new DataView(bytes.buffer, bytes.byteOffset, bytes.byteLength), end = bytes.byteLength;
  if ((hasChecksum && !isSealed(bytes, view)) || !isPacket(view))
    return 0;
  let sum = 1;
  for (let at = 12; at < end; at += stepOf(view, at, end)) {
    const type = view.getUint8(at);
    sum += type + sumOf(view, type, view.getUint8(at + 1), at + 4, at + view.getUint16(at + 2));
  }
  return sum;
}

/** Reads each chunk as soon as it is checked. */
function inOnePass(bytes, hasChecksum) {
  const view = new DataView(bytes.buffer, bytes.byteOffset, bytes.byteLength), end = bytes.byteLength;
  if (end < 16 || end > 65535 || (hasChecksum && !isSealed(bytes, view)))
    return 0;
  let sum = 1;
  for (let at = 12, step; at < end; at += step) {
    step = stepOf(view, at, end);
    if (step === 0)
      return 0;
    const type = view.getUint8(at), length = view.getUint16(at + 2);
    if (!isChunk(view, type, at + 4, length - 4))
      return 0;
    sum += type + sumOf(view, type, view.getUint8(at + 1), at + 4, at + length);
  }
  return sum;
}

// ---- the clock

const ANY = { anyChecksum: true };
// Each says whether it compares the checksum.
const CALLS = [
  ['DataView', bytes => inTwoPasses(bytes, true), true],
  ['DataView, one pass', bytes => inOnePass(bytes, true), true],
  ['davgyuti', bytes => byThePackage(bytes), true],
  ['DataView, no CRC32c', bytes => inTwoPasses(bytes, false), false],
  ['DataView, one pass, no CRC32c', bytes => inOnePass(bytes, false), false],
  ['davgyuti, no CRC32c', bytes => byThePackage(bytes, ANY), false],
];

function load(file) {
  const bytes = new Uint8Array(readFileSync(file)), view = new DataView(bytes.buffer), packets = [];
  for (let at = 0, size; at < bytes.length; at += 4 + size) {
    size = view.getUint32(at);
    packets.push(bytes.slice(at + 4, at + 4 + size));
  }
  return packets;
}

/** The same packets, each with another checksum. */
const unsealed = packets => packets.map(it => it.map((byte, at) => (at === 8 ? byte ^ 1 : byte)));

function pass(call, packets) {
  let sum = 0;
  for (const packet of packets)
    sum += call(packet);
  return sum;
}

/** The milliseconds of all processors. */
function clock() {
  const { user, system } = process.cpuUsage();
  return (user + system) / 1000;
}

/** The nanoseconds of a packet. */
function timed(call, packets, least, sum) {
  const begin = clock();
  let done = 0, took = 0;
  do {
    if (pass(call, packets) !== sum)
      throw new Error('a sum changes');
    done += packets.length;
    took = clock() - begin;
  } while (took < least);
  return took * 1e6 / done;
}

const WARM = 20;
const [rounds, millis, ...files] = process.argv.slice(2);
if (files.length === 0) {
  console.error('usage: node plain.mjs ROUNDS MILLIS FILE..');
  process.exit(2);
}
for (const file of files) {
  const packets = load(file), others = unsealed(packets), best = CALLS.map(() => Infinity);
  const sums = CALLS.map(([, call]) => pass(call, packets));
  CALLS.forEach(([name, call, hasChecksum], i) => {
    if (pass(call, others) !== (hasChecksum ? 0 : sums[i]))
      throw new Error(`${name} takes another checksum for what it isn't`);
  });
  // (the first rounds don't count: node compiles what is called again and again)
  for (let round = -WARM; rounds > 0 && round < rounds; round++)
    CALLS.forEach(([, call], i) => {
      const one = timed(call, packets, Number(millis), sums[i]);
      best[i] = round < 0 ? Infinity : Math.min(best[i], one);
    });
  CALLS.forEach(([name], i) => console.log(`${file}\t${name}\t${sums[i]}\t${best[i]}`));
}
