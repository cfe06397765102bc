// SPDX-License-Identifier: Apache-2.0
// Captures for the tests: packets of SCTP, in frames, in files.

const TABLE = Uint32Array.from({ length: 256 }, (_, byte) => {
  for (let bit = 0; bit < 8; bit++)
    byte = byte & 1 ? byte >>> 1 ^ 0x82f63b78 : byte >>> 1;
  return byte;
});

function crc32c(bytes) {
  let sum = 0xffffffff;
  for (const byte of bytes)
    sum = TABLE[(sum ^ byte) & 255] ^ sum >>> 8;
  return ~sum >>> 0;
}

/** Bytes of numbers of some width, texts and other bytes: `bytes([2, 5000], 'text', other)`. */
export function bytes(...parts) {
  return new Uint8Array(parts.flatMap(part => {
    if (typeof part === 'string')
      return [...new TextEncoder().encode(part)];
    if (!Array.isArray(part))
      return [...part];
    const [width, ...numbers] = part;
    return numbers.flatMap(it => Array.from({ length: width }, (_, i) => Math.floor(it / 256 ** (width - 1 - i)) & 255));
  }));
}

/** A chunk, a parameter (whose type has two bytes) or an error cause, with its padding. */
function item(head, value) {
  const length = 4 + value.length;
  return bytes(head, [2, length], value, new Uint8Array(-length & 3));
}

export const chunk = (type, flags, ...value) => item(bytes([1, type, flags]), bytes(...value));
export const parameter = (type, ...value) => item(bytes([2, type]), bytes(...value));
export const data = (tsn, stream, ssn, ppid, payload, flags = 3) =>
  chunk(0, flags, [4, tsn], [2, stream, ssn], [4, ppid], payload);
export const init = (tag, tsn, ...parameters) => chunk(1, 0, [4, tag, 131072], [2, 10, 10], [4, tsn], ...parameters);
export const initAck = (tag, tsn, ...parameters) => bytes([1, 2], init(tag, tsn, ...parameters).subarray(1));
export const sack = (tsn, blocks = [], duplicates = []) =>
  chunk(3, 0, [4, tsn, 131072], [2, blocks.length, duplicates.length], [2, ...blocks.flat()], [4, ...duplicates]);

/** A packet, whose checksum is right. */
export function packet(source, destination, tag, ...chunks) {
  const made = bytes([2, source, destination], [4, tag, 0], ...chunks);
  new DataView(made.buffer).setUint32(8, crc32c(made), true);
  return made;
}

/** An IPv4 packet that holds one of SCTP, or of another protocol. */
export function ip(from, to, payload, protocol = 132) {
  const address = text => [1, ...text.split('.').map(Number)];
  return bytes([1, 0x45, 0], [2, 20 + payload.length, 0, 0x4000], [1, 64, protocol], [2, 0], address(from), address(to), payload);
}

/** An IPv4 packet that holds one of UDP. */
export const udp = (from, to, source, destination, payload) =>
  ip(from, to, bytes([2, source, destination, 8 + payload.length, 0], payload), 17);

/** A pcap file of IP packets: each `[microseconds, bytes]`, or with how many of its bytes were captured. */
export function pcap(records, linkType = 101) {
  const size = records.reduce((sum, [, it, most = it.length]) => sum + 16 + Math.min(most, it.length), 24);
  const file = new Uint8Array(size), view = new DataView(file.buffer);
  [0xa1b2c3d4, 0x00020004, 0, 0, 262144, linkType].forEach((it, i) => view.setUint32(4 * i, it, true));
  view.setUint32(4, 0x00040002, true);
  let at = 24;
  for (const [time, it, most = it.length] of records) {
    const kept = it.subarray(0, most);
    const head = [1700000000 + Math.floor(time / 1e6), time % 1e6, kept.length, it.length];
    head.forEach((number, i) => view.setUint32(at + 4 * i, number, true));
    file.set(kept, at + 16);
    at += 16 + kept.length;
  }
  return file;
}

const A = '10.0.0.1', B = '10.0.1.1';

/** An association with a lost packet, that is sent again, and a refused one. */
export function association(count = 12, payload = 'hello', time = 0) {
  const ports = [40000, 9899 + 1], tags = [0x0da73798, 0x4d2df52d];
  const records = [];
  const send = (side, tag, ...chunks) => {
    time += 5000 + records.length * 7919 % 41000;
    const [from, to] = side ? [B, A] : [A, B], [source, destination] = side ? [ports[1], ports[0]] : ports;
    records.push([time, ip(from, to, packet(source, destination, tag, ...chunks))]);
  };
  send(0, 0, init(tags[0], 1000, parameter(0xc000), parameter(0x8008, [1, 192, 130])));
  send(1, tags[0], initAck(tags[1], 5000, parameter(7, 'state cookie'), parameter(0xc000)));
  send(0, tags[1], chunk(10, 0, 'state cookie'));
  send(1, tags[0], chunk(11, 0));
  let tsn = 1000;
  for (let i = 0; i < count; i++, tsn++) {
    // The fourth of each ten is lost, and sent again after the sixth.
    if (i % 10 === 3)
      continue;
    send(0, tags[1], data(tsn, i % 4, i >> 2, i % 3 ? 51 : 18, `${payload} ${i}`));
    if (i % 10 === 4 || i % 10 === 5)
      send(1, tags[0], sack(tsn - (i % 10 === 4 ? 2 : 3), [[2, i % 10 - 2]]));
    else if (i % 2)
      send(1, tags[0], sack(tsn));
    if (i % 10 === 6) {
      send(0, tags[1], data(tsn - 3, (i - 3) % 4, (i - 3) >> 2, 51, `${payload} ${i - 3}`));
      send(0, tags[1], data(tsn - 3, (i - 3) % 4, (i - 3) >> 2, 51, `${payload} ${i - 3}`));
      send(1, tags[0], sack(tsn, [], [tsn - 3]));
    }
  }
  send(1, tags[0], chunk(4, 0, parameter(1, 'info')));
  send(0, tags[1], chunk(5, 0, parameter(1, 'info')));
  send(0, tags[1], chunk(7, 0, [4, 5000]));
  send(1, tags[0], chunk(8, 0));
  send(0, tags[1], chunk(14, 0));
  return records;
}
