// SPDX-License-Identifier: Apache-2.0
// What is taken from the page: packets as texts and as a file.

export { MOST_PACKETS, hexadecimal, cArray, testRow, MOST_LINKED, linkOf, packetsIn, pcapOf };

/** More packets than this a pcap file of the page doesn't take, since all their lines are read for it. */
const MOST_PACKETS = 100_000;

/** Bytes in hexadecimal, in a row, which sctp_dump reads as a packet.
    @param {Uint8Array} bytes */
const hexadecimal = bytes => Array.from(bytes, it => it.toString(16).padStart(2, '0')).join('');

/** Bytes as an array in C.
    @param {Uint8Array} bytes */
function cArray(bytes) {
  const lines = [];
  for (let i = 0; i < bytes.length; i += 12)
    lines.push(`  ${Array.from(bytes.subarray(i, i + 12), it => `0x${hexadecimal(Uint8Array.of(it))},`).join(' ')}\n`);
  return `static const unsigned char packet[${bytes.length}] = {\n${lines.join('')}};\n`;
}

/** A packet as a row of crates/test_rows/stdin, without its answer: its chunks by four bytes, since its header is another there.
    Undefined if nothing follows a header.
    @param {Uint8Array} bytes */
function testRow(bytes) {
  const chunks = hexadecimal(bytes.subarray(12)).match(/.{1,8}/g);
  return chunks ? `packet ${chunks.join(' ')}` : undefined;
}

/** Some programs cut an address that is longer. */
const LONGEST = 8000;

/** More packets than this a link doesn't hold. */
const MOST_LINKED = 50;

/** The address of the page with packets in it, or undefined if it would be too long. What is after # no browser sends.
    @param {string} address */
function linkOf(address, ...packets) {
  const link = `${address.split('#')[0]}#hex=${packets.map(hexadecimal).join(',')}`;
  const isWhole = packets.length > 0 && packets.length <= MOST_LINKED && packets.every(it => it.length);
  return isWhole && link.length <= LONGEST ? link : undefined;
}

/** The packets in an address, in hexadecimal, a line for each: undefined if there is none, and empty if they aren't some.
    @param {string} address */
function packetsIn(address) {
  const at = address.indexOf('#hex=');
  if (at < 0)
    return undefined;
  const texts = address.slice(at + 5).split(',');
  return texts.every(it => it.length && it.length % 2 === 0 && it.length <= 2 * 65535 && !/[^0-9a-f]/i.test(it)) ? texts.join('\n') : '';
}

/** A pcap file of link type 248 (SCTP), with nanoseconds. A packet whose time isn't known, or can't be in such a file, has time 0. */
function pcapOf(packets) {
  const size = packets.reduce((sum, it) => sum + 16 + it.bytes.length, 24), file = new DataView(new ArrayBuffer(size));
  let at = 0;
  const add = (...numbers) => numbers.forEach(it => (file.setUint32(at, it, true), at += 4));
  add(0xa1b23c4d, 0x00040002, 0, 0, 262144, 248);
  for (const { seconds, nanos, bytes, length } of packets) {
    add(...seconds >= 0 && seconds < 2 ** 32 ? [seconds, nanos] : [0, 0], bytes.length, Math.max(bytes.length, length));
    new Uint8Array(file.buffer).set(bytes, at);
    at += bytes.length;
  }
  return file.buffer;
}
