// SPDX-License-Identifier: Apache-2.0
// Lines in less memory: a packet's bytes in place of their digits, and what repeats as where it was before.

export { packInto, lineIn, compressed, uncompressed };

const LINE_END = 10, QUOTE = 34;
const KEY = new TextEncoder().encode('"bytes":"');

/** The program's digits by their numbers, and the numbers by the digits: 255 is no digit's. */
const DIGITS = new TextEncoder().encode('0123456789abcdef'), NUMBERS = new Uint8Array(256).fill(255);
DIGITS.forEach((digit, number) => NUMBERS[digit] = number);

/** Where the digits of a line's key `bytes` begin, or the line's end. What is looked for is its b, of which there are few.
    @param {Uint8Array} line */
function digitsAt(line) {
  for (let at = line.indexOf(KEY[1]); at >= 0; at = line.indexOf(KEY[1], at + 1)) {
    if (KEY.every((it, i) => line[at - 1 + i] === it))
      return at - 1 + KEY.length;
  }
  return line.length;
}

/** Writes a line into `room` from `at` on, where there is space for it and one byte more: if it has the key, without the digits,
    and after a line's end the bytes that they say. Returns where the text ends, and where all does.
    @param {Uint8Array} line
    @param {Uint8Array} room
    @param {number} at */
function packInto(line, room, at) {
  const from = digitsAt(line);
  let to = from;
  while (NUMBERS[line[to]] < 16 && NUMBERS[line[to + 1]] < 16)
    to += 2;
  if (line[to] !== QUOTE) {
    room.set(line, at);
    return [at + line.length, at + line.length];
  }
  room.set(line.subarray(0, from), at);
  room.set(line.subarray(to), at + from);
  const end = at + line.length - (to - from);
  let size = end;
  room[size++] = LINE_END;
  for (let i = from; i < to; i += 2)
    room[size++] = NUMBERS[line[i]] << 4 | NUMBERS[line[i + 1]];
  return [end, size];
}

/** The line that was packed.
    @param {Uint8Array} packed */
function lineIn(packed) {
  const end = packed.indexOf(LINE_END);
  if (end < 0)
    return packed;
  const from = digitsAt(packed), line = new Uint8Array(end + 2 * (packed.length - end - 1));
  line.set(packed.subarray(0, from));
  let at = from;
  for (const it of packed.subarray(end + 1)) {
    line[at++] = DIGITS[it >> 4];
    line[at++] = DIGITS[it & 15];
  }
  line.set(packed.subarray(from, end), at);
  return line;
}

// ---- the block format of LZ4, after four bytes that say how much it holds

/** A match has at least four bytes, and begins at most so far behind what it repeats; the last bytes of a block are in none, and
    none begins in the last twelve. */
const LEAST = 4, FARTHEST = 65535, LAST = 5, LAST_MATCH = 12;

/** Where four bytes were last, by a number of 14 bits that they have. */
const places = new Int32Array(1 << 14);

/** @param {Uint8Array} bytes */
function compressed(bytes) {
  const { length } = bytes, room = new Uint8Array(length + (length >> 7) + 32), four = new DataView(bytes.buffer, bytes.byteOffset, length);
  let at = 0, from = 0, to = 4;
  const count = number => {
    for (number -= 15; number >= 255; number -= 255)
      room[to++] = 255;
    room[to++] = number;
  };
  const putLiterals = (end, match) => {
    const size = end - from;
    room[to++] = Math.min(size, 15) << 4 | Math.min(match, 15);
    if (size >= 15)
      count(size);
    if (size > 32) {
      room.set(bytes.subarray(from, end), to);
      to += size;
    } else {
      while (from < end)
        room[to++] = bytes[from++];
    }
  };
  new DataView(room.buffer).setUint32(0, length);
  places.fill(-1);
  while (at < length - LAST_MATCH) {
    const own = four.getUint32(at), hash = Math.imul(own, 0x9e3779b1) >>> 18, before = places[hash];
    places[hash] = at;
    if (before < 0 || at - before > FARTHEST || four.getUint32(before) !== own) {
      // (what has no match for long is passed over faster)
      at += 1 + (at - from >> 6);
      continue;
    }
    const back = at - before;
    while (at > from && at > back && bytes[at - 1] === bytes[at - 1 - back])
      at--;
    let end = at + LEAST;
    while (end < length - LAST_MATCH && four.getUint32(end) === four.getUint32(end - back))
      end += 4;
    while (end < length - LAST && bytes[end] === bytes[end - back])
      end++;
    const match = end - at - LEAST;
    putLiterals(at, match);
    room[to++] = back;
    room[to++] = back >> 8;
    if (match >= 15)
      count(match);
    from = at = end;
  }
  putLiterals(length, 0);
  return room.slice(0, to);
}

/** @param {Uint8Array} packed */
function uncompressed(packed) {
  const room = new Uint8Array(new DataView(packed.buffer, packed.byteOffset).getUint32(0));
  let at = 4, to = 0;
  const count = number => {
    if (number === 15) {
      while (packed[at] === 255)
        number += packed[at++];
      number += packed[at++];
    }
    return number;
  };
  while (at < packed.length) {
    const token = packed[at++], literals = count(token >> 4);
    room.set(packed.subarray(at, at + literals), to);
    at += literals;
    to += literals;
    // (the last literals have no match after them)
    if (at === packed.length)
      break;
    const back = packed[at++] | packed[at++] << 8;
    for (let left = count(token & 15) + LEAST; left; left--, to++)
      room[to] = room[to - back];
  }
  return room;
}
