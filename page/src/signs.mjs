// SPDX-License-Identifier: Apache-2.0
// What the first bytes of a file show of it, where the program finds no packet. No frame is parsed for that.

export { HEAD, formOf, signsOf };

/** How many of a file's first bytes are looked at. */
const HEAD = 1 << 20;

/** Files by their first bytes, in hexadecimal. */
const FORMS = {
  gzip: /^1f8b/, zstd: /^28b52ffd/, xz: /^fd377a585a00/, bzip2: /^425a68/, zip: /^504b0304/, '7z': /^377abcaf271c/, lz4: /^04224d18/,
  capture: /^(a1b2c3d4|d4c3b2a1|a1b23c4d|4d3cb2a1|0a0d0d0a)/,
};

/** @param {Uint8Array} bytes
    @param {number} at */
const numberAt = (bytes, at) => bytes[at] << 8 | bytes[at + 1];

/** Whether the payload of a UDP packet at a place is a record of DTLS: its type, version and length (RFC 6347 section 4.1), and
    before it the length that UDP's header has.
    @param {Uint8Array} bytes
    @param {number} at */
function isDtls(bytes, at) {
  return bytes[at] >= 20 && bytes[at] <= 26 && bytes[at + 1] === 0xfe && (bytes[at + 2] === 0xfd || bytes[at + 2] === 0xff) &&
    at + 12 < bytes.length && numberAt(bytes, at - 4) >= 8 + 13 + numberAt(bytes, at + 11);
}

/** Whether it is a message of STUN, with its cookie (RFC 8489 section 5).
    @param {Uint8Array} bytes
    @param {number} at */
function isStun(bytes, at) {
  return bytes[at + 4] === 0x21 && bytes[at + 5] === 0x12 && bytes[at + 6] === 0xa4 && bytes[at + 7] === 0x42 && bytes[at] < 64 &&
    numberAt(bytes, at - 4) === 8 + 20 + numberAt(bytes, at + 2);
}

/** The form that a file begins as, if it is a known one.
    @param {Uint8Array} bytes */
function formOf(bytes) {
  const first = Array.from(bytes.subarray(0, 6), it => it.toString(16).padStart(2, '0')).join('');
  return Object.keys(FORMS).find(it => FORMS[it].test(first));
}

/** The signs in a file's first bytes, in words: `empty`; its form; `dtls`, `stun`; `json`, `internals`.
    @param {Uint8Array} bytes */
function signsOf(bytes) {
  if (!bytes.length)
    return ['empty'];
  const form = formOf(bytes), signs = form ? [form] : [];
  if (form === 'capture') {
    for (const [sign, isMet] of Object.entries({ dtls: isDtls, stun: isStun })) {
      for (let at = 8; at < bytes.length; at++) {
        if (isMet(bytes, at)) {
          signs.push(sign);
          break;
        }
      }
    }
  } else if (!form) {
    const text = new TextDecoder().decode(bytes);
    if (/^\s*(\{\s*["}]|\[\s*["[{\]])/.test(text))
      signs.push('json', ...text.includes('"PeerConnections"') ? ['internals'] : []);
  }
  return signs;
}
