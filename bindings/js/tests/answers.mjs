// SPDX-License-Identifier: Apache-2.0
// What answers.c prints of packets, by WebAssembly.
import * as davgyuti from 'davgyuti';

const POLICIES = [{}, { zeroChecksum: true, strictPadding: true }, { anyChecksum: true }];
const hex = bytes => Array.from(bytes, it => it.toString(16).padStart(2, '0')).join('');

/** What a function gives, or the code with which it throws. */
function tried(call) {
  try {
    return [0, call()];
  } catch (error) {
    if (!(error instanceof davgyuti.Fault || error instanceof davgyuti.WriteError))
      throw error;
    return [error.code, ''];
  }
}

export function* lines(bytes) {
  yield `packet ${bytes.length} ${bytes.length < 12 ? 0 : davgyuti.word(bytes).number}`;
  for (const policy of POLICIES) {
    const { code, offset } = davgyuti.firstFault(bytes, policy) ?? { code: 0, offset: bytes.length };
    yield `fault ${code} ${offset}`;
    if (tried(() => davgyuti.check(bytes, policy))[0] !== code)
      yield 'check says otherwise';
    const [canonicalCode, canonical] = tried(() => hex(davgyuti.canonical(bytes, policy)));
    yield `canonical ${canonicalCode} ${canonical}`;
    for (const name of ['text', 'report'])
      yield `${name} ${tried(() => davgyuti[name](bytes, policy)).join('\n')}`;
  }
  const header = davgyuti.header(bytes);
  if (header)
    yield ['header', header.sourcePort, header.destinationPort, header.verificationTag, header.checksum].join(' ');
}
