// SPDX-License-Identifier: Apache-2.0
// What this package says of dcsctp.h is what the header has.
import assert from 'node:assert/strict';
import { readFileSync } from 'node:fs';
import { test } from 'node:test';
import * as davgyuti from 'davgyuti';

const file = name => readFileSync(new URL(name, import.meta.url), 'utf8');
const header = file('../../../include/dcsctp.h');

test('the module imports nothing, and has each function that is called', () => {
  const module = new WebAssembly.Module(readFileSync(new URL('../dcsctp.wasm', import.meta.url)));
  assert.deepEqual(WebAssembly.Module.imports(module), []);
  const exports = new Set(WebAssembly.Module.exports(module).map(it => it.name));
  const called = [...file('../davgyuti.js').matchAll(/'(dcsctp_\w+)'/g), ...file('../library.js').matchAll(/wasm\.(dcsctp_\w+)\(/g)];
  assert.ok(called.length > 20);
  for (const [, name] of called)
    assert.ok(exports.has(name) && header.includes(` ${name}(`), name);
});

test('the texts of results are the header\'s', () => {
  const texts = [...header.match(/dcsctp_result_text\([^]*?\n}/)[0].matchAll(/case DCSCTP_(\w+): return "(.*)";/g)];
  assert.deepEqual(texts.map(it => [it[1], it[2]]), Object.entries(davgyuti.Result).map(([name, code]) => [name, davgyuti.resultText(code)]));
});

test('a number without a name is in its name', () => {
  assert.deepEqual([davgyuti.chunkName(15), davgyuti.parameterName(5)], ['AUTH', 'IPv4 Address']); // RFC 4895, 9260
  assert.deepEqual([davgyuti.chunkName(0x4d), davgyuti.chunkName(255)], ['chunk type 77 (0x4d)', 'chunk type 255 (0xff)']);
  assert.deepEqual([davgyuti.parameterName(0x8006), davgyuti.parameterName(0)], ['parameter type 32774 (0x8006)', 'parameter type 0 (0x0000)']);
  assert.equal(davgyuti.causeName(99), 'cause code 99 (0x0063)');
  // RFC 4895 section 4.1.
  assert.equal(davgyuti.causeName(0x0105), 'Unsupported HMAC Identifier');
  const { isKnownChunk, isKnownParameter, isKnownCause } = davgyuti;
  assert.deepEqual([3, 0x4d, '3', '__proto__', undefined].map(isKnownChunk), [true, false, false, false, false]);
  assert.deepEqual([7, 0x8006].map(isKnownParameter), [true, false]);
  assert.deepEqual([13, 99].map(isKnownCause), [true, false]);
});

test('only a number has a name', () => {
  for (const name of [davgyuti.chunkName, davgyuti.parameterName, davgyuti.causeName, davgyuti.resultText]) {
    for (const it of ['constructor', '__proto__', 'length', '1', null, undefined, 1n, {}, Symbol('1')])
      assert.throws(() => name(it), TypeError);
    for (const it of [-1, 1.5, NaN, 2 ** 32])
      assert.throws(() => name(it), RangeError);
  }
  assert.throws(() => davgyuti.chunkName(256), RangeError);
  assert.throws(() => davgyuti.parameterName(65_536), RangeError);
  assert.throws(() => davgyuti.causeName(65_536), RangeError);
});

test('the version is the header\'s, the module\'s and the package\'s', () => {
  assert.equal(davgyuti.version, header.match(/DCSCTP_VERSION "(.*)"/)[1]);
  assert.equal(davgyuti.version, JSON.parse(file('../package.json')).version);
  const [major, minor, patch] = davgyuti.version.split('.').map(Number);
  assert.equal(davgyuti.versionNumber(), (major << 16) + (minor << 8) + patch);
});

test('the types declare what is exported', () => {
  const declared = new Set([...(file('../davgyuti.d.ts') + file('../kinds.d.ts')).matchAll(/^export (?:const|function|class) (\w+)/gm)].map(it => it[1]));
  assert.deepEqual([...declared].sort(), Object.keys(davgyuti).sort());
});
