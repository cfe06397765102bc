// SPDX-License-Identifier: Apache-2.0
// Packets are answered as by the library for this machine, and the examples as they have to be.
import assert from 'node:assert/strict';
import { execFileSync, spawnSync } from 'node:child_process';
import { existsSync, mkdtempSync, readFileSync, rmSync } from 'node:fs';
import { tmpdir } from 'node:os';
import { join } from 'node:path';
import { test } from 'node:test';
import { fileURLToPath } from 'node:url';
import * as davgyuti from 'davgyuti';
import { lines } from './answers.mjs';

const path = name => fileURLToPath(new URL(name, import.meta.url));
const ROOT = '../../../', COUNT = 4000;

test('examples/packets.txt gives examples/expected.txt', () => {
  const shown = execFileSync(process.execPath, [path('show.mjs'), path(`${ROOT}examples/packets.txt`)], { encoding: 'utf8' });
  assert.equal(shown, readFileSync(path(`${ROOT}examples/expected.txt`), 'utf8'));
});

const options = { encoding: 'utf8', maxBuffer: 1 << 30 };
const noPython = spawnSync('python3', ['--version']).error && 'no python3';
const bytes = hex => Uint8Array.from(Buffer.from(hex, 'hex'));

function packets() {
  const examples = readFileSync(path(`${ROOT}examples/packets.txt`), 'utf8');
  return execFileSync('python3', [path(`${ROOT}dist/packets.py`), String(COUNT), '1'], { ...options, input: examples });
}

// The library for this machine: a file that DCSCTP_LIBRARY names, or the text in dist/.
const texts = { 'linux x64': 'dcsctp-x86_64-elf.s', 'linux arm64': 'dcsctp-aarch64-elf.s' };
const text = texts[`${process.platform} ${process.arch}`];
const library = process.env.DCSCTP_LIBRARY ?? (text && path(`${ROOT}dist/${text}`));
const lacking = !library || !existsSync(library) ? 'no library for this machine: set DCSCTP_LIBRARY'
  : spawnSync('cc', ['--version']).error ? 'no cc' : noPython;

test(`${COUNT} packets made at random are answered alike`, { skip: lacking }, () => {
  const folder = mkdtempSync(join(tmpdir(), 'dcsctp-'));
  try {
    const input = packets();
    execFileSync('cc', ['-o', join(folder, 'answers'), path('answers.c'), '-I', path(`${ROOT}include`), library]);
    const native = execFileSync(join(folder, 'answers'), { ...options, input }).split('\n');
    const own = input.trimEnd().split('\n').flatMap(it => [...lines(bytes(it))]).join('\n').split('\n');
    const at = own.findIndex((it, i) => it !== native[i]);
    if (at >= 0)
      assert.equal(own.slice(at - 5, at + 2).join('\n'), native.slice(at - 5, at + 2).join('\n'), `line ${at + 1}`);
    assert.equal(own.length, native.length - 1);
    assert.ok(own.length > 10 * COUNT);
  } finally {
    rmSync(folder, { recursive: true });
  }
});
