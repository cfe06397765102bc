// SPDX-License-Identifier: Apache-2.0
// The archive that npm makes of the package, in a project that has nothing else.
import assert from 'node:assert/strict';
import { execFileSync, spawnSync } from 'node:child_process';
import { cpSync, mkdirSync, mkdtempSync, readFileSync, readdirSync, rmSync, writeFileSync } from 'node:fs';
import { createRequire } from 'node:module';
import { tmpdir } from 'node:os';
import { join } from 'node:path';
import { after, test } from 'node:test';
import { fileURLToPath } from 'node:url';
import * as davgyuti from 'davgyuti';
import * as bare from '../davgyuti.mjs';
import library from '../library.js';

const file = name => readFileSync(new URL(name, import.meta.url), 'utf8');
const project = mkdtempSync(join(tmpdir(), 'davgyuti-'));
after(() => rmSync(project, { recursive: true }));
// (this may run under npm, which tells its own to what it runs)
const env = Object.fromEntries(Object.entries(process.env).filter(([name]) => !name.toLowerCase().startsWith('npm_')));
Object.assign(env, { npm_config_cache: join(project, 'cache'), npm_config_loglevel: 'error', npm_config_offline: 'true' });
const run = (...words) => execFileSync(words[0], words.slice(1), { cwd: project, env, encoding: 'utf8' });
const lacking = tool => spawnSync(tool, ['--version']).error && `left out, since there is no ${tool}`;

const own = file('../README.md'), { version } = JSON.parse(file('../package.json'));
const folder = fileURLToPath(new URL('..', import.meta.url));
const archive = `davgyuti-${version}.tgz`;

test('require gives what import gives', () => {
  const { buffer } = library.view(), required = createRequire(import.meta.url)('davgyuti');
  assert.equal(library.view().buffer, buffer); // (which is the one that it began with)
  for (const it of [required, bare]) {
    assert.deepEqual(Object.keys(it).sort(), Object.keys(davgyuti).sort());
    for (const name of Object.keys(it))
      assert.equal(it[name], davgyuti[name]);
  }
  assert.equal(createRequire(import.meta.url)('davgyuti/package.json').version, version);
});

test('it begins by init, once', async () => {
  const wasm = readFileSync(join(folder, 'dcsctp.wasm')), empty = Uint8Array.of(0, 0x61, 0x73, 0x6d, 1, 0, 0, 0);
  // (whose one function says version 0.1.1)
  const other = Buffer.from(`0061736d01000000 010501600001 7f03020100 07190115${Buffer.from('dcsctp_version_number').toString('hex')}0000
    0a0701050041 81020b`.replace(/\s/g, ''), 'hex');
  assert.equal(new WebAssembly.Instance(new WebAssembly.Module(other)).exports.dcsctp_version_number(), 257);
  for (const [i, given] of [wasm, new WebAssembly.Module(wasm), Promise.resolve(new Response(wasm))].entries()) {
    for (const name of ['davgyuti.js', 'kinds.js', 'library.js'])
      cpSync(join(folder, name), join(project, `begins${i}`, name));
    const { Builder, check, init, versionNumber } = createRequire(import.meta.url)(join(project, `begins${i}`, 'davgyuti.js'));
    const builder = new Builder({ sourcePort: 1, destinationPort: 2, verificationTag: 3 }).addCookieAck();
    for (const it of [null, undefined, 'dcsctp.wasm', {}, wasm.subarray(1), empty, other, new WebAssembly.Module(other), fetch('data:,')]) {
      await assert.rejects(init(it));
      for (const call of [versionNumber, () => check(new Uint8Array(16)), () => builder.finish()])
        assert.throws(call, /^Error: init\(wasm\) comes first/);
    }
    await assert.rejects(init(new Response(wasm, { status: 404, statusText: 'Not Found' })), { message: ': 404 Not Found' });
    await init(given);
    check(builder.finish());
    for (const it of [undefined, empty, new WebAssembly.Module(wasm)])
      assert.equal(await init(it), undefined);
    check(builder.finish());
  }
  // In node it has begun.
  await davgyuti.init();
});

test('the archive is whole, and twice the same', { skip: lacking('npm') }, () => {
  const packed = ['.', 'again'].map(to => {
    mkdirSync(join(project, to), { recursive: true });
    run('npm', 'pack', '--pack-destination', to, folder);
    return readFileSync(join(project, to, archive));
  });
  assert.ok(packed[0].equals(packed[1]));
  const names = run('tar', '-tzf', archive).trim().split('\n');
  const whole = readdirSync(folder).filter(it => !['heap.c', 'tests'].includes(it));
  assert.deepEqual(names.sort(), whole.map(it => `package/${it}`).sort());
  assert.doesNotMatch(own, /\]\((?!https?:)/, 'a link to what is not in the archive');
});

test('what README.md says, in a project of its own', { skip: lacking('npm') }, () => {
  writeFileSync(join(project, 'package.json'), '{ "private": true }');
  run('npm', 'install', own.match(/`npm install (\.\/davgyuti-\S*\.tgz)`/)[1]);
  assert.deepEqual(readdirSync(join(project, 'node_modules')).filter(it => !it.startsWith('.')), ['davgyuti']);
  const [code, ...others] = [...own.matchAll(/```js\n([^]*?)```/g)].map(it => it[1]), [, answer] = code.match(/prints (\w+)/);
  assert.match(file('../../../examples/expected.txt'), new RegExp(`^  answer ${answer}$`, 'm'));
  for (const [i, program] of [code, ...others].entries()) {
    writeFileSync(join(project, `${i}.mjs`), program);
    assert.equal(run(process.execPath, `${i}.mjs`), [...program.matchAll(/prints (.*)/g)].map(it => `${it[1]}\n`).join(''));
  }
  // By require too, also where it can't take a module of the other kind.
  writeFileSync(join(project, 'answer.cjs'), code.replace(/^import (.*) from (.*);$/m, 'const $1 = require($2);'));
  const old = process.allowedNodeEnvironmentFlags.has('--experimental-require-module') ? ['--no-experimental-require-module'] : [];
  assert.equal(run(process.execPath, ...old, 'answer.cjs'), `${answer}\n`);
});

test('what TypeScript knows of it', { skip: lacking('npm') ?? lacking('tsc') }, () => {
  cpSync(new URL('user', import.meta.url), project, { recursive: true });
  const options = '--noEmit --strict --exactOptionalPropertyTypes --module node16 --moduleResolution node16 --target es2020 --lib es2020'
    + ' --allowJs --checkJs';
  // (those in .mjs are the programs of README.md)
  const files = ['imported.mts', 'required.cts', 'node.d.ts', ...readdirSync(project).filter(it => /^\d+\.mjs$/.test(it))];
  const ran = spawnSync('tsc', [...options.split(' '), ...files], { cwd: project, env, encoding: 'utf8' });
  assert.equal(ran.stdout, '');
  assert.equal(ran.status, 0);
});
