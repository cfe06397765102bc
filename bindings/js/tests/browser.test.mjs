// SPDX-License-Identifier: Apache-2.0
// The same answers in a browser, as modules and bundled, and in node, bundled for it and for browsers. Without chromium or esbuild their part is left out.
import assert from 'node:assert/strict';
import { execFileSync, spawn, spawnSync } from 'node:child_process';
import { cpSync, mkdirSync, mkdtempSync, readFileSync, rmSync, writeFileSync } from 'node:fs';
import { createServer } from 'node:http';
import { tmpdir } from 'node:os';
import { extname, join } from 'node:path';
import { after, test } from 'node:test';
import { fileURLToPath } from 'node:url';
import { lines } from './answers.mjs';

const TYPES = { '.mjs': 'text/javascript', '.js': 'text/javascript', '.wasm': 'application/wasm' };
const POLICY = "default-src 'none'; script-src 'self' 'wasm-unsafe-eval' 'unsafe-inline'; connect-src 'self'";
const browser = process.env.CHROMIUM ?? 'chromium';
const lacking = tool => spawnSync(tool, ['--version']).error && `left out, since there is no ${tool}`;
const own = name => fileURLToPath(new URL(name, import.meta.url));
const examples = readFileSync(own('../../../examples/packets.txt'), 'utf8').split('\n').filter(it => it && !it.startsWith('#'));
const wanted = examples.flatMap(it => [...lines(Uint8Array.from(Buffer.from(it, 'hex')))]).join('\n');

// A project that has the package, and a program for each way to begin.
const project = mkdtempSync(join(tmpdir(), 'davgyuti-')), path = name => join(project, name), installed = path('node_modules/davgyuti');
after(() => rmSync(project, { recursive: true, force: true, maxRetries: 5 }));
mkdirSync(installed, { recursive: true });
for (const name of JSON.parse(readFileSync(own('../package.json'))).files.concat('package.json'))
  cpSync(own(`../${name}`), join(installed, name));
cpSync(own('answers.mjs'), path('answers.mjs'));
const program = (begin, tell, more = '') => `${more}import { init, version } from 'davgyuti';
import { lines } from './answers.mjs';
const bytes = hex => Uint8Array.from(hex.match(/../g), it => parseInt(it, 16)), early = ${tell};
const begun = ${begin}.then(() => ${JSON.stringify(examples)}.flatMap(it => [...lines(bytes(it))]).join('\\n'));
begun.catch(error => String(error.stack)).then(early);
`;
const bytesOf = "import wasm from 'davgyuti/dcsctp.wasm';\n";
const post = "text => fetch('/answer', { method: 'POST', body: text }).then(() => { location = '/next'; })";
const refused = 'init(null).then(() => { throw 1; }, () => version)';
writeFileSync(path('modules.mjs'), program(`${refused}.then(() => init(fetch('/davgyuti/dcsctp.wasm')))`, post));
writeFileSync(path('esm.js'), program('init(wasm).then(init)', post, bytesOf));
writeFileSync(path('iife.js'), program('init(WebAssembly.compile(wasm))', post, bytesOf));
writeFileSync(path('node.js'), program('Promise.resolve()', 'console.log'));
writeFileSync(path('bytes.js'), program('init(wasm)', 'console.log', bytesOf));

/** Bundles a program as README.md says, but for the format. */
function bundle(name, to, ...options) {
  const [, words] = readFileSync(own('../README.md'), 'utf8').match(/`esbuild page\.js (.*?) --outfile=out\.js`/);
  const ran = spawnSync('esbuild', [name, ...words.split(' '), ...options, `--outfile=${to}`], { cwd: project, encoding: 'utf8' });
  assert.deepEqual([ran.status, ran.stderr.match(/warning|error/gi)], [0, null], ran.stderr);
}

test('what esbuild 0.17 and Rollup mistake is not there', () => {
  const blocks = readFileSync(own('../davgyuti.js'), 'utf8').match(/^  static \{$[^]*?^  \}$/gm);
  assert.equal(blocks.length, 1);
  assert.doesNotMatch(blocks[0], /\bthis\b|\bChunk\b/);
});

test('bundled, in node', { skip: lacking('esbuild') }, () => {
  for (const [name, platform, format, to] of [
    ['bytes.js', 'browser', 'esm', 'out/bytes.mjs'], ['bytes.js', 'browser', 'iife', 'out/bytes.cjs'],
    ['node.js', 'node', 'esm', 'out/node.mjs'], ['node.js', 'node', 'cjs', 'out/node.cjs'],
  ]) {
    bundle(name, to, `--platform=${platform}`, `--format=${format}`);
    if (platform === 'node')
      cpSync(own('../dcsctp.wasm'), path('out/dcsctp.wasm'));
    assert.equal(execFileSync(process.execPath, [to], { cwd: project, encoding: 'utf8' }), `${wanted}\n`);
    // (where it knows a class not well enough, esbuild makes a WeakMap of each private field, which are slow)
    assert.doesNotMatch(readFileSync(path(to), 'utf8'), /WeakMap/);
  }
});

test('in a browser', { skip: lacking(browser), timeout: 1_200_000 }, async context => {
  // (an element's id is a name in its scripts)
  const page = script => `<i id="module"></i><i id="exports"></i>
<script>addEventListener('error', it => fetch('/answer', { method: 'POST', body: it.message ?? 'a script is missing' }), true);</script>
<script type="importmap">{ "imports": { "davgyuti": "/davgyuti/davgyuti.mjs" } }</script>${script}`;
  const pages = { modules: page('<script type="module" src="/modules.mjs"></script>') };
  if (lacking('esbuild')) {
    context.diagnostic(`bundles: ${lacking('esbuild')}`);
  } else {
    for (const format of ['esm', 'iife'])
      bundle(`${format}.js`, `out/${format}.js`, '--platform=browser', `--format=${format}`);
    pages.esm = page('<script type="module" src="/out/esm.js"></script>');
    pages.iife = page('<script src="/out/iife.js"></script>');
  }
  const profile = mkdtempSync(join(tmpdir(), 'davgyuti-')), left = Object.keys(pages), answers = {};
  let child, server;
  try {
    await new Promise((resolve, reject) => {
      server = createServer(async (request, response) => {
        const name = request.url.replace(/^\/davgyuti\//, '/node_modules/davgyuti/'), type = TYPES[extname(name)];
        if (request.method === 'POST') {
          let text = '';
          for await (const part of request.setEncoding('utf8'))
            text += part;
          answers[left.shift()] = text;
          if (left.length === 0 || text !== wanted)
            resolve();
        }
        const isThere = type || request.url === '/next' || request.method === 'POST';
        response.writeHead(isThere ? 200 : 404, { 'content-type': type ?? 'text/html', 'content-security-policy': POLICY });
        response.end(type ? readFileSync(path(name)) : pages[left[0]]);
      }).listen(0, '127.0.0.1', () => {
        const words = ['--headless', '--no-sandbox', '--disable-gpu', `--user-data-dir=${profile}`];
        child = spawn(browser, [...words, `http://127.0.0.1:${server.address().port}/next`], { stdio: 'ignore' });
        child.on('error', reject).on('exit', code => reject(new Error(`${browser} ended with ${code}`)));
        setTimeout(() => reject(new Error('the page gave no answer')), 600_000).unref();
      });
    });
    assert.deepEqual(answers, Object.fromEntries(Object.keys(pages).map(name => [name, wanted])));
  } finally {
    const ended = child && new Promise(resolve => child.on('exit', resolve));
    child?.kill();
    await ended;
    server.closeAllConnections?.();
    server.close();
    rmSync(profile, { recursive: true, force: true, maxRetries: 5 });
  }
});
