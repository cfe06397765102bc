// SPDX-License-Identifier: Apache-2.0
// Tries the program as WebAssembly, and the page in browsers. usage: node page/tests/run.mjs SCTP.html SCTP_DUMP.wasm
import assert from 'node:assert/strict';
import { spawnSync } from 'node:child_process';
import { cpSync, mkdirSync, mkdtempSync, readdirSync, readFileSync, rmSync, symlinkSync, writeFileSync } from 'node:fs';
import { createServer } from 'node:http';
import { tmpdir } from 'node:os';
import { join, resolve } from 'node:path';
import { fileURLToPath } from 'node:url';
import { gzipSync } from 'node:zlib';
import { WORDS } from '../src/keys.mjs';
import { run } from '../src/program.mjs';
import { Browser, lacking } from './browser.mjs';
import { contrasts } from './contrast.mjs';
import { tryFace } from './face.mjs';
import { Firefox, lacking as lackingFirefox } from './firefox.mjs';
import { compareRow } from './table.mjs';
import { association, bytes, chunk, data, init, initAck, ip, packet, parameter, pcap, sack, udp } from './traffic.mjs';

const [html, wasm] = process.argv.slice(2).map(it => resolve(it));
const CRATE = new URL('../../crates/sctp_dump/', import.meta.url);
const folder = mkdtempSync(join(tmpdir(), 'page-'));
const A = '10.0.0.1', B = '10.0.1.1';
let passed = 0, failed = 0, leftOut = 0;

async function check(name, test) {
  const started = Date.now();
  try {
    await test();
    passed++;
    console.log(`page: ${name}: passed (${((Date.now() - started) / 1000).toFixed(1)} s)`);
  } catch (error) {
    failed++;
    console.log(`page: ${name}: failed\n${error.stack}`);
  }
}

const wait = time => new Promise(resolve => setTimeout(resolve, time));

/** A file of these bytes. */
function file(name, content) {
  writeFileSync(join(folder, name), content);
  return join(folder, name);
}

// ---- the program

const module = wasm && new WebAssembly.Module(readFileSync(wasm));

/** What the program prints, and its status, of files by their names; `-` is standard input. */
function printed(words, files) {
  const input = content => {
    let at = 0;
    return { read: size => content.subarray(at, at += Math.min(size, content.length - at)) };
  };
  const parts = [], errors = [];
  const status = run(module, {
    words,
    open: name => files[name] && input(files[name]),
    print: it => parts.push(it.slice()),
    report: it => errors.push(it.slice()),
  });
  return { status, text: Buffer.concat(parts).toString('latin1'), errors: Buffer.concat(errors).toString() };
}

const stored = name => new Uint8Array(readFileSync(new URL(name, CRATE)));
const DATA = Object.fromEntries(readdirSync(new URL('data/', CRATE)).map(it => [it, stored(`data/${it}`)]));

function sameAsNative() {
  const textOf = name => Buffer.from(stored(name)).toString('latin1');
  const { status, text } = printed(textOf('args').split('\n').filter(it => it), { ...DATA, '-': stored('stdin') });
  assert.equal(text, textOf('stdout'));
  assert.equal(status, Number(textOf('status')));
}

/** The lines of JSON that the program prints of files, or of one. */
function linesOf(files, ...words) {
  return printed([...WORDS, ...words], files).text.split('\n').filter(it => it).map(it => JSON.parse(it));
}

const lines = content => linesOf({ '-': content });

// ---- the page as one file

/** Tries page/make.py with a module that breaks its rule: it names the module and the line, and makes no page. */
function breaksRule() {
  const copy = join(folder, 'copy'), root = new URL('../../', import.meta.url), path = join(copy, 'page/src/files.mjs');
  cpSync(new URL('page', root), join(copy, 'page'), { recursive: true, filter: it => !it.endsWith('/out') });
  for (const it of ['dist', 'include'])
    symlinkSync(fileURLToPath(new URL(it, root)), join(copy, it));
  const text = readFileSync(path, 'utf8'), head = text.indexOf('\nexport {') + 1, line = text.slice(0, head).split('\n').length;
  const after = text.split('\n').length, made = changed => {
    writeFileSync(path, changed);
    return spawnSync('python3', [join(copy, 'page/make.py')], { encoding: 'utf8' });
  };
  const add = it => text.slice(0, head) + it + text.slice(head);
  for (const [changed, number, said] of [
    [`${text}export const more = 1;\n`, after, 'after the head a line begins with export'],
    [`${text}  import('./text.mjs');\n`, after, 'after the head a line begins with import'],
    [`${text}// </script>\n`, after, 'a script ends in its midst'],
    [add('export { one as two };\n'), line, 'after the head a line begins with export'],
    [add("import { none } from './text.mjs';\n"), line, "text.mjs doesn't export none"],
    [add("import './opening.mjs';\n"), line, 'opening.mjs imports this module, too'],
  ]) {
    const { status, stderr } = made(changed);
    assert.notEqual(status, 0, said);
    assert.ok(stderr.startsWith(`page/make.py: src/files.mjs:${number}: ${said}`), stderr);
  }
  // What isn't in the head stays as it is.
  const plain = "// export { one };\nconst texts = [`a line; export const x = import`, 'export { y };'];\n";
  assert.equal(made(text + plain).status, 0);
  assert.ok(readFileSync(join(copy, 'page/out/sctp.html'), 'utf8').includes(plain));
}

// ---- the page

const by = (selector, what = 'textContent') => `document.querySelector(${JSON.stringify(selector)})?.${what}`;
const all = (selector, what = 'it.textContent') =>
  `Array.from(document.querySelectorAll(${JSON.stringify(selector)}), it => ${what})`;
/** The rows of the list that are in the document, in their order. */
const ROWS = `${all('#list .row', 'it')}.sort((a, b) => a.dataset.index - b.dataset.index).map(it => it.textContent)`;
/** Where they are, and their numbers. */
const ROW_PLACES = all('#list .row', '({ ...it.getBoundingClientRect().toJSON(), number: Number(it.dataset.index) + 1 })');
/** What would read a text as HTML, or run it. */
const HTML_READERS = /(inner|outer|Adjacent|set)HTML|document\.write|ContextualFragment|srcdoc|eval\(|Function\(/;
const FITS = "[document.documentElement, document.getElementById('list')].every(it => it.scrollWidth <= innerWidth)";

const url = `file://${html}`;

// ---- captures

const example = pcap(association(14));
const refused = ip(A, B, packet(40000, 9900, 0x4d2df52d, chunk(6, 0), bytes([1, 11, 0, 0, 3])));
const withRefused = file('refused.pcap', pcap(association(14).toSpliced(10, 0, [association(14)[9][0] + 100, refused])));
/** A call whose packets DTLS encrypts (RFC 6347 section 4.1). */
const call = pcap(Array.from({ length: 40 }, (_, i) =>
  [i, udp(A, B, 50000, 60000, bytes([1, 23], [2, 0xfefd], [4, 1, i], [2, 8], 'encrypted'))]));

async function inBrowser(browser) {
  const quiet = () => assert.deepEqual(browser.problems, []);
  const set = (id, value, event) => browser.ask(`(() => {
    document.getElementById('${id}').value = ${JSON.stringify(value)};
    document.getElementById('${id}').dispatchEvent(new Event('${event}'));
  })()`);
  const filter = async text => {
    await browser.ask('delete document.body.dataset.filter');
    await set('filter', text, 'input');
    await browser.until('document.body.dataset.filter !== undefined');
    return browser.ask(by('#found'));
  };
  const titled = text => browser.until(`document.getElementById('title').textContent === '${text}'`);
  const show = async path => {
    await browser.choose(path);
    await browser.done();
    await wait(100);
  };
  // (the heads of the columns are a row, too)
  const count = () => browser.ask(by('#list', "getAttribute('aria-rowcount')")).then(it => it - 1);
  let large;

  await check('a pcap file, chosen', async () => {
    await browser.open(url);
    await show(file('example.pcap', example));
    assert.equal(await count(), 30);
    const rows = await browser.ask(ROWS);
    assert.match(rows[0], /^10\.0*10\.0\.0\.1:40000 → 10\.0\.1\.1:99000x00000000INITtag 0x0da73798 · initial TSN 1000 · /);
    assert.match(rows[4], /DATATSN 1000 · stream 0 · .* · 7 bytes$/);
    // (the second DATA is a string)
    assert.match(rows.find(it => it.includes('TSN 1001')), /DATA“hello 1” · TSN 1001 · stream 1 · WebRTC String · 7 bytes$/);
    quiet();
  });

  await check('each other form of input', async () => {
    const isRow = it => it.packet !== undefined, isSkipped = it => typeof it.skipped === 'string';
    for (const [name, content] of Object.entries(DATA)) {
      await show(file(name, content));
      assert.equal(await count(), lines(content).filter(isRow).length, name);
      const skipped = lines(content).filter(isSkipped).length;
      assert.match(await filter('skipped'), new RegExp(`^${skipped} of `), name);
    }
    // Several files, as one capture.
    await browser.choose(...Object.keys(DATA).map(it => join(folder, it)));
    await browser.done();
    await wait(100);
    const wanted = linesOf(DATA, ...Object.keys(DATA)).filter(it => isRow(it) || it.file !== undefined);
    assert.equal(await count(), wanted.length);
    // An option, for the next one.
    const refusedOf = (...words) => linesOf({ '-': DATA['faults.txt'] }, ...words).filter(it => it.fault).length;
    assert.notEqual(refusedOf(), refusedOf('--strict'));
    for (const words of [['--strict'], []]) {
      await browser.click('#again');
      if (!await browser.ask("document.getElementById('strict').checkVisibility()"))
        await browser.click('#options summary');
      await browser.click('#strict');
      await show(join(folder, 'faults.txt'));
      assert.equal(await browser.ask(by('#counts button')), `${refusedOf(...words)} refused`);
    }
    quiet();
  });

  await check('what isn’t SCTP is answered in the list', async () => {
    const answer = () => browser.ask("document.getElementById('answer').checkVisibility() && document.getElementById('answer').innerText");
    const archive = gzipSync(example), noise = Uint8Array.from({ length: 5000 }, (_, i) => i * i * 7919 >> 8);
    const answers = {
      'call.pcap': [call, /^This capture is encrypted by DTLS.*None of 40 packets is SCTP.*Chromium.*Firefox.*aiortc.*pion.*usrsctp/s],
      'other.pcap': [pcap([[0, udp(A, B, 50000, 60000, bytes('other'))]]), /^None of 1 packet is SCTP.*port/s],
      'internals.json': ['{\n"getUserMedia": [],\n"PeerConnections": {"1-1": {}}}', /^This is a dump of webrtc-internals.*Chromium/s],
      'internals.gz': [gzipSync('{"getUserMedia": [], "PeerConnections": {}}'), /^This is a dump of webrtc-internals/],
      'other.json': ['{"packets": []}', /^This is JSON, but not of sctp_dump.*sctp_dump --json --places/s],
      'list.json': ['[{"a": 1}]', /^This is JSON, but not of sctp_dump/],
      'archive.zst': [bytes([1, 0x28, 0xb5, 0x2f, 0xfd, 0]), /^This file is compressed by zstd.*zstd -d/s],
      'nothing': ['', /^This file is empty/],
      'empty.pcap': [pcap([]), /^No packet is in this file.*tcpdump/s],
      'short.pcap': [pcap([]).subarray(0, 12), /^No packet is in this file.*ends in its header/s],
      'radio.pcap': [pcap([], 147), /^No packet is in this file.*link type 147/s],
      'noise': [noise, /^No line of this text is a packet/],
      'text': ['hello', /^No line of this text is a packet.*SCTP_PACKET/s],
    };
    for (const [name, [content, said]] of Object.entries(answers)) {
      await show(file(name, content));
      assert.match(await answer(), said, name);
      const seen = await browser.ask(all('#list, #heads, #details, #tools, #tab-messages, #tab-diagram', 'it.checkVisibility()'));
      assert.deepEqual(seen, Array(6).fill(false), name);
      assert.match(await browser.ask(by('#status')), /^0 packets, read in/, name);
      assert.equal(await browser.ask('document.activeElement.id'), 'answer');
    }
    // What was skipped has its button, and the next capture its list.
    await browser.click('#counts button:last-child');
    await wait(50);
    assert.match((await browser.ask(ROWS)).join(), /^line 1 skipped: not a packet/);
    await browser.click('#again');
    await browser.click('#again');
    // What gzip compressed is unpacked, as far as it can be.
    await show(file('example.pcap.gz', archive));
    assert.equal(await count(), 30);
    assert.equal(await answer(), false);
    assert.equal(await browser.ask(by('#status', 'className')), '');
    await show(file('two.gz', Buffer.concat([archive, archive])));
    assert.equal(await count(), 30);
    assert.match(await browser.ask(by('#status')), /^What gzip compressed/);
    // A filter that passes nothing says so, too.
    assert.equal(await filter('port:1'), '0 of 30 rows');
    assert.match(await answer(), /^No row passes the filter/);
    await browser.click('#answer button');
    assert.equal(await browser.ask(by('#found')), '');
    await titled('Packet 1');
    // A file that ends too early is shown as far as it goes.
    await show(file('cut.pcap', example.subarray(0, 1000)));
    assert.ok(await count() > 5);
    assert.match(await browser.ask(by('#status')), /^The file ends inside a packet/);
    assert.equal(await browser.ask(by('#status', 'className')), 'bad');
    // Options and a text that can't be read are said where they are given, and nothing is opened.
    await browser.click('#again');
    const seen = id => browser.ask(`document.getElementById('${id}').checkVisibility()`);
    await browser.click('#read');
    assert.equal(await seen('no-text'), true);
    for (const [port, isWrong] of [['0', true], ['70000', true], ['1.5', true], ['5000', false]]) {
      await set('udp', port, 'input');
      assert.equal(await seen('no-port'), isWrong, port);
      await browser.click('#example');
      await wait(100);
      assert.equal(await seen('start'), isWrong, port);
    }
    await browser.open(url);
    quiet();
  });

  await check('a text, typed or pasted, and a file that is dropped', async () => {
    const hexadecimal = '138813880102030400000000 0b000004';
    const log = '[1:2:ERROR] other lines\nI 17:39:54.101 0000 13 88 13 88 01 02 03 04 00 00 00 00 0b 00 00 04 # SCTP_PACKET\n';
    await browser.click('#again');
    await browser.click('#text');
    await browser.type(`${hexadecimal}\n${hexadecimal}`);
    await browser.ask('delete document.body.dataset.done');
    await browser.click('#read');
    await browser.done();
    assert.equal(await count(), 2);
    await browser.ask(`(() => {
      delete document.body.dataset.done;
      const held = new DataTransfer();
      held.setData('text', ${JSON.stringify(log)});
      document.body.dispatchEvent(new ClipboardEvent('paste', { clipboardData: held, bubbles: true }));
    })()`);
    await browser.done();
    await wait(100);
    // (it opens on its first packet: the line that was skipped has a button)
    const [row] = await browser.ask(ROWS);
    await titled('Packet 1');
    assert.equal(await count(), 1);
    await browser.click('#counts button:last-child');
    await wait(100);
    assert.equal(await browser.ask(by('#filter', 'value')), 'skipped');
    assert.match((await browser.ask(ROWS)).join(), /^line 1 skipped: not a packet/);
    assert.match(row, /^10.000incoming 5000 → 50000x01020304COOKIE ACKzero checksum$/);
    await browser.ask('delete document.body.dataset.done');
    const dragged = { items: [], files: [file('dropped.pcap', example)], dragOperationsMask: 1 };
    for (const type of ['dragEnter', 'dragOver', 'drop'])
      await browser.send('Input.dispatchDragEvent', { type, x: 300, y: 300, data: dragged });
    await browser.done();
    assert.equal(await count(), 30);
    // And what sctp_dump printed elsewhere.
    await show(file('lines.json', lines(example).map(it => `${JSON.stringify(it)}\n`).join('')));
    assert.equal(await count(), 30);
    await browser.click('#again');
    await browser.ask('delete document.body.dataset.done');
    await browser.click('#example');
    await browser.done();
    assert.ok(await count() > 20);
    await browser.click('#again');
    assert.equal(await browser.ask(by('#again')), 'Back');
    await browser.click('#again');
    assert.equal(await browser.ask("document.getElementById('work').checkVisibility()"), true);
    quiet();
  });

  await check('each field marks its bytes, and each byte its field', async () => {
    await show(join(folder, 'example.pcap'));
    await filter('packet:5');
    const marked = () => browser.ask(all('#bytes .byte.in[role=gridcell]', 'it.id.slice(5)'));
    const [object] = lines(example).filter(it => it.packet === 5);
    const placed = (it, path) => Object.keys(it).filter(key => `${key}@` in it).map(key => [path + key, it[`${key}@`]]);
    const fields = [...placed(object, ''), ...placed(object.chunks[0], 'DATA › ')];
    assert.ok(fields.length > 12);
    for (const [name, [from, size]] of fields) {
      // (by the keyboard, until it is there: not all are in view)
      await browser.ask("document.getElementById('tree').focus()");
      await browser.press('Home');
      for (let i = 0; i < 60 && !(await browser.ask(by('#marked'))).startsWith(`${name}:`); i++)
        await browser.press('ArrowDown');
      assert.deepEqual((await marked()).map(Number), Array.from({ length: size }, (_, i) => from + i), name);
      assert.match(await browser.ask(by('#marked')), new RegExp(`^${name}: byte`));
    }
    // The other way round, by a click and by the pointer alone.
    await browser.click('#byte-21');
    assert.match(await browser.ask(by('#marked')), /^DATA › stream: bytes 20 to 21/);
    assert.equal(await browser.ask(by('#tree .row.current .key')), 'stream');
    await browser.move('#byte-17');
    assert.match(await browser.ask(by('#marked')), /^DATA › tsn: bytes 16 to 19/);
    assert.deepEqual(await browser.ask(all('#bytes .over[role=gridcell]', 'it.id')), [16, 17, 18, 19].map(it => `byte-${it}`));
    await browser.move('#filter');
    quiet();
  });

  await check('the keyboard', async () => {
    const focused = () => browser.ask('document.activeElement.id');
    await filter('');
    await browser.click('#list .row:nth-child(2)');
    await browser.press('Home');
    await titled('Packet 1');
    for (const it of ['ArrowDown', 'ArrowDown', 'ArrowDown', 'ArrowDown'])
      await browser.press(it);
    await titled('Packet 5');
    await browser.press('Enter');
    assert.equal(await focused(), 'tree');
    await browser.press('End');
    await wait(50);
    await browser.press('ArrowLeft');
    await browser.press('ArrowLeft');
    assert.equal(await browser.ask(by('#tree .row.current', "getAttribute('aria-expanded')")), 'false');
    await browser.press('ArrowRight');
    assert.equal(await browser.ask(by('#tree .row.current', "getAttribute('aria-expanded')")), 'true');
    await browser.press('ArrowRight');
    assert.match(await browser.ask(by('#marked')), /^DATA › chunk: byte 12/);
    await browser.press('Enter');
    assert.equal(await focused(), 'bytes');
    await browser.press('ArrowRight');
    assert.match(await browser.ask(by('#marked')), /^DATA › flags: byte 13, also /);
    await browser.press('ArrowDown');
    assert.match(await browser.ask(by('#marked')), /: bytes 28 to /);
    await browser.press('Enter');
    assert.equal(await focused(), 'tree');
    await browser.press('/');
    assert.equal(await focused(), 'filter');
    await browser.type('chunk:sack gaps');
    await browser.press('Enter');
    await wait(100);
    assert.equal(await focused(), 'list');
    assert.equal(await browser.ask(by('#found')), '2 of 30 rows');
    await browser.press('/');
    await browser.press('Escape');
    assert.equal(await browser.ask(by('#filter', 'value')), '');
    assert.equal(await focused(), 'list');
    // Where the focus is, is seen.
    // (a list's ring is its border)
    const ring = "(it => it.outlineStyle !== 'none' || it.borderTopColor !== 'rgba(0, 0, 0, 0)')(getComputedStyle(document.activeElement))";
    assert.ok(await browser.ask(ring));
    quiet();
  });

  await check('filters', async () => {
    const packets = lines(example).filter(it => it.packet), of = (it, type) => it.chunks.filter(its => its.chunk === type);
    const isIn = (least, most) => it => it.packet >= least && it.packet <= most, no = () => false, yes = () => true;
    const hasData = test => it => of(it, 0).some(test), hasSack = test => it => of(it, 3).some(test);
    const counts = {
      'port:9900': yes, 'port:5000': no, 'source:9900': it => it.source === 9900,
      'destination:9900': it => it.destination === 9900,
      'tag:0x0da73798': it => it.tag === 0x0da73798, 'tag:229062552': it => it.tag === 0x0da73798, 'address:10.0.1': yes,
      'chunk:DATA': hasData(yes), data: hasData(yes), 'chunk:0': hasData(yes), 'chunk:init-ack': isIn(2, 2), INIT: isIn(1, 1),
      'chunk:init,init-ack': isIn(1, 2), '-chunk:data,sack': it => !of(it, 0).length && !of(it, 3).length,
      'stream:0': hasData(it => it.stream === 0), 'stream:1-2': hasData(it => it.stream === 1 || it.stream === 2),
      'ppid:51': hasData(it => it.ppid === 51), 'ppid:webrtc-s': hasData(it => it.ppid_name === 'WebRTC String'),
      // (as the traffic was made: 1003 is missing before packet 9)
      'tsn:1003': it => isIn(9, 9)(it) || hasData(its => its.tsn === 1003)(it),
      'tsn:1000-1002': hasData(it => it.tsn >= 1000 && it.tsn <= 1002),
      'ack:1001': hasSack(it => it.cumulative_tsn_ack === 1001), gaps: hasSack(it => it.blocks.length > 0),
      'port:9900 chunk:SACK -gaps': hasSack(it => !it.blocks.length),
      // (as the traffic was made: TSN 1003 comes after 1006, and then once more)
      jump: isIn(9, 9), late: isIn(14, 14), repeated: isIn(15, 15),
      'text:"hello 1"': hasData(it => it.text?.startsWith('hello 1')), 'ppid:string': hasData(it => it.ppid === 51),
      'packet:28-': isIn(28, 30), 'length:>=52': it => it.length >= 52,
      'time:0.1-0.2': it => it.time - packets[0].time >= 0.1 && it.time - packets[0].time <= 0.2,
      'packet:3-5': isIn(3, 5), 'packet:3-5 -data': isIn(3, 4), 'length:44': it => it.length === 44,
      refused: no, accepted: yes, wrong: no, skipped: no, 'association:1': yes, 'association:2': no,
    };
    for (const [text, test] of Object.entries(counts))
      assert.equal(await filter(text), `${packets.filter(test).length} of 30 rows`, text);
    assert.equal(await filter('port:abc'), 'not known: port:abc (port: takes a number, as 5, 5-9, 5- or >5)');
    assert.equal(await filter('chnk:data'), 'not known: chnk:data (near it: chunk:data)');
    assert.equal(await filter('nonsense'), 'not known: nonsense (as a text: text:nonsense)');
    assert.equal(await filter(''), '');
    quiet();
  });

  await check('a refused packet', async () => {
    await show(withRefused);
    await browser.click('#counts button');
    await wait(200);
    assert.equal(await browser.ask(by('#filter', 'value')), 'refused');
    assert.equal(await browser.ask(by('#found')), '1 of 31 rows');
    await titled('Packet 11');
    const note = await browser.ask(by('#notes'));
    assert.match(note, /^Refused: length at byte 16: COOKIE ACK: length 3, but 4 are needed\. .*\(RFC 9260 section 3\.3\.12\)$/);
    assert.deepEqual(await browser.ask(all('#bytes .fault[role=gridcell]', 'it.id')), ['byte-16']);
    assert.equal(await browser.ask(by('#tree .row.current .key')), 'fault');
    quiet();
  });

  await check('an association', async () => {
    await browser.click('#tab-associations');
    assert.equal(await browser.ask(all('#association-rows .row', '1').replace(/$/, '.length')), 1);
    const row = await browser.ask(by('#association-rows .row'));
    assert.match(row, /10\.0\.0\.1:4000010\.0\.1\.1:9900/);
    await browser.click('#show-packets');
    await wait(100);
    assert.equal(await browser.ask(by('#filter', 'value')), 'association:1');
    await browser.click('#tab-associations');
    await browser.click('#show-diagram');
    await browser.until("document.querySelector('#drawing svg')");
    quiet();
  });

  const ARROWS = all('#drawing .arrow', "it.getAttribute('aria-label')");
  const arrows = () => browser.ask(ARROWS);
  /** Opens a capture, and its diagram. */
  const draw = async (path, view = '#tab-diagram') => {
    await show(path);
    await browser.click(view);
    await browser.until("document.querySelector('#drawing .arrow')");
  };
  const inDrawing = "((box, it) => it && it.bottom <= box.bottom && it.top >= box.top)(...[document.getElementById('drawing'), document.querySelector('#drawing .current .way')].map(it => it?.getBoundingClientRect()))";

  await check('its diagram', async () => {
    await wait(200);
    // (what isn't near isn't drawn)
    const seen = new Map();
    for (let i = 0; i < 31; i++) {
      (await arrows()).forEach(it => seen.set(parseInt(it.slice(7)), it));
      await browser.ask("document.getElementById('drawing').scrollTop += 60");
      await wait(60);
    }
    assert.equal(seen.size, 31);
    const labels = [1, 9, 10, 11, 15, 16].map(it => seen.get(it));
    assert.deepEqual(labels, [
      'packet 1: INIT tag 0x0da73798, initial TSN 1000, streams 10 out, 10 in, a_rwnd 131072',
      'packet 9: DATA 1004 stream 0 “hello 4”, gap before', 'packet 10: SACK 1002, gap blocks 1004, gaps',
      'packet 11: ABORT, refused COOKIE ACK: length 3, but 4 are needed', 'packet 15: DATA 1003 stream 3 “hello 3”, fills a gap',
      'packet 16: DATA 1003 stream 3 “hello 3”, sent again, first sent in packet 15',
    ]);
    assert.equal(await browser.ask(by('#part')), '31 packets');
    // (packet 11 is the chosen one, in each view; packet 13 is a SACK with gaps)
    await browser.click('#next-mark');
    await titled('Packet 13');
    quiet();
  });

  await check('keys in the diagram', async () => {
    await browser.ask("document.getElementById('drawing').focus()");
    for (const [key, number] of [['ArrowDown', 14], ['ArrowUp', 13], ['End', 31], ['Home', 1], ['ArrowUp', 1], ['PageDown'], ['PageUp', 1]]) {
      await browser.press(key);
      if (number)
        await titled(`Packet ${number}`);
      await browser.until(`document.querySelector('#drawing .current') && ${inDrawing}`);
      const active = "document.getElementById(document.getElementById('drawing').getAttribute('aria-activedescendant'))?.classList.contains('current')";
      assert.equal(await browser.ask(active), true, key);
    }
    const row = async () => Number((await browser.ask(all('#drawing .arrow .way', "it.getAttribute('y1')"))).slice(0, 2).reduce((a, b) => b - a));
    const first = await row();
    await browser.press('+');
    await browser.until(`document.getElementById('zoom-none').textContent !== '100 %'`);
    await wait(100);
    const greater = await row();
    await browser.press('-');
    await browser.press('-');
    await wait(100);
    const smaller = await row();
    await browser.press('0');
    await wait(100);
    assert.ok(smaller < first && first < greater && await row() === first, `${[smaller, first, greater]}`);
    const at = await browser.middle('#drawing');
    await browser.send('Input.dispatchMouseEvent', { type: 'mouseWheel', ...at, deltaX: 0, deltaY: -100, modifiers: 2 });
    await browser.until(`document.getElementById('zoom-none').textContent !== '100 %'`);
    await browser.click('#zoom-none');
    // (a touchpad turns it by little at a time)
    const turned = deltaY => browser.ask(`(() => {
      document.getElementById('drawing').dispatchEvent(new WheelEvent('wheel', { deltaY: ${deltaY}, ctrlKey: true, cancelable: true }));
      return document.getElementById('zoom-none').textContent;
    })()`);
    assert.deepEqual([await turned(-50), await turned(-50), await turned(100)], ['100 %', '140 %', '100 %']);
    await browser.ask("document.getElementById('drawing').focus()");
    await browser.press('Enter');
    assert.equal(await browser.ask('document.activeElement.id'), 'tree');
    quiet();
  });

  await check('the diagram to scale', async () => {
    // Four packets within a millisecond, after 99 s.
    const times = [0, 20e3, 99e6, 99e6 + 250, 99e6 + 500, 99e6 + 900];
    const burst = pcap(times.map((time, i) => [time, ip(A, B, packet(5000, 5001, 7, data(i + 1, i, 0, 51, `burst ${i}`)))]));
    await draw(file('burst.pcap', burst));
    await set('scale', 'time', 'change');
    await browser.until("document.querySelectorAll('#drawing .silence').length");
    await browser.click('#last');
    await wait(100);
    const y = await browser.ask(all('#drawing .arrow .way', 'it.getBoundingClientRect().top'));
    assert.ok(y.length >= 4 && y.every((it, i) => !i || it - y[i - 1] >= 14) && y.at(-1) - y.at(-4) < 150, `${y}`);
    assert.ok(await browser.ask("document.querySelector('#drawing .space').clientHeight") < 1000);
    assert.ok((await browser.ask(all('#drawing .silence'))).includes('99 s without a packet'));
    // As far apart as they are in time, where there is room.
    for (let i = 0; i < 4; i++)
      await browser.click('#zoom-in');
    await browser.click('#last');
    await wait(100);
    const [a, b, c, d] = (await browser.ask(all('#drawing .arrow .way', 'it.getBoundingClientRect().top'))).slice(-4);
    assert.ok(Math.abs((c - b) / (b - a) - 1) < 0.01 && Math.abs((d - c) / (b - a) - 1.6) < 0.01, `${[a, b, c, d]}`);
    await browser.click('#zoom-none');
    await set('scale', 'even', 'change');
    quiet();
  });

  await check('silences, and the place that is kept', async () => {
    // 160 packets, 10 ms apart; packet 51 after 115 ms, and packet 101 after 700 ms: as long as it lasts, no other packet is so late.
    const late = { 50: 105e3, 100: 690e3 };
    let time = 0;
    const quietly = Array.from({ length: 160 }, (_, i) => [time += 10e3 + (late[i] ?? 0), ip(A, B, packet(5000, 5001, 7, data(i + 1, 1, i, 51, `of ${i}`)))]);
    await draw(file('silent.pcap', pcap(quietly)));
    const strips = () => browser.ask(all('#overview .silence', 'it.getBoundingClientRect().toJSON()'));
    for (const scale of ['even', 'time']) {
      await set('scale', scale, 'change');
      await wait(100);
      const [first, second, ...others] = (await strips()).map(it => it.height);
      assert.ok(!others.length && Math.round(first) >= 3 && (scale === 'even' || second > first), `${scale}: ${[first, second, others]}`);
    }
    assert.match(await browser.ask(by('#overview', "getAttribute('aria-label')")), /, 2 long silences$/);
    // The marks are these two alone; the chosen one stays where it is.
    for (const [number, before] of [[51, '115 ms'], [101, '700 ms'], [51, '115 ms']]) {
      await browser.click('#next-mark');
      await titled(`Packet ${number}`);
      await wait(100);
      const inView = "(it => it.top > box.top && it.bottom < box.bottom)(it.getBoundingClientRect()) ? it.textContent : ''";
      const labels = await browser.ask(`(box => ${all('#drawing .silence', inView)})(document.getElementById('drawing').getBoundingClientRect())`);
      assert.ok(labels.includes(`${before} without a packet`), `${labels}`);
    }
    for (const scale of ['even', 'time', 'even']) {
      await set('scale', scale, 'change');
      await wait(150);
      assert.equal(await browser.ask(inDrawing), true, scale);
    }
    quiet();
  });

  await check('the diagram obeys the filter, and says what it hides', async () => {
    await draw(withRefused);
    await browser.press('/');
    assert.equal(await browser.ask('document.activeElement.id'), 'filter');
    assert.equal(await browser.ask("document.getElementById('drawing').checkVisibility()"), true);
    await filter('data -repeated');
    await wait(100);
    assert.ok((await arrows()).every(it => / DATA \d+ /.test(it) && !it.includes('sent again')));
    // (as the traffic was made: 12 TSNs in their order, and then 1003)
    assert.equal(await browser.ask(by('#part')), '13 of 31 packets: the filter hides 18');
    await browser.press('Enter');
    assert.equal(await browser.ask('document.activeElement.id'), 'drawing');
    await filter('port:1');
    await wait(100);
    assert.deepEqual(await arrows(), []);
    assert.match(await browser.ask(by('#drawing')), /^The filter hides each packet/);
    assert.deepEqual(await browser.ask(all('#first, #earlier, #later, #last', 'it.disabled')), Array(4).fill(true));
    await browser.click('#drawing button');
    await wait(100);
    assert.equal(await browser.ask(by('#part')), '31 packets');
    quiet();
  });

  await check('what packets have to do with each other', async () => {
    const goTo = async text => {
      await set('go-to', text, 'input');
      await wait(150);
    };
    await goTo('16');
    await titled('Packet 16');
    assert.equal(await browser.ask(by('#ties')), 'TSN 1003 was first sent in 15. ');
    assert.equal(await browser.ask(all('#drawing .tie', '1').replace(/$/, '.length')), 1);
    await browser.click('#ties .link');
    await titled('Packet 15');
    // What is missing before a packet, and what brings it.
    await goTo('9');
    await titled('Packet 9');
    await browser.until(`${by('#notes')} !== ''`);
    assert.equal(await browser.ask(by('#notes')), 'Before it 1 TSN is missing: 1003 (comes in 15).');
    await browser.click('#notes .link');
    await titled('Packet 15');
    // The SACK that ends the gap: of TSN 1003, and what came after it.
    await goTo('17');
    await titled('Packet 17');
    const acked = await browser.ask(all('#drawing .acked', "parseInt(it.getAttribute('aria-label').slice(7))"));
    assert.deepEqual(acked, [9, 12, 14, 15, 16]);
    assert.match(await browser.ask(by('#ties')), /^Acknowledges 5 packets: 9 12 14 15 16/);
    for (const [text, isWrong] of [['99', 'true'], ['x', 'true'], ['0.2 s', 'false'], ['', 'false']]) {
      await goTo(text);
      assert.equal(await browser.ask(by('#go-to', "getAttribute('aria-invalid')")), isWrong, text);
    }
    // Without colours, what is chosen has a frame, and what is acknowledged a dashed one.
    await goTo('17');
    await titled('Packet 17');
    const frames = () => browser.ask(all('#drawing .arrow', '(({ stroke, strokeDasharray }) => `${stroke} ${strokeDasharray}`)(getComputedStyle(it.querySelector(".hit")))'));
    assert.deepEqual(new Set(await frames()), new Set(['none none']));
    await browser.send('Emulation.setEmulatedMedia', { features: [{ name: 'forced-colors', value: 'active' }] });
    const [chosen, ...dashed] = [await frames()].flatMap(it => [it.filter(its => /^rgb.* none$/.test(its)), it.filter(its => /^rgb.* 2px/.test(its))]);
    assert.deepEqual([chosen.length, dashed[0].length], [1, 5]);
    await browser.look('light');
    // A first sending that is far away is a link.
    const far = Array.from({ length: 202 }, (_, i) => [i * 1000, ip(A, B, packet(5000, 5001, 7, data(i % 201 + 1, 1, i, 51, `text ${i}`)))]);
    await draw(file('far.pcap', pcap(far)));
    await browser.ask("document.getElementById('drawing').focus()");
    await browser.press('End');
    await browser.until("document.querySelector('#drawing .current .link')");
    assert.equal(await browser.ask(by('#drawing .current .label')), 'DATA 1 stream 1 “text 201”, sent again, first sent in packet 1');
    await browser.click('#drawing .current .link');
    await titled('Packet 1');
    await browser.until(inDrawing);
    quiet();
  });

  await check('the overview, and any of many associations', async () => {
    const many = Array.from({ length: 3000 }, (_, i) => [i * 1000, ip(A, B, packet(10 + i, 5000, 7, data(1, 1, 1, 51, `of ${i}`)))]);
    await draw(file('many.pcap', pcap(many)));
    assert.equal(await browser.ask("document.getElementById('which').options.length"), 3000);
    await set('which', 2999, 'change');
    await wait(150);
    assert.match((await arrows()).join(), /^packet 3000: DATA 1 stream 1 “of 2999”$/);
    await draw(file('long.pcap', pcap(association(400))));
    const total = association(400).length;
    assert.match(await browser.ask(by('#overview', "getAttribute('aria-label')")), new RegExp(`^Overview: ${total} packets, 0 refused, 40 sent again`));
    assert.ok(await browser.ask("document.querySelectorAll('#drawing .arrow').length") < 100);
    assert.match(await browser.ask(by('#drawing .current', "getAttribute('aria-label')")), /^packet 1: INIT /);
    await browser.click('#overview');
    await wait(150);
    const number = parseInt((await browser.ask(by('#title'))).slice(7));
    assert.ok(Math.abs(number / total - 0.5) < 0.02, `packet ${number} of ${total}`);
    for (const [id, isAt] of [['last', 'scrollTop + it.clientHeight >= it.scrollHeight - 1'], ['first', 'scrollTop === 0'], ['later', 'scrollTop > 50'], ['earlier', 'scrollTop < 50']]) {
      await browser.click(`#${id}`);
      assert.equal(await browser.ask(`(it => it.${isAt})(document.getElementById('drawing'))`), true, id);
    }
    await draw(withRefused);
    quiet();
  });

  await check('the diagram as a file', async () => {
    await draw(withRefused);
    const to = join(folder, 'downloads');
    mkdirSync(to);
    await browser.send('Browser.setDownloadBehavior', { behavior: 'allow', downloadPath: to }, undefined);
    await browser.look('dark');
    await browser.click('#save');
    for (let i = 0; i < 100 && !readdirSync(to).some(it => it.endsWith('.svg')); i++)
      await wait(50);
    await wait(200);
    const svg = readFileSync(join(to, 'association-1.svg'), 'utf8');
    assert.match(svg, /^<svg xmlns="http:\/\/www\.w3\.org\/2000\/svg"/);
    assert.doesNotMatch(svg, /class=|data-|style=|light-dark|var\(/);
    // (on white paper, in dark colours)
    assert.match(svg, /<line[^>]* stroke="rgb\(18, 80, 176\)"/);
    // (also what isn't in view)
    assert.deepEqual(svg.match(/<title>packet \d+:/g), Array.from({ length: 31 }, (_, i) => `<title>packet ${i + 1}:`));
    assert.doesNotMatch(svg, /NaN|undefined/);
    // (what isn't XML is no picture)
    const isPicture = text => browser.ask(`(() => {
      const picture = new Image();
      picture.src = ${JSON.stringify(`data:image/svg+xml,${encodeURIComponent(text)}`)};
      return picture.decode().then(() => true, () => false);
    })()`);
    assert.deepEqual([await isPicture(svg), await isPicture(svg.replace('</svg>', ''))], [true, false]);
    await browser.look('light');
    quiet();
  });

  /** What a click on a button saves as a file, whose name ends so. */
  const saved = async (button, ending) => {
    const to = mkdtempSync(join(folder, 'saved-'));
    await browser.send('Browser.setDownloadBehavior', { behavior: 'allow', downloadPath: to }, undefined);
    await browser.click(button);
    const found = () => readdirSync(to).find(it => it.endsWith(ending));
    for (let i = 0; i < 100 && !found(); i++)
      await wait(50);
    await wait(50);
    // (one ending, and not the name of the capture)
    assert.match(found(), /^[\w-]+\.shown\.\w+$/);
    return new Uint8Array(readFileSync(join(to, found())));
  };
  const copied = async button => {
    await browser.ask("document.getElementById('copied').textContent = ''");
    await browser.click(button);
    await browser.until("document.getElementById('copied').textContent");
    assert.equal(await browser.ask(by('#copied')), 'Copied.');
    return browser.ask('navigator.clipboard.readText()');
  };

  await check('a long value is read whole, copied and saved', async () => {
    const text = `<b>${'wide '.repeat(220)}</b>`, raw = packet(1, 2, 3, data(1, 1, 1, 51, text), sack(5));
    const records = [...association(14), [9e6, ip(A, B, raw)], [9.5e6, ip(A, B, packet(4, 2, 3, data(1, 1, 1, 51, 'cut'))), 50]];
    const capture = pcap(records);
    await browser.send('Browser.grantPermissions', { permissions: ['clipboardReadWrite', 'clipboardSanitizedWrite'] }, undefined);
    await show(file('long.pcap', capture));
    const number = records.length - 1;
    await filter(`packet:${number}`);
    await titled(`Packet ${number}`);
    await browser.ask("document.getElementById('tree').scrollTop = 264");
    await wait(100);
    const at = await browser.ask(all('#tree .row', "[it.dataset.index, it.querySelector('.key').textContent, it.textContent]"));
    const [index, , short] = at.find(([, key]) => key === 'text') ?? assert.fail(`${at}`);
    assert.match(short, /1,107 characters/);
    assert.equal(await browser.ask("document.getElementById('copy-value').disabled"), true);
    await browser.click(`#tree [data-index="${index}"] .key`);
    await wait(50);
    const seen = await browser.ask(all('#tree .row', '({ ...it.getBoundingClientRect().toJSON(), index: Number(it.dataset.index), text: it.textContent })'));
    const row = seen.find(it => it.index === Number(index)), next = seen.find(it => it.index === Number(index) + 1);
    assert.ok(row.height > 44 && row.text.includes(text), `${row.height}`);
    assert.ok(!next || Math.abs(next.top - row.bottom) < 1);
    assert.ok(await browser.ask(`(() => {
      const row = document.querySelector('#tree [data-index="${index}"]'), box = document.getElementById('tree');
      return row.scrollWidth <= row.clientWidth && row.getBoundingClientRect().bottom <= box.getBoundingClientRect().bottom + 1;
    })()`));
    assert.equal(await copied('#copy-value'), text);
    const hexadecimal = Buffer.from(raw).toString('hex');
    assert.equal(await copied('#copy-hex'), hexadecimal);
    const array = (await copied('#copy-c')).match(/0x[0-9a-f]{2}/g).map(Number);
    assert.deepEqual(array, [...raw]);
    assert.equal(JSON.parse(await copied('#copy-json')).packet, number);
    // What is shown, as files: the lines that the program prints, and the packets, whose bytes and times stay.
    await filter('port:40000 packet:3-29');
    const wanted = lines(capture).filter(it => it.packet >= 3 && it.packet <= 29);
    const savedLines = Buffer.from(await saved('#save-json', '.shown.jsonl')).toString().trim().split('\n').map(it => JSON.parse(it));
    assert.deepEqual(savedLines, wanted);
    const said = `${wanted.length} of ${lines(capture).filter(it => it.packet).length} packets, those that the filter passes: `;
    assert.ok((await browser.ask(all('#save-json, #save-pcap', 'it.title'))).every(it => it.startsWith(said)), said);
    await filter(`packet:${number - 1}-${number + 1}`);
    const again = lines(await saved('#save-pcap', '.shown.pcap')).filter(it => it.packet), of = ({ bytes, time, captured, length }) => ({ bytes, time: Number(time), captured, length });
    assert.deepEqual(again.map(of), lines(capture).filter(it => it.packet >= number - 1).map(of));
    assert.equal(again.length, 3);
    await filter('');
    quiet();
  });

  await check('a packet in the address', async () => {
    const raw = packet(5000, 5001, 7, data(1, 1, 1, 51, '<b>linked</b>')), hexadecimal = Buffer.from(raw).toString('hex');
    await browser.open(`${url}#hex=${hexadecimal}`);
    await browser.done();
    await titled('Packet 1');
    assert.equal(await count(), 1);
    assert.match((await browser.ask(ROWS))[0], /5000 → 5001.*DATA“<b>linked<\/b>”/);
    assert.equal(await copied('#copy-link'), `${url}#hex=${hexadecimal}`);
    // A link's address is sent nowhere, and one that holds no packet is answered.
    assert.deepEqual(browser.requests.filter(it => !it.startsWith('blob:') && it.split('#')[0] !== url), []);
    for (const text of ['<img src=x onerror=hacked=1>', '0', '']) {
      await browser.ask(`location.hash = ${JSON.stringify(`#hex=${text}`)}`);
      await browser.until("document.getElementById('no-link').checkVisibility()");
      assert.equal(await browser.ask('document.querySelectorAll("img").length + (window.hacked ?? 0)'), 0);
      await browser.click('#again');
    }
    await browser.ask('delete document.body.dataset.done');
    await browser.ask(`location.hash = '#hex=${Buffer.from(packet(9, 10, 7, chunk(11, 0))).toString('hex')}'`);
    await browser.done();
    await wait(100);
    assert.match((await browser.ask(ROWS))[0], /9 → 10.*COOKIE ACK/);
    // What doesn't fit an address, or was cut off, has no link.
    const long = ip(A, B, packet(1, 2, 3, data(1, 1, 1, 51, 'x'.repeat(4000)))), cut = ip(A, B, packet(1, 2, 3, data(1, 1, 1, 51, 'cut')));
    await show(file('unlinked.pcap', pcap([[0, long], [1, cut, 50], [2, ip(A, B, raw)]])));
    for (const [number, isDisabled] of [[1, true], [2, true], [3, false]]) {
      await filter(`packet:${number}`);
      await titled(`Packet ${number}`);
      assert.equal(await browser.ask("document.getElementById('copy-link').disabled"), isDisabled, `packet ${number}`);
    }
    await browser.open(url);
    quiet();
  });

  await check('channels, and what happened', async () => {
    const filtered = async text => assert.equal(await browser.ask(by('#filter', 'value')), text);
    const rows = `${all('#channel-rows .row', 'it')}.sort((a, b) => a.dataset.index - b.dataset.index)`;
    const cells = () => browser.ask(`${rows}.map(row => Array.from(row.children, it => Array.from(it.children, line => line.textContent).join(' / ')))`);
    const chosen = async name => browser.ask(`${all('#story button', 'it')}.find(it => it.textContent.startsWith('${name}')).click()`);
    await show(fileURLToPath(new URL('../sample.pcap', import.meta.url)));
    // (as sample.mjs made it: TSN 1003 and 7001 are sent twice, and the reset of stream 1 is answered)
    assert.equal(await browser.ask(by('#story')), '1 association; up after 42 ms, shut down; 12 DATA, 2 sent again; ' +
      '1 packet refused: COOKIE ACK: length 3, but 4 are needed');
    await chosen('shut down');
    await titled('Packet 29');
    // (packet 15 sends TSN 1003 first, 16 once more)
    await filter('repeated');
    await titled('Packet 16');
    assert.equal(await browser.ask(by('#notes .note:last-child')), 'TSN 1003 was first sent in packet 15.');
    await browser.click('#notes .note:last-child .link');
    await titled('Packet 15');
    assert.doesNotMatch(await browser.ask(by('#notes')), /first sent/);
    await filtered('');
    await chosen('1 packet refused');
    await titled('Packet 22');
    await filtered('refused');
    await chosen('up after');
    await titled('Packet 4');
    await filtered('');
    await browser.click('#tab-channels');
    const ends = '192.0.2.10:49152 / 198.51.100.7:5000';
    const channels = [
      ['1', '0', 'chat / ', 'WebRTC String', 'reliable ordered', ends, 'OPEN 5 / ACK 6', '7 / 2', '76 B / 4 B', '1 / 1', '0 / 0', '222 ms / 683 ms', '–'],
      ['1', '1', '–', 'WebRTC Binary', '–', ends, '–', '1 / 0', '200 B / 0 B', '0 / 0', '0 / 0', '21 ms / –', 'first end: reset 25, 26: Performed'],
    ];
    assert.deepEqual(await cells(), channels);
    await browser.click('#channel-heads span:nth-child(9) button');
    assert.deepEqual(await cells(), channels.reverse());
    await browser.click('#channel-rows [data-index="1"] .link');
    await titled('Packet 5');
    await browser.click('#tab-channels');
    await browser.ask("document.getElementById('channel-rows').focus()");
    await browser.press('End');
    assert.equal(await browser.ask(by('#title')), 'Channel 1');
    await browser.press('Home');
    assert.equal(await browser.ask(by('#title')), 'Channel 2');
    await browser.press('Enter');
    await filtered('association:1 stream:1');
    assert.equal(await browser.ask(by('#found')), '2 of 29 rows');
    await browser.click('#tab-channels');
    await browser.click('#channel-rows [data-index="1"] > :nth-child(2)');
    await filtered('association:1 stream:0');
    assert.equal(await browser.ask(by('#found')), '10 of 29 rows');
    quiet();
  });

  await check('messages, and their packets', async () => {
    const cells = () => browser.ask(`${all('#message-rows .row', 'it')}.sort((a, b) => a.dataset.index - b.dataset.index)
      .map(row => Array.from(row.children, it => Array.from(it.children, line => line.textContent).join(' / ')))`);
    const said = () => browser.ask(by('#messages-said')), focused = () => browser.ask('document.activeElement.id');
    const filtered = async text => assert.equal(await browser.ask(by('#filter', 'value')), text);
    // (tests/dump/runs.txt has what of each became, as tests/dump/messages.py finds it by tshark)
    const [, sent] = /# ---- messages\n[^$]*\$ sctp_dump --messages\n((?:< .*\n)+)/.exec(readFileSync(new URL('../../tests/dump/runs.txt', import.meta.url), 'utf8'));
    await show(file('messages.txt', sent.replace(/^< /gm, '')));
    await browser.click('#tab-messages');
    assert.equal(await said(), '4 messages: 3 acknowledged, 1 abandoned, 1 sent again.');
    const [string, end] = ['WebRTC String', 'first end / 5000'];
    assert.deepEqual(await cells(), [
      ['1', '1', end, '1 / ssn 1', string, '1 B', '103 / 1 fragment', 'in 4', 'acknowledged / in 5', '–', 'waited for TSN 101 of its stream'],
      ['2', '1', end, '1 / ssn 0', string, '3 B', '100–102 / 3 fragments', 'in 1', 'acknowledged / in 7', '–',
        'TSN 101 sent again; TSN 101 sent again with other bytes / peer’s window was 0 in 5'],
      ['3', '1', end, '2 / ssn 0', string, '1 B', '104 / 1 fragment', 'in 8', 'acknowledged / in 10', '–', 'end not seen'],
      ['4', '1', end, '2 / ssn 1', string, '1 B', '106 / 1 fragment', 'in 9', 'abandoned / in 11', '–',
        'waited for SSN 0, TSN 105 not seen yet'],
    ]);
    // By keys: to the tab, into the table, to a message's packets, and by what is said of one of these back.
    await browser.ask("document.getElementById('tab-channels').focus()");
    await browser.press('ArrowRight');
    assert.equal(await focused(), 'tab-messages');
    const tabs = await browser.ask(all('[role=tab]', "it.getAttribute('aria-selected') + ' ' + it.tabIndex"));
    assert.deepEqual(tabs, [...Array(3).fill('false -1'), 'true 0', 'false -1']);
    await browser.ask("document.getElementById('message-rows').focus()");
    await browser.press('ArrowDown');
    await titled('Message 2');
    assert.equal(await browser.ask("document.getElementById(document.getElementById('message-rows').getAttribute('aria-activedescendant')).getAttribute('aria-selected')"), 'true');
    await browser.press('Enter');
    await titled('Packet 1');
    await filtered('association:1 packet:1-3,6-7');
    assert.equal(await browser.ask(by('#found')), '5 of 11 rows');
    assert.equal(await focused(), 'list');
    await browser.press('End');
    await titled('Packet 7');
    assert.equal(await browser.ask(by('#messages-of')), 'of message 2');
    assert.equal(await browser.ask(by('#messages-of .link', 'ariaLabel')), 'message 2: stream 1, ssn 0, 3 bytes');
    await browser.ask(by('#messages-of .link', 'focus()'));
    await browser.press('Enter');
    await titled('Message 2');
    assert.equal(await focused(), 'message-rows');
    await browser.click('#message-rows [data-index="3"]');
    await titled('Message 4');
    await browser.click('#show-message');
    await titled('Packet 9');
    await filtered('association:1 packet:9,11');
    await browser.click('#back');
    await titled('Message 4');
    await browser.click('#message-rows [data-index="3"] .link');
    await titled('Packet 9');
    await filtered('association:1 packet:9,11');
    await filter('');
    assert.equal(await browser.ask(by('#back', 'checkVisibility()')), false);
    // No message: without user data, and where the lines don't say what became of it.
    await show(file('none.txt', '138813880102030400000000 0b000004'));
    await browser.click('#tab-messages');
    assert.deepEqual([await said(), await cells()], ['No packet with user data was read.', []]);
    await show(file('untold.json', lines(example).filter(it => !it.message_of).map(it => `${JSON.stringify(it)}\n`).join('')));
    await browser.click('#tab-messages');
    assert.deepEqual([await said(), await cells()], ['These lines hold no messages. sctp_dump prints what became of each with --messages.', []]);
    // Of thousands some rows are in the document, and of very many some messages are kept; what is said is text.
    const of = (i, its) => JSON.stringify({ message_of: 1, end: 0, stream: i, ssn: 0, unordered: false, ppid: 51, ppid_name: '<img src=x onerror=hacked=1>\u202e\0', size: 1,
      fragments: 1, first_tsn: i, last_tsn: i, sent_packet: i + 1, acknowledged_packet: i + 2, ...its });
    const rows = Array.from({ length: 12000 }, (_, i) => of(i)), [first] = lines(example).filter(it => it.packet);
    await show(file('many.json', [JSON.stringify(first), ...rows, of(5, { repeated: 1, first_repeated_tsn: 5 })].join('\n')));
    await browser.click('#tab-messages');
    assert.equal(await said(), '12,001 messages: 12,001 acknowledged, 1 sent again. 10,001 of them are listed: the first of those ' +
      'that were acknowledged without more to say, and the first of the others.');
    await browser.ask("document.getElementById('message-rows').focus()");
    await browser.press('End');
    await wait(100);
    const drawn = await cells();
    assert.ok(drawn.length < 60 && drawn.at(-1)[0] === '12001', `${drawn.length} ${drawn.at(-1)}`);
    assert.equal(drawn.at(-1)[4], '<img src=x onerror=hacked=1>\\u202e\\u0000');
    assert.equal(await browser.ask('typeof hacked + document.querySelectorAll("#messages img").length'), 'undefined0');
    quiet();
  });

  await check('the graph of TSNs', async () => {
    await show(fileURLToPath(new URL('../sample.pcap', import.meta.url)));
    await browser.click('#tab-diagram');
    const label = () => browser.ask(by('#graph', "getAttribute('aria-label')"));
    await browser.until("document.querySelector('#graph .sent')");
    // (as sample.mjs made it)
    assert.equal(await label(), 'TSN over time. First end: 8 TSNs sent, 1000 to 1007, 1 sent again, acknowledged to 1007, 2 gap blocks. ' +
      'Second end: 2 TSNs sent, 7000 to 7001, 1 sent again, acknowledged to 7001. Over 3.08 s.');
    const marks = await browser.ask(all('#graph path', "it.getAttribute('class') + ' ' + (it.getAttribute('d').split('M').length - 1)"));
    assert.deepEqual(marks.slice(-4), ['acked 2', 'gaps 2', 'sent 10', 'again 2']);
    // The chosen packet is a line; a click chooses the nearest packet.
    const cursor = () => browser.ask(by('#graph .cursor', "getAttribute('x1')")).then(Number);
    await browser.ask("document.getElementById('drawing').focus()");
    await browser.press('Home');
    await titled('Packet 1');
    const first = await cursor();
    await browser.press('End');
    await titled('Packet 29');
    assert.ok(await cursor() > first + 300, `${first} ${await cursor()}`);
    const at = await browser.ask(`(it => ({ x: it.left + ${first} + 2, y: it.bottom - 24 }))(document.getElementById('graph').getBoundingClientRect())`);
    for (const type of ['mousePressed', 'mouseReleased'])
      await browser.send('Input.dispatchMouseEvent', { type, ...at, button: 'left', clickCount: 1 });
    await titled('Packet 6');
    // It shows what the filter passes, and is put away.
    await filter('chunk:DATA -repeated');
    await wait(100);
    assert.match(await label(), /: 8 TSNs sent, 1000 to 1007, acknowledged to 1000\. Second end: 2 TSNs sent, 7000 to 7001, acknowledged to 7000\. /);
    await filter('');
    await browser.click('#show-graph');
    assert.deepEqual([await browser.ask(by('#show-graph', "getAttribute('aria-pressed')")), await browser.ask(by('#graph', 'checkVisibility()'))], ['false', false]);
    await browser.click('#show-graph');
    await browser.until("document.querySelector('#graph .sent')");
    quiet();
  });

  await check('the chosen row is in view, wherever it was chosen', async () => {
    const records = association(400), reset = chunk(130, 0, parameter(13, [4, 1, 0, 1399], [2, 1]));
    const long = file('long.pcap', pcap(records.toSpliced(-3, 0, [records.at(-4)[0] + 100, ip(A, B, packet(40000, 9900, 0x4d2df52d, reset))])));
    const short = file('short.pcap', pcap(association(6)));
    /** Where the chosen row is in the room for rows, from 0 at its top to 1 at its bottom. */
    const place = () => browser.ask(`(() => {
      const room = document.getElementById('list').getBoundingClientRect(), top = room.top + document.getElementById('heads').offsetHeight;
      const row = document.querySelector('#list .row.current')?.getBoundingClientRect();
      return row && (row.top + row.height / 2 - top) / (room.bottom - top);
    })()`);
    const isIn = async what => {
      await wait(150);
      const at = await place();
      assert.ok(at > 0 && at < 1, `${what}: ${at}`);
    };
    const click = name => `${all('#story button', 'it')}.find(it => it.textContent.startsWith('${name}')).click()`;
    const chosen = name => browser.ask(click(name));
    /** Empties the list by a filter, and does something else at once. */
    const emptied = then => `(() => {
      const it = document.getElementById('filter');
      it.value = 'packet:99999';
      it.dispatchEvent(new KeyboardEvent('keydown', { key: 'Enter' }));
      return ${then};
    })()`;
    for (const width of [390, 1280]) {
      await browser.open(url, { width, height: 900 });
      await show(long);
      // From another view, whose list was never shown at that place.
      await browser.click('#tab-channels');
      await browser.click('#channel-rows .row > :last-child .link');
      await titled(`Packet ${records.length - 2}`);
      await isIn(`${width}: from a table`);
      await chosen('up after');
      await isIn(`${width}: the first`);
      // By a channel's filter, which doesn't pass what was chosen far below.
      await chosen('shut down');
      await isIn(`${width}: the last`);
      await browser.click('#tab-channels');
      await browser.click('#channel-rows .row:nth-child(2) > :nth-child(2)');
      await isIn(`${width}: of a channel`);
      await chosen('up after');
      // From an empty list, beside which no details are shown: once it was drawn, and before that.
      await chosen('up after');
      await browser.ask(emptied('new Promise(resolve => requestAnimationFrame(() => setTimeout(resolve)))'));
      await chosen('shut down');
      await titled(`Packet ${records.length + 1}`);
      await isIn(`${width}: after an empty list`);
      await chosen('up after');
      await browser.ask(emptied(click('shut down')));
      await titled(`Packet ${records.length + 1}`);
      await isIn(`${width}: after an empty list that was never drawn`);
      // By a filter that is cleared, in the middle.
      await filter('packet:200');
      await filter('');
      await isIn(`${width}: a filter that is cleared`);
      await titled('Packet 200');
      const at = await place();
      assert.ok(at > 0.3 && at < 0.7, `${width}: ${at}`);
      // What a user scrolled away stays there, whatever size the list gets; what wasn't is in view.
      const sized = height => browser.send('Emulation.setDeviceMetricsOverride', { width, height, deviceScaleFactor: 1, mobile: false });
      await sized(500);
      await isIn(`${width}: a lower list`);
      await browser.send('Input.dispatchMouseEvent', { type: 'mouseWheel', ...await browser.middle('#list'), deltaX: 0, deltaY: -20000 });
      await browser.until("document.getElementById('list').scrollTop === 0");
      await sized(900);
      await wait(150);
      assert.equal(await place(), undefined, `${width}: scrolled away`);
      // Without the details a short list is in view as a whole, and isn't scrolled.
      await show(short);
      await chosen('up after');
      await browser.ask(emptied(click('shut down')));
      await isIn(`${width}: of a short list`);
    }
    quiet();
  });

  await check('a channel that both ends close', async () => {
    // RFC 8832 section 5.1: partially reliable, three retransmissions, unordered; RFC 6525 section 4: each end resets its stream.
    const open = bytes([1, 3, 0x81], [2, 256], [4, 3], [2, 5, 0], 'files'), asks = (request, tsn) => chunk(130, 0, parameter(13, [4, request, 0, tsn], [2, 2]));
    const answer = request => chunk(130, 0, parameter(16, [4, request, 1]));
    const exchange = [[0, data(1, 2, 0, 50, open)], [1, data(9, 2, 0, 50, bytes([1, 2]))], [0, asks(7, 1)], [1, answer(7)], [1, asks(8, 9)], [0, answer(8)]];
    const closed = file('closed.pcap', pcap(exchange.map(([end, its], i) => [i * 1000, end ? ip(B, A, packet(5001, 5000, 8, its)) : ip(A, B, packet(5000, 5001, 7, its))])));
    for (const [width, height, isPhone] of [[1440, 900, false], [390, 844, true]]) {
      await browser.open(url, { width, height, isPhone });
      await show(closed);
      await browser.click('#tab-channels');
      await wait(100);
      assert.deepEqual(await browser.ask(all('#channel-rows .row > :last-child > .line')), ['first end: reset 3, 4: Performed', 'second end: reset 5, 6: Performed']);
      const cut = await browser.ask(all('#channel-rows .row > *, #channel-rows .row .line', 'it.scrollWidth > it.clientWidth + 1 && getComputedStyle(it).display !== "inline" && it.textContent'));
      assert.deepEqual(cut.filter(it => it), [], `${width}`);
      const [bottom, last] = await browser.ask(all('#channel-rows .row, #channel-rows .row > :last-child', 'it.getBoundingClientRect().bottom'));
      assert.ok(last <= bottom, `${width}: ${[last, bottom]}`);
    }
    const links = await browser.ask(all('#channel-rows .row > :last-child .link', 'it.textContent'));
    assert.deepEqual(links, ['reset 3', '4', 'reset 5', '6']);
    await browser.ask("document.querySelectorAll('#channel-rows .row > :last-child .link')[3].click()");
    await titled('Packet 6');
    quiet();
    await browser.open(url);
  });

  await check('the same packets twice', async () => {
    // As two programs recorded them, of which one began later.
    const packets = association(40), overlap = pcap([...packets, ...packets.slice(20).map(([time, ...it]) => [time + 10, ...it])].sort((a, b) => a[0] - b[0]));
    await show(file('overlap.pcap', overlap));
    assert.match(await browser.ask(by('#story')), /, most of association 1: are these the same packets twice\?/);
    await show(file('once.pcap', pcap(packets)));
    assert.doesNotMatch(await browser.ask(by('#story')), /twice/);
    quiet();
  });

  await check('two captures, one after the other', async () => {
    const other = pcap([[0, ip('192.0.2.1', '192.0.2.2', packet(7, 8, 9, data(5, 0, 0, 51, 'other')))]]);
    const captures = [
      [example, 30, /40000.*9900/], [other, 1, /192\.0\.2\.1:7.*192\.0\.2\.2:8/], [example, 30, /40000.*9900/], [pcap([]), 0, /^$/],
    ];
    for (const [content, packets, ends] of captures) {
      await show(file('one.pcap', content));
      await browser.click('#tab-associations');
      await wait(50);
      assert.match((await browser.ask(all('#association-rows .row'))).join(), ends);
      await browser.click('#tab-diagram');
      // (not for a moment)
      const seen = [await arrows()];
      await wait(150);
      seen.push(await arrows());
      assert.ok(seen[1].length === packets || packets > 20 && seen[1].length > 5, `${seen[1].length}`);
      assert.ok(seen.every(([first = '']) => packets > 1 || !first.includes('INIT')), seen[0][0]);
      assert.match((await browser.ask(all('#which option'))).join(), ends);
      assert.match(await browser.ask(by('#part')), new RegExp(`^${packets} packets?$`));
    }
    quiet();
  });

  await check('the table of associations', async () => {
    const usrsctp = readFileSync(new URL('../../tests/dump/data/usrsctp.pcap', import.meta.url));
    // (only rows in view are in the document)
    await browser.send('Emulation.setDeviceMetricsOverride', { width: 1280, height: 1500, deviceScaleFactor: 1, mobile: false });
    for (const files of [{ 'example.pcap': example }, { 'usrsctp.pcap': usrsctp }, { 'example.pcap': example, 'usrsctp.pcap': usrsctp }]) {
      await browser.choose(...Object.entries(files).map(([name, content]) => file(name, content)));
      await browser.done();
      await browser.click('#tab-associations');
      await wait(100);
      const cells = 'Array.from(it.children, cell => [cell.dataset.title, Array.from(cell.children, line => line.textContent)])';
      const rows = await browser.ask(all('#association-rows .row', cells));
      const wanted = linesOf(files, ...Object.keys(files)).filter(it => it.ends && it.association);
      assert.equal(rows.length, wanted.length);
      rows.forEach((row, i) => compareRow(Object.fromEntries(row), wanted[i]));
      assert.deepEqual(await browser.ask(all('#association-heads span')), rows[0].map(([head]) => head));
    }
    // A click on a title sorts, and so does a key; what is chosen stays chosen. At 1,024 px nothing is cut without a tooltip.
    const orders = () => browser.ask(all('#association-heads span', "it.getAttribute('aria-sort')")).then(it => it[2]);
    const packets = async () => (await browser.ask(all('#association-rows .row', '[it.dataset.index, it.children[2].textContent]')))
      .sort((a, b) => a[0] - b[0]).map(it => Number(it[1].match(/^\d\d/)));
    const chosen = () => browser.ask(by('#association-rows .current .number'));
    const first = await chosen(), before = await packets();
    await browser.click('#association-heads span:nth-child(3) button');
    assert.deepEqual([await orders(), await chosen()], ['descending', first]);
    await browser.press('Enter');
    assert.deepEqual([await orders(), await chosen()], ['ascending', first]);
    assert.ok(before.length > 1 && new Set(before).size > 1, `${before}`);
    await browser.send('Emulation.setDeviceMetricsOverride', { width: 1024, height: 768, deviceScaleFactor: 1, mobile: false });
    await wait(100);
    const cut = "it.scrollWidth > it.clientWidth && it.title !== it.textContent && it.textContent";
    assert.deepEqual((await browser.ask(all('#association-rows .line, #association-heads button', cut))).filter(it => it), []);
    const widths = await browser.ask(all('#association-rows .amount .line', 'it.scrollWidth <= it.clientWidth'));
    assert.ok(widths.length >= 14 && widths.every(it => it));
    assert.ok(await browser.ask("document.documentElement.scrollWidth <= innerWidth && document.getElementById('association-rows').scrollWidth <= innerWidth"));
    await browser.send('Emulation.setDeviceMetricsOverride', { width: 1280, height: 900, deviceScaleFactor: 1, mobile: false });
    quiet();
  });

  await check('no byte of a capture is HTML, and none breaks the page', async () => {
    const evil = ['<img src=x onerror="hacked=1">', '</script><script>hacked=1</script>', '"><svg onload=hacked=1>', '{{script}}',
      "javascript:hacked=1//'", '\u202egnol\u2066', 'e\u0301\u0302\u0303'.repeat(200), 'W'.repeat(60000), '\ufeff\u2028\u0085',
      String.fromCharCode(...Array(128).keys())];
    const label = text => bytes([1, 3, 0], [2, 0], [4, 0], [2, new TextEncoder().encode(text).length, 3], text, 'a<b');
    const records = [
      ...evil.map((it, i) => ip(A, B, packet(5000, 5001, 1, data(i + 1, i, 0, 51, it)))),
      ...evil.map((it, i) => ip(A, B, packet(5000, 5001, 1, data(i + 100, i, 0, 50, label(it.slice(0, 1000)))))),
      ...evil.map(it => ip(A, B, packet(5000, 5001, 1, chunk(6, 0, parameter(12, it.slice(0, 1000)))))),
      ip(A, B, packet(5000, 5001, 1, data(50, 0, 0, 51, Uint8Array.from({ length: 256 }, (_, i) => i)))),
      ip(A, B, packet(5000, 5001, 1, ...Array.from({ length: 16000 }, () => chunk(11, 0)))),
      ip(A, B, packet(5000, 5001, 1, ...Array.from({ length: 4000 }, (_, i) => data(i * 7919, i & 0xffff, 0, i, '')))),
    ].map((it, i) => [i, it]);
    const kinds = 'script, style, img, svg:not(#drawing *), iframe, object, embed, link, form, a';
    const elements = () => browser.ask(all(kinds, 'it.localName'));
    await browser.open(url);
    const before = await elements();
    await show(file('<img src=x onerror=hacked=1>.pcap', pcap(records)));
    assert.match(await browser.ask(by('#name')), /^<img src=x onerror=hacked=1>\.pcap/);
    await browser.press('Home');
    for (let i = 0; i < records.length; i++) {
      await wait(30);
      assert.equal(await browser.ask(FITS), true, `packet ${i + 1}`);
      assert.ok(await browser.ask("document.querySelectorAll('*').length") < 6000, `packet ${i + 1}`);
      await browser.press('ArrowDown');
    }
    await browser.press('Home');
    await wait(100);
    await browser.press('Enter');
    await browser.press('End');
    await wait(100);
    assert.match((await browser.ask(all('#tree .value'))).join('\n'), /^<img src=x onerror="hacked=1">$/m);
    // Labels, which are on streams 0 to 9, are text, too; what isn't seen is a number.
    await browser.click('#tab-channels');
    await browser.ask("document.getElementById('channel-rows').focus()");
    const labels = new Set();
    for (let i = 0; i < 12; i++) {
      (await browser.ask(all('#channel-rows .row > :nth-child(3)'))).forEach(it => labels.add(it));
      for (let k = 0; k < 4; k++)
        await browser.press('ArrowDown');
      await wait(30);
    }
    for (const it of ['<img src=x onerror="hacked=1">a<b', '"><svg onload=hacked=1>a<b', '\\u202egnol\\u2066a<b'])
      assert.ok(labels.has(it), `${it}: ${[...labels]}`);
    assert.ok([...labels].some(it => it.startsWith('\\u0000\\u0001')) && ![...labels].some(it => /[\u0000-\u001f\u202e]/.test(it)));
    await browser.click('#tab-messages');
    await wait(100);
    // Lines that sctp_dump didn't print.
    const values = [null, -1, 1e300, 'x', [], {}, [null], [[]], [{}], true, '<b>'];
    const spoil = (line, at, value) => JSON.stringify(line, (key, its) => key !== '' && at-- === 0 ? value : its);
    const spoilt = lines(pcap(association(14))).flatMap(line => Array.from({ length: line.ends ? 660 : 40 }, (_, i) =>
      line.ends ? spoil(line, i % 60, values[Math.floor(i / 60)]) : spoil(line, i * 3, values[i % values.length])));
    await show(file('spoilt.json', [...spoilt, 'null', '5', '[]', '"x"', '{"packet":1,"chunks":[]}'].join('\n')));
    await browser.ask("document.getElementById('list').focus()");
    for (let i = 0; i < 150; i++)
      await browser.press('ArrowDown');
    for (const view of ['associations', 'channels', 'messages', 'diagram', 'packets'])
      await browser.click(`#tab-${view}`);
    await wait(100);
    quiet();
    for (const text of [evil.join('\n'), evil.map(it => `I 12:00:00.000 0000 ${it}`).join('\n')])
      await show(file('text', text));
    assert.deepEqual(await elements(), before);
    assert.equal(await browser.ask('typeof hacked'), 'undefined');
    const source = new URL('../src/', import.meta.url);
    for (const it of readdirSync(source))
      assert.doesNotMatch(readFileSync(new URL(it, source), 'utf8'), HTML_READERS, it);
    quiet();
  });

  await check('a file of 20 MB', async () => {
    const once = association(1000, 'x'.repeat(1150)), later = i => once.map(([time, it]) => [time + i * 60e6, it]);
    const records = Array.from({ length: 17 }, (_, i) => later(i)).flat();
    large = file('large.pcap', pcap(records));
    await browser.choose(large);
    await browser.until("document.getElementById('list').getAttribute('aria-rowcount') > 100");
    // The page answers while the Worker reads.
    const [slowest, took] = await browser.ask(`(async () => {
      const begun = performance.now();
      let slowest = 0;
      while (!document.body.dataset.done) {
        const started = performance.now();
        await new Promise(resolve => setTimeout(resolve));
        slowest = Math.max(slowest, performance.now() - started);
      }
      return [slowest, performance.now() - begun];
    })()`);
    assert.ok(slowest <= took / 2, `the page stood still for ${slowest} of ${took} ms`);
    assert.equal(await count(), records.length);
    assert.ok(await browser.ask("document.querySelectorAll('.row').length") < 200);
    await browser.ask("document.getElementById('list').focus()");
    await browser.press('End');
    await titled(`Packet ${records.length}`);
    assert.equal(await filter('chunk:data'), `18,700 of ${records.length.toLocaleString('en')} rows`);
    quiet();
  });

  await check('more rows than a browser scrolls', async () => {
    const most = 700_000, made = Array.from({ length: most }, (_, i) => `{"line":${i + 1},"skipped":"no packet"}\n`);
    await show(file('long.json', made.join('')));
    assert.equal(await filter('skipped'), '700,000 of 700,000 rows');
    assert.equal(await count(), most);
    const inView = () => browser.ask(`(() => {
      const { bottom } = document.getElementById('list').getBoundingClientRect();
      const { bottom: top } = document.getElementById('heads').getBoundingClientRect();
      const rows = ${ROW_PLACES}.filter(it => it.bottom > top && it.top < bottom).sort((a, b) => a.top - b.top);
      // (a border has 2 px, and a height is rounded)
      const isFull = rows[0].top <= top + 1 && rows.at(-1).bottom >= bottom - 4;
      return { isFull, numbers: rows.map(it => it.number) };
    })()`);
    const isRun = ({ isFull, numbers }) => isFull && numbers.every((it, i) => it === numbers[0] + i);
    await browser.ask("document.getElementById('list').focus()");
    for (const [key, number] of [['End', most], ['PageUp'], ['Home', 1], ['PageDown'], ['ArrowDown']]) {
      await browser.press(key);
      const seen = await inView();
      assert.ok(isRun(seen) && (number === undefined || seen.numbers.includes(number)), `${key}: ${JSON.stringify(seen)}`);
    }
    for (const part of [0.1, 0.5, 0.9]) {
      await browser.ask(`new Promise(resolve => {
        const list = document.getElementById('list');
        list.scrollTop = ${part} * list.scrollHeight;
        requestAnimationFrame(() => requestAnimationFrame(resolve));
      })`);
      const seen = await inView();
      assert.ok(isRun(seen) && Math.abs(seen.numbers[0] / most - part) < 0.01, JSON.stringify(seen));
    }
    quiet();
  });

  await check('a run that is stopped', async () => {
    await browser.choose(large);
    await browser.until("document.getElementById('list').getAttribute('aria-rowcount') > 100");
    const live = await browser.ask(by('#status', 'ariaLive'));
    await browser.click('#stop');
    assert.match(await browser.ask(by('#status')), /packets over [\d.,]+ s: stopped/);
    assert.equal(live, 'off');
    const read = await count();
    assert.ok(read > 100 && read < 20000, `${read} packets`);
    await browser.ask("document.getElementById('list').focus()");
    await browser.press('End');
    await titled(`Packet ${read}`);
    await browser.click('#tab-associations');
    assert.equal(await browser.ask("document.getElementById('uncounted').checkVisibility()"), true);
    assert.match(await browser.ask(by('#uncounted')), /^The reading was stopped/);
    await browser.click('#tab-diagram');
    await browser.until("document.querySelectorAll('#drawing .arrow').length > 0");
    quiet();
  });

  await check('from a server, and it asks for nothing else', async () => {
    // (with what docs/RELEASE.md asks of a host)
    const headers = {
      'content-type': 'text/html', 'content-encoding': 'gzip', 'content-security-policy': "frame-ancestors 'none'",
      'x-content-type-options': 'nosniff', 'referrer-policy': 'no-referrer',
    };
    const server = createServer((_, response) => response.writeHead(200, headers).end(gzipSync(readFileSync(html))));
    await new Promise(resolve => server.listen(0, '127.0.0.1', resolve));
    try {
      const at = `http://127.0.0.1:${server.address().port}/`;
      await browser.open(at);
      await show(file('example.pcap', example));
      assert.equal(await count(), 30);
      assert.deepEqual(browser.requests.filter(it => !it.startsWith('blob:')), [at]);
      quiet();
      // Nor could it: its policy forbids that.
      assert.equal(await browser.ask(`fetch('${at}').then(() => 'sent', () => 'refused')`), 'refused');
      browser.problems = [];
    } finally {
      server.closeAllConnections?.();
      server.close();
    }
  });

  await check('the page as it is in the repository', async () => {
    await unbuilt(browser);
    quiet();
  });

  await check('contrast, light and dark', async () => {
    await browser.open(url);
    const records = association(14), wrong = ip(A, B, packet(1, 2, 3, chunk(11, 0)));
    wrong[28] ^= 255;
    const others = [[4, 0], [9, 0, parameter(1, [2, 1, 0])], [192, 0, [4, 7]], [193, 0, 'asconf'], [7, 0, [4, 1]]];
    const made = others.map(it => ip(A, B, packet(1, 2, 3, chunk(...it))));
    const cut = ip(A, B, packet(1, 2, 3, data(1, 1, 1, 1, 'cut')));
    records.push(...[refused, wrong, ...made].map(it => [9e6, it]), [9e6, cut, 50]);
    await show(file('colours.pcap', pcap(records)));
    for (const scheme of ['light', 'dark']) {
      await browser.look(scheme);
      const views = [['packets', ''], ['packets', '-accepted'], ['packets', 'packet:20-60'], ['associations'], ['channels'], ['messages'], ['diagram']];
      for (const [view, text] of views) {
        if (text !== undefined)
          await filter(text);
        await browser.click(`#tab-${view}`);
        await wait(150);
        const low = await browser.ask(`(${contrasts})()`);
        assert.deepEqual(low, [], `${scheme}, ${view} ${text ?? ''}`);
      }
    }
    await browser.look('light');
    quiet();
  });

  await check('what is chosen and focused is seen, also in forced colours', async () => {
    await browser.open(url);
    await show(withRefused);
    const style = (selector, name) => browser.ask(`getComputedStyle(document.querySelector('${selector}'))['${name}']`);
    // The ring of a list is outside of its rows.
    await browser.click('#list .row');
    await browser.press('ArrowDown');
    assert.equal(await style('#list', 'borderTopColor'), 'rgb(26, 86, 196)');
    const [row, box] = await browser.ask(all('#list .current, #list', 'it.getBoundingClientRect().toJSON()')).then(it => [it[1], it[0]]);
    assert.ok(row.left >= box.left + 2 && row.right <= box.right - 2, JSON.stringify([row, box]));
    await browser.click('#counts button');
    assert.equal(await browser.ask(by('#counts button', 'ariaPressed')), 'true');
    await browser.click('#counts button');
    assert.equal(await browser.ask(by('#counts button', 'ariaPressed')), 'false');
    await filter('refused');
    await browser.send('Emulation.setEmulatedMedia', { features: [{ name: 'forced-colors', value: 'active' }] });
    await browser.until("document.querySelector('#bytes .fault')");
    for (const selector of ['#list .current', '#tree .current', '#bytes .fault', '#tab-packets'])
      assert.notEqual(await style(selector, 'outlineStyle'), 'none', selector);
    await browser.look('light');
    // While a capture is read, nothing of it is read out; its end is.
    assert.equal(await browser.ask(by('#status', 'ariaLive')), 'polite');
    assert.equal(await browser.ask("document.getElementById('marked').matches('output, [aria-live]')"), false);
    quiet();
  });

  await check('a phone', async () => {
    await browser.open(url, { width: 390, height: 800, isPhone: true });
    await show(withRefused);
    for (const view of ['diagram', 'messages', 'channels', 'associations', 'packets']) {
      await browser.click(`#tab-${view}`);
      await wait(150);
      assert.equal(await browser.ask('document.documentElement.scrollWidth'), 390, view);
    }
    // (also where the file of an event is said)
    await browser.choose(withRefused, file('another-file-with-a-long-name.pcap', example));
    await browser.done();
    await browser.click('#tab-associations');
    await wait(100);
    const right = await browser.ask(all('#association-rows .row > span', 'it.getBoundingClientRect().right'));
    assert.ok(right.length >= 11 && Math.max(...right) <= 390, `${Math.max(...right)}`);
    // (where nothing can be pointed at, no number is cut)
    const cut = await browser.ask(all('#association-rows .amount', 'it.scrollWidth > it.clientWidth && it.textContent'));
    assert.deepEqual(cut.filter(it => it), []);
    const [row, last] = await browser.ask(all('#association-rows [data-index="0"], #association-rows [data-index="0"] > :last-child', 'it.getBoundingClientRect().bottom'));
    assert.ok(last <= row, `${last} ${row}`);
    await show(withRefused);
    const [tree, hexadecimal] = await browser.ask(all('#tree, #bytes', 'it.getBoundingClientRect().toJSON()'));
    assert.ok(hexadecimal.top >= tree.bottom && tree.width > 380 && hexadecimal.width > 380, 'one column');
    // The list begins in the upper half. A row that is tapped stays in view, and its fields come into it.
    const top = selector => browser.ask(by(selector, 'getBoundingClientRect().top'));
    assert.ok(await top('#list') < 400, `${await top('#list')}`);
    await browser.tap('#list .row:nth-child(5)');
    await titled('Packet 5');
    await wait(100);
    assert.ok(await top('#list .row.current') >= 0 && await top('#tree') < 600, `${await top('#list .row.current')}, ${await top('#tree')}`);
    // What is folded beside the filter is unfolded.
    const seen = () => browser.ask(all('#clock, #saves, #copy-shown, #syntax-button, #tools [popovertarget=legend]', 'it.checkVisibility()'));
    assert.deepEqual(await seen(), Array(5).fill(false));
    await browser.tap('#more');
    assert.deepEqual(await seen(), Array(5).fill(true));
    await browser.tap('#syntax-button');
    assert.ok(await top('#syntax') >= await browser.ask(by('#tools', 'getBoundingClientRect().bottom')));
    await browser.tap('#syntax-button');
    // The legend has its button in view, however far it is scrolled.
    await browser.tap('#tools [popovertarget=legend]');
    await browser.ask(by('#legend', 'scrollTo(0, 9999)'));
    await browser.tap('#legend button');
    assert.equal(await browser.ask(by('#legend', 'checkVisibility()')), false);
    await browser.tap('#more');
    // What is tapped has at least 24 px each way (WCAG 2.2, 2.5.8).
    const TAPPED = 'button:not(.link), select, #bytes .row > .byte, .node, .twist:not(:empty), #list .row';
    for (const view of ['diagram', 'messages', 'channels', 'associations', 'packets']) {
      await browser.click(`#tab-${view}`);
      await wait(100);
      const small = `it.checkVisibility() && (({ width, height }) => Math.min(width, height) < 24)(it.getBoundingClientRect())
        && it.outerHTML.slice(0, 80)`;
      assert.deepEqual((await browser.ask(all(TAPPED, small))).filter(it => it), [], view);
    }
    await browser.tap('#byte-13');
    await wait(200);
    assert.match(await browser.ask(by('#marked')), / › flags: byte 13/);
    quiet();
  });

  await check('the diagram on a phone', async () => {
    await browser.open(url, { width: 390, height: 844, isPhone: true });
    await show(withRefused);
    await browser.click('#tab-diagram');
    await wait(150);
    await browser.ask('scrollTo(0, 0)');
    const seen = await browser.ask(all('#drawing .arrow .way', 'it.getBoundingClientRect().bottom < innerHeight'));
    assert.ok(seen.filter(it => it).length >= 10, `${seen}`);
    // What is rarely used is folded; nothing is painted over what the filter unfolds.
    assert.deepEqual(await browser.ask(all('#zoom-in, #save', 'it.checkVisibility()')), [false, false]);
    await browser.tap('#more-tools');
    await wait(50);
    assert.deepEqual(await browser.ask(all('#zoom-in, #save', 'it.checkVisibility()')), [true, true]);
    await browser.tap('#more-tools');
    await browser.tap('#more');
    await browser.tap('#syntax-button');
    await wait(100);
    await browser.ask('scrollTo(0, 0)');
    const over = await browser.ask(`(box => {
      const found = [];
      for (let y = box.top + 5; y < Math.min(box.bottom, innerHeight) - 5; y += 8) {
        const it = document.elementFromPoint(box.left + box.width / 2, y);
        found.push(it.closest('#syntax') ? '' : it.outerHTML.slice(0, 60));
      }
      return found;
    })(document.getElementById('syntax').getBoundingClientRect())`);
    assert.ok(over.length > 40 && over.every(it => !it), `${over}`);
    quiet();
  });

  await check('what a screen reader is told', async () => {
    await browser.open(url);
    await show(withRefused);
    await browser.send('Accessibility.enable');
    const { nodes } = await browser.send('Accessibility.getFullAXTree');
    const named = nodes.filter(it => !it.ignored).map(it => [it.role?.value, it.name?.value ?? '']);
    for (const role of ['button', 'tab', 'grid', 'tree', 'searchbox', 'combobox', 'treeitem', 'row', 'textbox', 'listbox'])
      assert.deepEqual(named.filter(([its, name]) => its === role && !name), [], role);
    for (const role of ['tab', 'grid', 'tree', 'treeitem', 'row', 'gridcell', 'searchbox', 'tablist', 'tabpanel', 'main', 'columnheader'])
      assert.ok(named.some(([its]) => its === role), role);
    quiet();
  });

  await tryFace({ browser, check, url, file, html });
}

// ---- in Firefox: what depends on a browser most

async function inFirefox(firefox) {
  const text = (selector, what) => firefox.ask(by(selector, what));
  // (the heads of the columns are a row, too)
  const count = () => text('#list', "getAttribute('aria-rowcount')").then(it => it - 1);
  const titled = it => firefox.until(`${by('#title')} === '${it}'`);
  const quiet = async () => assert.deepEqual(await firefox.ask('window.problems'), []);
  const show = async path => {
    await firefox.run('delete document.body.dataset.done');
    await firefox.type('#file', path);
    await firefox.until('document.body.dataset.done');
  };
  const packets = lines(example).filter(it => it.packet);

  await check('Firefox: a capture, a filter, the diagram', async () => {
    await firefox.open(url);
    await show(file('example.pcap', example));
    await titled('Packet 1');
    assert.equal(await count(), packets.length);
    await firefox.type('#filter', 'chunk:data');
    const some = packets.filter(it => it.chunks.some(({ chunk }) => chunk === 0)).length;
    await firefox.until(`${by('#found')} === '${some} of ${packets.length} rows'`);
    await firefox.click('#tab-diagram');
    await firefox.until("document.querySelectorAll('#drawing .arrow').length");
    assert.match(await text('#which'), /40000.*9900/);
    await firefox.click('#tab-associations');
    assert.match(await text('#association-rows .row'), /10\.0\.0\.1:4000010\.0\.1\.1:9900/);
    await quiet();
  });

  await check('Firefox: messages, and the graph', async () => {
    await show(fileURLToPath(new URL('../sample.pcap', import.meta.url)));
    await firefox.click('#tab-messages');
    assert.equal(await text('#messages-said'), '10 messages: 10 acknowledged, 2 sent again.');
    await firefox.click('#show-message');
    await titled('Packet 5');
    assert.equal(await text('#filter', 'value'), 'association:1 packet:5-6');
    await firefox.click('#back');
    await titled('Message 1');
    await firefox.click('#tab-diagram');
    await firefox.run("document.getElementById('show-graph').getAttribute('aria-pressed') === 'false' && document.getElementById('show-graph').click()");
    await firefox.until(`(${by('#graph', "getAttribute('aria-label')")}).startsWith('TSN over time. First end: 1 TSN sent, 1000 to 1000, acknowledged to 1000. ')`);
    await quiet();
  });

  await check('Firefox: a refused packet and its marks', async () => {
    await show(withRefused);
    await firefox.click('#counts button');
    await titled('Packet 11');
    assert.match(await text('#notes'), /^Refused: length at byte 16: COOKIE ACK: length 3, but 4 are needed\./);
    assert.deepEqual(await firefox.ask(all('#bytes .fault[role=gridcell]', 'it.id')), ['byte-16']);
    await firefox.click('#byte-12');
    assert.deepEqual(await firefox.ask(all('#bytes .cursor[role=gridcell]', 'it.id')), ['byte-12']);
    await quiet();
  });

  await check('Firefox: gzip, and a call that is encrypted', async () => {
    await show(file('example.pcap.gz', gzipSync(example)));
    assert.equal(await count(), packets.length);
    await show(file('call.pcap', call));
    assert.match(await text('#answer'), /^This capture is encrypted by DTLS.*None of 40 packets is SCTP/s);
    await quiet();
  });

  await check('Firefox: a packet in the address', async () => {
    await firefox.open(`${url}#hex=${Buffer.from(packet(5000, 5001, 7, data(1, 1, 1, 51, '<b>linked</b>'))).toString('hex')}`);
    await titled('Packet 1');
    await firefox.until(`${by('#list .row')}?.includes('“<b>linked</b>”')`);
    assert.match(await text('#list .row'), /5000 → 5001.*DATA/);
    await quiet();
  });

  await check('Firefox: the page as it is in the repository', () => unbuilt(firefox));
}

/** Serves the repository, as any web server does. */
async function served(test) {
  const root = new URL('../..', import.meta.url), types = { html: 'text/html', css: 'text/css', mjs: 'text/javascript', wasm: 'application/wasm' };
  const server = createServer(({ url }, response) => {
    const path = new URL(url, 'http://localhost').pathname;
    try {
      response.setHeader('content-type', types[path.split('.').at(-1)] ?? 'application/octet-stream').end(readFileSync(new URL(`.${path}`, root)));
    } catch {
      response.writeHead(404).end();
    }
  });
  await new Promise(resolve => server.listen(0, '127.0.0.1', resolve));
  try {
    await test(`http://127.0.0.1:${server.address().port}`);
  } finally {
    server.closeAllConnections?.();
    server.close();
  }
}

/** Tries the page that isn't made: modules, the Worker, the program and the example come from the server. */
function unbuilt(browser) {
  return served(async at => {
    await browser.open(`${at}/page/page.html`);
    await browser.click('#example');
    await browser.until('document.body.dataset.done');
    const sample = lines(new Uint8Array(readFileSync(new URL('../sample.pcap', import.meta.url)))).filter(it => it.packet);
    assert.match(await browser.ask(by('#status')), new RegExp(`^${sample.length} packets over 3.1 s, read in`));
    await browser.until(`${by('#title')} === 'Packet 1'`);
  });
}

try {
  if (module)
    await check('the program prints what the native one does', sameAsNative);
  await check('a module that breaks the rule of page/make.py', breaksRule);
  for (const [name, lacks, start, test] of [
    ['Chromium', lacking, Browser.start, inBrowser], ['Firefox', lackingFirefox, Firefox.start, inFirefox],
  ]) {
    if (lacks) {
      leftOut++;
      console.log(`page: the page in ${name}: left out, since there is ${lacks}`);
      continue;
    }
    const browser = await start();
    try {
      await test(browser);
    } finally {
      await browser.close();
    }
  }
} finally {
  rmSync(folder, { recursive: true, force: true, maxRetries: 5 });
}
console.log(`page: ${passed} passed, ${failed} failed${leftOut ? `, ${leftOut} left out` : ''}`);
process.exitCode = failed ? 1 : 0;
