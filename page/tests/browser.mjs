// SPDX-License-Identifier: Apache-2.0
// Drives a browser by its DevTools protocol, over a pipe.
import { spawn, spawnSync } from 'node:child_process';
import { mkdtempSync, rmSync, writeFileSync } from 'node:fs';
import { tmpdir } from 'node:os';
import { join } from 'node:path';

const PROGRAM = process.env.CHROMIUM ?? 'chromium';

/** Why there is no browser, or undefined if there is one. */
export const lacking = spawnSync(PROGRAM, ['--version']).error && `no ${PROGRAM}`;

/** Milliseconds that a browser may take for what a test waits for, on a loaded machine too. */
export const LIMIT = 300_000;

export class Browser {
  answers = new Map();
  number = 0;
  problems = [];

  /** Starts it, with further options. */
  static async start(...more) {
    const it = new Browser();
    it.folder = mkdtempSync(join(tmpdir(), 'page-'));
    const words = ['--headless', '--no-sandbox', '--disable-gpu', '--hide-scrollbars', '--remote-debugging-pipe'];
    const stdio = ['ignore', 'ignore', 'ignore', 'pipe', 'pipe'];
    it.child = spawn(PROGRAM, [...words, ...more, `--user-data-dir=${it.folder}`], { stdio });
    it.ended = new Promise(resolve => it.child.on('exit', resolve));
    let kept = '';
    it.child.stdio[4].setEncoding('utf8').on('data', part => {
      const texts = (kept + part).split('\0');
      kept = texts.pop();
      texts.forEach(text => it.take(JSON.parse(text)));
    });
    return it;
  }

  take({ id, method, params, result, error }) {
    if (id) {
      const { resolve, reject } = this.answers.get(id);
      this.answers.delete(id);
      error ? reject(new Error(error.message)) : resolve(result);
    } else if (method === 'Runtime.exceptionThrown') {
      this.problems.push(params.exceptionDetails.exception?.description ?? params.exceptionDetails.text);
    } else if (method === 'Log.entryAdded' && params.entry.level === 'error') {
      this.problems.push(params.entry.text);
    } else if (method === 'Network.requestWillBeSent') {
      this.requests?.push(params.request.url);
    }
  }

  send(method, params = {}, sessionId = this.session) {
    const id = ++this.number;
    this.child.stdio[3].write(`${JSON.stringify({ id, method, params, sessionId })}\0`);
    return new Promise((resolve, reject) => this.answers.set(id, { resolve, reject }));
  }

  /** Opens a page of this size, light or dark. */
  async open(url, { width = 1280, height = 900, scheme = 'light', isPhone = false } = {}) {
    this.session = undefined;
    const { targetId } = await this.send('Target.createTarget', { url: 'about:blank' });
    this.session = (await this.send('Target.attachToTarget', { targetId, flatten: true })).sessionId;
    for (const it of ['Page', 'Runtime', 'Log', 'Network', 'DOM'])
      await this.send(`${it}.enable`);
    await this.send('Emulation.setDeviceMetricsOverride', { width, height, deviceScaleFactor: 1, mobile: isPhone });
    await this.send('Emulation.setTouchEmulationEnabled', { enabled: isPhone });
    await this.look(scheme);
    this.requests = [];
    await this.send('Page.navigate', { url });
    await this.until("document.readyState === 'complete' && document.getElementById('start')");
  }

  look(scheme) {
    return this.send('Emulation.setEmulatedMedia', { features: [{ name: 'prefers-color-scheme', value: scheme }] });
  }

  /** What an expression gives in the page. */
  async ask(expression) {
    const how = { expression, returnByValue: true, awaitPromise: true };
    const { result, exceptionDetails } = await this.send('Runtime.evaluate', how);
    if (exceptionDetails)
      throw new Error(exceptionDetails.exception?.description ?? exceptionDetails.text);
    return result.value;
  }

  async until(expression) {
    for (const end = Date.now() + LIMIT; Date.now() < end;) {
      if (await this.ask(`Boolean(${expression})`))
        return;
      await new Promise(resolve => setTimeout(resolve, 20));
    }
    throw new Error(`waited for ${expression}`);
  }

  /** Chooses files as a user does, and waits until they are read. */
  async choose(...paths) {
    await this.ask("delete document.body.dataset.done");
    const { root } = await this.send('DOM.getDocument');
    const { nodeId } = await this.send('DOM.querySelector', { nodeId: root.nodeId, selector: '#file' });
    await this.send('DOM.setFileInputFiles', { nodeId, files: paths });
  }

  done() {
    return this.until('document.body.dataset.done');
  }

  /** Waits for the next frame: a list that was hidden has its rows then, however slow the machine. */
  drawn() {
    return this.ask('new Promise(resolve => requestAnimationFrame(() => setTimeout(resolve)))');
  }

  async press(key) {
    const text = { '/': '/', Enter: '\r' }[key], params = { key, text, windowsVirtualKeyCode: KEYS[key] };
    await this.send('Input.dispatchKeyEvent', { type: text ? 'keyDown' : 'rawKeyDown', ...params });
    await this.send('Input.dispatchKeyEvent', { type: 'keyUp', ...params });
    await this.drawn();
  }

  type(text) {
    return this.send('Input.insertText', { text });
  }

  /** The middle of an element. */
  async middle(selector) {
    const at = await this.ask(`(() => {
      const it = document.querySelector(${JSON.stringify(selector)});
      if (!it)
        return;
      it.scrollIntoView({ block: 'nearest' });
      const { x, y, width, height } = it.getBoundingClientRect();
      return { x: x + width / 2, y: y + height / 2 };
    })()`);
    if (!at)
      throw new Error(`no ${selector}`);
    return at;
  }

  async move(selector) {
    await this.send('Input.dispatchMouseEvent', { type: 'mouseMoved', ...await this.middle(selector) });
  }

  async click(selector) {
    const at = await this.middle(selector);
    await this.send('Input.dispatchMouseEvent', { type: 'mouseMoved', ...at });
    for (const type of ['mousePressed', 'mouseReleased'])
      await this.send('Input.dispatchMouseEvent', { type, ...at, button: 'left', clickCount: 1 });
    await this.drawn();
  }

  async tap(selector) {
    const at = await this.middle(selector);
    await this.send('Input.dispatchTouchEvent', { type: 'touchStart', touchPoints: [at] });
    await this.send('Input.dispatchTouchEvent', { type: 'touchEnd', touchPoints: [] });
  }

  async picture(path) {
    const { data } = await this.send('Page.captureScreenshot', { format: 'png' });
    writeFileSync(path, Buffer.from(data, 'base64'));
  }

  async close() {
    // (so that each of its processes ends before their folder goes)
    this.session = undefined;
    this.send('Browser.close');
    await this.ended;
    rmSync(this.folder, { recursive: true, force: true, maxRetries: 5 });
  }
}

const KEYS = {
  Tab: 9, Enter: 13, Escape: 27, PageUp: 33, PageDown: 34, End: 35, Home: 36, ArrowLeft: 37, ArrowUp: 38, ArrowRight: 39,
  ArrowDown: 40, '/': 191,
};
