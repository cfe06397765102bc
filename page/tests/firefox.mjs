// SPDX-License-Identifier: Apache-2.0
// Drives Firefox by Marionette, its protocol of automation, over a port of this machine.
import { spawn, spawnSync } from 'node:child_process';
import { existsSync, mkdtempSync, readFileSync, rmSync, writeFileSync } from 'node:fs';
import { connect } from 'node:net';
import { tmpdir } from 'node:os';
import { join } from 'node:path';
import { LIMIT } from './browser.mjs';

const PROGRAM = process.env.FIREFOX ?? 'firefox-esr';

/** Why there is no Firefox, or undefined if there is one. */
export const lacking = spawnSync(PROGRAM, ['--version']).error && `no ${PROGRAM}`;

/** The name of an element's reference (WebDriver, section 12). */
const ELEMENT = 'element-6066-11e4-a52e-4f735466cecf';

const wait = time => new Promise(resolve => setTimeout(resolve, time));

export class Firefox {
  answers = new Map();
  number = 0;
  kept = Buffer.alloc(0);

  static async start() {
    const it = new Firefox();
    it.folder = mkdtempSync(join(tmpdir(), 'page-'));
    // (0: any free port, which it writes into a file)
    writeFileSync(join(it.folder, 'user.js'), 'user_pref("marionette.port", 0);\n');
    it.child = spawn(PROGRAM, ['--headless', '--no-remote', '--marionette', '--profile', it.folder], { stdio: 'ignore' });
    it.ended = new Promise(resolve => it.child.on('exit', resolve));
    const path = join(it.folder, 'MarionetteActivePort');
    for (const end = Date.now() + LIMIT; !existsSync(path) || !readFileSync(path, 'utf8');) {
      if (Date.now() > end || it.child.exitCode !== null)
        throw new Error(`${PROGRAM} doesn't start`);
      await wait(50);
    }
    it.socket = connect(Number(readFileSync(path, 'utf8')), '127.0.0.1');
    it.socket.on('data', part => it.take(part));
    await it.send('WebDriver:NewSession', { capabilities: {} });
    await it.send('WebDriver:SetWindowRect', { width: 1280, height: 900 });
    return it;
  }

  /** A message is its length in digits, a colon and JSON: of an answer `[1, number, error, result]`. */
  take(part) {
    this.kept = Buffer.concat([this.kept, part]);
    for (let colon = this.kept.indexOf(':'); colon > 0; colon = this.kept.indexOf(':')) {
      const end = colon + 1 + Number(this.kept.subarray(0, colon));
      if (this.kept.length < end)
        return;
      const message = JSON.parse(this.kept.subarray(colon + 1, end));
      this.kept = this.kept.subarray(end);
      // (the first one says the protocol's version, and answers nothing)
      if (!Array.isArray(message))
        continue;
      const [, number, error, result] = message, { resolve, reject } = this.answers.get(number);
      this.answers.delete(number);
      if (error)
        reject(new Error(`${error.error}: ${error.message}`));
      else
        resolve(result);
    }
  }

  send(command, parameters = {}) {
    const number = ++this.number, text = JSON.stringify([0, number, command, parameters]);
    this.socket.write(`${Buffer.byteLength(text)}:${text}`);
    return new Promise((resolve, reject) => this.answers.set(number, { resolve, reject }));
  }

  /** Opens a page, and keeps what goes wrong in it. */
  async open(url) {
    await this.send('WebDriver:Navigate', { url: 'about:blank' });
    await this.send('WebDriver:Navigate', { url });
    await this.run(`window.problems = [];
      for (const type of ['error', 'unhandledrejection', 'securitypolicyviolation'])
        window.addEventListener(type, event => window.problems.push(String(event.message ?? event.reason ?? event.violatedDirective)));`);
  }

  async run(script) {
    return (await this.send('WebDriver:ExecuteScript', { script, args: [] })).value;
  }

  /** What an expression gives in the page. */
  ask(expression) {
    return this.run(`return ${expression};`);
  }

  async until(expression) {
    for (const end = Date.now() + LIMIT; Date.now() < end; await wait(20)) {
      if (await this.ask(`Boolean(${expression})`))
        return;
    }
    throw new Error(`waited for ${expression}`);
  }

  async found(selector) {
    return (await this.send('WebDriver:FindElement', { using: 'css selector', value: selector })).value[ELEMENT];
  }

  async click(selector) {
    await this.send('WebDriver:ElementClick', { id: await this.found(selector) });
  }

  /** Types a text, or chooses a file by its path. */
  async type(selector, text) {
    await this.send('WebDriver:ElementSendKeys', { id: await this.found(selector), text });
  }

  async close() {
    this.send('Marionette:Quit', { flags: ['eForceQuit'] }).catch(() => {});
    await this.ended;
    this.socket.destroy();
    rmSync(this.folder, { recursive: true, force: true, maxRetries: 5 });
  }
}
