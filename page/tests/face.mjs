// SPDX-License-Identifier: Apache-2.0
// Tries the page's face: the start page, the line between a view and the details, words with their meanings, what a screen reader
// gets, and links. Called by run.mjs.
import assert from 'node:assert/strict';
import { execFileSync } from 'node:child_process';
import { readFileSync } from 'node:fs';
import { join } from 'node:path';
import { contrasts } from './contrast.mjs';
import { bytes, chunk, data, ip, packet, pcap, sack } from './traffic.mjs';

/** In the page: what is named wrongly, or isn't in its order. */
function flawsOfRoles() {
  const flaws = [], seen = selector => Array.from(document.querySelectorAll(selector)).filter(it => it.checkVisibility());
  for (const grid of seen('[role=grid]')) {
    const rows = Array.from(grid.querySelectorAll('[role=row]')), numbers = rows.map(it => Number(it.getAttribute('aria-rowindex')));
    if (!numbers.every((it, i) => it === numbers[0] + i || it > numbers[i - 1]))
      flaws.push(`rows of ${grid.id} are read in the order ${numbers}`);
    if (!(Number(grid.getAttribute('aria-rowcount')) >= numbers.at(-1)))
      flaws.push(`${grid.id} has ${grid.getAttribute('aria-rowcount')} rows, and row ${numbers.at(-1)}`);
  }
  const open = [];
  for (const item of seen('[role=treeitem]')) {
    const [level, position, size] = ['level', 'posinset', 'setsize'].map(it => Number(item.getAttribute(`aria-${it}`)));
    if (!(position >= 1 && position <= size))
      flaws.push(`${item.textContent} is the ${position}th of ${size}`);
    if (open[level] && position !== open[level].position + 1 || open[level] && open[level].size !== size)
      flaws.push(`${item.textContent} is the ${position}th of ${size} after the ${open[level].position}th`);
    open.length = level;
    open[level] = { position, size };
  }
  return flaws;
}

/** In the page: the controls that have less than some pixels each way. */
function small(least) {
  const controls = 'button:not(.link), .button, select, summary, input:not(.unseen, [type=checkbox]), [role=tab], #list .row';
  return Array.from(document.querySelectorAll(controls)).filter(it => it.checkVisibility()).map(it => {
    const { width, height } = it.getBoundingClientRect();
    return Math.min(width, height) < least && `${it.outerHTML.slice(0, 80)}: ${width} × ${height}`;
  }).filter(it => it);
}

/** In the page: what has no ring when it is focused, or one that is cut or painted over. */
function lostRings() {
  const lost = [];
  for (const it of document.querySelectorAll('button:enabled, a, select, input:not(.unseen), textarea, summary, [tabindex="0"]')) {
    if (!it.checkVisibility())
      continue;
    it.focus();
    const style = getComputedStyle(it), reach = parseFloat(style.outlineOffset) + parseFloat(style.outlineWidth), name = it.outerHTML.slice(0, 60);
    if (style.outlineStyle === 'none') {
      if (style.borderTopColor === 'rgba(0, 0, 0, 0)')
        lost.push(`${name} has none`);
      continue;
    }
    const { left, right, top, bottom } = it.getBoundingClientRect();
    for (let up = it.parentElement; up !== document.body; up = up.parentElement) {
      const box = up.getBoundingClientRect();
      if (getComputedStyle(up).overflowY !== 'visible' && (left - reach < box.left || top - reach < box.top || bottom + reach > box.bottom))
        lost.push(`${name} is cut by ${up.id}`);
    }
    for (const [x, y] of [[(left + right) / 2, top - reach + 1], [(left + right) / 2, bottom + reach - 1], [left - reach + 1, (top + bottom) / 2]]) {
      for (let over = document.elementFromPoint(x, y); over && !over.contains(it); over = over.parentElement) {
        if (over !== it && !it.contains(over) && getComputedStyle(over).position !== 'static')
          lost.push(`${name} is below ${over.id || over.className}`);
      }
    }
  }
  return lost;
}

export async function tryFace({ browser, check, url, file, html }) {
  const ask = expression => browser.ask(expression), by = (selector, what) => ask(`document.querySelector(${JSON.stringify(selector)}).${what}`);
  const all = (selector, what) => ask(`Array.from(document.querySelectorAll(${JSON.stringify(selector)}), it => ${what})`);
  const quiet = () => assert.deepEqual(browser.problems, []);
  const wait = time => new Promise(resolve => setTimeout(resolve, time));
  const size = (width, height) => browser.send('Emulation.setDeviceMetricsOverride', { width, height, deviceScaleFactor: 1, mobile: false });
  const show = async (...paths) => {
    await browser.choose(...paths);
    await browser.done();
    await wait(100);
  };
  const showExample = async () => {
    await ask('delete document.body.dataset.done');
    await browser.click('#example');
    await browser.done();
    await wait(200);
  };
  const copied = async (button, said) => {
    await by(said, "textContent = ''");
    await browser.click(button);
    await browser.until(`document.querySelector('${said}').textContent`);
    assert.equal(await by(said, 'textContent'), 'Copied.');
    return ask('navigator.clipboard.readText()');
  };
  const boxes = (...selectors) => Promise.all(selectors.map(it => by(it, 'getBoundingClientRect().toJSON()')));

  await check('the start page', async () => {
    for (const scheme of ['light', 'dark']) {
      await browser.open(url, { width: 1440, height: 900, scheme });
      await ask("document.querySelectorAll('details').forEach(it => { it.open = true; })");
      assert.deepEqual(await ask(`(${contrasts})()`), [], scheme);
    }
    await browser.open(url, { width: 1440, height: 900 });
    assert.equal(await by('.pointed', 'checkVisibility()'), true);
    assert.equal(await by('#strict', 'checkVisibility()'), false);
    assert.deepEqual(await ask(`(${small})(24)`), []);
    // Nothing is loaded by its links, and none says where it was followed from.
    const links = await all('#start a[target]', "[it.href, it.rel]");
    assert.ok(links.length === 6 && links.every(([to, rel]) => /^https:\/\/www\.rfc-editor\.org\/rfc\/rfc\d{4}$/.test(to) && rel === 'noreferrer'));
    assert.equal(await by('meta[name=referrer]', 'content'), 'no-referrer');
    assert.deepEqual(browser.requests.filter(it => !/^(data|blob):/.test(it)), [url]);
    quiet();
    // With an address of the project it is linked; without one, nothing is said of it.
    const made = join(file('home.html', ''));
    const home = 'https://a.example/"davgyuti/';
    execFileSync(new URL('../make.py', import.meta.url).pathname, ['--into', made, '--home', home]);
    const [without, withHome] = [html, made].map(it => readFileSync(it, 'utf8'));
    assert.doesNotMatch(without, /og:image|og:url|a\.example|<!--home/);
    assert.match(withHome, /<meta property="og:image" content="https:\/\/a\.example\/&quot;davgyuti\/docs\/page\.png">/);
    assert.match(withHome, /<a href="https:\/\/a\.example\/&quot;davgyuti" target="_blank" rel="noreferrer">/);
  });

  await check('a script’s address that isn’t the page’s own is refused', async () => {
    assert.equal(await ask(`(() => {
      try {
        return String(new Worker(URL.createObjectURL(new Blob(['']))));
      } catch (error) {
        return error.name;
      }
    })()`), 'TypeError');
    assert.equal(await ask(`(() => {
      try {
        return String(trustedTypes.createPolicy('other', {}));
      } catch (error) {
        return error.name;
      }
    })()`), 'TypeError');
    browser.problems = [];
  });

  await check('the line between the list and the details', async () => {
    await browser.open(url, { width: 1280, height: 900 });
    await showExample();
    const heights = async () => (await boxes('#packets', '#details')).map(it => it.height);
    const now = () => by('#split', "getAttribute('aria-valuenow')").then(Number);
    const isAsSaid = async () => {
      const [view, rest] = await heights(), share = await now();
      assert.ok(Math.abs(100 * view / (view + rest) - share) < 1, `${view}, ${rest}: ${share}`);
    };
    assert.equal(await now(), 50);
    await by('#split', 'focus()');
    for (const [key, share] of [['ArrowDown', 55], ['ArrowUp', 50], ['Home', 15], ['ArrowUp', 15], ['End', 85]]) {
      await browser.press(key);
      assert.equal(await now(), share, key);
      await isAsSaid();
    }
    // It follows the pointer.
    const { x, y } = await browser.middle('#split');
    for (const [type, at, buttons] of [['Moved', y, 0], ['Pressed', y, 1], ['Moved', y - 300, 1], ['Released', y - 300, 0], ['Moved', y, 0]])
      await browser.send('Input.dispatchMouseEvent', { type: `mouse${type}`, x, y: at, button: buttons || type === 'Released' ? 'left' : 'none', buttons, clickCount: 1 });
    assert.ok(Math.abs((await browser.middle('#split')).y - (y - 300)) < 12, `${y}`);
    await isAsSaid();
    const share = await now();
    // The details go to the side by a button, and by themselves where there is room.
    await browser.click('#beside');
    let [view, details] = await boxes('#packets', '#details');
    assert.ok(details.left >= view.right && details.top === view.top, 'beside');
    assert.ok(Math.abs(100 * view.width / (view.width + details.width) - share) < 1);
    assert.equal(await by('#split', "getAttribute('aria-orientation')"), 'vertical');
    // (where there are no bytes, fields have their room; and no amount of the table is cut)
    await browser.click('#tab-associations');
    await wait(150);
    const [tree, whole] = await boxes('#tree', '#details');
    assert.ok(whole.bottom - tree.bottom < 2, `${tree.bottom} ${whole.bottom}`);
    assert.deepEqual(await all('#association-rows .row > span', 'it.scrollWidth > it.clientWidth && it.textContent').then(it => it.filter(cut => cut)), []);
    await browser.click('#tab-packets');
    // What was chosen stays in this tab.
    await browser.send('Page.reload');
    await browser.until("document.readyState === 'complete' && document.body.dataset.done");
    [view, details] = await boxes('#packets', '#details');
    assert.ok(details.left >= view.right, 'after a reload');
    assert.equal(await now(), share);
    await browser.click('#beside');
    await ask('sessionStorage.clear()');
    for (const [width, isBeside] of [[1599, false], [1600, true]]) {
      await browser.open(url, { width, height: 900 });
      await showExample();
      [view, details] = await boxes('#packets', '#details');
      assert.equal(details.left >= view.right, isBeside, `${width}`);
      assert.ok(await ask("document.documentElement.scrollWidth <= innerWidth && document.getElementById('list').scrollWidth <= document.getElementById('list').clientWidth"));
    }
    quiet();
  });

  await check('words have their meaning', async () => {
    await browser.open(url, { width: 1280, height: 900 });
    await showExample();
    const marks = await all('#list .mark', '[it.textContent, it.title, it.closest(".row").getAttribute("aria-description")]');
    assert.ok(marks.length > 3 && marks.every(([text, title, row]) => title.toLowerCase().startsWith(`${text}`.toLowerCase()) && row.includes(title.split(' Filter: ')[0])), JSON.stringify(marks));
    // Each names its word of the filter, which passes its row.
    const { text: again, title: said } = await ask("(({ textContent, title }) => ({ text: textContent, title }))(document.querySelector('#list .mark.doubt'))");
    for (const word of [said.split(' Filter: ')[1], `"${again}"`]) {
      await ask('delete document.body.dataset.filter');
      await ask(`(() => {
        document.getElementById('filter').value = ${JSON.stringify(word)};
        document.getElementById('filter').dispatchEvent(new Event('input'));
      })()`);
      await browser.until('document.body.dataset.filter !== undefined');
      await wait(100);
      const rows = await all('#list .row', 'it.textContent');
      assert.ok(rows.length > 0 && rows.every(it => it.includes(again)), `${word}: ${rows}`);
    }
    await browser.press('Escape');
    const counts = await all('#counts button:not([hidden])', 'it.title');
    assert.ok(counts.length > 3 && counts.every(it => it.length > 30));
    const heads = await all('#association-heads button', 'it.title');
    assert.ok(heads.length === 13 && heads.every(it => / A click sorts by it\.$/.test(it) && it.length > 40));
    // The syntax is above the line to drag, whether the details are below or at the side.
    for (const _ of ['below', 'at the side']) {
      await browser.click('#syntax-button');
      const hidden = await all('#syntax dd, #syntax button', `(({ left, right, top, bottom }) => [left + 1, (left + right) / 2, right - 1]
        .every(x => it.contains(document.elementFromPoint(x, (top + bottom) / 2))) ? '' : it.textContent)(it.getBoundingClientRect())`);
      assert.ok(hidden.length > 30);
      assert.deepEqual(hidden.filter(it => it), []);
      await browser.click('#syntax-button');
      await browser.click('#beside');
    }
    // The legend has each colour and mark.
    await browser.click('[popovertarget=legend]');
    assert.equal(await by('#legend', 'checkVisibility()'), true);
    const signs = await all('#legend dt', 'it.textContent');
    for (const it of ['DATA', 'SACK', 'refused', 'sent again', 'fills a gap', 'gap before', 'gaps'])
      assert.ok(signs.includes(it), it);
    // (by the classes that the diagram draws with)
    for (const it of ['.life[d*="l-12,6"]', '.life + .stretched', '.life + .tie', '.acked .hit'])
      assert.equal((await all(`#legend svg ${it}`, 'it.checkVisibility()')).length, 1, it);
    for (const scheme of ['light', 'dark']) {
      await browser.look(scheme);
      assert.deepEqual(await ask(`(${contrasts})()`), [], scheme);
    }
    await browser.look('light');
    await browser.press('Escape');
    assert.equal(await by('#legend', 'checkVisibility()'), false);
    // (it is closed alone)
    await browser.click('#tab-diagram');
    await browser.click('[popovertarget=legend]');
    await browser.press('Escape');
    assert.deepEqual([await by('#legend', 'checkVisibility()'), await by('#diagram', 'checkVisibility()')], [false, true]);
    quiet();
  });

  await check('times in the list and in the tree', async () => {
    const line = (clock, tag) => `I ${clock} 0000 13 88 13 88 01 02 03 0${tag} 00 00 00 00 0b 00 00 04 # SCTP_PACKET\n`;
    await show(file('night.log', line('23:59:59.500', 4) + line('00:00:00.750', 5) + line('00:00:01.250', 5)));
    for (const [clock, text] of [['since', '1.750'], ['previous', '0.500'], ['clock', '00:00:01.250']]) {
      await ask(`(() => {
        const it = document.getElementById('clock');
        it.value = '${clock}';
        it.dispatchEvent(new Event('change'));
      })()`);
      await by('#list', 'focus()');
      await browser.press('End');
      await wait(100);
      const tree = await all('#tree .row', "[it.querySelector('.key').textContent, it.querySelector('.value').textContent, it.querySelector('.value').title]");
      const [, inTree, title] = tree.find(([key]) => key === 'time');
      assert.deepEqual([await by('#list .current .time', 'textContent'), inTree], [text, text]);
      assert.deepEqual([await by('#list .current .time', 'title'), title], Array(2).fill('00:00:01.250, day 2 of the log'));
    }
    quiet();
  });

  await check('the example and several packets as a link, and a packet as a test', async () => {
    await browser.send('Browser.grantPermissions', { permissions: ['clipboardReadWrite', 'clipboardSanitizedWrite'] }, undefined);
    await browser.open(`${url}#example`);
    await browser.done();
    assert.match(await by('#status', 'textContent'), /^29 packets/);
    const raw = [packet(1, 2, 3, data(1, 1, 1, 51, 'one')), packet(2, 1, 4, sack(1)), packet(1, 2, 3, chunk(11, 0), bytes([1, 11, 0, 0, 3]))];
    await show(file('three.pcap', pcap(raw.map((it, i) => [i, ip('10.0.0.1', '10.0.0.2', it)]))));
    // (the address of what was open before has gone)
    assert.equal(await ask('location.hash'), '');
    const texts = raw.map(it => Buffer.from(it).toString('hex')), link = await copied('#copy-shown', '#found');
    assert.equal(link, `${url}#hex=${texts.join(',')}`);
    await browser.open(link);
    await browser.done();
    await wait(100);
    assert.equal(await by('#list', "getAttribute('aria-rowcount')"), '4');
    assert.equal(await by('#counts button', 'textContent'), '1 refused');
    for (const [key, number] of [['Home', 0], ['End', 2]]) {
      await by('#list', 'focus()');
      await browser.press(key);
      await wait(100);
      assert.equal(await copied('#copy-hex', '#copied'), texts[number]);
      const row = await copied('#copy-test', '#copied');
      assert.match(row, /^packet( [0-9a-f]{8})+( [0-9a-f]{1,8})?$/);
      assert.equal(row.slice(7).replaceAll(' ', ''), texts[number].slice(24));
    }
    // Too many bytes have no link, and the page says it.
    await show(file('long.pcap', pcap(Array.from({ length: 40 }, (_, i) => [i, ip('10.0.0.1', '10.0.0.2', packet(1, 2, 3, data(i, 1, 1, 51, 'x'.repeat(200))))]))));
    await browser.click('#copy-shown');
    await browser.until("document.getElementById('found').textContent");
    assert.match(await by('#found', 'textContent'), /doesn’t fit a link/);
    quiet();
  });

  await check('what a screen reader reads, in its order', async () => {
    await browser.open(url, { width: 1280, height: 900 });
    await showExample();
    await by('#list', 'focus()');
    for (const key of ['End', 'PageUp', 'Home', 'ArrowDown'])
      await browser.press(key);
    assert.deepEqual(await ask(`(${flawsOfRoles})()`), []);
    await browser.click('#counts button');
    await wait(200);
    assert.deepEqual(await ask(`(${flawsOfRoles})()`), []);
    await browser.send('Accessibility.enable');
    for (const tab of ['packets', 'associations']) {
      await browser.click(`#tab-${tab}`);
      await wait(100);
      const { nodes } = await browser.send('Accessibility.getFullAXTree'), byId = new Map(nodes.map(it => [it.nodeId, it]));
      const seen = nodes.filter(it => !it.ignored), roleOf = it => it.role?.value;
      const parentOf = it => {
        let up = byId.get(it.parentId);
        while (up && (up.ignored || ['generic', 'none'].includes(roleOf(up))))
          up = byId.get(up.parentId);
        return roleOf(up);
      };
      // By WAI-ARIA 1.2, what each role is in.
      const within = { gridcell: ['row'], columnheader: ['row'], row: ['grid'], treeitem: ['tree'], tab: ['tablist'], option: ['listbox', 'MenuListPopup'] };
      for (const it of seen) {
        const role = roleOf(it);
        if (within[role])
          assert.ok(within[role].includes(parentOf(it)), `${role} ${it.name?.value} in ${parentOf(it)}`);
        if (['button', 'tab', 'grid', 'tree', 'separator', 'searchbox', 'combobox', 'group', 'region', 'tabpanel', 'tablist', 'row', 'treeitem', 'link', 'columnheader'].includes(role))
          assert.ok(it.name?.value, `${role} has no name`);
        assert.doesNotMatch(it.name?.value ?? '', /[▲▼▾▸]/, role);
      }
      assert.equal(seen.filter(it => roleOf(it) === 'columnheader').length, { packets: 5, associations: 13 }[tab]);
    }
    // Beside the tabs nothing is in their list, and while a capture is read, no live region talks.
    assert.deepEqual(await all('[role=tablist] > *', 'it.role').then(it => it.filter(role => role !== 'tab')), []);
    await browser.open(url);
    await ask(`(() => {
      window.lives = [];
      for (const id of ['status', 'found'])
        new MutationObserver(([{ target }]) => lives.push(id + ' ' + target.ariaLive)).observe(document.getElementById(id), { attributeFilter: ['aria-live'] });
    })()`);
    await showExample();
    assert.deepEqual(await ask('lives'), ['status off', 'found off', 'status polite', 'found polite']);
    quiet();
  });

  await check('sizes at 1,024 and 390 px', async () => {
    await browser.open(url, { width: 1024, height: 768 });
    await showExample();
    const tops = await all('[role=tab]:not([hidden]), #counts button:not([hidden])', 'Math.round(it.getBoundingClientRect().bottom)');
    assert.ok(tops.length > 6 && Math.max(...tops) - Math.min(...tops) < 12, `${tops}`);
    assert.deepEqual(await ask(`(${small})(24)`), []);
    await browser.press('Tab');
    for (const tab of ['diagram', 'messages', 'channels', 'associations', 'packets']) {
      await ask(`document.getElementById('tab-${tab}').click()`);
      assert.deepEqual(await ask(`(${lostRings})()`), [], tab);
    }
    // A row's texts stand on one line.
    const bases = await ask(`(() => {
      const baseOf = it => {
        const mark = document.createElement('span');
        mark.style.display = 'inline-block';
        it.prepend(mark);
        const { bottom } = mark.getBoundingClientRect();
        mark.remove();
        return bottom;
      };
      return Array.from(document.querySelector('#list .row').children).filter(it => it.checkVisibility()).map(baseOf);
    })()`);
    assert.ok(bases.length > 3 && Math.max(...bases) - Math.min(...bases) <= 0.5, `${bases}`);
    const sizes = await all('body *', "it.checkVisibility() && !it.closest('#diagram, code') && Array.from(it.childNodes).some(node => node.nodeType === 3 && node.data.trim()) && getComputedStyle(it).fontSize");
    assert.deepEqual([...new Set(sizes.filter(it => it))].sort(), ['12px', '14px', '17px']);
    // On a phone a finger has 44 px, and 24 for a byte, and no byte is out of view.
    await browser.open(url, { width: 390, height: 800, isPhone: true });
    assert.equal(await by('.pointed', 'checkVisibility()'), false);
    assert.deepEqual(await ask(`(${small})(44)`), []);
    await showExample();
    for (const tab of ['diagram', 'messages', 'channels', 'associations', 'packets']) {
      await browser.click(`#tab-${tab}`);
      await wait(100);
      assert.deepEqual(await ask(`(${small})(44)`), [], tab);
      assert.equal(await ask('document.documentElement.scrollWidth'), 390);
    }
    const cells = await all('#bytes .row > .byte', 'it.getBoundingClientRect().toJSON()');
    assert.ok(cells.length >= 16 && cells.every(it => it.width >= 24 && it.height >= 24 && it.right <= 390));
    quiet();
  });
}
