// SPDX-License-Identifier: Apache-2.0
// The graph beside the diagram: for each end TSN over time, as DATA was sent and sent again, and as the other end acknowledged it.
import { isNumber } from './keys.mjs';
import { fitted } from './labels.mjs';
import { durationText, stepWithin } from './scale.mjs';
import { line, shape, write } from './shapes.mjs';
import { byId, counted } from './text.mjs';

export { Graph, basesOf, rowsToRead, trackOver, trackText };

/** So many packets are read for their gap blocks; of more these are evenly chosen. */
const MOST_READ = 2000;
/** NR-SACK and SHUTDOWN: what they acknowledge is in their lines alone. */
const READ = [16, 7];
const NAMES = ['First end', 'Second end'];
/** Pixels: beside, above and below a panel of the graph, for its legend, and where nothing is seen. */
const LEFT = 52, RIGHT = 12, ABOVE = 22, BELOW = 20, LEGEND = 22, NOWHERE = -9;

/** Of each end the TSN of its first DATA, if it has some.
    @param {import('./store.mjs').Store} store
    @param {number[]} rows
    @param {SenderOf} senderOf */
function basesOf(store, rows, senderOf) {
  const sent = [0, 1].map(end => rows.find(row => store.has(row, 'data') && senderOf(row) === end));
  return sent.map(row => row === undefined ? undefined : store.columns.tsn[row]);
}

/** The rows of which more is drawn than is known of each; of very many each at a step.
    @param {import('./store.mjs').Store} store
    @param {number[]} rows */
function rowsToRead(store, rows) {
  const wanted = rows.filter(row => store.has(row, 'gaps') || store.summaries[store.columns.summary[row]].types.some(it => READ.includes(it)));
  const step = Math.ceil(wanted.length / MOST_READ);
  return { wanted: step > 1 ? wanted.filter((row, i) => i % step === 0) : wanted, step };
}

/** Gives all that is drawn to `put`, in the order of the rows: its kind, the end whose TSNs they are, nanoseconds since the first row
    (or where no time is known the number of the row), the TSN since the base, the row, and of gap blocks the last TSN. Of some rows
    the lines were read. The base of an end without DATA is the first TSN that is acknowledged. TSNs are serial numbers (RFC 1982). */
function trackOver({ store, rows, senderOf, repeats }, bases, lines, put) {
  const { ack, digits } = store.columns, first = rows.find(row => digits[row]);
  let x = 0;
  rows.forEach((row, i) => {
    x = first === undefined ? i : store.between(first, row) ?? x;
    const own = senderOf(row), other = 1 - own, acking = (lines.get(row)?.chunks ?? []).filter(it => isNumber(it.cumulative_tsn_ack));
    if (store.has(row, 'data')) {
      const again = new Set(repeats(row).map(([tsn]) => tsn));
      store.tsns(row).forEach(tsn => put(again.has(tsn) ? 'again' : 'sent', own, x, tsn - bases[own] | 0, row));
    }
    for (const { cumulative_tsn_ack, blocks = [], nr_blocks = [] } of acking) {
      bases[other] ??= cumulative_tsn_ack;
      put('acked', other, x, cumulative_tsn_ack - bases[other] | 0, row);
      for (const { first_tsn, last_tsn } of [...blocks, ...nr_blocks].filter(it => isNumber(it.first_tsn) && isNumber(it.last_tsn)))
        put('gaps', other, x, first_tsn - bases[other] | 0, row, last_tsn - bases[other] | 0);
    }
    if (!acking.length && store.has(row, 'sack')) {
      bases[other] ??= ack[row];
      put('acked', other, x, ack[row] - bases[other] | 0, row);
    }
  });
}

/** What a panel shows, in words. */
function trackText(end, base, { sent, again, acked, gaps, least, most, last }, step = 1) {
  const tsn = it => (base + it) >>> 0, number = it => it.toLocaleString('en');
  const said = [
    sent ? `${counted(sent, 'TSN')} sent, ${tsn(least)} to ${tsn(most)}` : 'no DATA', again ? `${number(again)} sent again` : '',
    acked ? `acknowledged to ${tsn(last)}` : sent ? 'not acknowledged' : '',
    gaps ? counted(gaps, 'gap block') + (step > 1 ? ` of 1 in ${number(step)} packets with some` : '') : '',
  ];
  return `${NAMES[end]}: ${said.filter(it => it).join(', ')}`;
}

/** Counts of what an end has, the range of its TSNs, and the last that was acknowledged. */
const newTrack = () => ({ sent: 0, again: 0, acked: 0, gaps: 0, least: Infinity, most: -Infinity, last: 0 });

class Graph {
  drawing = 0;
  /** What is shown, as `show` has it.
      @type {any} */
  shown;
  /** The lines that were read of it, and at which step.
      @type {{ rows?: number[], step: number, lines: Map<number, any> }} */
  read = { step: 1, lines: new Map() };
  /** What can be clicked on: places and rows. */
  spots = /** @type {number[][]} */ ([]);
  /** @type {number | undefined} */
  current;
  /** Where a row is.
      @type {(row: number) => number} */
  placeOf = () => NOWHERE;

  /** `select(row)` chooses a packet. */
  constructor(select) {
    this.svg = byId('graph');
    const button = byId('show-graph'), turn = isOn => {
      button.setAttribute('aria-pressed', isOn);
      this.svg.toggleAttribute('hidden', !isOn);
    };
    button.addEventListener('click', () => turn(button.getAttribute('aria-pressed') === 'false'));
    turn(matchMedia('(min-width: 1000px)').matches);
    this.svg.addEventListener('click', event => {
      const { left, top } = this.svg.getBoundingClientRect(), { clientX, clientY } = event;
      const far = (/** @type {number[]} */ [x, y]) => (clientX - left - x) ** 2 + (clientY - top - y) ** 2;
      if (this.spots.length)
        select(this.spots.reduce((best, it) => far(it) < far(best) ? it : best)[2]);
    });
    new ResizeObserver(() => this.draw()).observe(this.svg);
  }

  /** Shows the packets of an association: `all`, and of them `rows`.
      @param {{ store: import('./store.mjs').Store, all: number[], rows: number[], senderOf: SenderOf, repeats: (row: number) => any[] }} shown */
  show(shown) {
    this.shown = shown;
    this.draw();
  }

  /** Draws it, if it is seen. */
  async draw() {
    const { svg, shown } = this, number = ++this.drawing, { clientWidth: width, clientHeight: height } = svg;
    if (!width || !shown?.rows.length) {
      svg.replaceChildren();
      svg.setAttribute('aria-label', 'TSN over time: no packet');
      this.spots = [];
      return;
    }
    const { store, all, rows, senderOf } = shown;
    // (lines are read once, whatever size the graph gets)
    if (this.read.rows !== rows) {
      const { wanted, step } = rowsToRead(store, rows), objects = await store.objects(wanted);
      if (number !== this.drawing)
        return;
      this.read = { rows, step, lines: new Map(wanted.map((row, i) => [row, objects[i]])) };
    }
    const bases = basesOf(store, all, senderOf);
    this.paint(put => trackOver(shown, bases, this.read.lines, put), bases, width, height);
  }

  /** Paints a panel for each end. Marks that fall on the same pixels are one. */
  paint(over, bases, width, height) {
    const { svg, shown: { store, rows } } = this, high = (height - LEGEND) / 2, tracks = [newTrack(), newTrack()];
    const first = rows.find(row => store.columns.digits[row]);
    let [start, end] = [0, 0];
    over((kind, its, x, y) => {
      const own = tracks[its];
      own[kind]++;
      [start, end] = [Math.min(start, x), Math.max(end, x)];
      if (kind === 'acked')
        own.last = y;
      // (what is acknowledged doesn't stretch the scale, unless no DATA was seen)
      if (kind === 'sent' || kind === 'again' || kind === 'acked' && !own.sent)
        [own.least, own.most] = [Math.min(own.least, y), Math.max(own.most, y)];
    });
    const xOf = x => Math.round(LEFT + (end > start ? (x - start) / (end - start) : 0.5) * (width - LEFT - RIGHT));
    const yOf = (its, y) => {
      const { least, most } = tracks[its], part = most > least ? (y - least) / (most - least) : 0.5;
      return Math.round(LEGEND + its * high + ABOVE + (1 - Math.max(-0.04, Math.min(1.04, part))) * (high - ABOVE - BELOW - 4));
    };
    const paths = { gaps: '', sent: '', again: '' }, stairs = ['', ''], seen = new Set(), before = ['', ''];
    this.spots = [];
    over((kind, its, x, y, row, last = y) => {
      const [px, py, to] = [xOf(x), yOf(its, y), yOf(its, last)], place = `${px},${py}`, key = `${kind} ${place} ${to}`;
      if (kind === 'acked' && place !== before[its]) {
        stairs[its] += stairs[its] ? `H${px}V${py}` : `M${place}`;
        before[its] = place;
      }
      if (seen.has(key))
        return;
      seen.add(key);
      this.spots.push([px, (py + to) / 2, row]);
      if (kind !== 'acked')
        paths[kind] += { sent: `M${place}h0`, again: `M${px - 3},${py - 3}l6,6m0,-6l-6,6`, gaps: `M${px},${py + 2}V${to - 2}` }[kind];
    });
    this.placeOf = row => rows.includes(row) ? xOf(first === undefined ? rows.indexOf(row) : store.between(first, row) ?? NaN) || NOWHERE : NOWHERE;
    const texts = tracks.map((it, its) => trackText(its, bases[its] ?? 0, it, this.read.step));
    svg.setAttribute('viewBox', `0 0 ${width} ${height}`);
    const span = first === undefined ? 'No time is known: by packets.' : `Over ${durationText(end - start)}.`;
    svg.setAttribute('aria-label', `TSN over time. ${texts.join('. ')}. ${span}`);
    this.cursor = line('cursor', NOWHERE, LEGEND, NOWHERE, height - BELOW);
    svg.replaceChildren(...legend(), this.cursor, ...tracks.flatMap((it, its) => axes(it, texts[its], LEGEND + its * high, high, width, y => yOf(its, y))),
      ...times(start, end, xOf, [height - high - BELOW, height - BELOW], first !== undefined),
      ...Object.entries({ acked: stairs.join(''), ...paths }).map(([kind, d]) => shape('path', { class: kind, d })));
    this.mark(this.current);
  }

  /** Marks the time of a packet.
      @param {number | undefined} row */
  mark(row) {
    this.current = row;
    const x = row === undefined ? NOWHERE : this.placeOf(row);
    ['x1', 'x2'].forEach(it => this.cursor?.setAttribute(it, x));
  }
}

/** What each mark is. */
function legend() {
  return [['sent', 'M10,11h0', 18], ['again', 'M59,8l6,6m0,-6l-6,6', 72], ['acked', 'M116,15V11H130', 136], ['gaps', 'M226,6V16', 234]]
    .flatMap(([kind, d, x], i) => [shape('path', { class: kind, d }), write('dim', x, 15, 'start', ['sent', 'again', 'acknowledged', 'gap blocks'][i])]);
}

/** The heading of a panel, its frame, and its TSNs. */
function axes({ least, most }, text, top, high, width, yOf) {
  const bottom = top + high - BELOW, step = stepWithin(Math.max(1, (most - least) / 3)), marks = [];
  for (let y = Math.ceil(least / step) * step; y <= most; y += step)
    marks.push(write('dim', LEFT - 6, yOf(y) + 4, 'end', y.toLocaleString('en')), line('axis', LEFT - 3, yOf(y), LEFT, yOf(y)));
  const [short] = fitted(text, '', Math.floor((width - 12) / 6.4)), frame = `M${LEFT},${top + ABOVE - 4}V${bottom}H${width - RIGHT}`;
  return [write('head', 6, top + 13, 'start', shape('title', {}, text), short), ...marks, shape('path', { class: 'axis', d: frame })];
}

/** The times, or numbers of packets, below each panel. */
function times(start, end, xOf, bottoms, isTimed) {
  const step = stepWithin(Math.max(1, (end - start) / 3)), marks = [];
  for (let x = Math.ceil(start / step) * step; x <= end; x += step) {
    const text = !isTimed ? String(x) : x ? durationText(x) : '0 s', anchor = x + step > end ? 'end' : 'middle';
    for (const bottom of bottoms)
      marks.push(line('axis', xOf(x), bottom, xOf(x), bottom + 3), write('dim', xOf(x), bottom + 15, anchor, text));
  }
  return marks;
}
