// SPDX-License-Identifier: Apache-2.0
// The sequence diagram of an association: two lifelines, and an arrow for each packet that the filter passes. Only the arrows
// near those in view are in the document.
import { isNumber, KINDS } from './keys.mjs';
import { chunksLabel, doubtsOf, fitted, groupOfRow } from './labels.mjs';
import { Graph } from './graph.mjs';
import { endText, marksOf } from './list.mjs';
import { Overview } from './overview.mjs';
import { BAND, common, durationText, lastAt, LEAST, longOf, placesOf, rateOf, ROW, stepWithin } from './scale.mjs';
import { line, shape, write } from './shapes.mjs';
import { byId, counted, element, hex, save, shown, targetOf } from './text.mjs';
import { acknowledgedBy, firstSendings, repeatsOf } from './ties.mjs';

export { Diagram, wantedRow };

/** Pixels: the heads above, what is above the first arrow and below the last one, and how far an arrow falls on its way. */
const HEAD = 50, TOP = 30, BOTTOM = 24, SLOPE = 9;
/** More pixels than this no browser scrolls: a longer diagram passes more quickly. */
const HIGHEST = 15e6;
/** So many packets a file has at most; so many others are named as acknowledged, and so many TSNs as sent before. */
const MOST_SAVED = 1000, MOST_NAMED = 8, MOST_REPEATS = 3;
/** Pixels that the wheel is turned by for a step of the zoom. */
const STEP = 60;
/** How far each kind of distances can be made smaller and greater, in steps by the square root of 2. */
const LEVELS = { even: [-3, 4], time: [-30, 30] };
/** What a saved file takes from the page's style, and what it doesn't need. */
const STYLES = ['fill', 'stroke', 'stroke-width', 'stroke-dasharray', 'paint-order', 'font-family', 'font-size',
  'font-weight', 'text-anchor'];
const NOT_SAVED = ['class', 'id', 'role', 'data-row', 'data-to', 'aria-label', 'aria-selected', 'aria-hidden', 'aria-setsize',
  'aria-posinset'];

/** Which packet a text asks for: its number, a time since the first as `1.5 s`, or a time of day; returns a test of rows. */
function wantedRow(store, text) {
  const [, number, seconds, clock] = /^(?:#?(\d+)|\+?(\d*\.\d+|\d+(?= *s$)) *s?|(\d\d:\d\d(?::\d\d(?:\.\d+)?)?))$/.exec(text.trim()) ?? [];
  if (number)
    return row => store.columns.number[row] === Number(number);
  if (seconds)
    return row => Number(store.time(row, true) || NaN) >= Number(seconds);
  if (clock)
    return row => store.time(row, false).split(' ').at(-1) >= clock;
}

/** The name of an association: its number and its ends. */
function nameOf({ association, ends }) {
  return shown(`${association}: ${ends.map(end => endText(end.addresses?.[0], end.port)).join(' ⇄ ')}`, 100);
}

class Diagram {
  /** What it has of the state.
      @type {import('./store.mjs').Store} */
  store;
  /** @type {Association | undefined} */
  association;
  /** @type {number[]} */
  passed = [];
  /** @type {number | undefined} */
  row;
  /** @type {State['clock']} */
  clock = 'since';
  isAtEnd = false;
  /** The rows of the association, and those of them that are shown: their places, the nanoseconds before each, from how many on
      that is a silence, and which follow a zigzag. */
  all = /** @type {number[]} */ ([]);
  rows = /** @type {number[]} */ ([]);
  places = new Float64Array(0);
  gaps = new Float64Array(0);
  long = 0;
  breaks = /** @type {Set<number>} */ (new Set());
  /** Which of them are drawn, and the number of the drawing. */
  range = [0, 0];
  drawing = 0;
  width = 0;
  top = 0;
  step = ROW;
  levels = { even: 0, time: 0 };
  turned = 0;
  size = [0, 0];
  acked = new Set();
  /** @type {SenderOf} */
  senderOf = () => 0;
  /** @type {ReturnType<typeof firstSendings> | undefined} */
  sendings;
  /** @type {number | undefined} */
  current;
  /** @type {number | undefined} */
  rate;

  /** `select(row)` chooses a packet, and `open(association)` an association; `clear()` clears the filter. */
  constructor({ select, open, clear }) {
    this.box = byId('drawing');
    this.select = select;
    this.clear = clear;
    this.graph = new Graph(select);
    this.overview = new Overview(part => this.selectAt(lastAt(this.places, part * this.height - TOP)));
    for (const [id, to] of Object.entries({
      first: () => this.scrollTo(0), earlier: () => this.scrollTo(this.offset - this.view),
      later: () => this.scrollTo(this.offset + this.view), last: () => this.scrollTo(this.height),
      'zoom-out': () => this.zoom(-1), 'zoom-none': () => this.zoom(0), 'zoom-in': () => this.zoom(1),
      'next-mark': () => this.nextMark(), save: () => this.save(),
    }))
      byId(id).addEventListener('click', to);
    byId('more-tools').addEventListener('click', () => byId('more-tools').setAttribute('aria-expanded', byId('more-tools').getAttribute('aria-expanded') === 'false'));
    byId('scale').addEventListener('change', () => this.rearrange());
    byId('which').addEventListener('change', () => open(this.store.associations[byId('which').value]));
    byId('go-to').addEventListener('input', () => this.goTo());
    byId('go-to').addEventListener('keydown', event => event.key === 'Enter' && this.goTo() && this.box.focus());
    byId('ties').addEventListener('click', event => this.follow(event));
    this.box.addEventListener('scroll', () => this.update());
    this.box.addEventListener('keydown', event => this.key(event));
    this.box.addEventListener('click', event => {
      const arrow = targetOf(event).closest('.arrow');
      if (!this.follow(event) && arrow)
        this.select(Number(arrow.dataset.row));
    });
    this.box.addEventListener('wheel', event => {
      if (event.ctrlKey) {
        event.preventDefault();
        this.turn(event);
      }
    }, { passive: false });
    new ResizeObserver(() => this.resize()).observe(this.box);
  }

  // ---- what is shown

  /** @param {State} state Shows what it has: an association of what is open, those of its packets that pass the filter, and the chosen one. */
  render({ store, association, passed, row, clock }) {
    const isRead = store !== this.store || store.isAtEnd !== this.isAtEnd, isOther = isRead || association !== this.association;
    const isPassed = isOther || passed !== this.passed, isTimed = clock !== this.clock, isChosen = isPassed || row !== this.row;
    Object.assign(this, { store, isAtEnd: store.isAtEnd, association, passed, row, clock });
    if (isRead)
      this.list();
    if (isOther)
      this.open();
    if (isPassed)
      this.pass();
    else if (isTimed)
      this.draw();
    if (isChosen)
      this.choose();
  }

  /** The associations that can be chosen. */
  list() {
    byId('which').replaceChildren(...this.store.associations.map((it, i) => {
      const option = element('option', '', nameOf(it));
      option.value = String(i);
      return option;
    }));
  }

  /** Finds the association's packets. */
  open() {
    const { store, association } = this, { rows, senderOf } = association ? store.rowsOf(association) : { rows: [], senderOf: () => 0 };
    Object.assign(this, { all: rows, senderOf, sendings: undefined });
    byId('which').value = String(association ? store.associations.indexOf(association) : -1);
    this.box.setAttribute('aria-label', `Sequence diagram${association ? ` of ${nameOf(association)}` : ''}`);
    this.box.scrollTop = 0;
  }

  /** Shows those of its packets alone that the filter passes. */
  pass() {
    this.rows = common(this.all, this.passed);
    this.gaps = Float64Array.from(this.rows, (row, i) => i ? this.store.between(this.rows[i - 1], row) ?? NaN : NaN);
    this.long = longOf(this.gaps);
    const hidden = this.all.length - this.rows.length, all = counted(this.all.length, 'packet');
    byId('part').textContent = hidden ? `${this.rows.length.toLocaleString('en')} of ${all}: the filter hides ${hidden.toLocaleString('en')}` : all;
    this.graph.show({ store: this.store, all: this.all, rows: this.rows, senderOf: this.senderOf, repeats: row => this.repeats(row) });
    this.arrange();
  }

  /** Shows which packet is chosen, if it is one of these. */
  choose() {
    this.current = this.at(this.row) < 0 ? undefined : this.row;
    this.reveal();
    this.mark();
    this.graph.mark(this.current);
    this.tie();
  }

  /** The number of a row among those that are shown, or -1. */
  at(row) {
    const at = lastAt(this.rows, row);
    return this.rows[at] === row ? at : -1;
  }

  /** Sees that the current packet is in view. */
  reveal() {
    const at = this.at(this.current), y = TOP + this.places[at];
    if (at >= 0 && (y - ROW < this.offset || y + ROW / 2 > this.offset + this.view))
      this.scrollTo(y - this.view / 2);
  }

  selectAt(at) {
    if (this.rows.length)
      this.select(this.rows[Math.max(0, Math.min(this.rows.length - 1, at))]);
  }

  key(event) {
    const at = this.at(this.current), page = sign => lastAt(this.places, (this.places[at] ?? 0) + sign * (this.view - ROW));
    const to = {
      ArrowDown: () => at + 1, ArrowUp: () => at - 1, Home: () => 0, End: () => this.rows.length - 1,
      PageDown: () => Math.max(at + 1, page(1)), PageUp: () => Math.min(at - 1, page(-1)),
    }[event.key];
    const level = { '+': 1, '=': 1, '-': -1, 0: 0 }[event.key];
    if (event.ctrlKey || event.altKey || event.metaKey || !to && level === undefined && event.key !== 'Enter')
      return;
    event.preventDefault();
    if (to)
      this.selectAt(to());
    else if (level !== undefined)
      this.zoom(level);
    else
      byId('tree').focus();
  }

  /** The next packet that was refused, was sent again, has a gap, or comes after a long silence. */
  nextMark() {
    const at = this.at(this.current), isMarked = (row, i) => this.gaps[i] >= this.long || doubtsOf(this.store, row).length > 0;
    const next = this.rows.find((row, i) => i > at && isMarked(row, i)) ?? this.rows.find(isMarked);
    if (next !== undefined)
      this.select(next);
  }

  /** Goes to the packet that is asked for; returns whether there is one. */
  goTo() {
    const text = byId('go-to').value, isWanted = text.trim() && this.store && wantedRow(this.store, text);
    const row = isWanted ? this.rows.find(isWanted) : undefined;
    byId('go-to').setAttribute('aria-invalid', Boolean(text.trim()) && row === undefined);
    if (row !== undefined)
      this.select(row);
    return row !== undefined;
  }

  /** Goes where a click on a link leads, if it is one. */
  follow(event) {
    const link = targetOf(event).closest('.link');
    if (link)
      this.select(Number(link.dataset.to));
    return Boolean(link);
  }

  // ---- places

  get way() {
    return byId('scale').value === 'time' && rateOf(this.gaps) ? 'time' : 'even';
  }

  get height() {
    return TOP + (this.places.at(-1) ?? 0) + BOTTOM;
  }

  /** How much of the diagram is in view, and from where on. */
  get view() {
    return Math.max(1, this.box.clientHeight - HEAD);
  }

  get offset() {
    const { height, view } = this, { scrollTop } = this.box;
    return height <= HIGHEST ? scrollTop : scrollTop / (HIGHEST - view) * (height - view);
  }

  scrollTo(offset) {
    const { height, view } = this, to = Math.max(0, Math.min(offset, height - view));
    this.box.scrollTop = height <= HIGHEST ? to : to / (height - view) * (HIGHEST - view);
    this.update();
  }

  /** Makes distances greater or smaller, or as they were; what is `at` so many pixels below the heads stays there. */
  zoom(step, at) {
    const { way, levels } = this, [least, most] = LEVELS[way];
    levels[way] = step ? Math.max(least, Math.min(most, levels[way] + step)) : 0;
    this.rearrange(at);
  }

  /** Places the arrows anew; what is `at` so many pixels below the heads stays there, or else the current one, if it is seen.
      @param {number} [at] */
  rearrange(at) {
    const { offset, view } = this, current = this.at(this.current);
    const isSeen = current >= 0 && this.places[current] + TOP >= offset && this.places[current] + TOP <= offset + view;
    const kept = at === undefined && isSeen ? current : lastAt(this.places, offset + (at ?? view / 2) - TOP), from = (this.places[kept] ?? 0) - offset;
    this.arrange();
    this.scrollTo((this.places[kept] ?? 0) - from);
  }

  /** Zooms where the pointer is. A touchpad turns the wheel by little at a time.
      @param {WheelEvent} event */
  turn({ deltaMode, deltaY, clientY }) {
    this.turned += deltaMode ? STEP * Math.sign(deltaY) : deltaY;
    if (Math.abs(this.turned) < STEP)
      return;
    this.zoom(this.turned < 0 ? 1 : -1, clientY - this.box.getBoundingClientRect().top - HEAD);
    this.turned = 0;
  }

  /** Places the arrows, and draws them. */
  arrange() {
    const { way } = this, level = this.levels[way], factor = 2 ** (level / 2);
    this.rate = way === 'time' ? (rateOf(this.gaps) ?? 0) * factor : undefined;
    this.step = Math.max(LEAST, ROW * factor);
    Object.assign(this, placesOf(this.gaps, this.step, this.rate, this.long));
    byId('zoom-none').textContent = `${Number((factor * 100).toPrecision(2)).toLocaleString('en')} %`;
    byId('zoom-out').disabled = level === LEVELS[way][0];
    byId('zoom-in').disabled = level === LEVELS[way][1];
    this.draw();
  }

  // ---- drawing

  resize() {
    const { clientWidth, clientHeight } = this.box, [width, height] = this.size;
    if (clientWidth === width && clientHeight === height)
      return;
    this.draw();
    // (it wasn't seen before)
    if (!width)
      this.reveal();
  }

  /** Draws anew, or nothing where it isn't seen: then nothing stays that is out of date. */
  draw() {
    const { box, store, rows } = this;
    this.drawing++;
    this.range = [0, 0];
    this.size = [box.clientWidth, box.clientHeight];
    box.replaceChildren();
    if (!store || !box.clientWidth || !rows.length) {
      this.overview.svg.replaceChildren();
      for (const id of /** @type {const} */ (['first', 'earlier', 'later', 'last']))
        byId(id).disabled = true;
      if (this.all.length && !rows.length) {
        const button = element('button', '', 'Clear it');
        button.addEventListener('click', this.clear);
        box.append(element('p', 'note', 'The filter hides each packet of this association. ', button));
      }
      return;
    }
    this.width = Math.max(340, Math.min(box.clientWidth - 4, 1200));
    this.space = element('div', 'space');
    this.space.setAttribute('role', 'presentation');
    this.space.style.height = `${Math.min(this.height, HIGHEST)}px`;
    box.append(shape('svg', { class: 'above', width: this.width, height: HEAD, 'aria-hidden': true }, this.heads()), this.space);
    const silences = rows.map((row, i) => i).filter(i => this.gaps[i] >= this.long);
    this.overview.draw(store, rows, Array.from(this.places, it => TOP + it), this.height, silences);
    this.update();
  }

  /** Sees that what is in view is drawn, with as much above and below. */
  async update() {
    const { store, rows, places, space, offset, view, height } = this;
    if (!space?.isConnected)
      return;
    this.overview.show(offset / height, Math.min(1, (offset + view) / height));
    byId('first').disabled = byId('earlier').disabled = offset < 1;
    byId('last').disabled = byId('later').disabled = offset + view > height - 1;
    this.put();
    /** @type {(from: number, to: number) => [number, number]} */
    const within = (from, to) => [lastAt(places, from - TOP), Math.min(rows.length, lastAt(places, to - TOP) + 2)];
    const seen = within(offset, offset + view);
    if (seen[0] >= this.range[0] && seen[1] <= this.range[1])
      return;
    const range = this.range = within(offset - view, offset + 2 * view), number = ++this.drawing;
    const objects = await store.objects(rows.slice(...range));
    // (another drawing has begun meanwhile)
    if (number !== this.drawing)
      return;
    this.top = places[range[0]];
    this.drawn = this.arrows(range, objects, Math.min(height, TOP + places[range[1] - 1] + BOTTOM) - this.top);
    space.replaceChildren(this.drawn);
    this.put();
    this.mark();
  }

  /** Puts what is drawn in its place. */
  put() {
    if (this.drawn)
      this.drawn.style.transform = `translateY(${this.box.scrollTop + this.top - this.offset}px)`;
  }

  /** The lifelines and the arrows of some rows, on paper of this height. */
  arrows([from, to], objects, height) {
    const { width, rows, places, breaks, gaps, rate } = this, x = [Math.min(150, width * 0.26), width - Math.min(90, width * 0.16)];
    const svg = shape('svg', { xmlns: 'http://www.w3.org/2000/svg', role: 'presentation', width, height, viewBox: `0 0 ${width} ${height}` });
    const over = [], slope = rate ? 0 : Math.min(SLOPE, this.step / 4);
    const yOf = i => TOP + places[i] - places[from], broken = [];
    for (let i = from; i < to; i++) {
      const y = yOf(i), above = i ? places[i] - places[i - 1] : ROW, below = i + 1 < rows.length ? places[i + 1] - places[i] : ROW;
      if (breaks.has(i) && i > from) {
        // (it is seen where the packet after it is)
        const middle = y - LEAST - (Math.min(above, ROW + BAND) - slope - LEAST) / 2;
        broken.push(middle);
        over.push(write('silence', (x[0] + x[1]) / 2, middle + 4, 'middle', this.silenceText(i)));
      }
      if (rate && i > from && !(gaps[i] * rate >= LEAST))
        x.forEach(it => over.push(line('stretched', it, yOf(i - 1), it, y)));
      svg.append(this.arrow(i, objects[i - from], { x, y, slope, above, below, range: [from, to] }));
      const curves = this.repeats(rows[i]).map(([, row]) => this.at(row)).filter(it => it >= from && it < i);
      new Set(curves).forEach(it => over.push(this.curve(rows[i], x, yOf(it), y)));
    }
    // (a zigzag where time isn't to scale)
    const zigzags = broken.map(y => `V${y - 6}l6,3l-12,6l6,3`).join('');
    const lives = x.map(it => shape('path', { class: 'life', d: `M${it},${from ? 0 : TOP - 20}${zigzags}V${height}` }));
    svg.append(shape('g', { class: 'over', 'aria-hidden': true }, ...lives, ...over));
    return svg;
  }

  silenceText(i) {
    const hidden = this.rank(this.rows[i]) - this.rank(this.rows[i - 1]) - 1;
    return `${durationText(this.gaps[i])}${hidden ? `, ${counted(hidden, 'packet')} hidden` : ' without a packet'}`;
  }

  /** The number of a row among those of the association. */
  rank(row) {
    return lastAt(this.all, row);
  }

  /** Ties a repeat to the first sending, beside their end's lifeline. */
  curve(row, x, from, to) {
    const sender = this.senderOf(row), out = (sender ? 1 : -1) * Math.min(40, 14 + (to - from) / 12);
    return shape('path', { class: 'tie', d: `M${x[sender]},${from}c${out},0 ${out},${to - from} 0,${to - from}` });
  }

  /** The TSNs of a row that were sent before, with the rows where that was first. */
  repeats(row) {
    if (!this.store.has(row, 'repeated'))
      return [];
    this.sendings ??= firstSendings(this.store, this.all, this.senderOf);
    return repeatsOf(this.store, this.sendings, this.senderOf, row);
  }

  /** The ends' names: addresses, or of a log which is which, and tags; and by time the scale. */
  heads() {
    const { store, all, senderOf, width, rate } = this, { ends } = /** @type {Association} */ (this.association);
    const heads = shape('g', { class: 'heads' }, shape('rect', { class: 'back', width, height: HEAD }));
    ends.forEach((end, i) => {
      const sent = all.find(row => senderOf(row) === i) ?? all[0], { direction } = store.flows[store.columns.flow[sent]];
      const isLocal = (direction === 'outgoing') === (senderOf(sent) === i);
      const address = end.addresses?.[0] ?? (direction && (isLocal ? 'local' : 'remote'));
      const x = i ? width - 4 : 4, anchor = i ? 'end' : 'start', name = shown(endText(address, end.port), 60);
      // (half of the paper is for each)
      const [short] = fitted(name, '', Math.floor((width / 2 - 30) / 7));
      heads.append(write('end', x, 18, anchor, shape('title', {}, name), short));
      if (end.tag !== undefined)
        heads.append(write('dim', x, 34, anchor, `tag ${hex(end.tag, 8)}`));
    });
    if (rate) {
      const step = stepWithin(HEAD * 0.7 / rate), x = width / 2, y = HEAD - 6;
      heads.append(shape('path', { class: 'bar', d: `M${x - 26},${y}h6m-3,0V${y - step * rate}m-3,0h6` }));
      heads.append(write('dim', x - 14, y - step * rate / 2 + 4, 'start', durationText(step)));
    }
    return heads;
  }

  arrow(i, object, { x, y, slope, above, below, range }) {
    const { store, rows, width } = this, row = rows[i], sender = this.senderOf(row), from = x[sender], to = x[1 - sender];
    const kind = KINDS[store.columns.kind[row]], { chunks, packet } = object, way = Math.sign(to - from), end = y + slope;
    const text = chunksLabel(chunks), repeat = this.repeats(row)[0]?.[1];
    const first = repeat === undefined ? undefined : this.at(repeat), isNear = first !== undefined && first >= range[0] && first < range[1];
    const name = this.describe(row, object);
    const classes = ['arrow', groupOfRow(store, row), kind, ...marksOf(store, row).map(([flag]) => flag)].join(' ');
    const role = { role: 'option', 'aria-label': name, 'aria-setsize': rows.length, 'aria-posinset': i + 1 };
    // (what is clicked on is as high as there is room)
    const [up, down] = [Math.min(17, above * 0.8), Math.min(slope + 5, below * 0.2)];
    const hit = shape('rect', { class: 'hit', x: 0, y: y - up, width, height: up + down });
    const group = shape('g', { class: classes, id: `arrow-${row}`, 'data-row': row, ...role }, shape('title', {}, name), hit);
    // (where a curve shows it, no words have to)
    const link = isNear ? '' : this.originOf(row), said = [...doubtsOf(store, row), ...link ? [link] : []].join(', ');
    const [before, doubt] = fitted(text, said, Math.floor((Math.abs(to - from) - 24) / 6.4));
    const at = link && first !== undefined && first >= 0 ? doubt.lastIndexOf(link.slice(0, 10)) : -1;
    const parts = at < 0 ? [doubt] : [doubt.slice(0, at), shape('tspan', { class: 'link', 'data-to': repeat }, doubt.slice(at))];
    group.append(write('label', (from + to) / 2, y - 4, 'middle', before, doubt && shape('tspan', { class: 'doubt' }, ...parts)));
    group.append(line('way', from, y, to - 7 * way, end), kind === 'refused'
      ? shape('path', { class: 'cross', d: `M${to - 6 * way - 5},${end - 5}l10,10m0,-10l-10,10` })
      : shape('path', { class: 'tip', d: `M${to},${end}l${-9 * way},-5v10z` }));
    group.append(write('dim', 4, y + 3, 'start', this.timeOf(row)), write('dim', width - 4, y + 3, 'end', String(packet)));
    return group;
  }

  /** Where a repeat was sent first, in words. */
  originOf(row) {
    const [repeat] = this.repeats(row);
    return repeat ? `first sent in packet ${this.store.columns.number[repeat[1]]}` : '';
  }

  /** All that is said of a packet.
      @param {number} row
      @param {Line} line */
  describe(row, { packet, chunks = [] }, origin = this.originOf(row)) {
    const parts = [chunksLabel(chunks), ...doubtsOf(this.store, row), origin].filter(it => it);
    return `packet ${packet}: ${parts.join(', ') || 'no chunk'}`;
  }

  /** When a packet was sent: of a date the time of day. */
  timeOf(row) {
    return this.store.time(row, this.clock === 'since').split(' ').at(-1);
  }

  // ---- the current packet

  /** Marks the current packet's arrow, and what it acknowledges. */
  mark() {
    this.box.removeAttribute('aria-activedescendant');
    for (const it of this.box.querySelectorAll('.arrow')) {
      const row = Number(it.dataset.row), isCurrent = row === this.current;
      it.classList.toggle('current', isCurrent);
      it.classList.toggle('acked', this.acked.has(row));
      it.setAttribute('aria-selected', isCurrent);
      if (isCurrent)
        this.box.setAttribute('aria-activedescendant', it.id);
    }
  }

  /** Says what the current packet repeats and acknowledges. */
  async tie() {
    const { store, current } = this, parts = [];
    let name = '';
    this.acked = new Set();
    if (current !== undefined) {
      const [object] = await store.objects([current]), { chunks = [] } = object;
      if (current !== this.current || store !== this.store)
        return;
      // (where a repeat was sent first is said beside it)
      name = this.describe(current, object, '');
      const repeats = this.repeats(current), acked = acknowledgedBy(store, this.all, this.senderOf, current, chunks);
      this.acked = new Set(acked);
      repeats.slice(0, MOST_REPEATS).forEach(([tsn, row]) => parts.push(`TSN ${tsn} was first sent in `, this.link(row), '. '));
      parts.push(repeats.length > MOST_REPEATS ? `${repeats.length - MOST_REPEATS} more. ` : '');
      if (acked.length) {
        parts.push(`Acknowledges ${counted(acked.length, 'packet')}: `, ...acked.slice(0, MOST_NAMED).flatMap(row => [this.link(row), ' ']));
        parts.push(acked.length > MOST_NAMED ? '…' : '');
      } else if (chunks.some(it => isNumber(it.cumulative_tsn_ack))) {
        parts.push('Acknowledges nothing that the SACK before it didn’t.');
      }
    }
    byId('chosen-text').textContent = byId('chosen-text').title = name && `${name[0].toUpperCase()}${name.slice(1)}`;
    byId('ties').replaceChildren(...parts);
    this.mark();
  }

  /** A packet's number as a link, unless the filter hides it. */
  link(row) {
    const number = String(this.store.columns.number[row]);
    if (this.at(row) < 0)
      return `${number} (hidden)`;
    const link = element('button', 'link', number);
    link.ariaLabel = `packet ${number}`;
    link.dataset.to = row;
    return link;
  }

  // ---- a file

  /** Saves what is shown, or of very much what follows the first in view, as a file that needs no style: in colours for paper. */
  async save() {
    const { rows, places, store, association, offset } = this, isAll = rows.length <= MOST_SAVED;
    if (!rows.length)
      return;
    const from = isAll ? 0 : Math.min(rows.length - MOST_SAVED, lastAt(places, offset - TOP)), to = Math.min(rows.length, from + MOST_SAVED);
    const objects = await store.objects(rows.slice(from, to));
    const height = HEAD + TOP + places[to - 1] - places[from] + BOTTOM, copy = this.arrows([from, to], objects, height - HEAD);
    const body = shape('g', { transform: `translate(0, ${HEAD})` }, ...copy.childNodes), { width } = this;
    copy.replaceChildren(this.heads(), body);
    copy.setAttribute('viewBox', `0 0 ${width} ${height}`);
    copy.setAttribute('height', height);
    const paper = element('div', 'paper drawing', copy);
    document.body.append(paper);
    for (const it of copy.querySelectorAll('line, path, rect, text, tspan')) {
      const style = getComputedStyle(it);
      STYLES.forEach(name => it.setAttribute(name, style.getPropertyValue(name)));
    }
    for (const it of [copy, ...copy.querySelectorAll('*')])
      NOT_SAVED.forEach(name => it.removeAttribute(name));
    copy.prepend(shape('rect', { width, height, fill: '#ffffff' }));
    paper.remove();
    if (!isAll)
      byId('part').textContent = `${counted(MOST_SAVED, 'packet')} were saved, from packet ${store.columns.number[rows[from]]} on`;
    save(`association-${association?.association}.svg`, 'image/svg+xml', new XMLSerializer().serializeToString(copy));
  }
}
