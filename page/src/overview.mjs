// SPDX-License-Identifier: Apache-2.0
// The overview beside the diagram: the whole association in a narrow strip, in which a click goes to its place.
import { groupOfRow } from './labels.mjs';
import { KINDS } from './keys.mjs';
import { partsOf } from './scale.mjs';
import { shape } from './shapes.mjs';
import { byId, counted } from './text.mjs';

export { Overview };

/** Pixels: how wide the strip is, how long its bars are, and how high a part of it is. */
const WIDE = 36, BAR = 18, PART = 3;

/** @param {import('./store.mjs').Store} store
    @param {number} row */
const marksOfRow = (store, row) => [
  ...KINDS[store.columns.kind[row]] === 'refused' ? ['refused'] : [], ...store.has(row, 'repeated') ? ['repeated'] : [],
];

class Overview {
  constructor(go) {
    this.svg = byId('overview');
    this.svg.addEventListener('click', event => {
      const { top, height } = this.svg.getBoundingClientRect();
      go((event.clientY - top) / height);
    });
  }

  /** Draws the packets of these rows, which are at these places of a height, and the silences before some of them.
      @param {import('./store.mjs').Store} store
      @param {number[]} rows
      @param {number[] | Float64Array} places
      @param {number[]} silences */
  draw(store, rows, places, whole, silences) {
    const height = this.svg.clientHeight, count = Math.max(1, Math.floor(height / PART));
    const parts = partsOf(places, whole, count, i => groupOfRow(store, rows[i]), i => marksOfRow(store, rows[i]));
    const most = Math.max(...parts.map(it => it.count)), counts = { refused: 0, repeated: 0 };
    rows.forEach(row => marksOfRow(store, row).forEach(it => counts[it]++));
    this.frame = shape('rect', { class: 'frame', x: 1, width: WIDE - 2, rx: 2 });
    this.svg.setAttribute('viewBox', `0 0 ${WIDE} ${height}`);
    this.svg.setAttribute('aria-label', `Overview: ${counted(rows.length, 'packet')}, ${counts.refused} refused, ${counts.repeated} sent again, ` +
      counted(silences.length, 'long silence'));
    const scale = height / whole, lengthOf = i => Math.max(PART, (places[i] - places[i - 1]) * scale);
    // (a short one is as high as a part, and ends where its packet is)
    this.svg.replaceChildren(...silences.map(i =>
      shape('rect', { class: 'part silence', x: 2, y: places[i] * scale - lengthOf(i), width: WIDE - 4, height: lengthOf(i) })), ...parts.flatMap(({ at, count: its, group, marks }) => [
      shape('rect', { class: `part ${group}`, x: 2, y: at * PART, width: 3 + (BAR - 3) * its / most, height: PART - 0.5 }),
      ...marks.map(it => shape('rect', { class: `part ${it}`, x: it === 'refused' ? 29 : 22, y: at * PART, width: 5, height: PART })),
    ]), this.frame);
  }

  /** Frames the part that is in view.
      @param {number} from
      @param {number} to */
  show(from, to) {
    const height = this.svg.clientHeight;
    this.frame?.setAttribute('y', 1 + from * height);
    this.frame?.setAttribute('height', Math.max(6, (to - from) * height - 2));
  }
}
