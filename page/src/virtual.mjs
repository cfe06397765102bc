// SPDX-License-Identifier: Apache-2.0
// A list of any length, of which only the rows in view are in the document. Heads of columns stay above them.
import { targetOf } from './text.mjs';

export { VirtualList };

/** More than this no browser scrolls: a longer list has rows that pass more quickly. */
const MOST = 15e6;

let lists = 0;

class VirtualList {
  /** @type {HTMLElement} */
  box;
  /** @type {HTMLElement | null} */
  heads;
  name = `row${lists++}`;
  /** @type {(index: number) => HTMLElement} */
  draw;
  /** @type {(index: number) => void} */
  select;
  /** @type {((key: string, index: number) => boolean) | undefined} */
  press;
  count = 0;
  current = -1;
  /** How much higher than the others the current row is, in pixels. */
  extra = 0;
  /** What was brought into view last, until it is scrolled away.
      @type {{ index: number, isMiddle: boolean } | undefined} */
  sought;
  /** Where the box was scrolled to for that, if it is shown.
      @type {number | undefined} */
  top;
  drawn = new Map();

  /** `box` is the element that scrolls. `draw(index)` makes a row's element; `select(index)` is called for the row that
      becomes current; `press(key, index)` for keys that the list itself doesn't take, and returns whether it took it. */
  constructor(box, { draw, select, press }) {
    Object.assign(this, { box, draw, select, press, heads: box.firstElementChild });
    this.space = document.createElement('div');
    this.space.className = 'space';
    this.space.setAttribute('role', 'presentation');
    box.append(this.space);
    box.addEventListener('scroll', () => this.settle());
    box.addEventListener('keydown', event => this.key(event));
    box.addEventListener('click', event => {
      const row = targetOf(event).closest('.row');
      if (row && box.contains(row))
        this.choose(Number(row.dataset.index));
    });
    // (what is sought stays in view, and comes into it once a hidden box is shown)
    new ResizeObserver(() => this.settle()).observe(box);
  }

  get height() {
    return parseFloat(getComputedStyle(this.box).getPropertyValue('--row')) || 24;
  }

  /** How much of the box is for rows, in pixels. */
  get view() {
    return this.box.clientHeight - (this.heads?.offsetHeight ?? 0);
  }

  get rows() {
    return Math.max(1, Math.floor(this.view / this.height));
  }

  /** Shows so many rows; those that were drawn are drawn anew, unless more only follow.
      @param {number} count */
  show(count, isMore = false) {
    this.count = count;
    if (this.box.getAttribute('role') === 'grid')
      this.box.setAttribute('aria-rowcount', count + (this.heads ? 1 : 0));
    if (!isMore) {
      this.sought = undefined;
      this.forget();
    }
    this.settle();
  }

  forget() {
    this.drawn.clear();
    this.space.replaceChildren();
  }

  /** Draws anew what is in view. */
  redraw() {
    this.forget();
    this.update();
  }

  /** The place of the first row in view, in rows, and the height of all. */
  place() {
    const { height, view } = this, whole = this.count * height, all = Math.min(whole, MOST);
    const { scrollTop } = this.box, rows = view / height;
    const first = whole <= MOST ? scrollTop / height : scrollTop / (all - view) * (this.count - rows);
    return { height, view, whole, all, first };
  }

  update() {
    const { height, view, all, first } = this.place();
    this.space.style.height = `${all + this.extra}px`;
    const from = Math.max(0, Math.floor(first - this.extra / height) - 3), to = Math.min(this.count, Math.ceil(first + view / height) + 3);
    for (const [index, row] of this.drawn) {
      if (index < from || index >= to) {
        row.remove();
        this.drawn.delete(index);
      }
    }
    for (let index = from; index < to; index++) {
      let row = this.drawn.get(index);
      if (!row) {
        row = this.draw(index);
        row.classList.add('row');
        row.id = `${this.name}-${index}`;
        row.dataset.index = index;
        if (row.getAttribute('role') === 'row')
          row.setAttribute('aria-rowindex', index + (this.heads ? 2 : 1));
        // (in their order, as they are read out)
        const before = this.drawn.get(index - 1);
        if (before)
          before.after(row);
        else
          this.space.prepend(row);
        this.drawn.set(index, row);
        this.mark(index, index === this.current);
      }
      if (index === this.current)
        this.extra = Math.max(0, row.offsetHeight - height);
      const above = index > this.current && this.current >= 0 ? this.extra : 0;
      row.style.transform = `translateY(${this.box.scrollTop + (index - first) * height + above}px)`;
    }
    this.space.style.height = `${all + this.extra}px`;
  }

  /** @param {number} index
      @param {boolean} isCurrent */
  mark(index, isCurrent) {
    const row = this.drawn.get(index);
    row?.classList.toggle('current', isCurrent);
    row?.setAttribute('aria-selected', isCurrent);
    if (isCurrent && row)
      this.box.setAttribute('aria-activedescendant', row.id);
  }

  /** Makes a row the current one, without a call of `select`.
      @param {number} index */
  setCurrent(index, isSeen = true) {
    this.mark(this.current, false);
    this.current = index;
    this.extra = 0;
    this.sought = undefined;
    if (index < 0) {
      this.box.removeAttribute('aria-activedescendant');
      return;
    }
    this.mark(index, true);
    if (isSeen)
      this.reveal(index);
    else
      this.update();
  }

  /** Brings a row into view, if it isn't: to the nearest edge, or to the middle.
      @param {number} index */
  reveal(index, isMiddle = false) {
    this.sought = { index, isMiddle };
    this.top = undefined;
    this.settle();
    // (views that are drawn later can give the box another size, and an observer isn't told if that is the one before)
    requestAnimationFrame(() => this.settle());
  }

  /** Draws what is in view, with what is sought, unless a user scrolled it away. */
  settle() {
    const { top, box } = this;
    // (a browser scrolls by itself where that place isn't there any more: the list became shorter, or the box higher)
    if (top !== undefined && box.scrollTop !== top && top <= box.scrollHeight - box.clientHeight + 1)
      this.sought = undefined;
    if (this.sought)
      this.seek(this.sought);
    this.update();
  }

  /** Scrolls to a row, if it isn't in view. */
  seek({ index, isMiddle }) {
    const { height, view, whole, all, first } = this.place(), rows = view / height;
    const end = index + 1 + (index === this.current ? Math.min(this.extra / height, rows - 1) : 0), isIn = index >= first && end <= first + rows;
    const wanted = isIn ? first : isMiddle ? index - Math.floor((rows - 1) / 2) : index < first ? index : end - rows;
    // (a row can be higher than when the box was shown before)
    this.space.style.height = `${all + this.extra}px`;
    if (wanted !== first)
      this.box.scrollTop = whole <= MOST ? wanted * height : wanted / (this.count - rows) * (all - view);
    // (a box that is shown again scrolls by itself to where it was)
    this.top = view > 0 ? this.box.scrollTop : undefined;
  }

  /** @param {number} index */
  choose(index) {
    if (index < 0 || index >= this.count)
      return;
    this.setCurrent(index);
    this.select(index);
  }

  key(event) {
    // (a button in the heads has its own keys)
    if (event.ctrlKey || event.altKey || event.metaKey || event.target !== this.box)
      return;
    const to = {
      ArrowDown: this.current + 1, ArrowUp: this.current - 1, Home: 0, End: this.count - 1,
      PageDown: this.current + this.rows, PageUp: this.current - this.rows,
    }[event.key];
    if (this.press?.(event.key, this.current)) {
      event.preventDefault();
    } else if (to !== undefined && this.count) {
      event.preventDefault();
      this.choose(Math.max(0, Math.min(this.count - 1, to)));
    }
  }
}
