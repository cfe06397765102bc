// SPDX-License-Identifier: Apache-2.0
// A table of which a click on a title sorts the rows.
import { endText } from './list.mjs';
import { byId, element, shown, sized } from './text.mjs';
import { VirtualList } from './virtual.mjs';

export { amount, bytes, addresses, place, packetLink, column, sorted, Table };

const amount = it => typeof it === 'number' ? it.toLocaleString('en') : '–';
const bytes = it => typeof it === 'number' ? sized(it) : '–';
const addresses = ({ addresses, port }) => (addresses?.length ? addresses : [undefined]).map(it => endText(it, port)).join(' ');
/** Events by their files and packets, as texts in their order. */
const place = it => it && `${it.file ?? ''} ${String(it.packet).padStart(16, '0')}`;

/** A part of a line that goes to a packet.
    @param {AssociationEvent} at
    @param {string} text */
const packetLink = (at, text) => [text, `packet ${at.packet}${at.chunk ? ` ${at.chunk}` : ''}${at.file === undefined ? '' : ` of ${at.file}`}`, at];

/** A column with a line for each end; it is sorted by the greater number of both.
    @param {string} title */
const column = (title, of, text = amount) => [title, 'amount', ({ ends }) => ends.map(it => [text(of(it)), amount(of(it))]),
  ({ ends }) => ends.map(of).filter(it => it !== undefined).sort((a, b) => b - a)[0]];

/** Rows in the order of a column; those that have nothing in it are last.
    @param {any[]} list
    @param {string} title
    @param {boolean} isDescending */
function sorted(columns, list, title, isDescending) {
  const key = columns.find(it => it[0] === title)[3], sign = isDescending ? -1 : 1;
  const compare = (a, b) => a === b ? 0 : a === undefined ? 1 : b === undefined ? -1 : a < b ? -sign : sign;
  return [...list].sort((a, b) => compare(key(a), key(b)));
}

class Table {
  /** @type {any[]} */
  list = [];
  /** Whose rows they are, and whether it was read.
      @type {import('./store.mjs').Store} */
  store;
  isAtEnd = false;
  /** @type {[string, boolean]} */
  order = ['', false];
  /** @type {(packet: AssociationEvent) => void} */
  go;
  classes = '';

  /** @type {any[][]} */
  get columns() {
    return [];
  }


  /** `name` is that of its elements, `NAME-rows` with `NAME-heads` in it; `meanings` has what each title means. `select` shows
      a row, `open` what it is of, and `go` a packet. Those that extend it have `columns`: each a title, a class, the lines of a
      cell, and what rows are sorted by; a line is a text, what it says when it is pointed at, and the packet that a click goes to,
      or a list of such parts. */
  constructor(name, meanings, { select, open, go }) {
    const { columns } = this;
    Object.assign(this, { go, order: [columns[0][0], false] });
    byId(`${name}-rows`).setAttribute('aria-colcount', columns.length);
    this.heads = columns.map(([title, classes], i) => {
      const button = element('button', '', title), head = element('span', classes, button);
      button.addEventListener('click', () => this.sortBy(title, classes === 'amount'));
      button.title = `${meanings[title]} A click sorts by it.`;
      head.setAttribute('role', 'columnheader');
      head.setAttribute('aria-colindex', i + 1);
      return head;
    });
    byId(`${name}-heads`).append(...this.heads);
    this.table = new VirtualList(byId(`${name}-rows`), {
      draw: index => this.draw(index),
      select: index => select(this.list[index]),
      press: (key, index) => key === 'Enter' && index >= 0 && (open(this.list[index]), true),
    });
  }

  /** Shows what is open, once it was read, and what is chosen; `show` puts the rows in the table. */
  update(store, chosen, show) {
    if (store !== this.store || store.isAtEnd !== this.isAtEnd) {
      Object.assign(this, { store, isAtEnd: store.isAtEnd });
      show();
    }
    const at = this.list.indexOf(chosen);
    if (at !== this.table.current)
      this.table.setCurrent(at);
  }

  /** The one that is current. */
  get chosen() {
    return this.list[this.table.current];
  }

  /** Sorts by a column: amounts with the greatest first, all else with the least. Once more, and it is the other way.
      @param {string} title
      @param {boolean} isDescending */
  sortBy(title, isDescending) {
    const { chosen } = this;
    this.order = [title, this.order[0] === title ? !this.order[1] : isDescending];
    this.arrange(this.list, chosen);
  }

  /** @param {any[]} list
      @param {any} [chosen] */
  arrange(list, chosen) {
    const [title, isDescending] = this.order;
    this.list = sorted(this.columns, list, title, isDescending);
    this.heads.forEach((head, i) =>
      head.setAttribute('aria-sort', this.columns[i][0] !== title ? 'none' : isDescending ? 'descending' : 'ascending'));
    this.table.show(list.length);
    this.table.setCurrent(chosen ? this.list.indexOf(chosen) : list.length ? 0 : -1);
  }

  /** @param {number} index */
  draw(index) {
    const row = element('div', this.classes, ...this.columns.map(([title, classes, lines], i) => {
      const cell = element('span', classes, ...lines(this.list[index]).map(it => this.line(it)));
      cell.setAttribute('role', 'gridcell');
      cell.setAttribute('aria-colindex', i + 1);
      cell.dataset.title = title;
      return cell;
    }));
    row.setAttribute('role', 'row');
    return row;
  }

  line(it) {
    return Array.isArray(it[0]) ? element('span', 'line', ...it.map(part => this.part('', part))) : this.part('line', it);
  }

  part(classes, [text, whole = text, packet]) {
    const line = element(packet ? 'button' : 'span', `${classes}${packet ? ' link' : ''}`.trim(), shown(text, 200));
    // (where it is cut off, or rounded)
    line.title = shown(whole, 1000);
    if (packet) {
      // (by keys the packets of a row are reached, and the fields of its details)
      line.tabIndex = -1;
      line.addEventListener('click', event => {
        event.stopPropagation();
        this.go(packet);
      });
    }
    return line;
  }
}
