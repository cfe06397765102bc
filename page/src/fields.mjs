// SPDX-License-Identifier: Apache-2.0
// A packet's fields as a tree, beside its bytes: each field marks its bytes, and each byte its field.
import { groupOf, isObject } from './keys.mjs';
import { byId, counted, element, hex, shown, targetOf } from './text.mjs';
import { VirtualList } from './virtual.mjs';
import { fieldName } from './words.mjs';

export { nodesOf, bytesOf, ownersOf, Fields, valueOf };

/** Ends by their places in a list: what the keys `end` and `by` have. */
const ENDS = ['first end', 'second end'];

/** The nodes of an object's tree, each before its children; `end` is after the last of them. Each is the `position`th of
    `siblings`, and has the name that the RFCs give to it, if its label is another. */
function nodesOf(object) {
  const nodes = [], bytes = typeof object.bytes === 'string' ? object.bytes : '', children = new Map();
  const add = (label, value, place, depth, parent, group, name) => {
    const index = nodes.length, position = (children.get(parent) ?? 0) + 1;
    const node = { label, value, place: placeOf(place), depth, parent, group, name, position, isOpen: true, end: index + 1 };
    children.set(parent, position);
    nodes.push(node);
    return index;
  };
  const walk = (it, depth, parent, group, lists) => {
    for (const [key, value] of Object.entries(it)) {
      if (depth === 0 && key === 'bytes')
        continue;
      if (key.endsWith('@')) {
        // (what has a place alone is in the packet's bytes)
        const label = key.slice(0, -1), { from, to } = placeOf(value) ?? {};
        if (label && !(label in it) && from !== undefined)
          add(label, bytes.slice(2 * from, 2 * to), value, depth, parent, group, fieldName(lists, label));
        continue;
      }
      if (Array.isArray(value) && value.some(isObject))
        value.forEach((entry, i) => walkEntry(key, i, entry, depth, parent, group, lists));
      else if (isObject(value))
        walkInto(add(key, '', value['@'], depth, parent, group), value, depth, group, [...lists, key]);
      else
        add(key, value, it[`${key}@`], depth, parent, group, fieldName(lists, key));
    }
  };
  const walkEntry = (key, i, entry, depth, parent, group, lists) => {
    if (!isObject(entry))
      return;
    const own = typeof entry.chunk === 'number' ? groupOf(entry.chunk) : group;
    const numbered = key === 'ends' ? ENDS[i] ?? `end ${i + 1}` : `${key} ${i + 1}`;
    const [label, name] = entry.name === undefined ? [numbered, fieldName(lists, key)] : [entry.name];
    walkInto(add(label, summaryOf(entry), entry['@'], depth, parent, own, name), entry, depth, own, [...lists, key]);
  };
  const walkInto = (index, it, depth, group, lists) => {
    walk(it, depth + 1, index, group, lists);
    nodes[index].end = nodes.length;
  };
  walk(object, 0, -1, undefined, []);
  for (const node of nodes)
    node.siblings = children.get(node.parent);
  return nodes;
}

function placeOf(place) {
  const isPlace = Array.isArray(place) && place.length === 2 && place.every(it => Number.isSafeInteger(it) && it >= 0);
  return isPlace ? { from: place[0], to: place[0] + place[1] } : undefined;
}

/** What an entry is known by where it is closed: its first numbers. */
function summaryOf(entry) {
  const known = ['length', 'flags', 'name'];
  return Object.entries(entry).filter(([key, it]) => typeof it === 'number' && !known.includes(key)).slice(0, 3)
    .map(([key, it]) => `${key} ${it}`).join(', ');
}

/** The bytes that a text in hexadecimal gives.
    @param {unknown} text */
function bytesOf(text) {
  const found = typeof text === 'string' ? text.match(/[0-9a-f]{2}/g) ?? [] : [];
  return Uint8Array.from(found, it => parseInt(it, 16));
}

/** For each byte its deepest node, and the first of those.
    @param {number} size */
function ownersOf(nodes, size) {
  const owners = new Int32Array(size).fill(-1);
  nodes.forEach(({ place, depth }, index) => {
    for (let i = place?.from ?? 0; i < Math.min(place?.to ?? 0, size); i++) {
      if (owners[i] < 0 || nodes[owners[i]].depth < depth)
        owners[i] = index;
    }
  });
  return owners;
}

/** So many characters of the chosen field's value are in the tree. */
const WHOLE = 20000;

class Fields {
  nodes = [];
  visible = [];
  bytes = new Uint8Array();
  owners = new Int32Array();
  selected = -1;
  hovered = -1;
  cursor = -1;
  fault = -1;

  constructor() {
    this.treeBox = byId('tree');
    this.bytesBox = byId('bytes');
    this.tree = new VirtualList(this.treeBox, {
      draw: index => this.drawNode(index),
      select: index => this.selectNode(this.visible[index]),
      press: (key, index) => this.pressInTree(key, index),
    });
    this.hexadecimal = new VirtualList(this.bytesBox, {
      draw: index => this.drawBytes(index),
      select: () => {},
      press: key => this.pressInBytes(key),
    });
    this.treeBox.addEventListener('click', event => {
      if (targetOf(event).classList.contains('twist'))
        this.toggle(this.visible[Number(targetOf(event).closest('.row')?.dataset.index)]);
    });
    this.treeBox.addEventListener('pointerover', event => {
      const row = targetOf(event).closest('.row');
      this.hover(row ? this.visible[Number(row.dataset.index)] : -1);
    });
    this.bytesBox.addEventListener('pointerover', event => {
      const at = Number(targetOf(event).dataset.at ?? -1);
      this.hover(at < 0 ? -1 : this.owners[at]);
    });
    for (const it of [this.treeBox, this.bytesBox])
      it.addEventListener('pointerleave', () => this.hover(-1));
    this.bytesBox.addEventListener('click', event => {
      if (targetOf(event).dataset.at !== undefined)
        this.moveTo(Number(targetOf(event).dataset.at));
    });
    this.width = 16;
    new ResizeObserver(() => this.measure()).observe(byId('details'));
  }

  /** Lays out 16 bytes in a row, or 8 where there is less room: beside the tree, or below it where the details are at the side. */
  measure() {
    const least = byId('work').classList.contains('beside') ? 630 : 1100, width = byId('details').clientWidth >= least ? 16 : 8;
    if (width === this.width)
      return;
    this.width = width;
    this.bytesBox.classList.toggle('narrow', width === 8);
    this.showBytes();
    if (this.cursor >= 0)
      this.hexadecimal.setCurrent(Math.floor(this.cursor / width));
  }

  /** Shows an object that was a line. Its time is shown as the list does.
      @param {string} title */
  show(object, title, times) {
    this.nodes = nodesOf(object);
    this.times = times;
    this.bytes = bytesOf(object.bytes);
    this.fault = typeof object.fault?.offset === 'number' ? object.fault.offset : -1;
    const fault = this.nodes.find(it => it.depth === 0 && it.label === 'fault');
    if (fault && this.fault >= 0)
      fault.place = { from: this.fault, to: this.fault + 1 };
    this.owners = ownersOf(this.nodes, this.bytes.length);
    Object.assign(this, { selected: -1, hovered: -1, cursor: -1 });
    if (this.nodes.length > 2000) {
      for (const node of this.nodes)
        node.isOpen = false;
    }
    byId('title').replaceChildren(title);
    byId('notes').replaceChildren(...this.notesOf(object));
    this.showTree();
    this.showBytes();
    this.treeBox.scrollTop = this.bytesBox.scrollTop = 0;
    this.tree.setCurrent(-1);
    if (this.fault >= 0) {
      this.moveTo(Math.min(this.fault, this.bytes.length - 1));
      // (with what is below it)
      if (fault)
        this.tree.reveal(this.visible.indexOf(fault.end - 1));
    }
    this.say();
  }

  /** What is wrong with a packet, each in words and with its section. */
  notesOf(object) {
    const notes = [];
    if (object.fault) {
      const { offset, reason, sentence, section } = object.fault;
      const go = element('button', 'link', `byte ${offset}`);
      go.addEventListener('click', () => {
        this.moveTo(Math.min(offset, this.bytes.length - 1));
        this.bytesBox.focus();
      });
      const state = object.captured === undefined ? 'Refused' : 'Cut off, and wrong';
      const what = element('strong', '', `${state}: ${object.fault.kind}`);
      notes.push(element('p', 'note bad', what, ' at ', go, `: ${shown(reason)}. ${shown(sentence ?? '')}${section === undefined ? '' : ` (${shown(section)})`}`));
    }
    if (object.verdict === 'wrong') {
      notes.push(element('p', 'note doubt', element('strong', '', 'The checksum is wrong'),
        `: it has to be ${hex(object.expected, 8)}. (RFC 9260 section 6.8)`));
    }
    if (object.captured !== undefined)
      notes.push(element('p', 'note', `Only ${object.captured} of ${counted(object.length, 'byte')} were captured.`));
    for (const { rule, sentence, section } of object.warnings ?? [])
      notes.push(element('p', 'note doubt', element('strong', '', shown(rule)), `: ${shown(sentence)} (${shown(section)})`));
    return notes;
  }

  /** The whole value of the field that is selected, as text, or undefined if it has none. */
  get value() {
    const node = this.nodes[this.selected];
    if (node && node.end === this.selected + 1)
      return Array.isArray(node.value) ? node.value.join(', ') : String(node.value ?? '');
  }

  // ---- the tree

  showTree() {
    this.visible = [];
    for (let i = 0; i < this.nodes.length; i = this.nodes[i].isOpen ? i + 1 : this.nodes[i].end)
      this.visible.push(i);
    this.tree.show(this.visible.length);
    this.tree.setCurrent(this.visible.indexOf(this.selected), false);
  }

  /** @param {number} index */
  drawNode(index) {
    const at = this.visible[index], node = this.nodes[at], isBranch = node.end > at + 1;
    const twist = element('span', 'twist', isBranch ? (node.isOpen ? '▾' : '▸') : '');
    const key = element('span', 'key', shown(node.label)), isTime = this.times && node.depth === 0 && node.label === 'time';
    const value = isTime ? element('span', 'value', this.times.text) : valueOf(node, at === this.selected ? WHOLE : undefined);
    const row = element('div', `node ${node.group ?? ''}`, twist, key, value);
    twist.setAttribute('aria-hidden', 'true');
    if (isTime)
      value.title = this.times.whole;
    if (node.name) {
      key.title = node.name;
      row.setAttribute('aria-description', node.name);
    }
    row.classList.toggle('branch', isBranch);
    row.style.paddingLeft = `${Math.min(node.depth, 12) * 16 + 4}px`;
    row.setAttribute('role', 'treeitem');
    row.setAttribute('aria-level', node.depth + 1);
    row.setAttribute('aria-posinset', node.position);
    row.setAttribute('aria-setsize', node.siblings);
    if (isBranch)
      row.setAttribute('aria-expanded', node.isOpen);
    row.classList.toggle('over', at === this.hovered);
    row.classList.toggle('placed', node.place !== undefined);
    row.classList.toggle('faulty', node.place !== undefined && node.label === 'fault');
    return row;
  }

  /** @param {number} at */
  toggle(at) {
    this.nodes[at].isOpen = !this.nodes[at].isOpen;
    this.showTree();
  }

  /** @param {number} at */
  selectNode(at) {
    const isOther = this.selected !== at;
    this.selected = at;
    // (the chosen one has its whole value)
    if (isOther) {
      this.tree.redraw();
      this.tree.reveal(this.tree.current);
    }
    const { place } = this.nodes[at];
    if (place && this.bytes.length) {
      this.cursor = Math.min(place.from, this.bytes.length - 1);
      this.hexadecimal.setCurrent(Math.floor(this.cursor / this.width));
    }
    this.paint();
    this.say();
  }

  /** @param {number} index */
  pressInTree(key, index) {
    const at = this.visible[index], node = this.nodes[at];
    if (!node)
      return false;
    const isBranch = node.end > at + 1;
    if (key === 'ArrowRight' && isBranch) {
      if (node.isOpen)
        this.tree.choose(index + 1);
      else
        this.toggle(at);
    } else if (key === 'ArrowLeft') {
      if (isBranch && node.isOpen)
        this.toggle(at);
      else if (node.parent >= 0)
        this.tree.choose(this.visible.indexOf(node.parent));
    } else if (key === 'Enter' || key === ' ') {
      if (node.place && this.bytes.length)
        this.bytesBox.focus();
      else if (isBranch)
        this.toggle(at);
    } else {
      return false;
    }
    return true;
  }

  // ---- the bytes

  showBytes() {
    byId('bytes-panel').hidden = this.bytes.length === 0 && this.nodes.length > 0;
    // (a fault can be just after the last byte)
    this.hexadecimal.show(Math.ceil(Math.max(this.bytes.length, this.fault + 1) / this.width));
  }

  /** @param {number} index */
  drawBytes(index) {
    const from = index * this.width, offset = element('span', 'offset', from.toString(16).padStart(4, '0'));
    const row = element('div', 'bytes', offset), texts = element('span', 'texts');
    offset.setAttribute('role', 'rowheader');
    for (let at = from; at < from + this.width; at++) {
      const isThere = at < this.bytes.length, byte = this.bytes[at];
      if (!isThere && at !== this.fault) {
        row.append(element('span', 'byte none', '  '));
        continue;
      }
      const classes = ['byte'];
      const node = this.nodes[this.owners[at]];
      if (node?.group)
        classes.push(node.group);
      if (at === this.fault)
        classes.push('fault');
      const cell = element('span', classes.join(' '), isThere ? byte.toString(16).padStart(2, '0') : '··');
      cell.setAttribute('role', 'gridcell');
      cell.id = `byte-${at}`;
      if (at === this.fault)
        cell.setAttribute('aria-description', 'the fault');
      const isSeen = byte > 32 && byte < 127;
      const text = element('span', classes.join(' '), isSeen ? String.fromCharCode(byte) : isThere ? '·' : ' ');
      for (const it of isThere ? [cell, text] : [])
        it.dataset.at = String(at);
      row.append(cell);
      texts.append(text);
    }
    texts.setAttribute('aria-hidden', 'true');
    row.append(texts);
    row.setAttribute('role', 'row');
    row.setAttribute('aria-label', `Bytes from ${from}`);
    this.paint(row);
    return row;
  }

  /** Marks bytes: those of the field that is selected or pointed at, and the one at the cursor. */
  paint(box = this.bytesBox) {
    const selected = this.nodes[this.selected]?.place, hovered = this.nodes[this.hovered]?.place;
    for (const it of box.querySelectorAll('[data-at]')) {
      const at = Number(it.dataset.at);
      const isIn = selected !== undefined && at >= selected.from && at < selected.to;
      it.classList.toggle('in', isIn);
      if (it.id)
        it.setAttribute('aria-selected', isIn);
      it.classList.toggle('over', hovered !== undefined && at >= hovered.from && at < hovered.to);
      it.classList.toggle('cursor', at === this.cursor);
    }
  }

  /** Makes a byte the one at the cursor, and its field the selected one.
      @param {number} at */
  moveTo(at) {
    if (at < 0 || at >= this.bytes.length)
      return;
    this.cursor = at;
    const owner = this.owners[at];
    if (owner >= 0) {
      for (let up = this.nodes[owner].parent; up >= 0; up = this.nodes[up].parent)
        this.nodes[up].isOpen = true;
      this.selected = owner;
      this.showTree();
      this.tree.setCurrent(this.visible.indexOf(owner));
    } else {
      this.selected = -1;
      this.tree.setCurrent(-1);
    }
    this.hexadecimal.setCurrent(Math.floor(at / this.width));
    this.paint();
    this.say();
  }

  pressInBytes(key) {
    const step = { ArrowLeft: -1, ArrowRight: 1, ArrowUp: -this.width, ArrowDown: this.width,
      PageUp: -this.width * this.hexadecimal.rows, PageDown: this.width * this.hexadecimal.rows }[key];
    if (key === 'Enter')
      this.treeBox.focus();
    else if (key === 'Home' || key === 'End')
      this.moveTo(key === 'Home' ? 0 : this.bytes.length - 1);
    else if (step !== undefined && this.cursor < 0)
      this.moveTo(0);
    else if (step !== undefined)
      this.moveTo(this.cursor + step);
    else
      return false;
    return true;
  }

  /** @param {number} at */
  hover(at) {
    if (at === this.hovered)
      return;
    const old = this.hovered;
    this.hovered = at;
    for (const it of [old, at])
      this.tree.drawn.get(this.visible.indexOf(it))?.classList.toggle('over', it === at && at >= 0);
    this.paint();
    this.say();
  }

  /** Says which field and bytes are marked. */
  say() {
    const at = this.hovered >= 0 ? this.hovered : this.selected, node = this.nodes[at];
    const path = [];
    for (let up = at; up >= 0; up = this.nodes[up].parent)
      path.unshift(shown(this.nodes[up].label, 60));
    let text = path.join(' › ');
    if (node?.place) {
      const { from, to } = node.place;
      text += `: ${to - from === 1 ? `byte ${from}` : `bytes ${from} to ${to - 1}`}`;
      const isSame = it => it.depth === node.depth && it.place?.from === from && it.place.to === to;
      const others = this.nodes.filter(it => it !== node && isSame(it));
      if (others.length)
        text += `, also ${others.map(it => shown(it.label, 60)).join(', ')}`;
    } else if (this.cursor >= 0 && at < 0) {
      text = `byte ${this.cursor}${this.cursor === this.fault ? ': the fault' : ''}`;
    }
    byId('marked').textContent = text;
    byId('copy-value').disabled = this.value === undefined;
    if (this.cursor >= 0)
      this.bytesBox.setAttribute('aria-activedescendant', `byte-${this.cursor}`);
  }
}

/** How a node's value is shown: a number also in hexadecimal, as wide as its bytes; and which end it is, if it says that. */
function valueOf({ label, depth, value, place, end }, most) {
  if (Array.isArray(value))
    return element('span', 'value', value.length ? shown(value.join(', '), most) : 'none');
  const size = place ? place.to - place.from : 0;
  if (typeof value === 'number' && size > 0 && size <= 4)
    return element('span', 'value', String(value), element('span', 'dim', ` ${hex(value, 2 * size)}`));
  if ((label === 'end' && depth === 0 || label === 'by') && ENDS[value])
    return element('span', 'value', String(value), element('span', 'dim', ` ${ENDS[value]}`));
  return element('span', typeof value === 'string' && end ? 'value text' : 'value', shown(value ?? '', most));
}
