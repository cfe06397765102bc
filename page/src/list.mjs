// SPDX-License-Identifier: Apache-2.0
// The list of packets.
import { infoOf } from './info.mjs';
import { groupOf, KINDS } from './keys.mjs';
import { element, hex, shown } from './text.mjs';
import { legend, MEANINGS } from './words.mjs';

export { chip, legendOf, marksOf, MARK_TEXTS, endText, drawPacket };

/** A chunk's name in the colour of its group, with how often it comes.
    @param {{ type: number, name?: string, count?: number }} run */
function chip({ type, name, count = 1 }) {
  return element('span', `chip ${groupOf(type)}`, shown(name ?? `chunk ${type}`, 40), count > 1 ? ` ×${count}` : '');
}

/** What a row is marked with, beside its chunks. */
const MARKS = {
  wrong: ['doubt', 'wrong checksum'], zero: ['dim', 'zero checksum'], repeated: ['doubt', 'sent again'],
  late: ['doubt', 'fills a gap'], jump: ['doubt', 'gap before'], gaps: ['doubt', 'gaps'], warned: ['doubt', 'warning'],
};

/** What a row is marked with by its kind. */
const KIND_MARKS = { refused: ['bad', 'refused'], cut: ['dim', 'cut off'] };

const ALL_MARKS = Object.entries({ ...KIND_MARKS, ...MARKS });

/** What each mark says, with the filter's word for it.
    @type {[string, string][]} */
const MARK_TEXTS = ALL_MARKS.map(([word, [, text]]) => [text, word]);

/** The colours and marks, each with its meaning. */
const legendOf = () => legend(ALL_MARKS.map(([word, mark]) => [word, ...mark]));

/** @param {import('./store.mjs').Store} store
    @param {number} row */
function marksOf(store, row) {
  return Object.entries(MARKS).filter(([flag]) => store.has(row, /** @type {FlagName} */ (flag)));
}

/** Where an end is: its address and port.
    @param {string | undefined} address
    @param {number | undefined} port */
function endText(address, port) {
  const ending = String(port ?? '');
  if (address === undefined)
    return ending;
  return address.includes(':') ? `[${address}]:${ending}` : `${address}:${ending}`;
}

/** A row of the list. What its line says beside the columns comes when the line was read.
    @param {import('./store.mjs').Store} store
    @param {number} row
    @param {State['clock']} clock */
function drawPacket(store, row, clock) {
  const it = store.at(row), kind = KINDS[it.kind], flow = store.flows[it.flow], summary = store.summaries[it.summary];
  const line = element('div', `packet ${kind}`);
  line.setAttribute('role', 'row');
  let column = 0;
  const cell = (classes, ...parts) => {
    const made = element('span', classes, ...parts);
    made.setAttribute('role', 'gridcell');
    made.setAttribute('aria-colindex', ++column);
    line.append(made);
    return made;
  };
  if (kind === 'file') {
    cell('whole', shown(store.notes[it.note]));
    return line;
  }
  // (a line of a text has no number among the packets)
  const isLine = store.has(row, 'line');
  cell('number', isLine ? '' : String(it.number));
  cell('time', store.timeBy(row, clock)).title = store.wholeTime(row);
  if (kind === 'skipped') {
    cell('whole', `${isLine ? `line ${it.number} ` : ''}skipped: ${shown(store.notes[it.note])}`);
    return line;
  }
  const ends = `${endText(flow.from, flow.source)} → ${endText(flow.to, flow.destination)}`;
  cell('ends', flow.direction ? `${flow.direction} ${ends}` : ends);
  cell('tag', flow.tag === undefined ? '' : hex(flow.tag, 8));
  const found = marksOf(store, row);
  if (KIND_MARKS[kind])
    found.unshift([kind, KIND_MARKS[kind]]);
  const marks = found.map(([word, [classes, text]]) => {
    const mark = element('span', `mark ${classes}`, text);
    mark.title = `${MEANINGS[word]} Filter: ${word}`;
    return mark;
  });
  if (found.length)
    line.setAttribute('aria-description', found.map(([word]) => MEANINGS[word]).join(' '));
  const runs = summary.runs.slice(0, 8).map(it => chip(it));
  if (summary.runs.length > 8)
    runs.push(element('span', 'dim', `+${summary.runs.length - 8}`));
  const note = it.note ? element('span', 'reason', shown(store.notes[it.note], 120)) : undefined;
  const info = element('span', 'info');
  store.objects([row]).then(([object]) => {
    info.append(infoOf(object));
    info.title = info.textContent ?? '';
  });
  cell('chunks', ...runs, ...marks, info, note);
  return line;
}
