// SPDX-License-Identifier: Apache-2.0
// Among the notes of a packet whose DATA comes after a gap: which TSNs are missing before it, and what became of them.
import { change, state, watch } from './state.mjs';
import { byId, counted, element } from './text.mjs';
import { bringersOf, firstSendings, missingBefore } from './ties.mjs';

/** So many TSNs are named. */
const MOST_NAMED = 4;

/** A packet's number, which leads to it.
    @param {number} row */
function link(row) {
  const number = String(state.store.columns.number[row]), button = element('button', 'link', number);
  button.ariaLabel = `packet ${number}`;
  button.addEventListener('click', () => change({ row, filterText: state.passed.includes(row) ? state.filterText : '' }));
  return button;
}

/** The note, or undefined where nothing is known.
    @param {State} state
    @param {number} row
    @param {number} count */
async function noteOf({ store }, row, count) {
  const association = store.associationOf(row);
  if (!association)
    return;
  const { rows, senderOf } = store.rowsOf(association), first = firstSendings(store, rows, senderOf);
  const missing = missingBefore(store, first, senderOf, row, Math.min(count, MOST_NAMED)).reverse();
  const parts = (await bringersOf(store, rows, first, senderOf, row, missing)).flatMap(({ tsn, by, isSkipped }, i) =>
    [i ? ', ' : '', String(tsn), ...by === undefined ? [' (never seen)'] : [isSkipped ? ' (skipped in ' : ' (comes in ', link(by), ')']]);
  const more = count - missing.length;
  return element('p', 'note doubt', element('strong', '', `Before it ${counted(count, 'TSN is', 'TSNs are')} missing`), ': ', ...parts,
    more > 0 ? `, and ${more.toLocaleString('en')} more` : '', '.');
}

/** Of what it was said, with times by which clock: then the notes are drawn anew. */
let said = {};
watch(async it => {
  const { store, clock, shown: { object, row } } = it;
  if (object === said.object && clock === said.clock && store.isAtEnd === said.isAtEnd)
    return;
  const own = said = { object, clock, isAtEnd: store.isAtEnd };
  const count = Number(object.missing);
  if (row === undefined || !store.isAtEnd || !(count > 0))
    return;
  const note = await noteOf(it, row, count);
  if (note && own === said)
    byId('notes').append(note);
});
