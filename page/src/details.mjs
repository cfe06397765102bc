// SPDX-License-Identifier: Apache-2.0
// The fields and bytes of what is chosen, and what can be copied of it.
import { cArray, hexadecimal, linkOf, testRow } from './copies.mjs';
import { Fields } from './fields.mjs';
import { rangesOf, rangeTexts } from './info.mjs';
import { KINDS } from './keys.mjs';
import { change, NOTHING, state, watch } from './state.mjs';
import { byId, copy, element, shown as textOf } from './text.mjs';
import { firstSendings, repeatsOf } from './ties.mjs';

const fields = new Fields();

/** What was chosen last, and what is drawn, with times by which clock. */
let wanted = {}, drawn = {};

/** Reads the line of what is chosen, and shows it: in the views of associations, channels and messages one of these, or else a packet. */
async function read({ store, view, row, association, channel, message }) {
  const chosen = view === 'associations' ? association : view === 'channels' ? channel : view === 'messages' ? message : row, own = { store, chosen };
  const isRow = chosen !== undefined && chosen === row;
  if (wanted.store === store && wanted.chosen === chosen)
    return;
  wanted = own;
  const [object] = isRow ? await store.objects([chosen]) : [chosen ?? {}];
  // (what is chosen is shown after what chose it was drawn, and nothing is if another was chosen meanwhile)
  await undefined;
  if (own === wanted)
    change({ shown: chosen === undefined ? NOTHING : { object, row: isRow ? row : undefined } });
}
watch(it => { read(it); });

/** What an object is called: by its kind and number.
    @param {Record<string, any>} object */
function titleOf(object) {
  const kind = ['packet', 'record', 'line', 'file', 'channel', 'message', 'association'].find(it => object[it] !== undefined);
  return kind ? `${kind[0].toUpperCase()}${kind.slice(1)} ${textOf(object[kind], 60)}` : '';
}

/** The first sendings of an association, in what was read then. */
let sendings = {};

/** So many packets are named that sent a packet's TSNs first. */
const MOST_FIRST = 5;

/** In which packets the TSNs of one were first sent, if it sends them again: a note for each.
    @param {import('./store.mjs').Store} store
    @param {number} row */
function repeatNotes(store, row) {
  const association = store.columns.association[row], { count } = store;
  if (!association || !store.has(row, 'repeated'))
    return [];
  if (sendings.store !== store || sendings.association !== association || sendings.count !== count) {
    const { rows, senderOf } = store.rowsOf({ association });
    sendings = { store, association, count, senderOf, first: firstSendings(store, rows, senderOf) };
  }
  const byFirst = new Map();
  for (const [tsn, first] of repeatsOf(store, sendings.first, sendings.senderOf, row))
    byFirst.set(first, [...byFirst.get(first) ?? [], tsn]);
  return [...byFirst].slice(0, MOST_FIRST).map(([first, tsns]) => {
    const link = element('button', 'link', `packet ${store.columns.number[first]}`);
    link.addEventListener('click', () => change({ row: first, filterText: state.passed.includes(first) ? state.filterText : '' }));
    return element('p', 'note', `TSN ${rangeTexts(rangesOf(tsns))} ${tsns.length > 1 ? 'were' : 'was'} first sent in `, link, '.');
  });
}

watch(({ store, clock, shown: { object, row } }) => {
  if (object === drawn.object && clock === drawn.clock)
    return;
  drawn = { object, clock };
  const times = row === undefined ? undefined : { text: store.timeBy(row, clock), whole: store.wholeTime(row) };
  fields.show(object, titleOf(object), times);
  if (row !== undefined)
    byId('notes').append(...repeatNotes(store, row));
  byId('copied').textContent = '';
  byId('copies-of-packet').hidden = row === undefined;
  byId('copy-test').disabled = !testRow(fields.bytes);
  byId('copy-hex').disabled = byId('copy-c').disabled = !fields.bytes.length;
  // (what was cut off would be another packet)
  const isCut = row !== undefined && KINDS[store.columns.kind[row]] === 'cut';
  byId('copy-link').disabled = isCut || !linkOf(location.href, fields.bytes);
});

for (const [id, what] of Object.entries({
  'copy-value': () => fields.value,
  'copy-hex': () => hexadecimal(fields.bytes),
  'copy-c': () => cArray(fields.bytes),
  'copy-test': () => testRow(fields.bytes),
  'copy-link': () => linkOf(location.href, fields.bytes),
  'copy-json': async () => {
    const [line] = await state.store.lines([Number(state.shown.row)]);
    return new TextDecoder().decode(line);
  },
})) {
  byId(id).addEventListener('click', async () => {
    byId('copied').textContent = await copy(await what()) ? 'Copied.' : 'The browser doesn’t allow to copy.';
  });
}
