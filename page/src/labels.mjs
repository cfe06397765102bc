// SPDX-License-Identifier: Apache-2.0
// What an arrow of the diagram says.
import { controlInfo, fragmentOf, messageOf, rangeTexts } from './info.mjs';
import { groupOf, isData, isNumber, KINDS } from './keys.mjs';
import { marksOf } from './list.mjs';
import { counted, shown } from './text.mjs';

export { chunkLabel, chunksLabel, doubtsOf, groupOfRow, fitted };

/** Of a chunk with user data the TSN, the stream and the message; of a SACK the TSNs; of others what the list says, too.
    @param {Chunk} chunk */
function chunkLabel(chunk) {
  const name = shown(chunk.name ?? `chunk ${chunk.chunk}`, 40), { cumulative_tsn_ack, blocks: some = [], nr_blocks = [] } = chunk, blocks = [...some, ...nr_blocks];
  if (isData(chunk)) {
    const { stream, ppid, ppid_name, payload_size } = chunk, kind = ppid_name ? shown(ppid_name, 40) : isNumber(ppid) && `ppid ${ppid}`;
    const size = isNumber(payload_size) && counted(payload_size, 'byte'), said = messageOf(chunk);
    return [name, chunk.tsn, isNumber(stream) && `stream ${stream}`, ...said ? [said] : [kind, size], fragmentOf(chunk)].filter(it => it || it === 0).join(' ');
  }
  if (!isNumber(cumulative_tsn_ack))
    return [name, controlInfo(chunk).join(', ')].filter(it => it).join(' ');
  const received = blocks.length ? [`gap blocks ${rangeTexts(blocks.map(it => [it.first_tsn, it.last_tsn]))}`] : [];
  // (the window is in the packet's fields)
  const others = controlInfo({ ...chunk, cumulative_tsn_ack: undefined, blocks: undefined, nr_blocks: undefined, a_rwnd: undefined });
  return [`${name} ${cumulative_tsn_ack}`, ...received, ...others].join(', ');
}

/** Of all chunks, as far as anybody reads.
    @param {Chunk[]} chunks */
function chunksLabel(chunks, most = 20) {
  const labels = chunks.slice(0, most).map(chunkLabel);
  return [...labels, ...chunks.length > most ? [`${(chunks.length - most).toLocaleString('en')} more`] : []].join(' | ');
}

/** What is doubtful about a packet, in words: first of all the chunk that was refused.
    @param {import('./store.mjs').Store} store
    @param {number} row */
function doubtsOf(store, row) {
  const isRefused = KINDS[store.columns.kind[row]] === 'refused', reason = shown(store.notes[store.columns.note[row]], 120);
  const marks = marksOf(store, row).filter(([, [kind]]) => kind === 'doubt').map(([, [, text]]) => text);
  return isRefused ? [`refused ${reason}`.trim(), ...marks] : marks;
}

/** What a packet is coloured by: an error, user data, or its first chunk.
    @param {import('./store.mjs').Store} store
    @param {number} row */
function groupOfRow(store, row) {
  const groups = store.summaries[store.columns.summary[row]].types.map(groupOf);
  return ['abort', 'data'].find(it => groups.includes(it)) ?? groups[0] ?? 'other';
}

/** How much room a text takes, in letters: those of East Asia take two.
    @param {string} text */
const lengthOf = text => text.length + (text.match(/[\u1100-\u11ff\u2e80-\uffdc]/g)?.length ?? 0);

/** A text as far as there is room for so many letters.
    @param {string} text
    @param {number} room */
function cut(text, room) {
  if (lengthOf(text) <= room)
    return text;
  let end = Math.min(text.length, Math.max(0, room - 1));
  while (end > 0 && lengthOf(text.slice(0, end)) > room - 1)
    end--;
  return end > 0 ? `${text.slice(0, end).trimEnd()}…` : '';
}

/** A text and its doubts as far as there is room: of the doubts more than half is kept.
    @param {string} text
    @param {number} room */
function fitted(text, doubts, room) {
  if (!doubts)
    return [cut(text, room), ''];
  const joint = text ? ', ' : '', kept = cut(doubts, Math.max(room - lengthOf(text) - 2, Math.floor(room * 0.65)));
  const before = cut(text, room - lengthOf(kept) - 2);
  return [before, (before && joint) + kept];
}
