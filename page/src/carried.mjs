// SPDX-License-Identifier: Apache-2.0
// Between messages and packets: a message opens to its packets, and beside a packet's number are its messages, which lead back.
import { isOf, messageFilter, packetsOf } from './fates.mjs';
import { isData } from './keys.mjs';
import { nameOf } from './messages.mjs';
import { change, state, watch } from './state.mjs';
import { byId, element } from './text.mjs';

export { openMessage };

/** So many messages of a packet are named, and so many of its chunks are looked at. */
const MOST_NAMED = 4, MOST_CHUNKS = 200;

/** Which message was opened to its packets, by which filter. */
let opened = { filter: '', message: /** @type {Message | undefined} */ (undefined) };

/** Shows the packets of a message.
    @param {Message | undefined} message */
async function openMessage(message) {
  const { store } = state;
  if (!message)
    return;
  const rows = await packetsOf(store, message), filter = messageFilter(store, message, rows);
  if (store !== state.store)
    return;
  opened = { filter, message };
  change({ view: 'packets', filterText: filter, message, row: rows[0] ?? state.row, saved: '' });
  byId('list').focus();
}

/** Goes back to a message.
    @param {Message} message */
function back(message) {
  change({ view: 'messages', message });
  byId('message-rows').focus();
}

byId('show-message').addEventListener('click', () => openMessage(state.message));
byId('back').addEventListener('click', () => opened.message && back(opened.message));
watch(({ filterText, store }) => {
  const isOpened = opened.message !== undefined && filterText === opened.filter && store.messages.includes(opened.message);
  byId('back').hidden = !isOpened;
  byId('back').textContent = isOpened ? `Back to message ${opened.message?.message}` : '';
});

/** The messages of a packet: those of which it has a fragment, and those that it acknowledged or abandoned.
    @param {import('./store.mjs').Store} store
    @param {any} object */
function messagesOf({ messages }, { packet, file, association, end, chunks = [] }) {
  const data = chunks.filter(isData).slice(0, MOST_CHUNKS), streams = new Set(data.map(it => it.stream));
  const isHere = (number, its) => number === packet && (its ?? undefined) === file;
  return messages.filter(it => it.message_of === association && (it.end === end
    ? streams.has(it.stream) && data.some(chunk => isOf(chunk, it))
    : isHere(it.acknowledged_packet, it.acknowledged_file)) || isHere(it.abandoned_packet, it.abandoned_file) && it.message_of === association);
}

let said = {};
watch(({ store, shown: { object, row } }) => {
  if (object === said.object && store.isAtEnd === said.isAtEnd)
    return;
  said = { object, isAtEnd: store.isAtEnd };
  const all = row === undefined || !store.isAtEnd ? [] : messagesOf(store, object), more = all.length - MOST_NAMED;
  const links = all.slice(0, MOST_NAMED).flatMap((it, i) => {
    const link = element('button', 'link', `message ${it.message}`);
    link.title = link.ariaLabel = nameOf(it);
    link.addEventListener('click', () => back(it));
    return [i ? ', ' : 'of ', link];
  });
  byId('messages-of').replaceChildren(...links, more > 0 ? ` and ${more.toLocaleString('en')} more` : '');
});
