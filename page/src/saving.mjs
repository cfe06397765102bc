// SPDX-License-Identifier: Apache-2.0
// What is shown, as files and as a link.
import { linkOf, MOST_LINKED, MOST_PACKETS, pcapOf } from './copies.mjs';
import { bytesOf } from './fields.mjs';
import { KINDS } from './keys.mjs';
import { change, state, watch } from './state.mjs';
import { byId, copy, counted, save } from './text.mjs';

/** The name of a file of what is shown of a capture, which isn't that of the capture.
    @param {string} name
    @param {string} ending */
function nameOf(name, ending) {
  const own = name.replace(/\.gz$/i, '').replace(/\.(pcap|pcapng|cap|txt|log|json|jsonl)$/i, '').replace(/[^\w.-]+/g, '-').slice(0, 60);
  return `${own || 'capture'}.shown.${ending}`;
}

/** What is saved: what the filter passes, of how many packets.
    @param {State} state */
function savedText({ store, passed }) {
  const rows = store.count - store.packets ? passed.filter(it => store.isPacket(it)).length : passed.length;
  const all = counted(store.packets, 'packet');
  return rows < store.packets ? `${rows.toLocaleString('en')} of ${all}, those that the filter passes` : all;
}

/** Of which rows it was said.
    @type {number[] | undefined} */
let said;
watch(it => {
  if (!it.store.isAtEnd || it.passed === said)
    return;
  said = it.passed;
  byId('save-json').title = `${savedText(it)}: a line of JSON for each, as sctp_dump prints it.`;
  byId('save-pcap').title = `${savedText(it)}: without addresses, and whatever else was below SCTP.`;
});

byId('save-json').addEventListener('click', async () => {
  const { store, passed, name } = state, parts = [];
  // (in Blobs, so that memory holds few of the lines)
  for (let i = 0; i < passed.length; i += 1000)
    parts.push(new Blob((await store.lines(passed.slice(i, i + 1000))).flatMap(it => [it, '\n'])));
  save(nameOf(name, 'jsonl'), 'application/jsonl', ...parts);
});
byId('save-pcap').addEventListener('click', async () => {
  const { store, passed } = state, all = passed.filter(it => store.isPacket(it)), rows = all.slice(0, MOST_PACKETS), packets = [];
  for (let i = 0; i < rows.length; i += 1000) {
    const part = rows.slice(i, i + 1000);
    (await store.objects(part)).forEach((it, at) => packets.push({ ...store.at(part[at]), bytes: bytesOf(it.bytes) }));
  }
  save(nameOf(state.name, 'pcap'), 'application/vnd.tcpdump.pcap', pcapOf(packets));
  const saved = rows.length < all.length
    ? `The first ${rows.length.toLocaleString('en')} of ${counted(all.length, 'packet')} were saved.` : `${counted(rows.length, 'packet')} saved`;
  if (store === state.store)
    change({ saved });
});

/** What is shown as a link, or undefined if it doesn't fit one. */
async function linkOfShown({ store, passed }) {
  const rows = passed.filter(it => store.isPacket(it)), isWhole = rows.every(it => KINDS[store.columns.kind[it]] !== 'cut');
  if (isWhole && rows.length <= MOST_LINKED)
    return linkOf(location.href, ...(await store.objects(rows)).map(it => bytesOf(it.bytes)));
}
byId('copy-shown').addEventListener('click', async () => {
  const link = await linkOfShown(state);
  change({ saved: !link ? 'What is shown doesn’t fit a link: filter it.' : await copy(link) ? 'Copied.' : 'The browser doesn’t allow to copy.' });
});
