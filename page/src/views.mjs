// SPDX-License-Identifier: Apache-2.0
// The start, or else one of the views of what is open, each with its tab.
import { Associations } from './associations.mjs';
import { openMessage } from './carried.mjs';
import { channelFilter, Channels } from './channels.mjs';
import { Diagram } from './diagram.mjs';
import { filterBy } from './filtering.mjs';
import { Messages } from './messages.mjs';
import { common } from './scale.mjs';
import { addSplit } from './split.mjs';
import { change, state, watch } from './state.mjs';
import { storyLine } from './story.mjs';
import { byId } from './text.mjs';

export { select };

/** @type {View[]} */
const VIEWS = ['packets', 'associations', 'channels', 'messages', 'diagram'];

/** Shows a view; the diagram is that of the chosen packet.
    @param {View} view */
function select(view) {
  const { store, row, association } = state;
  const own = view === 'diagram' && row !== undefined ? store.associationOf(row) : undefined;
  change({ view, association: own ?? association });
}

/** Draws an association, and chooses its first packet that the filter passes, if none of its packets is chosen.
    @param {Association} association */
function draw(association) {
  const { store, row, passed } = state, isOfIt = row !== undefined && store.associationOf(row) === association;
  const { rows } = store.rowsOf(association);
  change({ view: 'diagram', association, row: isOfIt ? row : common(rows, passed)[0] ?? rows[0] });
}

/** Chooses a packet of the list, by its number and the name of its file if there are several.
    @param {AssociationEvent} event */
function goTo({ packet, file }) {
  const { store, passed, filterText } = state, row = store.rowOf(packet, file);
  if (row >= 0)
    change({ view: 'packets', row, filterText: passed.includes(row) ? filterText : '' });
}

const associations = new Associations({ select: association => change({ association }), open: draw, go: goTo });
const channels = new Channels({ select: channel => change({ channel }), open: it => filterBy(channelFilter(it)), go: goTo });
const messages = new Messages({ select: message => change({ message }), open: openMessage, go: goTo });
const diagram = new Diagram({ select: row => change({ row }), open: draw, clear: () => filterBy('') });
watch(it => associations.render(it));
watch(it => channels.render(it));
watch(it => messages.render(it));
// (there the packet before is the arrow above)
watch(it => diagram.render(it.clock === 'previous' ? { ...it, clock: 'since' } : it));

byId('show-packets').addEventListener('click', () => {
  if (state.association)
    filterBy(`association:${state.association.association}`);
});
byId('show-diagram').addEventListener('click', () => state.association && draw(state.association));

watch(({ isOffered, store, view, passed, filterText }) => {
  const isNone = store.isAtEnd && !store.packets, isEmpty = !passed.length && (isNone || filterText.trim() !== '');
  byId('start').hidden = !isOffered;
  byId('work').hidden = isOffered;
  for (const it of VIEWS) {
    byId(it).hidden = it !== view;
    byId(`tab-${it}`).setAttribute('aria-selected', it === view);
    byId(`tab-${it}`).tabIndex = it === view ? 0 : -1;
  }
  for (const it of ['associations', 'channels', 'messages', 'diagram'])
    byId(`tab-${it}`).hidden = isNone;
  byId('filters').hidden = !['packets', 'diagram'].includes(view);
  byId('saves').hidden = view === 'diagram';
  byId('details').hidden = isEmpty && view === 'packets';
});

/** Of which store the line above the list says what happened. */
/** @type {import('./store.mjs').Store} */
let told;
watch(({ store }) => {
  const isRead = store.isAtEnd && store.packets > 0;
  byId('story').hidden = !isRead;
  if (isRead && store !== told) {
    told = store;
    byId('story').replaceChildren(...storyLine(store, ({ filter, view, ...packet }) =>
      view ? select(view) : filter ? filterBy(filter) : goTo(packet)));
  }
});

for (const view of VIEWS) {
  byId(`tab-${view}`).addEventListener('click', () => select(view));
  byId(`tab-${view}`).addEventListener('keydown', event => {
    const step = { ArrowRight: 1, ArrowLeft: -1 }[event.key];
    if (step) {
      const to = VIEWS[(VIEWS.indexOf(view) + step + VIEWS.length) % VIEWS.length];
      select(to);
      byId(`tab-${to}`).focus();
    }
  });
}

addSplit();
