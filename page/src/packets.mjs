// SPDX-License-Identifier: Apache-2.0
// The view of the packets: their list.
import { drawPacket, legendOf } from './list.mjs';
import { showDetails } from './split.mjs';
import { change, state, watch } from './state.mjs';
import { byId } from './text.mjs';
import { VirtualList } from './virtual.mjs';

const list = new VirtualList(byId('list'), {
  draw: index => drawPacket(state.store, state.passed[index], state.clock),
  select: index => {
    change({ row: state.passed[index] });
    showDetails();
  },
  press: key => key === 'Enter' && (byId('tree').focus(), true),
});

/** @type {Partial<State>} */
let drawn = {};

watch(({ passed, row, clock, view }) => {
  const isOther = passed !== drawn.passed || clock !== drawn.clock, isSeen = view === 'packets', current = row === undefined ? -1 : passed.indexOf(row);
  if (isOther)
    list.setCurrent(-1);
  if (isOther || passed.length !== list.count)
    list.show(passed.length, !isOther);
  const isMoved = current !== list.current;
  if (isMoved)
    list.setCurrent(current, false);
  if (isSeen && current >= 0 && (isMoved || drawn.view !== view))
    list.reveal(current, true);
  drawn = { passed, clock, view };
});

byId('clock').addEventListener('change', () => change({ clock: /** @type {State['clock']} */ (byId('clock').value) }));
watch(({ clock }) => byId('clock').value = clock);
byId('signs').append(...legendOf());
