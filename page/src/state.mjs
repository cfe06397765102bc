// SPDX-License-Identifier: Apache-2.0
// What the page shows: all of it is here. Views draw it, and keep nothing else; what a user does and what the Worker posts
// changes it by `change`, which draws all views.
import { filterOf } from './filter.mjs';
import { Store } from './store.mjs';

export { NOTHING, state, watch, change };

/** Nothing, in the place of a packet's fields.
    @type {State['shown']} */
const NOTHING = { object: {} };

/** @type {State} */
const state = {
  /** The start is shown, where a capture is opened, in place of the one that is open. */
  isOffered: true,
  /** What is wrong at the start: the id of the sentence that says it. */
  problem: '',

  /** What is open, its name, and how many bytes it has; the Worker that reads it, and after that how long it took. */
  store: new Store(),
  name: '',
  size: 0,
  worker: undefined,
  seconds: undefined,

  view: 'packets',
  /** Times are since the first one, since the previous packet of the association, or by UTC. */
  clock: 'since',
  /** The filter as it was typed, and as it was read; the rows that it passes. */
  filterText: '',
  filter: filterOf(''),
  passed: [],

  /** What is chosen. */
  row: undefined,
  association: undefined,
  channel: undefined,
  message: undefined,
  /** Whose fields are shown: the object of a row's line, or an association, a channel or a message, which has no row. */
  shown: NOTHING,
  /** What was saved, in words. */
  saved: '',
};

/** @type {((state: State) => void)[]} */
const views = [];

/** Has a view drawn after each change: a function that is given the state. It changes nothing itself.
    @param {(state: State) => void} view */
function watch(view) {
  views.push(view);
}

/** Changes the state, and draws it.
    @param {Partial<State>} [part] */
function change(part) {
  Object.assign(state, part);
  passRows();
  for (const view of views)
    view(state);
}

/** What the rows that passed were passed of: a store, which is read or not, and a filter.
    @type {{ store?: Store, filterText?: string, isAtEnd?: boolean }} */
let asked = {};
let test = state.filter.test(state.store), seen = 0;

/** Passes the rows that came since. What isn't passed doesn't stay chosen, and something is, if there is something. */
function passRows() {
  const { store, filterText, row } = state;
  const isOther = asked.store !== store || asked.filterText !== filterText || asked.isAtEnd !== store.isAtEnd;
  if (isOther) {
    asked = { store, filterText, isAtEnd: store.isAtEnd };
    state.filter = filterOf(filterText);
    test = state.filter.test(store);
    [state.passed, seen] = [[], 0];
  }
  const { passed } = state;
  for (; seen < store.count; seen++) {
    if (test(seen))
      passed.push(seen);
  }
  if (row === undefined || isOther && !passed.includes(row))
    state.row = passed.find(it => store.isPacket(it)) ?? passed[0];
}
