// SPDX-License-Identifier: Apache-2.0
// The filter's field, what it passes, and the buttons for what was found.
import { answered, reasonOf } from './answer.mjs';
import { FOUND, strangeWords, SYNTAX } from './filter.mjs';
import { change, state, watch } from './state.mjs';
import { byId, counted, element, shown } from './text.mjs';
import { MEANINGS } from './words.mjs';

export { filterBy, home };

/** Shows the packets that pass a filter: in the diagram, if that is shown, or in the list.
    @param {string} text */
function filterBy(text) {
  change({ filterText: text, view: state.view === 'diagram' ? 'diagram' : 'packets', saved: '' });
}

/** Where one of them is chosen. */
const home = () => byId(state.view === 'diagram' ? 'drawing' : 'list');

// ---- the field

let typed;

function apply() {
  clearTimeout(typed);
  change({ filterText: byId('filter').value, saved: '' });
  document.body.dataset.filter = state.filterText;
}

byId('filter').addEventListener('input', () => {
  clearTimeout(typed);
  typed = setTimeout(apply, state.store.count > 50000 ? 250 : 40);
});
byId('filter').addEventListener('keydown', event => {
  if (event.key === 'Enter' || event.key === 'ArrowDown') {
    event.preventDefault();
    apply();
    home().focus();
  }
});
byId('syntax').append(...SYNTAX.flatMap(([word, meaning]) => {
  const button = element('button', '', word);
  button.addEventListener('click', () => filterBy(`${byId('filter').value} ${word}`.trim()));
  return [element('dt', '', button), element('dd', '', meaning)];
}));
byId('syntax-button').addEventListener('click', () => {
  byId('syntax').hidden = !byId('syntax').hidden;
  byId('syntax-button').setAttribute('aria-expanded', !byId('syntax').hidden);
});
// (where there is little room, the buttons beside the field are folded)
byId('more').addEventListener('click', () => byId('more').setAttribute('aria-expanded', byId('tools').classList.toggle('open')));

/** The filter that the field was given: what is typed after that stays, until it is applied. */
let given = '';
watch(({ filterText }) => {
  if (filterText !== given) {
    given = filterText;
    clearTimeout(typed);
    if (byId('filter').value !== filterText)
      byId('filter').value = filterText;
  }
});

// ---- what it passes, and what was found

/** A button for each thing that was found. */
const COUNTS = FOUND.map(([word, texts, count]) => {
  const button = element('button');
  button.title = MEANINGS[word];
  button.addEventListener('click', () => filterBy(state.filterText === word ? '' : word));
  byId('counts').append(button);
  return { button, word, texts, count };
});

watch(({ store, filter, filterText, passed, saved }) => {
  const isFiltered = filterText.trim() !== '', strange = strangeWords(store, filter, passed.length);
  const found = saved || (isFiltered ? `${passed.length.toLocaleString('en')} of ${counted(store.count, 'row')}` : '');
  byId('found').textContent = strange.length ? `not known: ${shown(strange.join('; '), 160)}` : found;
  for (const id of ['filter', 'found'])
    byId(id).classList.toggle('bad', strange.length > 0);
  for (const { button, word, texts, count } of COUNTS) {
    button.hidden = !count(store);
    button.textContent = counted(count(store), ...texts);
    button.setAttribute('aria-pressed', filterText === word);
  }
});

// ---- in the place of the list, why nothing is in it: the filter passes nothing, or there is no packet

let answer;

watch(({ store, filterText, passed }) => {
  const isFiltered = filterText.trim() !== '', isBare = store.isAtEnd && !store.packets && !(isFiltered && passed.length);
  const isEmpty = isBare || isFiltered && !passed.length;
  byId('answer').hidden = !isEmpty;
  byId('list').hidden = byId('heads').hidden = isEmpty;
  byId('tools').hidden = isBare;
  const wanted = isBare ? store : isEmpty ? 'filter' : undefined;
  if (wanted === undefined || wanted === answer) {
    answer = wanted;
    return;
  }
  answer = wanted;
  const button = element('button', '', isBare ? 'Open another file' : 'Clear it');
  button.addEventListener('click', () => isBare ? change({ isOffered: true }) : filterBy(''));
  const said = isBare ? answered(reasonOf(store)) : [element('h2', '', 'No row passes the filter')];
  byId('answer').replaceChildren(...said, element('p', '', button));
});
