// SPDX-License-Identifier: Apache-2.0
// What happened in a capture, in one line: its associations, how the first of them began and ended, what was sent again or never
// seen, and what was refused. Each part leads to what it says.
import { counted, element, shown } from './text.mjs';

export { storyOf, storyLine };

/** A span in seconds, with two or three digits. */
function spanText(seconds) {
  const ms = 1000 * seconds;
  return seconds >= 10 ? `${seconds.toFixed(1)} s` : `${ms < 10 ? ms.toFixed(1) : Math.round(ms).toLocaleString('en')} ms`;
}

const packetOf = ({ packet, file }) => ({ packet, file });
/** A part that shows what a filter passes, if there is something.
    @param {number} count */
const shownBy = (count, filter, text) => count > 0 ? [[text(count), { filter }]] : [];
/** How many of the associations after the first have something; those are in the table. */
const others = (rest, test, text) => shownBy(rest.filter(test).length, '', text).map(([said]) => [said, { view: 'associations' }]);

/** How an association began and ended. */
function associationParts({ midway, began, established, ended }, isFirst) {
  const parts = [], the = isFirst ? 'the first ' : '';
  if (midway && began)
    parts.push([`${the}seen from its midst on`, packetOf(began)]);
  else if (established)
    parts.push([`${the}up${typeof established.after === 'number' ? ` after ${spanText(established.after)}` : ''}`, packetOf(established)]);
  else if (began)
    parts.push([`${the}never up`, packetOf(began)]);
  if (ended)
    parts.push([`${ended.chunk === 'ABORT' ? 'aborted' : 'shut down'}${ended.cause_name ? `: ${shown(ended.cause_name, 40)}` : ''}`, packetOf(ended)]);
  return parts;
}

/** So many DATA sent again don't make one wonder yet. */
const FEW = 10;

/** The first association most of whose TSNs were sent again: captures of the same packets may overlap. */
function twiceIn(associations) {
  const sum = (ends, key) => ends.reduce((all, it) => all + (it[key] ?? 0), 0);
  return associations.find(({ ends }) => sum(ends, 'repeated') > FEW && 2 * sum(ends, 'repeated') > sum(ends, 'data') - sum(ends, 'repeated'));
}

/** The story as clauses of parts: each a text and what it leads to, a `filter`, a `packet` (of a `file`) or a `view`. */
function storyOf({ associations, flags, kinds, columns, notes }) {
  const sum = of => associations.reduce((all, { ends }) => all + ends.reduce((both, it) => both + (of(it) ?? 0), 0), 0);
  const [first, ...rest] = associations, isCounted = associations.some(({ ends }) => ends.some(it => it.packets !== undefined));
  const twice = twiceIn(associations);
  const again = [...shownBy(flags.repeated, 'repeated', it => `${isCounted ? sum(its => its.repeated) : it} sent again`),
    ...twice ? [[`most of association ${twice.association}: are these the same packets twice?`, { filter: `repeated association:${twice.association}` }]] : [],
    ...shownBy(sum(it => it.missing), 'jump', it => `${it.toLocaleString('en')} never seen`)];
  const refused = columns.kind.findIndex(it => it === 1), reason = shown(notes[columns.note[refused]] ?? '', 100);
  return [
    first ? [[counted(associations.length, 'association'), { view: 'associations' }]] : [],
    first ? associationParts(first, rest.length > 0) : [],
    [...others(rest, it => it.began && !it.midway && !it.established, it => `${it} more never up`),
      ...others(rest, it => it.ended?.chunk === 'ABORT', it => `${it} more aborted`)],
    [...shownBy(flags.data, 'chunk:data,i-data', it => isCounted ? `${sum(its => its.data).toLocaleString('en')} DATA` : `${counted(it, 'packet')} with DATA`),
      ...again],
    shownBy(kinds[1], 'refused', it => `${counted(it, 'packet')} refused${it > 1 ? ', the first' : ''}: ${reason}`),
  ].filter(it => it.length);
}

/** The story as parts of an element: each part is a button, `go` goes to what it leads to.
    @param {import('./store.mjs').Store} store
    @param {(to: AssociationEvent & { view?: View, filter?: string }) => void} go */
function storyLine(store, go) {
  return storyOf(store).flatMap((clause, i) => clause.flatMap(([text, to], k) => {
    const button = element('button', 'link', text);
    button.addEventListener('click', () => go(to));
    return [i + k === 0 ? '' : k ? ', ' : '; ', button];
  }));
}
