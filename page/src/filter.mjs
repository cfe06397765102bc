// SPDX-License-Identifier: Apache-2.0
// The filter's syntax: words, of which all have to hold. `-` before a word negates it, commas separate alternatives, and a
// value that has blanks or commas is between quotation marks. What was skipped passes only where it is asked for.
import { KINDS, MOST_TEXT } from './keys.mjs';
import { MARK_TEXTS } from './list.mjs';
import { missingBefore } from './ties.mjs';

export { SYNTAX, filterOf, strangeWords, FOUND };

/** What the page says about the syntax. */
const SYNTAX = [
  ['chunk:SACK', 'a chunk by its name (chunk:init-ack) or its type (chunk:3); the name alone does too'],
  ['port:5000', 'either port; also source: and destination:'],
  ['tag:0x1a2b3c4d', 'the verification tag'],
  ['address:10.0.0.1', 'either address begins so'],
  ['stream:1', 'DATA on a stream'],
  ['ppid:51', 'DATA with a payload protocol, by its number or a part of its name (ppid:dcep)'],
  ['tsn:100-120', 'DATA by TSN, and DATA before which one is missing, or a FORWARD-TSN by the TSN that it skips to; ack:100 is a SACK’s cumulative TSN'],
  ['text:"any body"', `a message of text, by a part of the packet’s first ${MOST_TEXT} characters of text`],
  ['message:open', 'a message of DCEP, by its number or a part of its name; label:chat is an OPEN by a part of its label'],
  ['packet:10-20', 'packets by number; also length:'],
  ['length:>100', 'numbers are also from one on (5-), or by <, <=, > and >='],
  ['time:1.5-2', 'seconds since the first packet'],
  ['silence:>0.5', 'seconds since the packet before it in its association'],
  ['association:1', 'packets of an association'],
  ['refused', 'also accepted, cut, and skipped; only skipped shows what holds no packet'],
  ['wrong', 'the checksum is wrong; also zero'],
  ['repeated', 'a TSN that was sent before; late: one that fills a gap; jump: TSNs are missing before it'],
  ['gaps', 'a SACK with gap blocks'],
  ['warned', 'a rule of the RFCs is broken; also incoming, outgoing'],
  ['"sent again"', 'what a mark or a button says is the same as its word: "gap before" is jump'],
  ['-chunk:DATA,SACK', 'none of these'],
];

/** Words for what a packet can have. */
const HAS = ['wrong', 'zero', 'incoming', 'outgoing', 'repeated', 'late', 'jump', 'gaps', 'warned'];

const plain = text => text.toLowerCase().replace(/[^a-z0-9]/g, '');
const isNamed = (names, text) => names.some(it => plain(it) === plain(text));

const INTEGER = /^(0x[0-9a-f]+|\d+)$/, DECIMAL = /^\d+(\.\d+)?$/;
const COMPARE = {
  '<': bound => it => it < bound, '<=': bound => it => it <= bound, '>': bound => it => it > bound, '>=': bound => it => it >= bound,
};

/** A test of numbers by `5`, `0x5`, `5-9`, `5-`, or `>5` and its like; undefined if it is none of these. */
function numberTest(text, form = INTEGER) {
  const numberOf = it => form.test(it) ? Number(it) : NaN, [, sign, bound] = /^([<>]=?)(.*)$/.exec(text) ?? [];
  if (sign)
    return Number.isNaN(numberOf(bound)) ? undefined : COMPARE[sign](numberOf(bound));
  const [from, to = from, ...rest] = text.split('-'), least = numberOf(from), most = to ? numberOf(to) : Infinity;
  if (!rest.length && !Number.isNaN(least + most))
    return it => it >= least && it <= most;
}

/** A test of rows by something that many share, a column's flow or summary: each is asked once. */
function shared(column, list, isMet) {
  return store => {
    const answers = [];
    return row => {
      const number = store.columns[column][row];
      return answers[number] ??= isMet(store[list][number]);
    };
  };
}

const byFlow = isMet => shared('flow', 'flows', isMet);
const bySummary = isMet => shared('summary', 'summaries', isMet);
const byRow = isMet => store => row => store.isPacket(row) && isMet(store, row);

/** More of the TSNs that are missing before a packet aren't found. */
const MOST_MISSING = 2048;
/** What was sent before, for TSNs of which the program says that they weren't. */
const NOTHING_SENT = [new Map()];

/** The TSNs of a row's DATA, and those that are missing before it.
    @param {import('./store.mjs').Store} store
    @param {number} row */
function tsnsAt(store, row) {
  const tsns = store.tsns(row), { missing } = store.summaries[store.columns.summary[row]];
  return missing ? [...tsns, ...missingBefore(store, NOTHING_SENT, () => 0, row, Math.min(missing, MOST_MISSING))] : tsns;
}

/** The tests by `KEY:VALUE`, each of the value as a test of numbers and as text; those of numbers alone come first. */
const NUMBERS = {
  port: number => byFlow(it => number(it.source) || number(it.destination)),
  source: number => byFlow(it => number(it.source)),
  destination: number => byFlow(it => number(it.destination)),
  tag: number => byFlow(it => number(it.tag)),
  stream: number => bySummary(it => it.streams.some(number)),
  packet: number => byRow((store, row) => number(store.columns.number[row])),
  length: number => byRow((store, row) => number(store.columns.length[row])),
  tsn: number => byRow((store, row) => store.has(row, 'data') && tsnsAt(store, row).some(number) || number(store.forward(row))),
  ack: number => byRow((store, row) => store.has(row, 'sack') && number(store.columns.ack[row])),
  association: number => byRow(({ columns }, row) => columns.association[row] > 0 && number(columns.association[row])),
};
/** A test by a number, or else by a part of a name. */
const numberOrName = (number, text, [its, name]) => number ? number(its) : plain(name).includes(plain(text));
const TEXTS = {
  address: (_, text) => byFlow(it => [it.from, it.to].some(address => address?.toLowerCase().startsWith(text))),
  chunk: (number, text) => plain(text) && bySummary(it => number ? it.types.some(number) : isNamed(it.names, text)),
  ppid: (number, text) => plain(text) && bySummary(it => it.ppids.some(its => numberOrName(number, text, its))),
  message: (number, text) => plain(text) && bySummary(it => it.messages.some(its => numberOrName(number, text, its))),
  label: (_, text) => bySummary(it => it.labels.some(label => label.toLowerCase().includes(text))),
  text: (_, text) => byRow((store, row) => store.texts[row].includes(text)),
  time: (_, text) => {
    const number = numberTest(text, DECIMAL);
    return number && byRow((store, row) => number(store.since(row) / 1e9));
  },
  silence: (_, text) => {
    const number = numberTest(text, DECIMAL);
    return number && byRow((store, row) => number(store.silence(row) / 1e9));
  },
};
const KEYS = [...Object.keys(NUMBERS), ...Object.keys(TEXTS)];

/** The test of a word without its `-`; undefined if it is none.
    @param {string} word */
function wordTest(word) {
  if (KINDS.includes(word))
    return store => row => KINDS[store.columns.kind[row]] === word;
  if (HAS.includes(word))
    return store => row => store.has(row, word);
  const [, key, text] = /^([a-z]+):(.+)$/.exec(word) ?? ['', 'chunk', /^[a-z]/.test(word) ? word : ''];
  const number = numberTest(text);
  if (Object.hasOwn(NUMBERS, key))
    return number && NUMBERS[key](number);
  if (Object.hasOwn(TEXTS, key) && text)
    return TEXTS[key](number, text) || undefined;
}

/** The words of a text, or a word's alternatives: what is between quotation marks is a part of one. */
const wordsIn = text => text.match(/(?:"[^"]*"?|[^\s"])+/g) ?? [];
const alternativesIn = text => text.match(/(?:"[^"]*"?|[^,"])+/g) ?? [];

/** Reads a filter. Returns `test`, from a store to a test of its rows; `unknown`, the words that are none; and `names`, those
    that can be a chunk's name alone. */
function filterOf(text) {
  const tests = [], unknown = [], names = [];
  let asksSkipped = false;
  for (const whole of wordsIn(text.toLowerCase())) {
    const isNegated = whole.length > 1 && whole.startsWith('-');
    const [, key = '', values = ''] = /^([a-z]+:)?(.*)$/.exec(isNegated ? whole.slice(1) : whole) ?? [];
    const words = alternativesIn(values).map(it => key + it.replaceAll('"', '')).map(it => BY_TEXT.get(it) ?? it), any = words.map(wordTest);
    if (!any.length || any.includes(undefined))
      unknown.push(whole);
    else
      tests.push({ any, isNegated });
    asksSkipped ||= !isNegated && words.includes('skipped');
    if (!key)
      names.push(...words.filter(it => !KINDS.includes(it) && !HAS.includes(it) && !unknown.includes(it)));
  }
  return {
    unknown,
    names,
    test(store) {
      const made = tests.map(({ any, isNegated }) => ({ any: any.map(it => it(store)), isNegated }));
      return row => (asksSkipped || KINDS[store.columns.kind[row]] !== 'skipped') &&
        made.every(({ any, isNegated }) => any.some(it => it(row)) !== isNegated);
    },
  };
}

/** The words of a filter that mean nothing, each with those that are known near it: of one that passes no row, also those
    that no chunk has as its name. */
function strangeWords(store, { unknown, names }, passed) {
  const known = passed && !unknown.length ? [] : [...new Set(store.summaries.flatMap(it => it.names))];
  const strange = passed ? [] : names.filter(it => !isNamed(known, it));
  const nameWords = known.map(it => it.toLowerCase().replace(/[^a-z0-9]+/g, '-'));
  return [...unknown, ...strange].map(it => {
    const word = it.replace(/^-/, '');
    return word ? `${it} (${nearWords(word, nameWords)})` : it;
  });
}

/** What is known near a word that isn't: how the values of its key are, or words that are spelt nearly alike.
    @param {string} word */
function nearWords(word, names) {
  const [, key, value] = /^([a-z]+):(.*)$/.exec(word) ?? [];
  if (Object.hasOwn(NUMBERS, key ?? ''))
    return `${key}: takes a number, as 5, 5-9, 5- or >5`;
  if (KEYS.includes(key))
    return `${key}: takes ${['time', 'silence'].includes(key) ? 'seconds, as 1.5-2' : 'a name or a text'}`;
  const near = (key === undefined ? [...KINDS, ...HAS, ...names] : KEYS).filter(it => isNear(key ?? word, it)).slice(0, 3);
  if (near.length)
    return `near it: ${near.map(it => key === undefined ? it : `${it}:${value}`).join(', ')}`;
  return key === undefined ? `as a text: text:${word}` : `known: ${KEYS.map(it => `${it}:`).join(' ')}`;
}

/** Whether a word is the beginning of another, has its letters in another order, or becomes it by at most two edits (one, if
    it is short).
    @param {string} word
    @param {string} other */
function isNear(word, other) {
  const lettersOf = it => [...it].sort().join('');
  let row = Array.from({ length: other.length + 1 }, (_, i) => i);
  [...word.slice(0, 30)].forEach((letter, i) => {
    const next = [i + 1];
    for (let k = 0; k < other.length; k++)
      next.push(Math.min(row[k + 1] + 1, next[k] + 1, row[k] + (letter === other[k] ? 0 : 1)));
    row = next;
  });
  return row[other.length] <= (word.length > 4 ? 2 : 1) || lettersOf(word) === lettersOf(other) || word.length > 1 && other.startsWith(word);
}

/** What was found, each with the filter that shows it alone.
    @type {[string, [string, string], (store: import('./store.mjs').Store) => number][]} */
const FOUND = [
  ['refused', ['refused', 'refused'], ({ kinds }) => kinds[1]],
  ['cut', ['cut off', 'cut off'], ({ kinds }) => kinds[2]],
  ['wrong', ['wrong checksum', 'wrong checksums'], ({ flags }) => flags.wrong],
  ['repeated', ['sent again', 'sent again'], ({ flags }) => flags.repeated],
  ['late', ['filled a gap', 'filled a gap'], ({ flags }) => flags.late],
  ['jump', ['gap before', 'gaps before'], ({ flags }) => flags.jump],
  ['gaps', ['SACK with gaps', 'SACKs with gaps'], ({ flags }) => flags.gaps],
  ['warned', ['with a warning', 'with warnings'], ({ flags }) => flags.warned],
  ['skipped', ['skipped', 'skipped'], ({ kinds }) => kinds[3]],
];

/** The words for what marks and buttons say.
    @type {Map<string, string>} */
const BY_TEXT = new Map(MARK_TEXTS);
for (const [word, texts] of FOUND)
  texts.forEach(it => BY_TEXT.set(it.toLowerCase(), word));
