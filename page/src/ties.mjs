// SPDX-License-Identifier: Apache-2.0
// What packets of an association have to do with each other: which was sent first, what is acknowledged, and what is missing.
import { isNumber } from './keys.mjs';

export { firstSendings, repeatsOf, acknowledgedBy, missingBefore, bringersOf };

/** So many ranges of TSNs are looked for: a packet of 1,500 bytes has fewer. */
const MOST_RANGES = 400;
/** FORWARD-TSN and I-FORWARD-TSN, and how many of them are read. */
const FORWARDS = [192, 194], MOST_FORWARDS = 200;

/** Of each end the rows in which it sent a TSN first, by the TSNs.
    @param {import('./store.mjs').Store} store
    @param {number[]} rows
    @param {SenderOf} senderOf */
function firstSendings(store, rows, senderOf) {
  const first = [new Map(), new Map()];
  for (const row of rows) {
    if (!store.has(row, 'data'))
      continue;
    const own = first[senderOf(row)];
    for (const tsn of store.tsns(row)) {
      if (!own.has(tsn))
        own.set(tsn, row);
    }
  }
  return first;
}

/** The TSNs of a row that its end had sent before, each with the row where that was first.
    @param {import('./store.mjs').Store} store
    @param {Map<number, number>[]} first
    @param {SenderOf} senderOf
    @param {number} row */
function repeatsOf(store, first, senderOf, row) {
  if (!store.has(row, 'repeated'))
    return [];
  const own = first[senderOf(row)];
  return store.tsns(row).map(tsn => [tsn, own.get(tsn) ?? row]).filter(([, its]) => its < row);
}

/** The TSNs that are missing before a packet's DATA, in descending order: as many as the program says, next below its own, and
    not seen before.
    @param {import('./store.mjs').Store} store
    @param {Map<number, number>[]} first
    @param {SenderOf} senderOf
    @param {number} row
    @param {number} count */
function missingBefore(store, first, senderOf, row, count) {
  const own = first[senderOf(row)], tsns = store.tsns(row).sort((a, b) => b - a | 0), missing = [], [greatest] = tsns;
  for (let i = 1; missing.length < count && i <= count + MOST_RANGES; i++) {
    const tsn = (greatest - i) >>> 0, at = own.get(tsn);
    if (!tsns.includes(tsn) && !(at !== undefined && at < row))
      missing.push(tsn);
  }
  return missing;
}

/** For each of some TSNs that are missing before a row the row that brought it later, or the one whose FORWARD-TSN or
    I-FORWARD-TSN skipped it (RFC 3758 section 3.2); neither, if it was never seen.
    @param {import('./store.mjs').Store} store
    @param {number[]} rows
    @param {Map<number, number>[]} first
    @param {SenderOf} senderOf
    @param {number} row
    @param {number[]} tsns
    @returns {Promise<{ tsn: number, by?: number, isSkipped?: boolean }[]>} */
async function bringersOf(store, rows, first, senderOf, row, tsns) {
  const own = senderOf(row), found = tsns.map(tsn => ({ tsn, by: first[own].get(tsn), isSkipped: false }));
  const isForward = it => it > row && senderOf(it) === own && store.summaries[store.columns.summary[it]].types.some(type => FORWARDS.includes(type));
  const forwards = found.every(it => it.by !== undefined) ? [] : rows.filter(isForward).slice(0, MOST_FORWARDS);
  for (const { by, chunks = [] } of (await store.objects(forwards)).map((it, i) => ({ ...it, by: forwards[i] }))) {
    const to = chunks.filter(it => FORWARDS.includes(it.chunk)).map(it => it.new_cumulative_tsn).filter(isNumber);
    for (const it of found.filter(it => it.by === undefined && to.some(its => (Number(its) - it.tsn | 0) >= 0)))
      Object.assign(it, { by, isSkipped: true });
  }
  return found;
}

/** The rows whose DATA a packet acknowledges: in the blocks of its SACK, or up to its cumulative TSN and beyond that of the
    last SACK of its end. TSNs are serial numbers (RFC 1982).
    @param {import('./store.mjs').Store} store
    @param {number[]} rows
    @param {SenderOf} senderOf
    @param {number} row
    @param {Chunk[]} chunks */
function acknowledgedBy(store, rows, senderOf, row, chunks) {
  const acking = chunks.filter(it => isNumber(it.cumulative_tsn_ack));
  if (!acking.length)
    return [];
  const own = senderOf(row), before = rows.slice(0, rows.indexOf(row));
  const last = before.findLast(it => senderOf(it) === own && store.has(it, 'sack'));
  const ranges = acking.flatMap(({ cumulative_tsn_ack, blocks = [] }) => [
    [last === undefined ? undefined : store.columns.ack[last] + 1, cumulative_tsn_ack],
    ...blocks.map(it => [it.first_tsn, it.last_tsn]).filter(it => it.every(isNumber)),
  ]).slice(0, MOST_RANGES);
  const isIn = tsn => ranges.some(([least, most]) => (least === undefined || (tsn - least | 0) >= 0) && (Number(most) - tsn | 0) >= 0);
  return before.filter(it => senderOf(it) !== own && store.has(it, 'data') && store.tsns(it).some(isIn));
}
