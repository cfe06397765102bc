// SPDX-License-Identifier: Apache-2.0
// What the table of associations has to say: by the head of a column, the key of docs/DUMP.md and its unit.
import assert from 'node:assert/strict';

/** Of each end: the value of a key; a trip is in ms. */
const ENDS = {
  'Packets': [1, it => it.packets], 'DATA': [1, it => it.data], 'Bytes': [1, it => it.bytes],
  'Sent again': [1, it => it.repeated], 'Missing': [1, it => it.missing], 'Gap SACKs': [1, it => it.sacks_with_gaps],
  'Refused': [1, it => it.refused], 'Median trip': [1000, it => it.round_trip?.median],
};

/** Compares a row's cells, texts by their heads, with the association that the program printed. */
export function compareRow(cells, association) {
  const { ends, began, midway, ended } = association;
  for (const [head, [factor, of]] of Object.entries(ENDS)) {
    const units = { kB: 1e3, MB: 1e6, GB: 1e9 };
    const shown = cells[head].map(it => it === '–' ? undefined
      : parseFloat(it.replaceAll(',', '')) * (units[it.split(' ')[1]] ?? 1));
    // (a trip has one decimal, and bytes have one of their unit)
    const unit = it => head === 'Bytes' && it ? 1000 ** Math.floor(Math.log10(it) / 3) : 1;
    const isSame = (it, i) => it === undefined ? shown[i] === it : Math.abs(shown[i] - factor * it) < 0.051 * unit(it);
    assert.ok(shown.length === 2 && ends.map(of).every(isSame), `${head}: ${cells[head]}`);
  }
  const place = ({ addresses, port }) =>
    addresses.map(it => `${it.includes(':') ? `[${it}]` : it}:${port}`).join(' ') || String(port);
  const event = it => it ? [`${it.packet} ${it.chunk}`, ...it.file ? [`of ${it.file}`] : []] : ['–'];
  assert.deepEqual(cells['No.'], [String(association.association)]);
  assert.deepEqual(cells.Ends, ends.map(place));
  assert.deepEqual(cells.Began, midway ? ['midway', ...event(began).slice(1)] : event(began));
  assert.deepEqual(cells.Ended, event(ended));
}
