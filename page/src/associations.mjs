// SPDX-License-Identifier: Apache-2.0
// The associations as a table.
import { durationText } from './scale.mjs';
import { addresses, amount, bytes, column, packetLink, place, Table } from './table.mjs';
import { byId } from './text.mjs';
import { COLUMN_MEANINGS } from './words.mjs';

export { Associations };

const trip = it => typeof it === 'number' ? `${(1000 * it).toFixed(1)} ms` : '–';
/** A packet and its chunk, or why there is none. */
const event = (it, none, text = [it?.packet, it?.chunk].filter(part => part).join(' ')) =>
  it ? [packetLink(it, text), ...it.file === undefined ? [] : [[`of ${it.file}`]]] : [['–', none]];
const silenceLine = it => it ? packetLink(it, durationText(it.nanos)) : ['–', 'No two packets have a time.'];

/** The columns; `silences` has the longest silence of each association by its number.
    @param {Map<number, Silence> | undefined} silences */
const columnsOf = silences => [
  ['No.', 'number', it => [[it.association]], it => it.association],
  ['Ends', 'pair', ({ ends }) => ends.map(it => [addresses(it)]), ({ ends }) => ends.map(addresses).join(' ')],
  column('Packets', it => it.packets),
  column('DATA', it => it.data),
  column('Bytes', it => it.bytes, bytes),
  column('Sent again', it => it.repeated),
  column('Missing', it => it.missing),
  column('Refused', it => it.refused),
  column('Gap SACKs', it => it.sacks_with_gaps),
  column('Median trip', it => it.round_trip?.median, trip),
  ['Silence', 'amount', it => [silenceLine(silences?.get(it.association))], it => silences?.get(it.association)?.nanos],
  ['Began', '', it => event(it.began, 'No beginning was captured.', it.midway ? 'midway' : undefined), it => place(it.began)],
  ['Ended', '', it => event(it.ended, 'No end was captured.'), it => place(it.ended)],
];

class Associations extends Table {
  classes = 'association';
  /** @type {Map<number, Silence> | undefined} */
  silences;

  get columns() {
    return columnsOf(this.silences);
  }

  constructor(actions) {
    super('association', COLUMN_MEANINGS, actions);
  }

  /** Shows the associations of what is open, once it was read, and which is chosen.
      @param {State} state */
  render({ store, association }) {
    this.update(store, association, () => {
      this.silences = store.isAtEnd ? store.silences() : undefined;
      this.show(store.isAtEnd ? store.associations : [], store.isStopped);
    });
  }

  /** Shows associations, and why their cells are empty if they are.
      @param {Association[]} list
      @param {boolean} isStopped */
  show(list, isStopped) {
    byId('uncounted').hidden = !list.length || list.some(({ ends }) => ends.some(it => it.packets !== undefined));
    byId('uncounted').textContent = isStopped
      ? 'The reading was stopped. What each end sent is counted only where a capture is read to its end.'
      : 'These lines hold no associations. sctp_dump prints what each end sent with --associations.';
    this.arrange(list);
  }
}
