// SPDX-License-Identifier: Apache-2.0
// The user messages as a table: when each was sent, what became of it, and why it took that long.
import { endText } from './list.mjs';
import { durationText } from './scale.mjs';
import { bytes, packetLink, Table } from './table.mjs';
import { byId, counted } from './text.mjs';
import { MESSAGE_MEANINGS } from './words.mjs';

export { Messages, nameOf, countsText };

const ENDS = ['first end', 'second end'];

/** What a message is called beside its packets.
    @type {(message: Message) => string} */
const nameOf = it => `message ${it.message}: ${[`stream ${it.stream}`, numberText(it), sizeText(it)].filter(part => part).join(', ')}`;
/** The number that its stream gives it.
    @type {(message: Message) => string} */
const numberText = ({ ssn, mid, unordered }) =>
  [mid !== undefined ? `mid ${mid}` : ssn !== undefined ? `ssn ${ssn}` : '', unordered ? 'unordered' : ''].filter(it => it).join(', ');
const sizeText = ({ size }) => counted(size, 'byte');
const payloadOf = ({ ppid, ppid_name }) => ppid_name ?? (ppid === undefined ? '–' : `ppid ${ppid}`);
const tsnText = ({ first_tsn, last_tsn }) => first_tsn === last_tsn ? `${first_tsn}` : `${first_tsn}–${last_tsn}`;
/** A time that the program says, in seconds, or nothing. */
const spanText = it => typeof it === 'number' && it >= 0 ? durationText(Math.round(it * 1e9)) : '';

/** What became of a message, and in which packet.
    @param {Message} it */
function fateOf({ acknowledged_packet, acknowledged_file, abandoned_by, abandoned_packet, abandoned_file }) {
  if (acknowledged_packet !== undefined)
    return [['acknowledged'], packetLink({ packet: acknowledged_packet, file: acknowledged_file }, `in ${acknowledged_packet}`)];
  if (abandoned_packet !== undefined)
    return [['abandoned'], packetLink({ packet: abandoned_packet, file: abandoned_file, chunk: abandoned_by }, `in ${abandoned_packet}`)];
  return [['not acknowledged']];
}

/** What is to be said of a message's fragments, and for what it waited, a text for each.
    @param {Message} it */
function remarksOf(it) {
  const { repeated = 0, missing = 0, first_repeated_tsn: again, changed_tsn: changed, waited_for_tsn: awaited, closed_first: first, closed_last: last } = it;
  const after = spanText(it.repeated_after), hole = it.first_missing_tsn ?? it.first_missing_fsn, unseen = it.waited_for_ssn ?? it.waited_for_mid;
  return [[
    repeated > 0 ? `TSN ${again} sent again${after && ` after ${after}`}${repeated > 1 ? `, ${counted(repeated, 'repeat')} in all` : ''}` : '',
    changed !== undefined ? `TSN ${changed} sent again with other bytes` : '',
    missing > 0 ? `${it.first_missing_fsn === undefined ? 'TSN' : 'FSN'} ${hole}${missing > 1 ? ` and ${missing - 1} more` : ''} never seen` : '',
    it.contradictory ? 'fragments contradict one another' : '', it.no_beginning ? 'beginning not seen' : '', it.no_end ? 'end not seen' : '',
  ], [
    awaited === undefined ? '' : unseen === undefined ? `waited for TSN ${awaited} of its stream` :
      `waited for ${it.waited_for_ssn === undefined ? 'MID' : 'SSN'} ${unseen}, TSN ${awaited} not seen yet`,
    first !== undefined ? `peer’s window was 0 ${first === last ? `in ${first}` : `from ${first} to ${last}`}` : '',
  ]].map(texts => texts.filter(text => text).join('; ')).filter(text => text);
}

/** How many messages there are, what became of them, and how many of them are listed.
    @param {State['store']['fates']} counts */
function countsText({ all, kept, acknowledged, abandoned, repeated }, unfollowed = 0) {
  const open = all - acknowledged - abandoned, number = it => it.toLocaleString('en');
  const parts = [`${number(acknowledged)} acknowledged`, ...abandoned ? [`${number(abandoned)} abandoned`] : [], ...open ? [`${number(open)} not acknowledged`] : [],
    ...repeated ? [`${number(repeated)} sent again`] : []];
  return `${counted(all, 'message')}: ${parts.join(', ')}.` + (kept < all ? ` ${number(kept)} of them are listed: the first of those ` +
    'that were acknowledged without more to say, and the first of the others.' : '') + (unfollowed ? ` ${number(unfollowed)} DATA found no room, and are of none.` : '');
}

/** The columns; `store` has the ends and the times.
    @param {import('./store.mjs').Store} store */
function columnsOf(store) {
  const endOf = ({ message_of, end }) => store?.associations.find(it => it.association === message_of)?.ends[end] ?? {};
  const placeOf = it => [ENDS[it.end], endText(endOf(it).addresses?.[0], endOf(it).port)];
  const rowOf = it => store ? store.rowOf(it.sent_packet, it.sent_file) : -1;
  const timesOf = row => row >= 0 && store.time(row, true) ? [[`${store.time(row, true)} s`, store.wholeTime(row)]] : [];
  return [
    ['No.', 'number', it => [[it.message]], it => it.message],
    ['Association', 'number', it => [[it.message_of]], it => it.message_of * 65536 + it.stream],
    ['From', 'pair', it => placeOf(it).filter(text => text).map(text => [text]), it => it.end],
    ['Stream', '', it => [[it.stream], [numberText(it)]], it => it.stream],
    ['Payload', '', it => [[payloadOf(it)]], payloadOf],
    ['Size', 'amount', it => [[bytes(it.size), sizeText(it)]], it => it.size],
    ['TSN', '', it => [[tsnText(it)], [counted(it.fragments, 'fragment')]], it => it.first_tsn],
    ['Sent', '', it => [packetLink({ packet: it.sent_packet, file: it.sent_file }, `in ${it.sent_packet}`), ...timesOf(rowOf(it))], it => it.message],
    ['Fate', '', fateOf, it => it.acknowledged_packet !== undefined ? 0 : it.abandoned_packet !== undefined ? 1 : 2],
    ['Delay', 'amount', it => [[spanText(it.delay) || '–']], it => it.delay],
    ['Remarks', '', it => remarksOf(it).map(text => [text]), it => remarksOf(it).join() || undefined],
  ];
}

class Messages extends Table {
  classes = 'association message';
  /** @type {ReturnType<typeof columnsOf> | undefined} */
  own;

  get columns() {
    return this.own ?? columnsOf(this.store);
  }

  constructor(actions) {
    super('message', MESSAGE_MEANINGS, actions);
  }

  /** Shows the messages of what is open, once it was read, and which is chosen. */
  render({ store, message }) {
    this.update(store, message, () => this.show(store));
  }

  /** Shows the messages of what was read, and how many there are; or why there is none.
      @param {import('./store.mjs').Store} store */
  show({ isAtEnd, messages, fates, unfollowed, flags }) {
    this.own = columnsOf(this.store);
    byId('messages-said').hidden = !isAtEnd;
    byId('messages-said').textContent = fates.all ? countsText(fates, unfollowed)
      : flags.data ? 'These lines hold no messages. sctp_dump prints what became of each with --messages.' : 'No packet with user data was read.';
    byId('show-message').hidden = !fates.all;
    this.arrange(isAtEnd ? messages : []);
  }
}
