// SPDX-License-Identifier: Apache-2.0
// The data channels as a table.
import { durationText } from './scale.mjs';
import { addresses, bytes, column, packetLink, place, Table } from './table.mjs';
import { byId, counted, targetOf } from './text.mjs';
import { CHANNEL_MEANINGS } from './words.mjs';

export { Channels, channelFilter };

const NAMES = ['first end', 'second end'];
/** What each end did, or one line that says that neither did. */
const linesOf = lines => lines.some(it => it) ? lines.map(it => it ?? ['–']) : [['–']];
/** A text of the peer, or its bytes in hexadecimal where it is none, and whether it is longer. */
const textOf = (text, bytes, isCut) => `${text ?? (bytes === undefined ? '' : `0x${bytes}`)}${isCut ? ' …' : ''}`;

/** The texts that DCEP has of a channel.
    @param {Channel} it */
const labelLines = it => it.channel_type === undefined ? [['–']]
  : [[textOf(it.label, it.label_bytes, it.label_cut)], [textOf(it.protocol, it.protocol_bytes, it.protocol_cut)]];

/** How each end opened a channel.
    @param {Channel} it */
function openedLines({ opened_by: by, opened_packet, opened_file, acknowledged_packet, acknowledged_file, opened_by_both: isByBoth }) {
  const answer = acknowledged_packet !== undefined ? packetLink({ packet: acknowledged_packet, file: acknowledged_file }, `ACK ${acknowledged_packet}`)
    : isByBoth ? ['OPEN, too'] : undefined;
  const lines = opened_packet === undefined ? [] : [packetLink({ packet: opened_packet, file: opened_file }, `OPEN ${opened_packet}`), answer];
  return linesOf(by === 1 ? lines.reverse() : lines);
}

/** Which end reset its stream, and what was answered. */
function resetLine({ end, packet, file, result, result_name: name, response_packet: response, response_file }) {
  const said = name ?? `result ${result}`;
  const answer = response === undefined ? [[', no response']]
    : [[', '], packetLink({ packet: response, file: response_file }, String(response)), [`: ${said.replace('Success - ', '')}`, said]];
  return [[`${NAMES[end]}: `], packetLink({ packet, file }, `reset ${packet}`), ...answer];
}

const placeOfEnd = it => `${it.side ?? ''} ${addresses(it)}`.trim();
/** @type {(it: Channel) => string} */
const typeOf = ({ channel_type: type, channel_type_name: name }) => name ?? (type === undefined ? '–' : `type ${type}`);
/** How a channel resends: its type, and the bound that a partially reliable one has (RFC 8832 section 5.1).
    @param {Channel} it */
function reliabilityLines(it) {
  const type = typeOf(it), bound = /rexmit/.test(type) ? counted(it.reliability, 'retransmission') : /timed/.test(type) ? `${it.reliability} ms` : '';
  return [[type], ...bound ? [[`at most ${bound}`]] : []];
}

/** The longest time until a message of an end was acknowledged, and where that was.
    @param {ChannelEnd} it */
function delayLine({ delay: { greatest, greatest_packet: packet, greatest_file: file } = {} }) {
  const text = typeof greatest === 'number' && greatest >= 0 ? durationText(Math.round(greatest * 1e9)) : undefined;
  return text && (packet === undefined ? [text] : packetLink({ packet, file }, text));
}

const COLUMNS_OF_CHANNELS = [
  ['Association', 'number', it => [[it.channel_of]], it => it.channel_of * 65536 + it.stream],
  ['Stream', 'number', it => [[it.stream]], it => it.stream],
  ['Label', '', labelLines, it => it.label],
  ['Payload', '', ({ payload: [first = '–', ...rest] }) => [[first], ...rest.length ? [[rest.join(', ')]] : []], it => it.payload[0]],
  ['Reliability', '', reliabilityLines, typeOf],
  ['Ends', 'pair', ({ ends }) => ends.map(it => [placeOfEnd(it)]), ({ ends }) => ends.map(placeOfEnd).join(' ')],
  ['Opened', '', openedLines, it => it.opened_packet === undefined ? undefined : place({ packet: it.opened_packet, file: it.opened_file })],
  column('Messages', it => it.messages),
  column('Bytes', it => it.bytes, bytes),
  column('Sent again', it => it.repeated),
  column('Abandoned', it => it.abandoned),
  ['Longest', 'amount', ({ ends }) => linesOf(ends.map(delayLine)),
    ({ ends }) => ends.map(it => it.delay?.greatest).filter(it => typeof it === 'number').sort((a, b) => b - a)[0]],
  ['Closed', '', ({ resets = [] }) => linesOf(resets.map(resetLine)), ({ resets = [] }) => place(resets[0])],
];

class Channels extends Table {
  classes = 'association channel';

  get columns() {
    return COLUMNS_OF_CHANNELS;
  }

  constructor(actions) {
    super('channel', CHANNEL_MEANINGS, actions);
    // (after the list made it the current one)
    byId('channel-rows').addEventListener('click', event => targetOf(event).closest('.row') && actions.open(this.chosen));
  }

  /** Shows the channels of what is open, once it was read, and which is chosen. */
  render({ store, channel }) {
    this.update(store, channel, () => this.show(store));
  }

  /** Shows the channels of what was read, and what of them is missing. */
  show({ isAtEnd, isStopped, channels, unlisted, flags }) {
    byId('unlisted').hidden = !isAtEnd || channels.length > 0 && !unlisted;
    byId('unlisted').textContent = unlisted
      ? `${counted(channels.length, 'channel')} are listed, and no more; ${counted(unlisted, 'message')} on other streams are only counted.`
      : !flags.data ? 'No packet with user data was read.'
        : isStopped ? 'The reading was stopped. Channels are counted only where a capture is read to its end.'
          : 'These lines hold no channels. sctp_dump prints them with --channels.';
    this.arrange(isAtEnd ? channels : []);
  }
}

/** The filter that passes a channel's packets. */
const channelFilter = it => `association:${it.channel_of} stream:${it.stream}`;
