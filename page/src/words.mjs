// SPDX-License-Identifier: Apache-2.0
// What the page's short words mean, as tooltips and as descriptions for those who don't see them.
import { line, shape } from './shapes.mjs';
import { element } from './text.mjs';

export { MEANINGS, COLUMN_MEANINGS, CHANNEL_MEANINGS, MESSAGE_MEANINGS, fieldName, legend };

/** What a packet can have, by the word of the filter. */
const MEANINGS = {
  refused: 'Refused: its bytes aren’t a packet as the RFCs define it. Its first fault is above its fields.',
  cut: 'Cut off: fewer bytes of it were captured than it had.',
  wrong: 'Wrong checksum: the checksum field is neither the CRC32c of the packet nor 0.',
  zero: 'Zero checksum: the checksum field is 0, which RFC 9653 allows where the receiver accepts it.',
  repeated: 'Sent again: a TSN of its DATA was seen before, from the same end. It was sent again, or doubled on its way.',
  late: 'Fills a gap: a TSN of its DATA is seen for the first time, after a greater one. It was lost before, or overtaken.',
  jump: 'Gap before: TSNs just before its DATA weren’t seen yet. They were lost, overtaken, or not captured.',
  gaps: 'Gaps: its SACK has Gap Ack Blocks. DATA was received whose TSNs come after others that are missing.',
  warned: 'Warning: it isn’t refused, but breaks a rule of the RFCs, which is above its fields.',
  skipped: 'Skipped: a record or a line that holds no packet.',
};

/** What a column of the table of associations says. */
const COLUMN_MEANINGS = {
  'No.': 'Associations are numbered in the order in which they began.',
  'Ends': 'Addresses and port of each end. The first end sent the first packet.',
  'Packets': 'Packets that each end sent.',
  'DATA': 'Chunks with user data, DATA and I-DATA, that each end sent.',
  'Bytes': 'Bytes of user data in them.',
  'Sent again': 'DATA whose TSN the end had sent before.',
  'Missing': 'TSNs of the end’s DATA that were never seen, where those around them were.',
  'Refused': 'Packets of the end that were refused: their bytes aren’t packets as the RFCs define them.',
  'Gap SACKs': 'SACKs with Gap Ack Blocks that each end sent, those of refused packets, too.',
  'Median trip': 'Round trip: the median of the times from a DATA that was sent once to the first SACK that acknowledges it.',
  'Silence': 'The longest time without a packet of the association; a click goes to the packet after it.',
  'Began': 'The first packet, and its chunk. Midway: no INIT was seen.',
  'Ended': 'The packet that ended it, and its chunk.',
};

/** What a column of the table of channels says. */
const CHANNEL_MEANINGS = {
  'Association': 'The association’s number.',
  'Stream': 'The number of the stream that each end sends on.',
  'Label': 'Label and protocol that DATA_CHANNEL_OPEN has. What is agreed on without it isn’t known.',
  'Payload': 'Payload protocols of its messages, without those of DCEP. Of a stream without DATA_CHANNEL_OPEN each has a row.',
  'Reliability': 'Whether messages are kept in order, and how often or how long they are sent again.',
  'Ends': 'Addresses and port of each end.',
  'Opened': 'The packets with DATA_CHANNEL_OPEN and DATA_CHANNEL_ACK, by the end that sent them.',
  'Messages': 'Messages that each end sent, those of DCEP, too; what was sent again counts once.',
  'Bytes': 'Bytes of user data in them.',
  'Sent again': 'How often a fragment of these was sent again.',
  'Abandoned': 'Messages that a FORWARD-TSN skipped.',
  'Longest': 'The longest time from the first sending of a message until it was acknowledged; a click goes to the packet that did.',
  'Closed': 'The packet in which each end resets its stream by RE-CONFIG, and the other end’s response.',
};

/** What a column of the table of messages says. */
const MESSAGE_MEANINGS = {
  'No.': 'Messages are numbered as they are acknowledged or abandoned.',
  'Association': 'The association’s number.',
  'From': 'The end that sent it, with its first address and port.',
  'Stream': 'The stream; the Stream Sequence Number of DATA, the Message Identifier of I-DATA.',
  'Payload': 'Its payload protocol.',
  'Size': 'Bytes of user data, of the fragments that were seen.',
  'TSN': 'The TSNs of its first and its last fragment.',
  'Sent': 'The packet with its first fragment, and seconds since the first packet.',
  'Fate': 'The packet that acknowledged all of its fragments, or the FORWARD-TSN by which it was abandoned.',
  'Delay': 'From the first sending of its first fragment until it was acknowledged.',
  'Remarks': 'Why it took that long, or what of it wasn’t seen.',
};

/** Fields by the lists that they are in and by their keys: what the RFCs call them. What is called so by its key has no name here. */
const FIELDS = {
  '': {
    source: 'Source Port Number', destination: 'Destination Port Number', tag: 'Verification Tag',
    verdict: 'Whether the Checksum is right', expected: 'The Checksum that it has to be',
    udp_source: 'Source Port of UDP', udp_destination: 'Destination Port of UDP', fragments: 'IP Fragments that it was put together of',
  },
  chunks: {
    chunk: 'Chunk Type', flags: 'Chunk Flags', length: 'Chunk Length', tsn: 'Transmission Sequence Number', stream: 'Stream Identifier', ssn: 'Stream Sequence Number',
    mid: 'Message Identifier', fsn: 'Fragment Sequence Number', ppid: 'Payload Protocol Identifier', unordered: 'U bit: unordered',
    beginning: 'B bit: beginning fragment', end: 'E bit: ending fragment', immediate: 'I bit: immediate', payload: 'User Data',
    initiate_tag: 'Initiate Tag', a_rwnd: 'Advertised Receiver Window Credit', outbound_streams: 'Number of Outbound Streams',
    inbound_streams: 'Number of Inbound Streams', initial_tsn: 'Initial TSN', cumulative_tsn_ack: 'Cumulative TSN Ack',
    new_cumulative_tsn: 'New Cumulative TSN', tag_reflected: 'T bit: the tag is reflected', message: 'Message Type',
    channel_type: 'Channel Type', reliability: 'Reliability Parameter', value: 'Chunk Value', blocks: 'Gap Ack Block',
    duplicates: 'Duplicate TSN', sequence_number: 'Sequence Number', shared_key: 'Shared Key Identifier', hmac_identifier: 'HMAC Identifier',
    hmac: 'HMAC', lowest_tsn: 'Lowest TSN Number', nr_blocks: 'Non-Renegable Gap Ack Block',
  },
  'chunks.parameters': {
    parameter: 'Parameter Type', length: 'Parameter Length', increment: 'Suggested Cookie Life-Span Increment',
    request_number: 'Re-configuration Request Sequence Number', response_number: 'Re-configuration Response Sequence Number',
    last_tsn: 'Sender’s Last Assigned TSN', sender_next_tsn: 'Sender’s Next TSN', receiver_next_tsn: 'Receiver’s Next TSN',
    correlation_id: 'ASCONF Correlation ID', new_streams: 'Number of new streams', method: 'Error Detection Method Identifier', indication: 'Adaptation Code point',
    value: 'Parameter Value',
  },
  'chunks.parameters.streams': { stream: 'Stream Number' },
  'chunks.parameters.hmacs': { identifier: 'HMAC Identifier' },
  'chunks.parameters.chunk_types': { type: 'Chunk Type' },
  'chunks.causes': {
    cause: 'Cause Code', length: 'Cause Length', value: 'Cause-Specific Information', stream: 'Stream Identifier', staleness: 'Measure of Staleness',
    hmac_identifier: 'HMAC Identifier',
  },
  'chunks.causes.types': { parameter: 'Missing Param Type' },
  'chunks.nr_blocks': { start: 'NR Gap Ack Block Start', end: 'NR Gap Ack Block End' },
  'chunks.blocks': { start: 'Gap Ack Block Start', end: 'Gap Ack Block End' },
  'chunks.duplicates': { tsn: 'Duplicate TSN' },
  'chunks.streams': { stream: 'Stream Identifier', ssn: 'Stream Sequence Number', mid: 'Message Identifier' },
};

/** The name that the RFCs have for a field in lists within lists, if its key is another. Parameters and causes can be in one another.
    @param {string} key */
function fieldName(lists, key) {
  const owner = Math.max(lists.lastIndexOf('parameters'), lists.lastIndexOf('causes'));
  return FIELDS[(owner > 1 ? ['chunks', ...lists.slice(owner)] : lists).join('.')]?.[key];
}

/** Chunks by their colours. */
const COLOURS = {
  data: ['DATA', 'user data: DATA, I-DATA'],
  ack: ['SACK', 'acknowledgement: SACK, NR-SACK'],
  setup: ['INIT', 'setup: INIT, INIT ACK, COOKIE ECHO, COOKIE ACK'],
  alive: ['HEARTBEAT', 'HEARTBEAT, HEARTBEAT ACK'],
  end: ['SHUTDOWN', 'an orderly end: SHUTDOWN, SHUTDOWN ACK, SHUTDOWN COMPLETE'],
  abort: ['ABORT', 'errors: ABORT, ERROR'],
  forward: ['FORWARD-TSN', 'what moves on or resets: FORWARD-TSN, I-FORWARD-TSN, RE-CONFIG'],
  other: ['chunk 99', 'all others'],
};

/** What the diagram has beside arrows: its name, its shapes, and what it means. */
const diagramSigns = () => [
  ['zigzag', [shape('path', { class: 'life', d: 'M30,0V5l6,3l-12,6l6,3V22' })], 'a silence, which isn’t drawn to scale'],
  ['dotted lifeline', [line('life', 30, 0, 30, 22), line('stretched', 30, 0, 30, 22)], 'packets come faster than arrows fit: time is stretched'],
  ['curve', [line('life', 34, 0, 34, 22), shape('path', { class: 'tie', d: 'M34,2c-20,0 -20,18 0,18' })], 'from DATA that is sent again to its first sending'],
  ['band', [shape('g', { class: 'arrow acked' }, shape('rect', { class: 'hit', width: 60, height: 22 }))], 'what the chosen SACK acknowledges in its gap blocks, or beyond the Cumulative TSN Ack of the one before it'],
];

/** The colours of chunks, the marks of rows, and the signs of the diagram, as entries of a list. */
function legend(marks) {
  const signOf = (name, shapes) =>
    shape('svg', { class: 'drawing', role: 'img', 'aria-label': name, width: 60, height: 22 }, shape('g', { class: 'over' }, ...shapes));
  return [
    ...Object.entries(COLOURS).map(([group, [name, meaning]]) => [element('span', `chip ${group}`, name), meaning]),
    ...marks.map(([word, classes, text]) => [element('span', `mark ${classes}`, text), MEANINGS[word].split(': ')[1]]),
    ...diagramSigns().map(([name, shapes, meaning]) => [signOf(name, shapes), `diagram: ${meaning}`]),
  ].flatMap(([sign, meaning]) => [element('dt', '', sign), element('dd', '', meaning)]);
}
