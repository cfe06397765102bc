// SPDX-License-Identifier: Apache-2.0
// Makes the page's example, page/sample.pcap: node page/tests/sample.mjs. An association with a data channel, of which a packet
// is lost and sent again, one is damaged on its way, one breaks a rule on the order of chunks, and one is refused.
import { writeFileSync } from 'node:fs';
import { bytes, chunk, data, init, initAck, ip, packet, parameter, pcap, sack } from './traffic.mjs';

const ADDRESSES = ['192.0.2.10', '198.51.100.7'], PORTS = [49152, 5000], TAGS = [0x0da73798, 0x4d2df52d];
const records = [];
let time = 0;

/** A packet from one end to the other, some milliseconds after the last one. */
function send(side, later, tag, ...chunks) {
  time += later * 1000 + chunks.length * 37;
  const made = packet(PORTS[side], PORTS[1 - side], tag, ...chunks);
  records.push([time, ip(ADDRESSES[side], ADDRESSES[1 - side], made)]);
  return records.at(-1)[1];
}

const from = (side, later, ...chunks) => send(side, later, TAGS[1 - side], ...chunks);
const open = bytes([1, 3, 0], [2, 256], [4, 0], [2, 4, 0], 'chat');
const extensions = parameter(0x8008, [1, 0x82, 0xc0, 0x40, 0xc2]), forward = parameter(0xc000), zero = parameter(0x8001, [4, 1]);

send(0, 0, 0, init(TAGS[0], 1000, forward, extensions, zero));
from(1, 21, initAck(TAGS[1], 7000, forward, extensions, zero, parameter(7, 'the state of the association, signed')));
from(0, 0.3, chunk(10, 0, 'the state of the association, signed'));
from(1, 21, chunk(11, 0));
from(0, 1, data(1000, 0, 0, 50, open));
from(1, 21, data(7000, 0, 0, 50, [1, 2]), sack(1000));
const texts = ['hello', 'Is anybody there?', 'This one is lost.', 'naïve, 漢字', 'five', 'six'];
from(0, 30, sack(7000), data(1001, 0, 1, 51, texts[0]));
from(0, 8, data(1002, 0, 2, 51, texts[1]));
from(1, 14, sack(1002));
from(0, 6, data(1004, 0, 4, 51, texts[3]));
from(1, 21, sack(1002, [[2, 2]]));
from(0, 5, data(1005, 0, 5, 51, texts[4]), data(1006, 0, 6, 51, texts[5]));
from(1, 21, sack(1002, [[2, 4]]));
from(1, 4, data(7001, 0, 1, 51, 'yes')).set([0x2a], 48);
from(0, 160, data(1003, 0, 3, 51, texts[2]));
from(0, 210, data(1003, 0, 3, 51, texts[2]));
from(1, 12, sack(1006, [], [1003]));
from(1, 300, data(7001, 0, 1, 51, 'yes'));
from(0, 1, sack(7001));
from(1, 1200, chunk(4, 0, parameter(1, bytes([4, 0x20261126, 1]))));
from(0, 0.4, chunk(5, 0, parameter(1, bytes([4, 0x20261126, 1]))));
from(0, 400, sack(7001), bytes([1, 11, 0, 0, 3]));
from(0, 80, data(1007, 1, 0, 53, Uint8Array.from({ length: 200 }, (_, i) => i)));
from(1, 21, sack(1007));
from(0, 2, chunk(130, 0, parameter(13, [4, 1, 0, 1007], [2, 1], [2])));
from(1, 21, chunk(130, 0, parameter(16, [4, 1, 1])));
from(0, 500, chunk(7, 0, [4, 7001]));
from(1, 21, chunk(8, 0));
from(0, 0.2, chunk(14, 0));

writeFileSync(new URL('../sample.pcap', import.meta.url), pcap(records));
