// SPDX-License-Identifier: Apache-2.0
// What the page says where there is no packet to list, and of what the program couldn't read. In these texts code is between
// backquotes; whatever comes from a capture or from the program isn't one of them.
import { KINDS } from './keys.mjs';
import { counted, element, shown } from './text.mjs';

export { sentencesOf, howTo, reasonOf, answered };

const PROGRAM = 'sctp_dump: ';

/** What the program says on standard error, after its name and the file's, and what the page says of it.
    @type {[RegExp, string][]} */
const MESSAGES = [
  [/: no SCTP packet was found/, ''],
  [/: ends inside a record$/, 'The file ends inside a packet: what comes before it was read.'],
  [/: ends in the file header$/, 'The file ends in its header, before the first packet.'],
  [/: doesn't begin as a file of its format$/, 'The file doesn’t begin as its form has to.'],
  [/: a block's length is wrong/, 'The length of a block is wrong: nothing after it can be read.'],
  [/: link type (\d+) isn't read/, 'Its frames are of link type $1, which isn’t read. Record by `tcpdump -i any`: its frames are read.'],
  [/: (a read failed|can't be opened(: .*)?)$/, 'The browser couldn’t read the file. If it was changed or moved, choose it once more.'],
  [/: out of memory$/, 'There isn’t enough memory for the rest: `sctp_dump` on a command line needs less.'],
  [/: is compressed by gzip/, 'It is compressed by gzip twice: unpack it once, and open what comes out.'],
  [/^gzip: /, 'What gzip compressed is damaged, ends early, or has a second part: what comes before that was read.'],
  [/RuntimeError|unreachable/, 'The reader stopped by a fault of its own. Please report it, with the file if you may.'],
];

/** What was said on standard error as sentences, of several files each with the file's name; what isn't known is said as it is. */
function sentencesOf({ errors, kinds }) {
  const plain = text => shown(text.replaceAll('`', "'"), 200), isNamed = kinds[KINDS.indexOf('file')] > 0;
  const said = errors.split('\n').filter(it => it.trim()).map(text => {
    const [form, sentence = ''] = MESSAGES.find(([form]) => form.test(text)) ?? [], found = form?.exec(text);
    const name = isNamed && found && found.index > PROGRAM.length ? `${plain(text.slice(PROGRAM.length, found.index))}: ` : '';
    return sentence ? name + sentence.replace('$1', found?.[1] ?? '') : form ? '' : plain(text);
  });
  return [...new Set(said)].filter(it => it);
}

/** What unpacks what the page doesn't. */
const UNPACK = { zstd: 'zstd -d', xz: 'xz -d', bzip2: 'bzip2 -d', zip: 'unzip', '7z': '7z x', lz4: 'lz4 -d' };

/** Ways to record data channels' packets before DTLS encrypts them, each in a form that the program reads. */
const WAYS = [
  ['Chromium', 'Start it by `chromium --enable-logging=stderr --vmodule=dcsctp_transport=1,text_pcap*=1 2> call.log`, and open ' +
    '`call.log`. Its lines with `# SCTP_PACKET` are the packets.'],
  ['Firefox', 'Firefox 153 doesn’t log packets. Record at the other end of the call.'],
  ['aiortc', 'In `RTCDtlsTransport._send_data` and in `RTCSctpTransport._handle_data` write `data.hex()` to a file, a line for each ' +
    'call.'],
  ['pion', 'Give the `NetConn` of `sctp.Config` a connection that also writes what each Read and Write has, a line of hexadecimal ' +
    'for each: `fmt.Fprintf(file, "%x\\n", p[:n])`.'],
  ['usrsctp', 'Where packets are sent, and before `usrsctp_conninput`, write what `usrsctp_dumppacket` returns to a file.'],
  ['Without WebRTC', 'SCTP that DTLS doesn’t encrypt is in a capture: `tcpdump -i any -w sctp.pcap sctp`.'],
];

/** A text of this module as parts of an element.
    @param {string} text */
const marked = text => text.split('`').map((it, i) => i % 2 ? element('code', '', it) : it);

/** How to record packets, as a list. */
function howTo() {
  return element('dl', 'ways', ...WAYS.flatMap(([name, text]) => [element('dt', '', name), element('dd', '', ...marked(text))]));
}

/** Why there is no packet, of what the Worker said and the program counted: a title, sentences, and whether it helps to say
    how packets are recorded.
    @returns {Reason}
    @param {import('./store.mjs').Store} store */
function reasonOf(store) {
  const { signs, summary } = store, has = sign => signs.includes(sign), sentences = sentencesOf(store);
  const unpacked = Object.keys(UNPACK).find(has);
  const passedOver = summary?.not_sctp ?? 0;
  if (store.isStopped)
    return { title: 'Stopped before the first packet', texts: ['Open the file once more to read it.'] };
  if (unpacked) {
    return { title: `This file is compressed by ${unpacked}`,
      texts: [`The page unpacks gzip alone. Unpack it by \`${UNPACK[unpacked]}\`, and open what comes out.`] };
  }
  if (has('internals')) {
    return { title: 'This is a dump of webrtc-internals', isRecorded: true,
      texts: ['It has events and statistics, and no packet. To see packets, record them:'] };
  }
  if (has('json')) {
    return { title: 'This is JSON, but not of sctp_dump',
      texts: ['Of JSON the page reads the lines that `sctp_dump --json --places` prints, one object in each.'] };
  }
  if (has('dtls') || has('stun')) {
    const kinds = ['dtls', 'stun'].filter(has).map(it => it.toUpperCase()).join(' and ');
    return { title: has('dtls') ? 'This capture is encrypted by DTLS' : 'This is a call of WebRTC', isRecorded: true,
      texts: [`None of ${counted(passedOver, 'packet')} is SCTP that can be read; there is ${kinds} among them. WebRTC’s data ` +
        'channels are SCTP inside of DTLS, which no capture of the network shows. Record it before it is encrypted:', ...sentences] };
  }
  if (passedOver) {
    return { title: `None of ${counted(passedOver, 'packet')} is SCTP`, isRecorded: true,
      texts: [...sentences, 'If SCTP is inside of UDP, and its port isn’t 9899, set the port in the options where a file is opened, and open it again.'] };
  }
  if (has('empty'))
    return { title: 'This file is empty', texts: ['It has no byte. Choose another one, or record one:'], isRecorded: true };
  if (has('capture') || sentences.length) {
    return { title: 'No packet is in this file', isRecorded: true,
      texts: sentences.length ? sentences : ['The capture has no packet of any kind. Record while packets are sent:'] };
  }
  return { title: 'No line of this text is a packet', isRecorded: true,
    texts: ['The page reads packets and frames in hexadecimal, dumps by `tcpdump -x`, `xxd` and `tshark -x`, and logs of WebRTC ' +
      'that have lines with `# SCTP_PACKET`. To record one:'] };
}

/** An answer as elements: a title, sentences, and ways if they help.
    @param {Reason} reason */
function answered({ title, texts, isRecorded }) {
  return [element('h2', '', title), ...texts.map(it => element('p', '', ...marked(it))), ...isRecorded ? [howTo()] : []];
}
