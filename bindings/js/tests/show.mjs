// SPDX-License-Identifier: Apache-2.0
// usage: node tests/show.mjs FILE. Reads packets, one a line, in hexadecimal, and prints the chunks of each, its text, and
// the packet that answers it.
import { readFileSync } from 'node:fs';
import { Builder, ChunkType, ParameterType, causes, chunks, firstFault, header, parameters, text } from 'davgyuti';

const OWN = { initiateTag: 0x0da73798, aRwnd: 0x20000, outboundStreams: 4, inboundStreams: 4, initialTsn: 0x66e387ab };
const COOKIE = new TextEncoder().encode('abcd');
const hex = bytes => Buffer.from(bytes).toString('hex');

function* linesOf(chunk) {
  yield `  chunk ${chunk.type}, flags ${chunk.flags}, ${chunk.value.length} bytes`;
  const { data, sack } = chunk;
  if (data) {
    const bits = [data.isUnordered, data.isBeginning, data.isEnd, data.immediateAck].map(Number);
    yield `    tsn ${data.tsn}, stream ${data.stream}, ssn ${data.ssn}, mid ${data.mid}, fsn ${data.fsn}, ppid ${data.ppid}, `
      + ['U', 'B', 'E', 'I'].map((name, i) => `${name} ${bits[i]}`).join(', ');
    yield `    payload ${hex(data.payload)}`;
  }
  if (sack) {
    yield `    cumulative tsn ${sack.cumulativeTsnAck}, a_rwnd ${sack.aRwnd}`;
    yield ['    blocks', ...sack.blocks.map(it => `${it.start}-${it.end}`)].join(' ');
    yield ['    duplicates', ...sack.duplicates].join(' ');
  }
  for (const it of parameters(chunk))
    yield `    item ${it.type}, ${it.value.length} bytes`;
  for (const it of causes(chunk))
    yield `    item ${it.code}, ${it.value.length} bytes`;
}

// The tag of the other side is the one that its INIT asks for; it is taken that there is one association.
let peerTag = 0;

function answer(bytes) {
  const { sourcePort, destinationPort, verificationTag } = header(bytes);
  const [chunk] = chunks(bytes);
  const reply = () => new Builder({
    sourcePort: destinationPort, destinationPort: sourcePort, verificationTag: peerTag, room: 1200,
  });
  if (chunk.type === ChunkType.INIT && chunk.next === bytes.length && verificationTag === 0 && chunk.init.initiateTag) {
    peerTag = chunk.init.initiateTag;
    return reply().addInitAck(OWN).addParameter(ParameterType.STATE_COOKIE, COOKIE).finish();
  }
  if (chunk.data && verificationTag === OWN.initiateTag)
    return reply().addSack({ cumulativeTsnAck: chunk.data.tsn, aRwnd: OWN.aRwnd }).finish();
  return null;
}

function* linesOfPacket(bytes) {
  yield `packet of ${bytes.length} bytes`;
  const fault = firstFault(bytes);
  if (fault) {
    yield `  fault ${fault.code} at byte ${fault.offset}`;
    return;
  }
  for (const chunk of chunks(bytes))
    yield* linesOf(chunk);
  yield text(bytes);
  const reply = answer(bytes);
  if (reply)
    yield `  answer ${hex(reply)}`;
}

for (const line of readFileSync(process.argv[2], 'ascii').split('\n')) {
  if (line && !line.startsWith('#')) {
    for (const it of linesOfPacket(Uint8Array.from(Buffer.from(line, 'hex'))))
      console.log(it);
  }
}
