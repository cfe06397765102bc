// SPDX-License-Identifier: Apache-2.0
// What IANA's registry has beyond the kinds: lists in one another, addresses as text, and what is refused.
import assert from 'node:assert/strict';
import { test } from 'node:test';
import * as davgyuti from 'davgyuti';

const {
  Builder, CauseCode, ChunkType, ParameterType, Result, WriteError, addresses, causes, cause, check, chunks, parameter, parameters,
  read, readChunk, registeredCause, registeredChunk, registeredParameter,
} = davgyuti;
const bytes = hex => Uint8Array.from(Buffer.from(hex.replace(/\s/g, ''), 'hex'));
const PORTS = { sourcePort: 5000, destinationPort: 5001, verificationTag: 0x01020304 };
const HEADER = '1388 1389 01020304 00000000';
const ANY = { anyChecksum: true, strictPadding: true };

test('the items of a list are read in turn, with their places in the packet', () => {
  const packet = bytes(`${HEADER} 8000 0034 08090a0b c003 0024 00000002 00a1 0014 c001 0010 00000002 0005 0008 c0000201 0007 0004
    0004 0004 c005 0008 00000001`);
  for (const [chunk] of [[...chunks(packet)], read(packet, ANY).chunks]) {
    const [refusal, success] = registeredChunk(chunk, ChunkType.ASCONF_ACK).parameters;
    assert.deepEqual([refusal.name, refusal.offset, refusal.next], ['Error Cause Indication', 20, 56]);
    assert.deepEqual([success.name, success.offset, success.next], ['Success Indication', 56, 64]);
    const { correlationId, causes: all } = registeredParameter(refusal, ParameterType.ERROR_CAUSE_INDICATION);
    assert.deepEqual([correlationId, ...all.map(it => [it.code, it.offset, it.next])], [2, [0xa1, 28, 48], [7, 48, 52], [4, 52, 56]]);
    const [refused] = registeredCause(all[0], CauseCode.OPERATION_REFUSED).parameters;
    assert.deepEqual([refused.offset, registeredParameter(refused).address], [32, '192.0.2.1']);
  }
  // What an item of a kind has is there too, with its padding missing at the end.
  const [reset, zero, extensions] = registeredParameter(parameter(ParameterType.UNRECOGNIZED_PARAMETER,
    bytes('000d 0012 00000001 00000002 00000003 0007 0000 8001 0008 00000001 8008 0005 0f'))).parameters;
  assert.deepEqual([reset.reConfig.streams, zero.method, extensions.value], [[7], 1, bytes('0f')]);
  const [missing, noData] = registeredParameter(parameter(ParameterType.ERROR_CAUSE_INDICATION,
    bytes('00000001 0002 000a 00000001 0007 0000 0009 0008 00000005'))).causes;
  assert.deepEqual([missing.types, noData.tsn], [[7], 5]);
});

test('as many lists in one another as a parameter has room for: each read goes one level deeper', () => {
  const value = new Uint8Array(65528), view = new DataView(value.buffer);
  for (let at = 0; at < value.length; at += 4)
    view.setUint32(at, 8 << 16 | value.length - at);
  let it = parameter(ParameterType.UNRECOGNIZED_PARAMETER, value), depth = 0;
  for (; it !== undefined; depth++)
    [it] = registeredParameter(it, ParameterType.UNRECOGNIZED_PARAMETER).parameters;
  assert.equal(depth, value.length / 4 + 1);
});

test('items that are made of fields', () => {
  const request = parameter(ParameterType.ADD_IP_ADDRESS, { correlationId: 2, address: '192.0.2.1' });
  assert.deepEqual([request.bytes, request.offset], [bytes('c001 0010 00000002 0005 0008 c0000201'), 0]);
  const refused = cause(CauseCode.OPERATION_REFUSED, { parameters: [request] });
  const odd = cause(CauseCode.UNSUPPORTED_HMAC_IDENTIFIER, { hmac: 2 });
  const indication = parameter(ParameterType.ERROR_CAUSE_INDICATION, { correlationId: 2, causes: [odd, refused, odd] });
  assert.deepEqual(indication.bytes,
    bytes('c003 002a 00000002 0105 0006 0002 0000 00a1 0014 c001 0010 00000002 0005 0008 c0000201 0105 0006 0002'));
  const ack = new Builder(PORTS)
    .addRegisteredChunk(ChunkType.ASCONF_ACK, { sequenceNumber: 9, parameters: [indication, request] }).lastChunk();
  assert.deepEqual(registeredChunk(ack).parameters.map(it => it.bytes), [indication.bytes, request.bytes]);
  // To its list more can be added.
  const more = new Builder(PORTS).addRegisteredChunk(ChunkType.ASCONF_ACK, { sequenceNumber: 9, parameters: [indication] })
    .addRegisteredParameter(ParameterType.SUCCESS_INDICATION, { correlationId: 3 }).lastChunk();
  assert.deepEqual(registeredChunk(more).parameters.map(it => it.type), [0xc003, 0xc005]);
  assert.deepEqual(parameter(ParameterType.ECN_CAPABLE, {}).bytes, bytes('8000 0004'));
  assert.deepEqual(parameter(ParameterType.PADDING, bytes('0102')).bytes, bytes('8005 0006 0102'));
});

// draft-stewart-sctp-pktdrprep section 2: the bits T, B and M, of which M is the lowest; the dropped packet begins with its header.
test('the flags of a chunk', () => {
  const fields = { bandwidth: 1, queued: 2, size: 3, packet: bytes('00070009') };
  for (const flags of [0, 1, 2, 4, 7, 0x88, 255]) {
    const hex = `81 ${flags.toString(16).padStart(2, '0')} 0014 00000001 00000002 0003 0000 00070009`;
    for (const [chunk] of [[readChunk(bytes(hex))], [...chunks(bytes(HEADER + hex))], read(bytes(HEADER + hex), ANY).chunks]) {
      const found = registeredChunk(chunk, ChunkType.PKTDROP);
      assert.deepEqual(found, { flags, ...fields });
      assert.deepEqual(new Builder(PORTS).addRegisteredChunk(ChunkType.PKTDROP, found).lastChunk().bytes, bytes(hex));
    }
  }
  assert.equal(new Builder(PORTS).addRegisteredChunk(ChunkType.PKTDROP, fields).lastChunk().flags, 0);
  // Neither a parameter nor an error cause has some.
  const address = parameter(ParameterType.IPV4_ADDRESS, { flags: 1, address: '192.0.2.1' });
  assert.deepEqual([address.bytes, registeredParameter(address).flags], [bytes('0005 0008 c0000201'), undefined]);
  for (const [flags, kind] of [[256, RangeError], [-1, RangeError], ['1', TypeError], [true, TypeError], [null, TypeError]]) {
    assert.throws(() => new Builder(PORTS).addRegisteredChunk(ChunkType.PKTDROP, { ...fields, flags }), kind);
    assert.throws(() => registeredChunk({ type: ChunkType.PAD, flags, valueOffset: 0, value: new Uint8Array(0) }), kind);
  }
});

test('addresses as text', () => {
  // RFC 5952 section 4, and what RFC 4291 section 2.2 lets one write.
  const texts = [
    ['2001:db8::1', '20010db8 00000000 00000000 00000001', '2001:DB8:0:0:0:0:0:1', '2001:0db8::0001'],
    ['::', '00000000 00000000 00000000 00000000', '0:0:0:0:0:0:0:0'], ['::1', '00000000 00000000 00000000 00000001'],
    ['1::', '00010000 00000000 00000000 00000000'], ['2001:db8:0:1:1:1:1:1', '20010db8 00000001 00010001 00010001'],
    ['2001:0:0:1::1', '20010000 00000001 00000000 00000001', '2001::1:0:0:0:1'],
    ['fe80::ffff:c000:201', 'fe800000 00000000 0000ffff c0000201', 'fe80::ffff:192.0.2.1'],
    ['255.0.0.1', 'ff000001'],
  ];
  for (const [text, hex, ...others] of texts) {
    const octets = bytes(hex), type = octets.length === 4 ? ParameterType.IPV4_ADDRESS : ParameterType.IPV6_ADDRESS;
    assert.equal(registeredParameter(parameter(type, octets)).address, text);
    for (const address of [text, ...others, octets, Buffer.from(octets)])
      assert.deepEqual(parameter(type, { address }).value, octets);
  }
  for (const address of ['', '1.2.3', '1.2.3.4.5', '256.0.0.1', '01.2.3.4', '0x1.2.3.4', ' 1.2.3.4', '1.2.3.4 ', ':', ':::', '1::2::3',
    '12345::', 'fe80::1%eth0', '::1]/x[', '[::1]', 'example', '::1\n', null, undefined, 1, {}, [192, 0, 2, 1]]) {
    for (const type of [ParameterType.IPV4_ADDRESS, ParameterType.IPV6_ADDRESS])
      assert.throws(() => parameter(type, { address }), TypeError, String(address));
  }
});

test('what can\'t be written changes nothing', () => {
  const builder = new Builder({ ...PORTS, room: 200 });
  const code = wanted => error => error instanceof WriteError && error.code === wanted;
  assert.throws(() => builder.addRegisteredParameter(ParameterType.IPV4_ADDRESS, { address: '192.0.2.1' }), code(Result.BAD_PLACE));
  builder.addInit({ initiateTag: 1, aRwnd: 2, outboundStreams: 3, inboundStreams: 4, initialTsn: 5 });
  const before = builder.finish(), ASCONF = { sequenceNumber: 1, address: '192.0.2.1' };
  for (const [name, type, fields] of [
    ['Chunk', ChunkType.DATA, {}], ['Chunk', 63, {}], ['Parameter', ParameterType.STATE_COOKIE, {}], ['Parameter', 0xffff, {}],
    ['Cause', CauseCode.NO_USER_DATA, {}], ['Cause', 0xffff, {}],
    ['Parameter', ParameterType.IPV4_ADDRESS, { address: '::1' }], ['Parameter', ParameterType.IPV6_ADDRESS, { address: '192.0.2.1' }],
    ['Parameter', ParameterType.ADD_IP_ADDRESS, { correlationId: 1, address: new Uint8Array(5) }],
    ['Chunk', ChunkType.ASCONF, { ...ASCONF, address: new Uint8Array(0) }],
    ['Chunk', ChunkType.ASCONF, { ...ASCONF, parameters: [{ bytes: bytes('c006 0008 0000') }] }],
    ['Chunk', ChunkType.ASCONF_ACK, { sequenceNumber: 1, parameters: [{ bytes: bytes('01') }] }],
    ['Chunk', ChunkType.NR_SACK, { cumulativeTsnAck: 1, aRwnd: 2, counts: [1, 0, 0] }],
    ['Parameter', ParameterType.PADDING, { bytes: new Uint8Array(65532) }],
  ])
    assert.throws(() => builder[`addRegistered${name}`](type, fields), code(Result.BAD_VALUE), `${name} ${type}`);
  for (const [name, type] of [['addRegisteredChunk', ChunkType.PAD], ['addRegisteredParameter', ParameterType.PADDING]])
    assert.throws(() => builder[name](type, { bytes: new Uint8Array(165) }), code(Result.NO_ROOM));
  // A field of another type, or that has no room; a type that is none.
  for (const fields of [{}, { key: '1', hmacIdentifier: 1 }, { key: 1, hmacIdentifier: 1, hmac: [1] }, null, undefined, 1, 'key'])
    assert.throws(() => builder.addRegisteredChunk(ChunkType.AUTH, fields), TypeError);
  for (const key of [0x10000, -1, 1.5])
    assert.throws(() => builder.addRegisteredChunk(ChunkType.AUTH, { key, hmacIdentifier: 1 }), RangeError);
  for (const counts of [undefined, 1, [1, 2]])
    assert.throws(() => builder.addRegisteredChunk(ChunkType.NR_SACK, { cumulativeTsnAck: 1, aRwnd: 2, counts }), TypeError);
  for (const list of [1, 'x', [1], [{}], [{ bytes: [1] }]])
    assert.throws(() => builder.addRegisteredChunk(ChunkType.ASCONF, { ...ASCONF, parameters: list }), TypeError);
  assert.throws(() => builder.addRegisteredParameter(ParameterType.SUPPORTED_ADDRESS_TYPES, { types: [65536] }), RangeError);
  for (const type of [256, '15', undefined])
    assert.throws(() => builder.addRegisteredChunk(type, {}));
  assert.deepEqual(builder.finish(), before);
  builder.addRegisteredChunk(ChunkType.PAD, { bytes: new Uint8Array(164) });
  assert.equal(builder.size, 200);
});

test('only a chunk, a parameter or an error cause is read', () => {
  for (const readFields of [registeredChunk, registeredParameter, registeredCause]) {
    for (const it of [null, undefined, 1, 'x', { type: 15, code: 3, offset: 4, valueOffset: 4, value: [0, 1] }])
      assert.throws(() => readFields(it), TypeError);
  }
  assert.throws(() => registeredCause({ code: 70000, offset: 4, value: bytes('') }), RangeError);
});

test('addresses of parameters', () => {
  const four = ['192.0.2.1', '198.51.100.1', '2001:db8::1', '2001:db8::2'];
  const builder = new Builder(PORTS).addInit({ initiateTag: 1, aRwnd: 2, outboundStreams: 3, inboundStreams: 4, initialTsn: 5 });
  const init = builder.addAddresses(four.values()).finish();
  for (const [chunk] of [read(init).chunks, [readChunk(init.subarray(12))]])
    assert.deepEqual(addresses(parameters(chunk)), four);
  // All else is passed over: another type, a wrong size, an address in a request.
  const request = parameter(ParameterType.ADD_IP_ADDRESS, { correlationId: 1, address: four[2] });
  const others = [parameter(5, new Uint8Array(5)), parameter(6, new Uint8Array(4)), request, parameter(0x8000), parameter(5, { address: four[0] })];
  assert.deepEqual(addresses(others), [four[0]]);
  for (const it of ['192.0.2', 5])
    assert.throws(() => builder.addAddresses([it]), Error);
  assert.deepEqual(builder.finish(), init);
});
