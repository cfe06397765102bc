#!/usr/bin/env python3
# SPDX-License-Identifier: Apache-2.0
"""usage: tests/c/multihomed.py PROGRAM | --help

Tries examples/c/multihomed.c, built as PROGRAM: what it answers has to be the bytes that the layouts of RFC 9260, RFC 5061 and
RFC 4960 give, by Python's struct. Where scapy is, it has to build the same packets; where tshark is, it has to read them so too.
The last line is: multihomed: N passed, M failed.
"""
import ipaddress
import os
import shutil
import struct
import subprocess
import sys
import tempfile

OWN_TAG, OWN_TSN, PEER_TAG, PEER_TSN = 0x0da73798, 0x66e387ab, 0x11223344, 0xffffffff
passed, failed = 0, 0


def check(what, is_right):
    global passed, failed
    if is_right:
        passed += 1
    else:
        failed += 1
        print(f'multihomed: {what}: failed')


# ---- layouts

def crc32c(data):
    """RFC 9260 appendix A, bit by bit."""
    crc = 0xffffffff
    for byte in data:
        crc ^= byte
        for _ in range(8):
            crc = crc >> 1 ^ 0x82f63b78 if crc & 1 else crc >> 1
    return crc ^ 0xffffffff


def packet(source, destination, tag, *chunks):
    """RFC 9260 section 3.1."""
    data = struct.pack('>HHII', source, destination, tag, 0) + b''.join(chunks)
    return data[:8] + struct.pack('<I', crc32c(data)) + data[12:]


def padded(data):
    return data + bytes(-len(data) % 4)


def chunk(kind, *parts):
    """Section 3.2: the length counts the padding of the items, but not that of the last one."""
    value = b''.join(map(padded, parts[:-1])) + (parts[-1] if parts else b'')
    return padded(struct.pack('>BBH', kind, 0, 4 + len(value)) + value)


def item(kind, *parts):
    """Sections 3.2.1 and 3.3.10, of a parameter and an error cause; without its padding."""
    value = b''.join(map(padded, parts[:-1])) + (parts[-1] if parts else b'')
    return struct.pack('>HH', kind, 4 + len(value)) + value


def u32(number):
    return struct.pack('>I', number)


def address(text):
    """Sections 3.3.2.1.1 and 3.3.2.1.2."""
    it = ipaddress.ip_address(text)
    return item(5 if it.version == 4 else 6, it.packed)


def add(number, text):
    """RFC 5061 sections 4.2.1, and below 4.2.2, 4.2.4, 4.2.5 and 4.2.3."""
    return item(0xc001, u32(number), address(text))


def delete(number, text):
    return item(0xc002, u32(number), address(text))


def set_primary(number, text):
    return item(0xc004, u32(number), address(text))


def success(number):
    return item(0xc005, u32(number))


def refused(number, code, request):
    return item(0xc003, u32(number), item(code, request))


def init(*parameters, tag=0, numbers=(PEER_TAG, 0x10000, 3, 3, PEER_TSN)):
    """RFC 9260 section 3.3.2."""
    return packet(5000, 5001, tag, chunk(1, struct.pack('>IIHHI', *numbers), *parameters))


def asconf(serial, *requests, tag=OWN_TAG, before=()):
    """RFC 5061 section 4.1.1."""
    return packet(5000, 5001, tag, *before, chunk(193, u32(serial), address('203.0.113.1'), *requests))


def asconf_ack(serial, *responses):
    """Section 4.1.2."""
    return packet(5001, 5000, PEER_TAG, chunk(128, u32(serial), *responses))


V4, V6 = ['192.0.2.1', '198.51.100.1'], ['2001:db8::1']
ACK = struct.pack('>IIHHI', OWN_TAG, 0x20000, 4, 4, OWN_TSN), item(7, b'abcd'), item(0x8008, bytes([193, 128]))


def init_ack(*parameters, own=(*V4, *V6)):
    """RFC 9260 section 3.3.3, RFC 5061 section 4.2.7."""
    return packet(5001, 5000, PEER_TAG, chunk(2, *ACK, *parameters, *map(address, own)))


PEER = ['203.0.113.1', '203.0.113.2', '2001:db8:1::1']
UNKNOWN = {kind: item(kind, b'xyz') for kind in (0xc0fe, 0x80fe, 0x40fe, 0x00fe)}
NONE = b''

# What comes, one after the other, and what answers.
EXCHANGES = [
    ('no association yet', asconf(PEER_TSN, add(1, '203.0.113.3')), NONE),
    ('an INIT under a tag', init(*map(address, PEER), tag=1), NONE),
    ('an INIT without streams', init(numbers=(PEER_TAG, 0x10000, 0, 3, PEER_TSN)), NONE),
    ('an INIT without a tag', init(numbers=(0, 0x10000, 3, 3, PEER_TSN)), NONE),
    ('an address that is too short', init(item(5, bytes(3))), NONE),
    ('IPv4 alone', init(*map(address, PEER), item(12, struct.pack('>H', 5))), init_ack(own=V4)),
    ('IPv6 and another type', init(item(12, struct.pack('>HH', 11, 6))), init_ack(own=V6)),
    ('a name in place of addresses', init(item(11, b'a.example\0')),
     packet(5001, 5000, PEER_TAG, chunk(6, item(5, item(11, b'a.example\0'))))),
    ('types that are unknown', init(*map(address, PEER), item(12, struct.pack('>HH', 5, 6)), UNKNOWN[0xc0fe], UNKNOWN[0x80fe],
                                    UNKNOWN[0x40fe], UNKNOWN[0xc0fe]),
     init_ack(item(8, UNKNOWN[0xc0fe]), item(8, UNKNOWN[0x40fe]))),
    ('a type at which to stop', init(UNKNOWN[0x00fe], UNKNOWN[0xc0fe]), init_ack()),
    ('the association', init(*map(address, PEER)), init_ack()),
    ('another serial number', asconf(PEER_TSN + 1 & 0xffffffff, add(1, '203.0.113.3')), NONE),
    ('another tag', asconf(PEER_TSN, add(1, '203.0.113.3'), tag=OWN_TAG + 1), NONE),
    ('a broken list', asconf(PEER_TSN, item(0xc001, u32(1), address('203.0.113.3'))[:-1]), NONE),
    ('one added, and one without room', asconf(PEER_TSN, add(1, '2001:db8:1::2'), add(2, '203.0.113.3'), add(3, '203.0.113.1')),
     asconf_ack(PEER_TSN, success(1), refused(2, 0xa1, add(2, '203.0.113.3')), success(3))),
    ('the same again', asconf(PEER_TSN, delete(9, '203.0.113.1')),
     asconf_ack(PEER_TSN, success(1), refused(2, 0xa1, add(2, '203.0.113.3')), success(3))),
    ('no request, after an AUTH', asconf(0, before=[chunk(15, struct.pack('>HH', 0, 1), bytes(20))]), asconf_ack(0)),
    ('all but one deleted', asconf(1, delete(4, '203.0.113.1'), delete(5, '2001:db8:1::1'), delete(6, '2001:db8:1::2'),
                                   delete(7, '203.0.113.2'), delete(8, '203.0.113.9'), set_primary(9, '203.0.113.2')),
     asconf_ack(1, success(4), success(5), success(6), refused(7, 0xa0, delete(7, '203.0.113.2')), success(8), success(9))),
    ('the last changed', asconf(2, add(10, '2001:db8:1::9'), delete(11, '203.0.113.2'), delete(12, '2001:db8:1::9')),
     asconf_ack(2, success(10), success(11), refused(12, 0xa0, delete(12, '2001:db8:1::9')))),
    ('the source address, and what is unknown', asconf(3, add(13, '0.0.0.0'), delete(14, '::'), UNKNOWN[0x80fe], UNKNOWN[0xc0fe],
                                                       UNKNOWN[0x40fe], add(15, '203.0.113.3')),
     asconf_ack(3, refused(13, 0xa4, add(13, '0.0.0.0')), refused(14, 0xa4, delete(14, '::')), refused(0, 8, UNKNOWN[0xc0fe]),
                refused(0, 8, UNKNOWN[0x40fe]))),
    ('another checksum', bytes(8) + asconf(4)[8:], NONE),
    ('no packet', b'\1\2\3', NONE),
    ('an empty line', b'', NONE),
]


# ---- other programs

def compare_with_scapy():
    try:
        from scapy.layers import sctp
    except ImportError:
        print('multihomed: scapy: left out, since there is no scapy')
        return
    own = [sctp.SCTPChunkParamIPv4Addr(addr=it) for it in V4] + [sctp.SCTPChunkParamIPv6Addr(addr=it) for it in V6]
    peer = [(sctp.SCTPChunkParamIPv6Addr if ':' in it else sctp.SCTPChunkParamIPv4Addr)(addr=it) for it in PEER]
    to, back = dict(sport=5000, dport=5001), dict(sport=5001, dport=5000)
    made = {
        'the association': (
            sctp.SCTP(**to) / sctp.SCTPChunkInit(init_tag=PEER_TAG, a_rwnd=0x10000, n_out_streams=3, n_in_streams=3,
                                                 init_tsn=PEER_TSN, params=peer),
            sctp.SCTP(**back, tag=PEER_TAG) / sctp.SCTPChunkInitAck(
                init_tag=OWN_TAG, a_rwnd=0x20000, n_out_streams=4, n_in_streams=4, init_tsn=OWN_TSN,
                params=[sctp.SCTPChunkParamStateCookie(cookie='abcd'),
                        sctp.SCTPChunkParamSupportedExtensions(supported_extensions=[193, 128]), *own])),
        'one added, and one without room': (
            sctp.SCTP(**to, tag=OWN_TAG) / sctp.SCTPChunkAddressConf(
                seq=PEER_TSN, params=[sctp.SCTPChunkParamIPv4Addr(addr=PEER[0]),
                                      sctp.SCTPChunkParamAddIPAddr(correlation_id=1, addr_type=6, addr='2001:db8:1::2', len=28),
                                      sctp.SCTPChunkParamAddIPAddr(correlation_id=2, addr_type=5, addr='203.0.113.3', len=16),
                                      sctp.SCTPChunkParamAddIPAddr(correlation_id=3, addr_type=5, addr='203.0.113.1', len=16)]),
            sctp.SCTP(**back, tag=PEER_TAG) / sctp.SCTPChunkAddressConfAck(
                seq=PEER_TSN, params=[sctp.SCTPChunkParamSuccessIndication(correlation_id=1),
                                      sctp.SCTPChunkParamErrorIndication(correlation_id=2,
                                                                         error_causes=item(0xa1, add(2, '203.0.113.3'))),
                                      sctp.SCTPChunkParamSuccessIndication(correlation_id=3)])),
    }
    for what, came, answer in EXCHANGES:
        for wanted, built in zip((came, answer), made.get(what, ())):
            check(f'scapy: {what}: {bytes(built).hex()}, not {wanted.hex()}', bytes(built) == wanted)


# Of an answer what tshark reads: the chunk, parameters, addresses, correlation ids and error causes.
FIELDS = ['chunk_type', 'parameter_type', 'parameter_ipv4_address', 'parameter_ipv6_address', 'correlation_id', 'cause_code',
          'checksum.status']
READ = {
    'types that are unknown': '2|0x0007,0x8008,0x0008,0xc0fe,0x0008,0x40fe,0x0005,0x0005,0x0006|192.0.2.1,198.51.100.1|2001:db8::1|||1',
    'a name in place of addresses': '6|0x000b||||0x0005|1',
    'one added, and one without room':
        '128|0xc005,0xc003,0xc001,0x0005,0xc005|203.0.113.3||0x00000001,0x00000002,0x00000002,0x00000003|0x00a1|1',
    'the last changed': '128|0xc005,0xc005,0xc003,0xc002,0x0006||2001:db8:1::9|0x0000000a,0x0000000b,0x0000000c,0x0000000c|0x00a0|1',
}


def compare_with_tshark(folder):
    if not shutil.which('tshark'):
        print('multihomed: tshark: left out, since there is no tshark')
        return
    named = [(what, answer) for what, _, answer in EXCHANGES if what in READ]
    path = os.path.join(folder, 'answers.pcap')
    with open(path, 'wb') as file:
        file.write(struct.pack('<IHHiIII', 0xa1b2c3d4, 2, 4, 0, 0, 65535, 248))  # the link type of bare SCTP packets
        for i, (_, answer) in enumerate(named):
            file.write(struct.pack('<IIII', i, 0, len(answer), len(answer)) + answer)
    words = [word for field in FIELDS for word in ('-e', f'sctp.{field}')]
    ran = subprocess.run(['tshark', '-r', path, '-o', 'sctp.checksum:crc-32c', '-T', 'fields', '-E', 'separator=|', *words,
                          '-e', '_ws.malformed'], capture_output=True, text=True, check=False)
    lines = ran.stdout.splitlines()
    check(f'tshark: {ran.stderr}', len(lines) == len(named))
    for (what, _), line in zip(named, lines):
        check(f'tshark: {what}: {line}', line == f'{READ[what]}|')


def main(words):
    if words == ['--help'] or len(words) != 1:
        print(__doc__.strip(), file=sys.stdout if words == ['--help'] else sys.stderr)
        return 0 if words == ['--help'] else 2
    came = ''.join(f'{came.hex()}\n' for _, came, _ in EXCHANGES)
    ran = subprocess.run(words, input=came, capture_output=True, text=True, check=False)
    lines = ran.stdout.splitlines()
    check(f'status {ran.returncode}, {len(lines)} lines: {ran.stderr}', ran.returncode == 0 and len(lines) == len(EXCHANGES))
    for (what, _, wanted), line in zip(EXCHANGES, lines):
        check(f'{what}: {line}, not {wanted.hex()}', line == wanted.hex())
    compare_with_scapy()
    with tempfile.TemporaryDirectory() as folder:
        compare_with_tshark(folder)
    print(f'multihomed: {passed} passed, {failed} failed')
    return failed > 0


if __name__ == '__main__':
    sys.exit(main(sys.argv[1:]))
