#!/usr/bin/env python3
# SPDX-License-Identifier: Apache-2.0
"""Makes the traffic files of the benchmark: one packet a line, in hexadecimal.

usage: traffic.py SEED FOLDER

The same seed makes the same files, with any Python from 3.9 on and its standard library alone. A checksum field
holds random bytes: the benchmark reads with checksum verification disabled. Every packet is accepted, and FILES
says what each file holds. tests/dump/scapy.py and tests/dump/tshark.py draw such packets too."""
import hashlib
import os
import sys

PACKETS = 2000
HOSTILE_PACKETS = 5
PORTS = (5000).to_bytes(2, 'big') * 2
# The payload protocol identifiers of WebRTC (RFC 8831 section 8): control, text, binary.
PAYLOAD_PROTOCOLS = (50, 51, 53)
MOST_BLOCKS = 16376


class Draw:
    """Bytes and numbers out of a seed: SHAKE-256 over the seed's words and a count."""

    def __init__(self, *words):
        self.words, self.count, self.block, self.at = '/'.join(map(str, words)), 0, b'', 0

    def bytes(self, size):
        if self.at + size > len(self.block):
            rest = self.block[self.at:]
            key = '%s/%d' % (self.words, self.count)
            self.block = rest + hashlib.shake_256(key.encode()).digest(max(size, 1 << 16))
            self.count, self.at = self.count + 1, 0
        self.at += size
        return self.block[self.at - size:self.at]

    def below(self, limit):
        return int.from_bytes(self.bytes(6), 'big') % limit

    def between(self, least, most):
        return least + self.below(most - least + 1)

    def one_of(self, values):
        return values[self.below(len(values))]

    def shuffled(self, values):
        values = list(values)
        for i in range(len(values) - 1, 0, -1):
            j = self.below(i + 1)
            values[i], values[j] = values[j], values[i]
        return values


def u16(number):
    return number.to_bytes(2, 'big')


def u32(number):
    return number.to_bytes(4, 'big')


def padding(item):
    return bytes(-len(item) % 4)


def chunk(typ, flags, value):
    return bytes([typ, flags]) + u16(4 + len(value)) + value


def parameter(typ, value):
    """A parameter or an error cause: both have a type or a code of two bytes."""
    return u16(typ) + u16(4 + len(value)) + value


def in_list(items):
    """Each but the last with its padding: that of the last is the chunk's."""
    return b''.join(item + padding(item) for item in items[:-1]) + items[-1]


class Peer:
    """An endpoint that sends: its tag, and TSNs that rise by one."""

    def __init__(self, draw):
        self.draw, self.tag, self.last_tsn, self.sent = draw, draw.bytes(4), draw.below(1 << 32), 0

    def packet(self, *chunks):
        return PORTS + self.tag + self.draw.bytes(4) + b''.join(it + padding(it) for it in chunks)

    def tsn(self):
        self.last_tsn = (self.last_tsn + 1) % (1 << 32)
        return u32(self.last_tsn)

    def data(self, size, flags=3):
        draw = self.draw
        numbers = u16(draw.below(8)) + u16(draw.below(1 << 16)) + u32(draw.one_of(PAYLOAD_PROTOCOLS))
        return chunk(0, flags, self.tsn() + numbers + draw.bytes(size))

    def i_data(self, size, flags):
        # the last field is the payload protocol where the message begins (flag B), and else the FSN
        last = 53 if flags & 2 else 1 + self.draw.below(50)
        numbers = u16(self.draw.below(8)) + u16(0) + u32(self.draw.below(1000)) + u32(last)
        return chunk(64, flags, self.tsn() + numbers + self.draw.bytes(size))

    def sack(self, blocks, duplicates=0):
        lists = b''.join(u16(start) + u16(end) for start, end in blocks) + self.draw.bytes(4 * duplicates)
        window = u32(131072 - self.draw.below(9000))
        return chunk(3, 0, self.tsn() + window + u16(len(blocks)) + u16(duplicates) + lists)

    def gaps(self, count):
        """Blocks by rising start, with a gap of one TSN or more before each."""
        blocks, start = [], 2
        for _ in range(count):
            start += self.draw.below(4)
            end = start + self.draw.below(6)
            blocks.append((start, end))
            start = end + 2
        return blocks

    def init_numbers(self):
        return self.draw.bytes(4) + u32(131072) + u16(1000) + u16(1000) + self.draw.bytes(4)

    def init(self):
        return chunk(1, 0, self.init_numbers() + in_list([
            parameter(0x8000, b''),  # ECN capable
            parameter(0xC000, b''),  # Forward-TSN supported
            parameter(0x8008, bytes([192, 15, 193, 128, 130])),  # supported extensions
            parameter(0x8002, self.draw.bytes(32)),  # random
            parameter(0x8004, u16(1)),  # requested HMAC algorithm
            parameter(0x8003, bytes([128, 193])),  # chunk list
        ]))

    def init_ack(self):
        return chunk(2, 0, self.init_numbers() + in_list([
            parameter(0xC000, b''),
            parameter(0x8008, bytes([192, 130, 64, 194])),
            parameter(0x8001, u32(1)),  # zero checksum acceptable
            parameter(7, self.draw.bytes(256)),  # state cookie
        ]))

    def cookie_echo(self):
        return chunk(10, 0, self.draw.bytes(256))

    def heartbeat(self):
        return chunk(self.draw.one_of((4, 5)), 0, parameter(1, self.draw.bytes(12)))

    def re_config(self):
        if self.draw.below(2):
            streams = b''.join(u16(self.draw.below(1000)) for _ in range(self.draw.between(1, 4)))
            return chunk(130, 0, parameter(13, self.draw.bytes(12) + streams))  # outgoing SSN reset request
        result = u32(self.draw.one_of((0, 1, 1, 1, 6)))
        return chunk(130, 0, parameter(16, self.draw.bytes(4) + result))  # response

    def forward_tsn(self, most):
        streams = (u16(self.draw.below(8)) + u16(self.draw.below(1 << 16)) for _ in range(self.draw.below(most + 1)))
        return chunk(192, 0, self.tsn() + b''.join(streams))

    def i_forward_tsn(self, most):
        streams = (u16(self.draw.below(8)) + u16(self.draw.below(2)) + self.draw.bytes(4)
                   for _ in range(self.draw.below(most + 1)))
        return chunk(194, 0, self.tsn() + b''.join(streams))

    def abort(self):
        return chunk(6, 0, parameter(12, b'User called close'))  # user-initiated abort

    def error(self):
        return chunk(9, 0, in_list([
            parameter(6, chunk(73, 0, self.draw.bytes(8))),  # unrecognized chunk type
            parameter(13, b'Unexpected chunk'),  # protocol violation
            parameter(2, u32(2) + u16(7) + u16(13)),  # missing mandatory parameters
        ]))

    def handshake(self):
        """INIT, INIT ACK, COOKIE ECHO with DATA, COOKIE ACK with SACK and DATA, and from the start again."""
        self.sent += 1
        step = self.sent % 4
        if step == 1:
            return self.packet(self.init())
        if step == 2:
            return self.packet(self.init_ack())
        if step == 3:
            return self.packet(self.cookie_echo(), self.data(self.draw.between(20, 80)))
        return self.packet(chunk(11, 0, b''), self.sack([]), self.data(self.draw.between(1, 40)))

    def mixed(self):
        """Bulk transfer with messages between, as a data channel that is busy in both directions."""
        share = self.draw.below(100)
        if share < 55:
            return self.packet(self.data(1172, self.draw.one_of((3, 2, 0, 1, 7))))
        if share < 65:
            return self.packet(self.data(self.draw.between(8, 120)))
        if share < 70:
            return self.packet(self.sack([]), self.data(self.draw.between(8, 600)))
        if share < 90:
            return self.packet(self.sack(self.gaps(self.draw.one_of((0, 0, 0, 1, 2, 4, 20)))))
        if share < 93:
            return self.packet(self.forward_tsn(3))
        if share < 96:
            return self.packet(self.heartbeat())
        return self.packet(self.re_config())

    def most_gaps(self):
        """As many blocks as a packet holds: every fourth offset and the next one, from the first on again."""
        apart = [(start, start + 1) for start in range(3, 65535, 4)]
        return (apart + apart)[:MOST_BLOCKS]


# A file's name, what a packet of it holds, how many packets, and what makes one.
FILES = (
    ('data1200', 'DATA that fills 1,200 bytes', PACKETS, lambda p: p.packet(p.data(1172))),
    ('data_small', 'DATA, 8 to 120 bytes of payload', PACKETS, lambda p: p.packet(p.data(p.draw.between(8, 120)))),
    ('data_bundle', '12 DATA, 20 to 100 bytes of payload each', PACKETS,
     lambda p: p.packet(*[p.data(p.draw.between(20, 100)) for _ in range(12)])),
    ('idata1200', 'I-DATA that fills 1,200 bytes', PACKETS, lambda p: p.packet(p.i_data(1168, p.draw.one_of((2, 0, 0, 1))))),
    ('sack0', 'SACK without gap ack blocks', PACKETS, lambda p: p.packet(p.sack([]))),
    ('sack4', 'SACK, 4 blocks', PACKETS, lambda p: p.packet(p.sack(p.gaps(4)))),
    ('sack20', 'SACK, 20 blocks and 2 duplicate TSNs', PACKETS, lambda p: p.packet(p.sack(p.gaps(20), 2))),
    ('sack300', 'SACK, 300 blocks', PACKETS, lambda p: p.packet(p.sack(p.gaps(300)))),
    ('init', 'INIT, 6 parameters', PACKETS, lambda p: p.packet(p.init())),
    ('init_ack', 'INIT ACK, 4 parameters, a cookie of 256 bytes', PACKETS, lambda p: p.packet(p.init_ack())),
    ('cookie_echo', 'COOKIE ECHO, 256 bytes', PACKETS, lambda p: p.packet(p.cookie_echo())),
    ('heartbeat', 'HEARTBEAT or HEARTBEAT ACK', PACKETS, lambda p: p.packet(p.heartbeat())),
    ('re_config', 'RE-CONFIG: an outgoing reset request, or a response', PACKETS, lambda p: p.packet(p.re_config())),
    ('forward_tsn', 'FORWARD-TSN, up to 10 streams', PACKETS, lambda p: p.packet(p.forward_tsn(10))),
    ('i_forward_tsn', 'I-FORWARD-TSN, up to 10 streams', PACKETS, lambda p: p.packet(p.i_forward_tsn(10))),
    ('abort', 'ABORT with a text', PACKETS, lambda p: p.packet(p.abort())),
    ('error', 'ERROR, 3 causes', PACKETS, lambda p: p.packet(p.error())),
    ('handshake', 'the four packets of a handshake, in turns', PACKETS, lambda p: p.handshake()),
    ('mixed', 'bulk transfer: DATA, SACK and a few others', PACKETS, lambda p: p.mixed()),
    ('hostile_acks', '16,380 COOKIE ACK', HOSTILE_PACKETS, lambda p: p.packet(*[chunk(11, 0, b'')] * 16380)),
    ('hostile_params', 'RE-CONFIG, 16,370 empty parameters of an unknown type', HOSTILE_PACKETS,
     lambda p: p.packet(chunk(130, 0, parameter(99, b'') * 16370))),
    ('hostile_lists', '5,400 HEARTBEAT, one byte of information each', HOSTILE_PACKETS,
     lambda p: p.packet(*[chunk(4, 0, parameter(1, b'\x7f'))] * 5400)),
    ('hostile_texts', 'ABORT, 8,189 texts that are not UTF-8', HOSTILE_PACKETS,
     lambda p: p.packet(chunk(6, 0, in_list([parameter(12, b'\xff')] * 8189)))),
    ('clean_falling', 'SACK, 16,376 blocks by falling start', HOSTILE_PACKETS,
     lambda p: p.packet(p.sack(p.most_gaps()[::-1]))),
    ('clean_shuffled', 'SACK, the same blocks in any order', HOSTILE_PACKETS,
     lambda p: p.packet(p.sack(p.draw.shuffled(p.most_gaps())))),
    ('clean_overlapping', 'SACK, 16,376 blocks between any two offsets', HOSTILE_PACKETS,
     lambda p: p.packet(p.sack([sorted((p.draw.below(1 << 16), p.draw.below(1 << 16))) for _ in range(MOST_BLOCKS)]))),
)


def main():
    if len(sys.argv) != 3:
        sys.exit('usage: traffic.py SEED FOLDER')
    seed, folder = sys.argv[1:]
    os.makedirs(folder, exist_ok=True)
    for name, _, packets, make in FILES:
        peer = Peer(Draw(seed, name))
        with open(os.path.join(folder, name + '.hex'), 'w', encoding='ascii') as file:
            for _ in range(packets):
                file.write(make(peer).hex() + '\n')


if __name__ == '__main__':
    main()
