#!/usr/bin/env python3
# SPDX-License-Identifier: Apache-2.0
"""usage: dist/packets.py COUNT SEED <PACKETS

Prints as many packets, in hexadecimal, one a line: those that it reads, with changes made at random. The same seed gives
the same packets. Of twenty, nineteen have their CRC32c. dist/test.sh gives them to the library on each system, whose
answers have to be the same.
"""

import random
import sys

POLYNOMIAL = 0x82F63B78  # of the CRC32c, its bits in reverse order
HEADER = 12
TYPES = (*range(16), 64, 130, 192, 194)  # of chunks


def table_entry(byte):
    for _ in range(8):
        byte = byte >> 1 ^ POLYNOMIAL * (byte & 1)
    return byte


TABLE = [table_entry(it) for it in range(256)]


def sealed(packet):
    """The packet with its CRC32c (RFC 9260 section 6.8)."""
    register = 0xFFFFFFFF
    for byte in packet[:8] + bytes(4) + packet[HEADER:]:
        register = register >> 8 ^ TABLE[(register ^ byte) & 255]
    return packet[:8] + (register ^ 0xFFFFFFFF).to_bytes(4, "little") + packet[HEADER:]


def chunks_of(packet):
    """The chunks of a packet with their padding, as far as their lengths lead."""
    at = HEADER
    while at + 4 <= len(packet):
        size = max(4, int.from_bytes(packet[at + 2:at + 4], "big") + 3 & ~3)
        yield packet[at:at + size]
        at += size


def changed(packet, chunks, chance):
    """The packet with up to three changes."""
    packet = bytearray(packet)
    for _ in range(chance.randrange(4)):
        at = chance.randrange(HEADER, len(packet)) if len(packet) > HEADER else 0
        kind = chance.randrange(6)
        if kind == 0:
            packet += chance.choice(chunks)
        elif kind == 1:
            packet[at] = chance.randrange(256)
        elif kind == 2:
            packet[at] ^= 1 << chance.randrange(8)
        elif kind == 3:
            # A type or a length of a chunk or of what is in it.
            at &= ~3
            packet[at:at + 4] = bytes([chance.choice(TYPES), chance.randrange(16), 0, chance.randrange(64)])
        elif kind == 4:
            del packet[at:]
        else:
            packet[at:at] = bytes(chance.randrange(256) for _ in range(chance.randrange(1, 9)))
    return bytes(packet)


def main():
    if len(sys.argv) != 3 or not all(it.isdigit() for it in sys.argv[1:]):
        sys.exit(__doc__.strip())
    chance = random.Random(int(sys.argv[2]))
    packets = [bytes.fromhex(it) for it in sys.stdin if it.strip() and not it.startswith("#")]
    chunks = [it for packet in packets for it in chunks_of(packet)]
    for _ in range(int(sys.argv[1])):
        packet = changed(chance.choice(packets), chunks, chance)
        print((sealed(packet) if chance.randrange(20) else packet).hex())


main()
