#!/usr/bin/env python3
# SPDX-License-Identifier: Apache-2.0
"""usage: tests/dump/faults.py PROGRAM

Compares the lengths that sctp_dump says are needed with those that it accepts: of each type of chunk, and of the types of
parameters and error causes that have names and their neighbours, with each length from 4 to 60. Whether a packet is accepted is
proved; what is needed is text. Where a length is refused the text has to name the next length that is accepted, or the next
below and the next above. Prints what differs; status 0 if nothing does."""
import re
import struct
import subprocess
import sys

LENGTHS, LAST = range(4, 69), 60
RE_CONFIG, ERROR = 130, 9
# chunks with a list of parameters or causes in the value, and where it begins
LISTS = {1: 20, 2: 20, 4: 4, 5: 4, 6: 4, 9: 4, 130: 4}
PARAMETERS = [*range(0x20), *range(0x7ff8, 0x8018), *range(0xbff8, 0xc018)]
CAUSES = [*range(0x20), *range(0x9c, 0xac)]
REFUSED = re.compile(r' ! (\w+) at (\d+): .*: length (\d+), but (\d+)(?: or (\d+))? are needed$')


def padded(raw):
    return raw + bytes(-len(raw) % 4)


def filled(head, length):
    """An item of this length that begins so, with zeros behind."""
    return padded((head[:2] + struct.pack('>H', length) + head[4:] + bytes(length))[:max(length, 4)])


def chunk(kind, length):
    """A chunk of this length; in a list is one item with a type that no table has, if there is room for it."""
    start = LISTS.get(kind)
    if start is None or length <= start:
        return filled(bytes([kind, 0, 0, 0]), length)
    return filled(bytes([kind, 0, 0, 0]) + bytes(start - 4) + struct.pack('>HH', 0x7777, length - start), length)


def within(kind, item):
    return bytes([kind, 0]) + struct.pack('>H', 4 + len(item)) + item


def cases():
    """What each case is, where its item begins in the packet, and the item's bytes by length."""
    for kind in range(256):
        start = LISTS.get(kind, 0)
        lengths = [it for it in LENGTHS if it <= start or it % 4 == 0 or not start]
        yield f'chunk {kind}', 12, {length: chunk(kind, length) for length in lengths}
    # numbers of blocks, and of duplicate TSNs
    for blocks, duplicates in (1, 0), (0, 1), (2, 3), (6, 5):
        head = struct.pack('>BBHIIHH', 3, 0, 0, 1, 2, blocks, duplicates)
        yield f'SACK of {blocks} and {duplicates}', 12, {length: filled(head, length) for length in LENGTHS[12:]}
    for kind in PARAMETERS:
        head = struct.pack('>HH', kind, 0)
        yield f'parameter {kind}', 16, {length: within(RE_CONFIG, filled(head, length)) for length in LENGTHS}
    for kind in CAUSES:
        head = struct.pack('>HH', kind, 0)
        yield f'cause {kind}', 16, {length: within(ERROR, filled(head, length)) for length in LENGTHS}
    for count in 1, 2, 7:
        head = struct.pack('>HHI', 2, 0, count)
        yield f'cause 2 of {count}', 16, {length: within(ERROR, filled(head, length)) for length in LENGTHS[4:]}


def main():
    all_cases = list(cases())
    header = struct.pack('>HHII', 5000, 5001, 1, 0)
    given = ''.join((header + it).hex() + '\n' for _, _, by_length in all_cases for it in by_length.values())
    done = subprocess.run([sys.argv[1], '--brief'], input=given, capture_output=True, text=True, timeout=600)
    lines = iter(done.stdout.splitlines())
    wrong = refused = 0
    for name, offset, by_length in all_cases:
        said = {length: next(lines) for length in by_length}
        accepted = [length for length in said if ' ! ' not in said[length]]
        for length, line in said.items():
            if length in accepted or length > LAST:
                continue
            refused += 1
            below = [it for it in accepted if it < length]
            above = [it for it in accepted if it > length]
            needed = [it for it in (below[-1:] + above[:1])] if below and above else (above[:1] or below[-1:])
            found = REFUSED.search(line)
            there = found and (found[1], int(found[2]), int(found[3]), [int(it) for it in found.groups()[3:] if it])
            if there != ('length', offset, length, needed):
                wrong += 1
                print(f'{name}: of length {length} {needed} are accepted, but: {line}'[:300])
    print(f'faults: {refused} lengths refused' + (f', {wrong} wrong' if wrong else ''))
    sys.exit(bool(wrong) or refused < 500)


main()
