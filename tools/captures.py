#!/usr/bin/env python3
# SPDX-License-Identifier: Apache-2.0
"""usage: tools/captures.py --write | --compare | --help

Makes the page of captures, docs/CAPTURES.md, by running the program.

  --write    runs sctp_show (`rt try`) over the packets of tools/captures.txt, and writes docs/CAPTURES.md, two
             tables, tests/show/captures.txt of what the program prints and
             crates/test_callers/src/tests/association.rt of the packets that carry their checksums, and these
             packets for the stored run of sctp_dump, whose output the page quotes
  --compare  runs nothing; fails if the page isn't what the tables and tools/captures.txt give, or if a packet
             doesn't carry its CRC32c
  --help     prints this

The tables are tests, so that the page can't go stale unseen.
"""
import os
import re
import subprocess
import sys
import tempfile

ROOT = os.path.dirname(os.path.dirname(os.path.abspath(__file__)))
SOURCE = os.path.join(ROOT, 'tools', 'captures.txt')
PAGE = os.path.join(ROOT, 'docs', 'CAPTURES.md')
PROGRAM = os.path.join(ROOT, 'crates', 'sctp_show')
TABLE = os.path.join(ROOT, 'tests', 'show', 'captures.txt')
SEALED = os.path.join(ROOT, 'crates', 'test_callers', 'src', 'tests', 'association.rt')
GOLDEN = os.path.join(ROOT, 'crates', 'sctp_dump')
DUMPED = os.path.join(GOLDEN, 'data', 'association.txt')

# Both ports 5000, tag 16909060, checksum 0.
HEADER = '1388138801020304' + '00000000'

PAGE_HEAD = '''# Packets of real peers

Each line of digits is a packet. Above it is what it is, and below it what a program prints of it: `echo DIGITS | ./sctp_show` or `echo
DIGITS | ./sctp_dump` ([how to build them](INSTALL.md)). Where the line `canonical=` of `sctp_show` is missing, the canonical form is the
packet with a checksum field of 0. `tools/captures.py --write` makes this page of `tools/captures.txt` and of what the programs print. Tests
have it too: `tests/show/captures.txt`, `crates/test_callers/src/tests/association.rt`, and the stored run of `crates/sctp_dump`.
'''

# What is said below each heading; what is below others is in the tables alone.
SECTIONS = {
    'Chunks': '''These chunks were captured, and more, of kinds that the association has too (`tests/show/captures.txt`); the header is the same in all:
both ports 5000, tag 16909060, checksum 0. Below each is what `sctp_show` prints after the line of the header.
''',
    'An association, with its checksums': '''Two sockets of usrsctp 0.9.5.0 (Debian's `libusrsctp2`) in one process, `tools/association.c`: all packets from INIT to SHUTDOWN
COMPLETE, as they were sent, from and to port 5000. Each carries its CRC32c: `read_verified` ([CALLING.md](CALLING.md)) reads it, and
refuses it after any change of a single bit of that field. Below each is what `sctp_dump` prints of its chunks.
''',
    'Refused packets, with their faults': '''Packets of this association, changed by hand; their checksums were computed anew, but for the first and the last. The fault and its
offset in bytes are those of `SctpPacket::first_fault`, with the word of `packet_word` and the default policy. Below is what `sctp_dump`
prints, which reads a packet whose checksum is wrong too, without the lines of the ports and of a right checksum.
''',
}

TABLE_HEAD = '''# Packets of real peers, and what sctp_show prints of them: the rows of docs/CAPTURES.md. Written by tools/captures.py --write;
# rows.txt says how a row reads.
'''

SEALED_HEAD = '''//! An association between two sockets of usrsctp, and packets of it that were changed by hand: the rows of
//! docs/CAPTURES.md with their checksums. Written by `tools/captures.py --write`.

use dcsctp_wire::packet::ChunkParseError::{InvalidLength, InvalidValue};
use dcsctp_wire::packet::sctp_packet::PacketParseError::{
    self, FailedParseChunk, InvalidChecksum, InvalidPacketSize,
};

'''


class Packet:
    """A packet of tools/captures.txt: its words, its bytes, and where it is refused, by which fault."""

    def __init__(self, words, line):
        self.words, self.fault, self.offset = words, None, None
        self.is_whole = line.startswith(('packet ', 'refused '))
        if line.startswith('refused '):
            _, offset, self.fault, line = line.split(' ', 3)
            self.offset = int(offset)
        line = re.sub(r'(\w\w)\*(\d+)', lambda m: m[1] * int(m[2]), line.removeprefix('packet '))
        self.text = ('' if self.is_whole else HEADER) + line.replace(' ', '')

    def has_crc32c(self):
        """Whether the checksum field holds the CRC32c (RFC 9260 appendix A), least significant byte first."""
        packet = bytes.fromhex(self.text)
        register = 0xffffffff
        for byte in packet[:8] + bytes(4) + packet[12:]:
            register ^= byte
            for _ in range(8):
                register = register >> 1 ^ (0x82f63b78 if register & 1 else 0)
        return packet[8:12] == (register ^ 0xffffffff).to_bytes(4, 'little')


def entries():
    """The headings, as texts, and the packets, in their order."""
    with open(SOURCE, encoding='utf-8') as source:
        blocks = source.read().split('\n\n')
    for block in blocks:
        lines = [line for line in block.splitlines() if line and not line.startswith('#')]
        if lines and lines[0].startswith('== '):
            yield lines[0].removeprefix('== ')
        elif lines:
            yield Packet(lines[:-1], lines[-1])


def is_shown(entry):
    """Whether the program is run over it: over a packet that isn't refused."""
    return isinstance(entry, Packet) and entry.fault is None


def printed(texts):
    """What the program prints of each text."""
    with tempfile.TemporaryDirectory() as folder:
        for number, text in enumerate(texts):
            with open(os.path.join(folder, f'{number:02}'), 'w', encoding='ascii') as case:
                case.write(text)
        run = subprocess.run(['rt', 'try', '--cases', folder], cwd=PROGRAM, capture_output=True, text=True, check=True)
    answers = re.split(r'^== \d\d\n', run.stdout, flags=re.M)[1:]
    return [re.split(r'^case=', answer, flags=re.M)[0] for answer in answers]


def in_table():
    """What the table says of each packet, in its order."""
    with open(TABLE, encoding='utf-8') as table:
        rows = re.findall(r'^([0-9a-f]+)\n((?:  .*\n)+)', table.read(), flags=re.M)
    return {text: re.sub('^  ', '', answer, flags=re.M) for text, answer in rows}


def dumped():
    """What sctp_dump prints of each packet with a checksum field, by its stored run."""
    with open(os.path.join(GOLDEN, 'stdout'), encoding='utf-8') as file:
        text = file.read().partition('file association.txt\n\n')[2]
    return iter(text.partition('file ')[0].split('\n\n'))


def shown(entry, answer):
    """What the page shows of what sctp_show prints: without the header and a canonical form that the packet's digits show already."""
    lines = answer.splitlines()[1:]
    if lines and lines[-1] == f'canonical={entry.text[:16]}00000000{entry.text[24:]}':
        lines.pop()
    return lines


def block_of(entry, answer, dumps):
    """What the page shows of a packet: what is said of it, its digits, and what is printed of it."""
    block = [f'# {line}' for line in entry.words] + [entry.text]
    if entry.fault is not None:
        block.append(f'refused: {entry.fault}, at byte {entry.offset}')
    elif not entry.is_whole:
        block += shown(entry, answer)
    else:
        block += [line for line in shown(entry, answer) if line.startswith('canonical=')]
    if entry.is_whole:
        # the number of the packet and its ports come first, then the checksum
        checksum, *chunks = next(dumps, '').splitlines()[2:]
        block += chunks if checksum.endswith(': right') else [checksum, *chunks]
    return '\n'.join(block) + '\n'


def page_of(rows):
    sections, dumps = [], dumped()
    for entry, answer in rows:
        if isinstance(entry, str):
            sections.append((entry, []))
        else:
            sections[-1][1].append(block_of(entry, answer, dumps))
    parts = [f'## {heading}\n\n{SECTIONS[heading]}\n```text\n' + '\n'.join(blocks) + '```\n'
             for heading, blocks in sections if heading in SECTIONS]
    return PAGE_HEAD + '\n' + '\n'.join(parts)


def table_of(rows):
    lines = []
    for entry, answer in rows:
        if is_shown(entry):
            lines += [entry.text, *(f'  {line}' for line in answer.strip('\n').split('\n'))]
    return TABLE_HEAD + '\n'.join(lines) + '\n'


def byte_string(text):
    return 'b"' + ''.join(f'\\x{text[at:at + 2]}' for at in range(0, len(text), 2)) + '"'


def sealed_of(rows):
    packets, refused = [], []
    for entry, answer in rows:
        if is_shown(entry) and entry.is_whole:
            # all but the canonical line
            line = answer.strip('\n').rpartition('\n')[0].replace('\n', '\\n')
            packets.append(f'    (\n        {byte_string(entry.text)},\n        "{line}",\n    ),\n')
        elif isinstance(entry, Packet) and entry.fault is not None:
            refused.append(f'    (\n        {byte_string(entry.text)},\n        {entry.fault},\n        {entry.offset},\n    ),\n')
    return (
        SEALED_HEAD
        + '/// A packet, and what is printed of it.\npub const PACKETS: &[(&[u8], &str)] = &[\n' + ''.join(packets) + '];\n\n'
        + '/// A packet, the fault that refuses it, and where that lies.\n'
        + 'pub const REFUSED: &[(&[u8], PacketParseError, usize)] = &[\n' + ''.join(refused) + '];\n'
    )


def pages(rows):
    """Each file that is made of the rows, and its text."""
    whole = ''.join(entry.text + '\n' for entry, _ in rows if isinstance(entry, Packet) and entry.is_whole)
    return (PAGE, page_of(rows)), (TABLE, table_of(rows)), (SEALED, sealed_of(rows)), (DUMPED, whole)


def compare():
    known = in_table()
    rows = [(entry, known.get(entry.text, '') if is_shown(entry) else '') for entry in entries()]
    for entry, _ in rows:
        if is_shown(entry) and entry.is_whole and not entry.has_crc32c():
            sys.exit(f'captures: a packet of the association has another checksum: {entry.text}')
    for path, wanted in pages(rows):
        with open(path, encoding='utf-8') as file:
            if file.read() != wanted:
                sys.exit(f'captures: {os.path.relpath(path, ROOT)} is stale: run tools/captures.py --write')


def write():
    all_entries = list(entries())
    answers = iter(printed([entry.text for entry in all_entries if is_shown(entry)]))
    rows = [(entry, next(answers) if is_shown(entry) else '') for entry in all_entries]
    for path, wanted in pages(rows):
        os.makedirs(os.path.dirname(path), exist_ok=True)
        with open(path, 'w', encoding='utf-8') as file:
            file.write(wanted)


def main():
    words = sys.argv[1:]
    if words == ['--compare']:
        compare()
    elif words == ['--write']:
        write()
    elif words in ([], ['--help']):
        print(__doc__, end='')
    else:
        print(__doc__, end='', file=sys.stderr)
        sys.exit(2)


main()
