#!/usr/bin/env python3
# SPDX-License-Identifier: Apache-2.0
"""usage: tests/dump/pcapng.py PROGRAM [--tshark]

Has sctp_dump write the packets of captures, logs and dumps by --pcapng, and reads the blocks that the draft
(draft-ietf-opsawg-pcapng) describes: of a pcap file each has the bytes, the link type and the original length of its record, of
a log the direction, and its time is what --json says of it. What sctp_dump says of the file in JSON has to be what it says of
the input, but for numbers and transports; with a filter too. A packet is written before the next one comes. With --tshark,
tshark has to read the same times, lengths, directions and tags of each file, and capinfos to find no fault. Prints what
differs; status 0 if nothing does."""
import glob
import json
import os
import select
import struct
import subprocess
import sys
import tempfile
from decimal import Decimal

ROOT = os.path.dirname(os.path.dirname(os.path.dirname(os.path.abspath(__file__))))
FOLDERS = f'{ROOT}/crates/sctp_dump/data', f'{ROOT}/tests/dump/data'
FILES = [path for folder in FOLDERS for kind in ('pcap', 'pcapng', 'log') for path in sorted(glob.glob(f'{folder}/*.{kind}'))]
FILES.append(f'{FOLDERS[0]}/lines.txt')
BILLION = 10 ** 9
# From 1970 to the day before 1972: dates of a log are in that year, and count the days from 1.
DAYS = 729 * 86400
DIRECTIONS = {None: 0, 'incoming': 1, 'outgoing': 2}


def run(program, *words, given=b''):
    return subprocess.run([program, *words], input=given, capture_output=True, check=False)


def packets(program, *words, given=b''):
    lines = run(program, '--json', *words, given=given).stdout.decode().splitlines()
    return [it for it in (json.loads(line, parse_float=Decimal) for line in lines) if 'packet' in it]


def blocks(file):
    """Each block's type and body, where its two lengths agree."""
    at = 0
    while at < len(file):
        kind, size = struct.unpack_from('<II', file, at)
        assert size % 4 == 0 and struct.unpack_from('<I', file, at + size - 4) == (size,), f'block at {at}'
        yield kind, file[at + 8:at + size - 4]
        at += size


def options(body):
    """The options' values by their codes, up to the last one, which ends them."""
    values = {}
    while body:
        code, size = struct.unpack_from('<HH', body)
        if code == 0:
            assert size == 0 and len(body) == 4
            break
        values[code] = body[4:4 + size]
        body = body[4 + size + -size % 4:]
    return values


def written(file):
    """Of each packet the link type, the time, the original length, the bytes and the direction."""
    (kind, head), *rest = blocks(file)
    assert kind == 0x0a0d0d0a and head == struct.pack('<IHHq', 0x1a2b3c4d, 1, 0, -1), head
    links, found = [], []
    for kind, body in rest:
        if kind == 1:
            link, _, snap = struct.unpack_from('<HHI', body)
            assert snap == 0 and options(body[8:]) == {9: b'\x09'} and link not in links, body
            links.append(link)
            continue
        assert kind == 6, kind
        interface, high, low, size, original = struct.unpack_from('<IIIII', body)
        ends = 20 + size + -size % 4
        assert not any(body[20 + size:ends])
        flags = options(body[ends:]).get(2, bytes(4))
        found.append((links[interface], high << 32 | low, original, body[20:20 + size], int.from_bytes(flags, 'little')))
    return found


def records(path):
    """Of each record of a pcap file the link type, the original length and the bytes."""
    with open(path, 'rb') as file:
        capture = file.read()
    order = '<' if capture[:4] in (b'\xd4\xc3\xb2\xa1', b'\x4d\x3c\xb2\xa1') else '>'
    link, at, found = struct.unpack_from(order + 'I', capture, 20)[0] & 0xffff, 24, []
    while at + 16 <= len(capture):
        size, original = struct.unpack_from(order + 'II', capture, at + 8)
        found.append((link, original, capture[at + 16:at + 16 + size]))
        at += 16 + size
    return found


def time_of(said, path):
    """The nanoseconds that a time has; 0, if it isn't known, or before 1970."""
    time = said.get('time', Decimal(0))
    if path.endswith('/chromium.log'):
        time += DAYS
    return max(0, int(time * BILLION))


def apart(said):
    return {key: value for key, value in said.items() if key not in ('packet', 'time', 'direction', 'transport')}


def differences(program, path, words):
    """What of a file's packets isn't as it is in the input."""
    with tempfile.NamedTemporaryFile(suffix='.pcapng') as out:
        ran, asked = run(program, '--pcapng', *words, path), packets(program, *words, path)
        out.write(ran.stdout)
        out.flush()
        found, again = written(ran.stdout), packets(program, out.name)
    status = run(program, '--json', *words, path).returncode
    if ran.returncode != status:
        yield f'status {ran.returncode}, not {status}'
    if not len(asked) == len(found) == len(again):
        yield f'{len(found)} packets, {len(again)} read, not {len(asked)}'
    kept = records(path) if path.endswith('.pcap') else None
    for said, (link, time, original, frame, flags), read in zip(asked, found, again):
        number = said['packet']
        if apart(said) != apart(read):
            yield f'packet {number}: {apart(read)}, not {apart(said)}'
        if (time, flags) != (time_of(said, path), DIRECTIONS[said.get('direction')]):
            yield f'packet {number}: time {time}, flags {flags}'
        if kept and (link, original, frame) != kept[number - 1]:
            yield f'packet {number}: another frame'


def read_by_tshark(program, path):
    """What tshark reads of a file differently."""
    with tempfile.NamedTemporaryFile(suffix='.pcapng') as out:
        out.write(run(program, '--pcapng', path).stdout)
        out.flush()
        said, found = packets(program, out.name), written(run(program, '--pcapng', path).stdout)
        looked = subprocess.run(['capinfos', out.name], capture_output=True, text=True, check=False)
        fields = 'frame.time_epoch', 'frame.cap_len', 'frame.len', 'frame.packet_flags_direction', 'sctp.verification_tag'
        lines = subprocess.run(['tshark', '-r', out.name, '-T', 'fields', *(it for field in fields for it in ('-e', field))],
                               capture_output=True, text=True, check=True).stdout.splitlines()
    if looked.returncode or f'Number of packets:   {len(found)}\n' not in looked.stdout:
        yield f'capinfos: {looked.stderr}'
    if len(lines) != len(found):
        yield f'tshark: {len(lines)} packets, not {len(found)}'
    for line, packet, (_, time, original, frame, flags) in zip(lines, said, found):
        epoch, captured, length, direction, tag = line.split('\t')
        wanted = time, len(frame), original, flags
        # Without an option there is no direction; of a packet that was cut off, maybe no tag.
        read = int(Decimal(epoch) * BILLION), int(captured), int(length), int(direction or '0', 0)
        if read != wanted or tag and int(tag, 0) != packet['tag']:
            yield f'tshark: {line}, not {wanted}'


def is_shown(program):
    """Whether a packet is written while the input goes on."""
    with subprocess.Popen([program, '--pcapng'], stdin=subprocess.PIPE, stdout=subprocess.PIPE) as process:
        process.stdin.write(b'138813880102030400000000 0b000004\n')
        process.stdin.flush()
        shown = bytes()
        while len(shown) < 108 and select.select([process.stdout], [], [], 60)[0]:
            shown += os.read(process.stdout.fileno(), 108)
        process.stdin.close()
    return written(shown) == [(248, 0, 16, bytes.fromhex('1388138801020304000000000b000004'), 0)]


def is_within(program):
    """Whether of a record with more bytes than its packet had those of the packet alone are written: the captured length is at
    most the original one (section 4.3)."""
    packet = bytes.fromhex('1388138801020304000000000b000004')
    head = struct.pack('<IHHiIII', 0xa1b2c3d4, 2, 4, 0, 0, 65535, 248)
    ran = run(program, '--pcapng', given=head + struct.pack('<IIII', 7, 0, 18, 16) + packet + b'ab')
    return written(ran.stdout) == [(248, 7 * BILLION, 16, packet, 0)]


def main(program, *more):
    wrong = 0
    for path in FILES:
        if more:
            found = list(read_by_tshark(program, path))
        else:
            found = [it for words in ((), ('--chunk', 'DATA,ABORT'), ('--not', '--port', '5000')) for it in differences(program, path, words)]
        for line in found:
            print(f'{os.path.relpath(path, ROOT)}: {line}')
        wrong += len(found)
    if not is_shown(program):
        print('a packet waits for the next one')
        wrong += 1
    if not is_within(program):
        print('what lies behind a packet is written with it')
        wrong += 1
    nothing = run(program, '--pcapng', '/dev/null').stdout
    if written(nothing):
        print('packets of nothing')
        wrong += 1
    return wrong > 0


if __name__ == '__main__':
    if len(sys.argv) not in (2, 3) or sys.argv[2:] not in ([], ['--tshark']):
        sys.exit(__doc__)
    sys.exit(main(*sys.argv[1:]))
