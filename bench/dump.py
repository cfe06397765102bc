#!/usr/bin/env python3
# SPDX-License-Identifier: Apache-2.0
"""Times sctp_dump over captures of 10 and 100 MB, and tshark beside it if it is there.

usage: bench/dump.py [PROGRAM]

Makes bench/out/bulk10.pcap and bulk100.pcap: a bulk transfer over Ethernet and IPv4, two DATA that fill 1,200 bytes and then a SACK of
the peer, whose TSNs rise; messages of one to eight fragments on four streams, a half of them strings, of ASCII, and the others random
bytes; checksums of zero, as WebRTC may send them (RFC 9653), which take as long as others. Runs each command three times over each file,
its output thrown away, and prints a Markdown table of what /usr/bin/time says: the least seconds, and the greatest resident memory.
PROGRAM is crates/sctp_dump/out/sctp_dump unless it is named (docs/DUMP.md says how to build it)."""
import os
import random
import shutil
import struct
import subprocess
import sys

ROOT = os.path.dirname(os.path.dirname(os.path.abspath(__file__)))
TURNS, SIZES, PAYLOAD = 3, (10, 100), 1172
ENDS = (bytes([192, 0, 2, 1]), 5000, 0x11111111), (bytes([192, 0, 2, 2]), 5001, 0x22222222)
STRING, BINARY = 51, 53


def frame(sender, receiver, chunk):
    header = struct.pack('>HHII', sender[1], receiver[1], receiver[2], 0)
    ip = struct.pack('>BBHHHBBH', 0x45, 0, 32 + len(chunk), 0, 0x4000, 64, 132, 0)
    return bytes(12) + b'\x08\x00' + ip + sender[0] + receiver[0] + header + chunk


def frames():
    """Yields frames without an end."""
    draw = random.Random(1)
    payloads = {BINARY: [draw.randbytes(PAYLOAD) for _ in range(64)]}
    payloads[STRING] = [bytes(32 + byte % 95 for byte in payload) for payload in payloads[BINARY]]
    tsn, left, numbers = 1, 0, [0] * 4
    while True:
        for _ in range(2):
            begins = left == 0
            if begins:
                left, stream, ppid = draw.choice((1, 1, 1, 4, 8)), draw.randrange(4), draw.choice((STRING, BINARY))
                numbers[stream] = (numbers[stream] + 1) % 2 ** 16
            left -= 1
            header = struct.pack('>BBHIHHI', 0, 2 * begins + (left == 0), 16 + PAYLOAD, tsn, stream, numbers[stream], ppid)
            yield frame(*ENDS, header + draw.choice(payloads[ppid]))
            tsn += 1
        yield frame(*ENDS[::-1], struct.pack('>BBHIIHH', 3, 0, 16, tsn - 1, 100_000, 0, 0))


def write(path, size):
    """Writes a capture of at least `size` bytes, and returns the number of its packets."""
    with open(path, 'wb') as file:
        file.write(struct.pack('<IHHiIII', 0xA1B2C3D4, 2, 4, 0, 0, 262144, 1))
        for at, content in enumerate(frames()):
            if file.tell() >= size:
                return at
            header = 1700000000 + at // 10000, at % 10000 * 100, len(content), len(content)
            file.write(struct.pack('<IIII', *header) + content)


def measured(command, note):
    """The least seconds of user and wall, and the greatest resident memory in KiB, of some runs."""
    runs = []
    for _ in range(TURNS):
        run = subprocess.run(['/usr/bin/time', '-o', note, '-f', '%U %e %M'] + command, check=False,
                             stdout=subprocess.DEVNULL, stderr=subprocess.DEVNULL)
        if run.returncode:
            sys.exit('dump.py: %s failed' % ' '.join(command))
        with open(note, encoding='ascii') as file:
            runs.append(file.read().split())
    user, wall, memory = zip(*runs)
    return [min(user, key=float), min(wall, key=float), format(max(map(int, memory)), ',')]


def main():
    if len(sys.argv) > 2 or sys.argv[1:2] in (['--help'], ['-h']):
        print(__doc__)
        return
    program = sys.argv[1] if len(sys.argv) > 1 else os.path.join(ROOT, 'crates', 'sctp_dump', 'out', 'sctp_dump')
    forms = [], ['--summary'], ['--payload'], ['--json'], ['--messages']
    commands = [[program, *form] for form in forms]
    commands += [['tshark', '-n', '-r'], ['tshark', '-n', '-V', '-r']] if shutil.which('tshark') else []
    folder = os.path.join(ROOT, 'bench', 'out')
    os.makedirs(folder, exist_ok=True)
    paths = [os.path.join(folder, 'bulk%d.pcap' % size) for size in SIZES]
    packets = [write(path, size * 10 ** 6) for path, size in zip(paths, SIZES)]
    heads = ['%d MB, %s packets: user s | wall s | KiB' % it for it in zip(SIZES, (format(it, ',') for it in packets))]
    print('| command | %s |\n| --- ' % ' | '.join(heads) + '| --: ' * 3 * len(SIZES) + '|')
    for command in commands:
        cells = [cell for path in paths for cell in measured(command + [path], os.path.join(folder, 'time'))]
        print('| `%s` | %s |' % (' '.join([os.path.basename(command[0])] + command[1:]), ' | '.join(cells)), flush=True)


if __name__ == '__main__':
    main()
