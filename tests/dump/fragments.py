#!/usr/bin/python3
# SPDX-License-Identifier: Apache-2.0
"""Compares the SCTP packets that sctp_dump puts together of IP fragments with the same packets whole, and with what tshark puts together.

usage: tests/dump/fragments.py [PROGRAM]

The packets of captures are put into IPv4, IPv6 and UDP, some of these into VXLAN or GTP-U, and are cut up here by RFC 791 section 3.2 and
RFC 8200 section 4.5. Prints what differs. Status: 0 if all agree, 1 if not. Needed is tshark 4."""
import json
import pathlib
import random
import struct
import subprocess
import sys
import tempfile

ROOT = pathlib.Path(__file__).parent.parent.parent
CAPTURES = ROOT / 'crates/sctp_dump/data/associations.pcap', ROOT / 'tests/dump/data/usrsctp.pcap'
V4, V6 = (b'\x0a\x09\0\1', b'\x0a\x09\0\2'), (b'\xfd' + bytes(14) + b'\1', b'\xfd' + bytes(14) + b'\2')
NONE = 'sctp_dump: no SCTP packet was found (in UDP, --udp-port says the port)\n'
MAC, OTHER = b'\2\0\0\0\0\1\2\0\0\0\0\2', (b'\x0a\x09\0\3', b'\x0a\x09\0\2')


def run(program, *words):
    made = subprocess.run([program, '--json', *words], capture_output=True, text=True, timeout=600, check=False)
    assert made.returncode in (0, 1, 2) and made.stderr in ('', NONE), (made.returncode, made.stderr[:500])
    return [*map(json.loads, made.stdout.splitlines())]


def ipv4(ends, protocol, data, number=0, field=0):
    head = struct.pack('>BBHHHBBH', 0x45, 0, 20 + len(data), number & 0xffff, field, 64, protocol, 0) + ends[0] + ends[1]
    total = sum(struct.unpack('>10H', head))
    total = (total & 0xffff) + (total >> 16)
    return head[:10] + struct.pack('>H', ~(total + (total >> 16)) & 0xffff) + head[12:] + data


def ipv6(ends, protocol, data):
    return struct.pack('>IHBB', 0x60000000, len(data), protocol, 64) + ends[0] + ends[1] + data


def udp(source, to, data):
    return struct.pack('>HHHH', source, to, 8 + len(data), 0) + data


def frame(packet):
    return MAC + (b'\x86\xdd' if packet[0] >> 4 == 6 else b'\x08\0') + packet


def vxlan(packet):
    return frame(ipv4((b'\xc0\0\2\1', b'\xc0\0\2\2'), 17, udp(50000, 4789, b'\x08\0\0\0\0\0\7\0' + frame(packet))))


def gtp(packet):
    return frame(ipv4((b'\xc0\0\2\1', b'\xc0\0\2\2'), 17, udp(2152, 2152, struct.pack('>BBHI', 0x30, 255, len(packet), 9) + packet)))


def pieces(ends, protocol, data, number, sizes):
    """The fragments of a packet, the data of each but the last of as many bytes."""
    at = 0
    for size in [*sizes, len(data)]:
        part, more = data[at:at + size], at + size < len(data)
        if not part:
            return
        if len(ends[0]) == 4:
            yield ipv4(ends, protocol, part, number, at // 8 | more << 13)
        else:
            yield ipv6(ends, 44, struct.pack('>BBHI', protocol, 0, at | more, number) + part)
        at += size


def save(path, frames):
    records = [struct.pack('<IIII', 1700000000 + k, 0, len(it), len(it)) + it for k, it in enumerate(frames)]
    path.write_bytes(struct.pack('<IHHiIII', 0xa1b2c3d4, 2, 4, 0, 0, 262144, 1) + b''.join(records))


def packets(program):
    """The SCTP packets of the captures that have 24 bytes at least."""
    for path in CAPTURES:
        yield from (bytes.fromhex(it['bytes']) for it in run(program, '--places', path) if len(it.get('bytes', '')) >= 48)


class Case:
    """Frames, and which whole packets they have: each with the frame that completes it and how many fragments it came in."""

    def __init__(self):
        self.frames, self.whole = [], {}

    def add(self, frames, whole=None, count=0):
        self.frames += frames
        if whole:
            self.whole[len(self.frames)] = whole, count


def random_sizes(source, data):
    return [8 * source.randint(1, max(1, len(data) // 24)) for _ in range(source.randint(1, 6))]


def cases(sctp):
    """Cases by their names."""
    source, number, made = random.Random(791), 0, {}
    for name in 'in order', 'reversed', 'shuffled', 'repeated', 'lost', 'overlapping', 'among others', 'in tunnels', 'first from another':
        case = made[name] = Case()
        for data in sctp:
            number += 4  # tshark tells packets apart by exclusive ors of these with protocols and addresses
            ends, protocol = source.choice((V4, V6)), 132
            whole = ipv4(ends, 132, data) if ends is V4 else ipv6(ends, 132, data)
            if source.random() < .3:
                protocol, data = 17, udp(9899, 9899, data)
                whole = ipv4(ends, 17, data) if ends is V4 else ipv6(ends, 17, data)
            parts = [*pieces(ends, protocol, data, number, random_sizes(source, data))]
            whole, front = frame(whole), frame
            if len(parts) < 2:
                continue
            count = len(parts)
            if name == 'reversed':
                parts.reverse()
            if name in ('shuffled', 'in tunnels', 'repeated'):
                source.shuffle(parts)
            if name == 'in tunnels':
                front = source.choice((vxlan, gtp))
            if name == 'repeated':
                parts[1:1] = parts[:1]
            if name == 'lost':
                del parts[source.randrange(count)]
                whole = None
            if name == 'overlapping':  # a fragment a second time, but of 8 bytes less and one changed, before the last
                it = pieces(ends, protocol, bytes([data[0] ^ 1]) + data[1:], number, [8])
                parts.insert(source.randrange(1, count), next(it))
                whole = None
            if name == 'first from another':  # of one identification: another sender's first fragment, with other bytes
                ends = (OTHER if ends is V4 else (V6[1], V6[0]))
                parts.insert(0, next(pieces(ends, protocol, bytes(len(data)), number, [8])))
            if name == 'among others':
                other = [*pieces((OTHER if ends is V4 else (V6[1], V6[0])), protocol, data, number, random_sizes(source, data))]
                if len(other) > 1:
                    case.add([front(parts[0]), *map(front, other[:-1])])
                    second = ipv4(OTHER, protocol, data) if ends is V4 else ipv6((V6[1], V6[0]), protocol, data)
                    case.add([front(other[-1])], frame(second), len(other))
                    parts = parts[1:]
            case.add([*map(front, parts)], whole, count)
    # docs/DUMP.md: fragments more than 32,768 frames apart are of different packets
    far, near, other = ([*map(frame, pieces(V4, 132, sctp[0], number + 4 * k, [8]))] for k in (1, 2, 3))
    case = made['far apart'] = Case()
    case.add([far[0], other[0], near[0], *[other[0]] * 32766, far[1]])
    case.add([near[1]], frame(ipv4(V4, 132, sctp[0])), 2)
    return made


def without(it):
    return {key: value for key, value in it.items() if key not in ('packet', 'time', 'fragments', 'tunnels')}


def compare(program, name, case, folder):
    """Compares with the same packets whole, and returns how many there are, or None if some differ."""
    cut, whole = folder / 'cut.pcap', folder / 'whole.pcap'
    save(cut, case.frames)
    save(whole, [it for it, _ in case.whole.values()])
    *found, last = run(program, cut)
    *wanted, _ = run(program, whole)
    found = [it for it in found if 'packet' in it]
    numbers = [(it['packet'], it.get('fragments')) for it in found]
    for what, one, two in (('packets', [*map(without, found)], [*map(without, wanted)]),
                           ('frames', numbers, [(k, count) for k, (_, count) in case.whole.items()]),
                           ('counts', (last['fragment'], last.get('reassembled', 0)), (len(case.frames), len(case.whole)))):
        if one != two:
            differ = [pair for pair in zip(one, two) if pair[0] != pair[1]][:1]
            print(f'fragments: {name}: other {what}: {len(one)} and {len(two)}; {str(differ)[:900]}')
            return None
    return len(found)


def theirs(path):
    """Of each frame that completes a packet for tshark its tag and its last addresses."""
    words = [word for key in ('frame.number', 'sctp.verification_tag', 'ip.src', 'ip.dst', 'ipv6.src', 'ipv6.dst') for word in ('-e', key)]
    made = subprocess.run(['tshark', '-n', '-r', path, '-T', 'fields', '-o', 'ip.defragment:TRUE', '-o', 'ipv6.defragment:TRUE', '-Y', 'sctp',
                           *words], capture_output=True, text=True, check=False)
    for line in made.stdout.splitlines():
        number, tag, *ends = line.split('\t')
        if tag:
            yield int(number), (int(tag, 0), [it.split(',')[-1] for it in (ends[2:] if ends[2] else ends[:2])])


def main(program):
    sctp, failed, total = [*packets(program)], 0, 0
    with tempfile.TemporaryDirectory(prefix='fragments-') as name:
        folder = pathlib.Path(name)
        for name, case in cases(sctp).items():
            count = compare(program, name, case, folder)
            failed, total = failed + (count is None), total + (count or 0)
            if name in ('overlapping', 'far apart'):
                continue  # tshark shows such a packet as it was before, and joins fragments that are any frames apart
            mine = {it['packet']: (it['tag'], [it['from'], it['to']]) for it in run(program, folder / 'cut.pcap') if 'tag' in it}
            if mine != (other := dict(theirs(folder / 'cut.pcap'))):
                failed += 1
                differ = [(k, mine.get(k), other.get(k)) for k in sorted({*mine, *other}) if mine.get(k) != other.get(k)][:2]
                print(f'fragments: {name}: tshark finds others: {len(mine)} and {len(other)}; {differ}')
    if total < 1000:
        failed += 1
        print(f'fragments: only {total} packets')
    print(f'fragments: {total} packets of fragments, {failed} faults')
    return failed > 0


if len(sys.argv) > 1 and sys.argv[1] in ('-h', '--help'):
    print(__doc__)
else:
    sys.exit(main(sys.argv[1] if len(sys.argv) > 1 else str(ROOT / 'crates/sctp_dump/out/sctp_dump')))
