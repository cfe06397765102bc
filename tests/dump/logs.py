#!/usr/bin/env python3
# SPDX-License-Identifier: Apache-2.0
"""usage: tests/dump/logs.py PROGRAM

Writes six associations of data/usrsctp.pcap as they would come at once in a log of WebRTC: all ports are equal, and the
log begins ten seconds before midnight. Of this log, with the transports' names and without, and of its packets in bare
hexadecimal, sctp_dump has to say the same associations as of the capture, with the same tags, counts, TSNs and, where there
are times, round trips and durations. Prints what differs; status 0 if nothing does."""
import json
import os
import struct
import subprocess
import sys

ROOT = os.path.dirname(os.path.dirname(os.path.dirname(os.path.abspath(__file__))))
CAPTURE = f'{ROOT}/tests/dump/data/usrsctp.pcap'
# the first packet of each, and the last one
ASSOCIATIONS = (1, 46), (47, 77), (84, 130), (131, 157), (158, 203), (241, 286)
INIT, INIT_ACK, ABORT, SHUTDOWN_COMPLETE = 1, 2, 6, 14
SECOND = 10 ** 6


def associations(program, given, *words):
    done = subprocess.run([program, '--json', '--associations', '--summary', *words], input=given, capture_output=True, text=True)
    lines = (json.loads(line) for line in done.stdout.splitlines())
    return [it for it in lines if 'association' in it]


def records(path):
    with open(path, 'rb') as file:
        capture, at = file.read(), 24
    while at < len(capture):
        seconds, micros, size, _ = struct.unpack_from('<IIII', capture, at)
        yield seconds * SECOND + micros, capture[at + 16:at + 16 + size]
        at += 16 + size


def is_sent(packet, first_tag, second_tag):
    """Whether the first end sent it: by its verification tag, or by the Initiate Tag of an INIT."""
    tag, kind, flags = struct.unpack_from('>I', packet, 4)[0], packet[12], packet[13]
    if kind == INIT:
        return struct.unpack_from('>I', packet, 16)[0] == first_tag
    if kind in (ABORT, SHUTDOWN_COMPLETE) and flags & 1:
        return tag == first_tag
    return tag != first_tag and kind != INIT_ACK


def line(time, is_sent, packet, name):
    time = (time + 86390 * SECOND) % (86400 * SECOND)
    clock = '%02d:%02d:%02d.%06d' % (time // (3600 * SECOND), time // (60 * SECOND) % 60, time // SECOND % 60, time % SECOND)
    return f'{"O" if is_sent else "I"} {clock} 0000 {packet.hex(" ")} # SCTP_PACKET{name}\n'


def said(association, has_times):
    """What is said of an association apart from packets' numbers, and of times without what depends on the unit."""
    ends = []
    for end in association['ends']:
        kept = {key: value for key, value in end.items() if isinstance(value, int) and not key.endswith('packet')}
        for key in 'first_repeated', 'closed_first', 'closed_last', 'last_unanswered', 'last_request_unanswered':
            kept.pop(key, None)
        trips = end.get('round_trip', {}) if has_times else {}
        ends.append((kept, {key: trips.get(key) for key in ('count', 'least', 'median', 'greatest', 'greatest_tsn')}))
    return ends, association['duration'] if has_times else None


def main():
    program, packets = os.path.abspath(sys.argv[1]), list(records(CAPTURE))
    wanted = {it['began']['packet']: it for it in associations(program, '', CAPTURE)}
    events = []
    for index, (first, last) in enumerate(ASSOCIATIONS):
        tags = [end['tag'] for end in wanted[first]['ends']]
        begin = packets[first - 1][0]
        events += [(time - begin + 700 * index, index, is_sent(packet, *tags), packet) for time, packet in packets[first - 1:last]]
    events.sort(key=lambda it: it[:2])
    forms = {
        'with names': [line(time, sent, packet, f' DcSctpTransport{index}') for time, index, sent, packet in events],
        'without names': [line(time, sent, packet, '') for time, _, sent, packet in events],
        'in hexadecimal': [packet.hex() + '\n' for _, _, _, packet in events],
    }
    wrong = 0
    for form, lines in forms.items():
        has_times = form != 'in hexadecimal'
        found = [said(it, has_times) for it in associations(program, ''.join(lines))]
        expected = [said(wanted[first], has_times) for first, _ in ASSOCIATIONS]
        for each in expected + found:
            if expected.count(each) != found.count(each):
                wrong += 1
                print(f'{form}: in one alone of the capture and the log: {each}'[:400])
    print(f'logs: {len(ASSOCIATIONS)} associations in {len(forms)} forms' + (f', {wrong} wrong' if wrong else ''))
    sys.exit(bool(wrong))


main()
