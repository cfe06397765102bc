#!/usr/bin/env python3
# SPDX-License-Identifier: Apache-2.0
"""usage: tests/dump/channels.py [--seed 1] [--into FOLDER] PROGRAM [CAPTURE ..]
       tests/dump/channels.py --help

Compares what sctp_dump says of a capture's channels, as lines and as JSON, with a model over tshark's dissection.

  --seed 1       the seed of the captures that are drawn
  --into FOLDER  keeps the captures that are made

Without a CAPTURE it makes some, and compares these and some stored ones. What becomes of each message is what the model of messages.py
says. Of a median it is compared whether it is within 1/16 of that of all delays. tshark shows no label that isn't UTF-8.
Status: 0 if all agree, 1 if not. Needed is tshark.
"""
import argparse
import json
import os
import random
import struct
import sys
import tempfile
from decimal import Decimal

sys.dont_write_bytecode = True
sys.path.insert(0, os.path.dirname(os.path.abspath(__file__)))
import messages  # noqa: E402
from messages import base, BEGINS, ENDS, UNORDERED, piece, i_piece  # noqa: E402
from associations import A, B, C, ABORT, DATA, I_DATA, RE_CONFIG  # noqa: E402

OUTGOING_RESET, RESPONSE, DCEP, IN_PROGRESS = 13, 16, 50, 6
base.FIELDS += ['sctp.parameter_reconfig_sid', 'sctp.parameter_reconfig_response_result', 'sctp.parameter_length', 'rtcdc.message_type',
                'rtcdc.channel_type', 'rtcdc.priority', 'rtcdc.reliability_parameter', 'rtcdc.label', 'rtcdc.protocol']
# RFC 8832 section 5.1, RFC 6525 section 4.4
TYPES = {0: 'reliable ordered', 1: 'partial reliable rexmit ordered', 2: 'partial reliable timed ordered', 0x80: 'reliable unordered',
         0x81: 'partial reliable rexmit unordered', 0x82: 'partial reliable timed unordered'}
RESULTS = ('Success - Nothing to do', 'Success - Performed', 'Denied', 'Error - Wrong SSN', 'Error - Request already in progress',
           'Error - Bad Sequence Number', 'In progress')


# ---- the model

class Channel:
    def __init__(self, association, stream, ppid=None, opened=None):
        self.association, self.stream, self.ppid, self.opened = association, stream, ppid, opened
        self.resets, self.replaced, self.messages = {}, None, ([], [])

    def is_over(self, end, packet):
        reset = self.resets.get(end, {})
        is_reset = reset.get('result') in (0, 1) and reset['response_packet'] <= packet
        return is_reset or self.replaced is not None and self.replaced <= packet

    def expected(self):
        line = {'channel_of': self.association, 'stream': self.stream}
        if self.opened:
            line.update((key, value) for key, value in self.opened.items() if key not in ('tsn', 'crossed'))
        elif self.ppid is not None:
            line['ppid'] = self.ppid
        if self.resets:
            line['resets'] = [{key: value for key, value in self.resets[end].items() if key != 'number'} for end in sorted(self.resets)]
        line['ends'] = [traffic(some) for some in self.messages]
        return line


def traffic(some):
    one = {'messages': len(some), 'bytes': sum(message['size'] for message in some),
           'repeated': sum(message.get('repeated', 0) for message in some),
           'abandoned': sum('abandoned_by' in message for message in some),
           'unacknowledged': sum(messages.over_by(message) is None for message in some)}
    if some:
        first, *_, last = sorted([(message['sent_packet'], message['sent']) for message in some]) * 2
        one.update(first=first[1], first_packet=first[0], last=last[1], last_packet=last[0])
        if (span := Decimal(last[1]) - Decimal(first[1])) > 0:
            one['bytes_per_second'] = int(one['bytes'] / span)
        one['most_in_flight'] = max(message['in_flight'] for message in some)
    delays = [message for message in some if 'delay' in message]
    if delays:
        one['delay'] = sorted((float(message['delay']), message['first_tsn'], message['acknowledged_packet']) for message in delays)
    return one


class Association:
    def __init__(self, number):
        self.number, self.channels, self.asked = number, [], ([], [])

    def open(self, stream, opened):
        for one in self.channels:
            if one.stream != stream or not one.opened:
                continue
            if one.opened['opened_by'] == opened['opened_by']:
                if one.opened['tsn'] == opened['tsn']:
                    return
            elif one.opened.get('crossed') == opened['tsn']:
                return
            elif 'crossed' not in one.opened and not one.is_over(opened['opened_by'], opened['opened_packet']):
                one.opened.update(crossed=opened['tsn'], opened_by_both=True)
                return
        for one in self.channels:
            if one.stream == stream and one.replaced is None:
                one.replaced = opened['opened_packet']
        self.channels.append(Channel(self.number, stream, opened=opened))

    def acknowledge(self, stream, end, moment):
        for one in self.channels:
            if one.stream == stream and one.replaced is None and one.opened and one.opened['opened_by'] != end:
                one.opened.setdefault('acknowledged', moment[1])
                one.opened.setdefault('acknowledged_packet', moment[0])

    def reset(self, end, number, streams, packet):
        # the number identifies the request (RFC 6525 section 4.1)
        if number in self.asked[end][-8:]:
            return
        self.asked[end].append(number)
        for one in self.channels:
            if (not streams or one.stream in streams) and not one.is_over(end, packet):
                one.resets[end] = {'end': end, 'number': number, 'packet': packet}

    def respond(self, end, number, result, packet):
        for one in self.channels:
            reset = one.resets.get(end, {})
            # any other one ends the request (RFC 6525 section 5.2.7)
            is_open = 'result' not in reset or reset['result'] == IN_PROGRESS != result
            if reset.get('number') == number and is_open:
                reset.update(result=result, response_packet=packet)
                reset.pop('result_name', None)
                if result < len(RESULTS):
                    reset['result_name'] = RESULTS[result]

    def end(self, message):
        stream, ppid, end = message['stream'], message.get('ppid'), message['end']
        for one in self.channels:
            if one.stream == stream and (one.opened or one.ppid == ppid) and not one.is_over(end, message['sent_packet']):
                break
        else:
            one = Channel(self.number, stream, ppid)
            self.channels.append(one)
        one.messages[end].append(message)


def modelled(path):
    """Returns the channels of a capture."""
    model, all_of, ended = base.Model(), {}, {}
    for message in messages.modelled(path):
        ended.setdefault(messages.over_by(message), []).append(message)
    for packet in base.packets(path, ()):
        model.see(packet)
        member = model.members[packet['number']]
        if member:
            association = all_of.setdefault(member['association'], Association(member['association']))
            note(association, member['end'], packet)
        for message in ended.pop(packet['number'][1], ()):
            all_of[message['message_of']].end(message)
    for message in ended.pop(None, ()):
        all_of[message['message_of']].end(message)
    return [channel.expected() for association in all_of.values() for channel in association.channels]


def note(association, end, packet):
    """Notes the messages of DCEP and the RE-CONFIGs of a packet."""
    take = {name: iter([1 if text == 'True' else 0 if text == 'False' else base.number(text) for text in values])
            for name, values in packet['fields'].items() if name.startswith(('sctp.data_', 'rtcdc', 'sctp.parameter_')) and
            name not in ('rtcdc.label', 'rtcdc.protocol') and not name.startswith('sctp.parameter_ip') and
            name != 'sctp.parameter_heartbeat_information'}
    texts = {name: iter(packet['fields'][name]) for name in ('rtcdc.label', 'rtcdc.protocol')}
    frame, time = packet['number'][1], base.seconds(packet['time'], 6)
    for kind, value in packet['chunks']:
        if kind in (DATA, I_DATA):
            fragment = messages.Fragment(*value, kind, take)
            if fragment.ppid == DCEP and fragment.begins and fragment.ends:
                if next(take['rtcdc.message_type']) == 2:
                    association.acknowledge(fragment.stream, end, (frame, time))
                    continue
                typ = next(take['rtcdc.channel_type'])
                opened = {'label': next(texts['rtcdc.label'], ''), 'protocol': next(texts['rtcdc.protocol'], ''), 'channel_type': typ,
                          'reliability': next(take['rtcdc.reliability_parameter']), 'priority': next(take['rtcdc.priority']),
                          'opened_by': end, 'opened': time, 'opened_packet': frame, 'tsn': fragment.tsn}
                if typ in TYPES:
                    opened['channel_type_name'] = TYPES[typ]
                association.open(fragment.stream, opened)
        elif kind == RE_CONFIG:
            for parameter in take['sctp.parameter_type']:
                size = next(take['sctp.parameter_length'])
                if parameter in base.REQUESTS:
                    number = next(take['sctp.parameter_reconfig_request_sequence_number'])
                    if parameter == OUTGOING_RESET:
                        next(take['sctp.parameter_reconfig_response_sequence_number'])
                    streams = [next(take['sctp.parameter_reconfig_sid'])
                               for _ in range((size - {13: 16, 14: 8}.get(parameter, size)) // 2)]
                    if parameter == OUTGOING_RESET:
                        association.reset(end, number, streams, frame)
                elif parameter == RESPONSE:
                    number = next(take['sctp.parameter_reconfig_response_sequence_number'])
                    association.respond(1 - end, number, next(take['sctp.parameter_reconfig_response_result']), frame)


# ---- what is printed

def text_of(line):
    """Returns the line of an object."""
    text = 'channel of %d: stream %d' % (line['channel_of'], line['stream'])
    if 'opened_by' in line:
        typ = line['channel_type']
        text += ', label "%s", protocol "%s", %s' % (line['label'], line['protocol'], TYPES.get(typ, 'channel type %d' % typ))
        text += '' if typ in (0, 128) else ', reliability %d' % line['reliability'] + ' ms' * (typ in (2, 130))
        text += ', priority %d, opened by the %s end' % (line['priority'], ('first', 'second')[line['opened_by']])
        text += ' %s (packet %d)' % (line['opened'], line['opened_packet']) + ', and by the other one' * ('opened_by_both' in line)
        text += ', acknowledged %s (packet %d)' % (line['acknowledged'], line['acknowledged_packet']) \
            if 'acknowledged' in line else ', not acknowledged'
    elif 'ppid' in line:
        text += ', ppid %d' % line['ppid'] + (' (%s)' % line['ppid_name'] if 'ppid_name' in line else '')
    for reset in line.get('resets', ()):
        text += ', reset by the %s end in packet %d' % (('first', 'second')[reset['end']], reset['packet'])
        text += ' (%s in packet %d)' % (reset.get('result_name', 'result %d' % reset['result']), reset['response_packet']) \
            if 'result' in reset else ' (no response)'
    for mark, end in zip('><', line['ends']):
        text += '; %s messages %d, bytes %d, repeated %d, abandoned %d, not acknowledged %d' % (
            mark, end['messages'], end['bytes'], end['repeated'], end['abandoned'], end['unacknowledged'])
        if 'first' in end:
            text += ', first %(first)s (packet %(first_packet)d), last %(last)s (packet %(last_packet)d)' % end
        text += ', %d bytes/s' % end['bytes_per_second'] if 'bytes_per_second' in end else ''
        text += ', in flight %d at most' % end['most_in_flight'] if 'most_in_flight' in end else ''
        if 'delay' in end:
            text += ', delay least %(least)s s, median %(median)s s, greatest %(greatest)s s (tsn %(greatest_tsn)d)' % end['delay']
    return text


def agree(want, got):
    """Whether all but the delays is the same, and these are those of all messages."""
    want, got = json.loads(json.dumps(want)), json.loads(json.dumps(got))
    got.pop('ppid_name', None)
    for one, other in zip(want['ends'], got['ends']):
        all_of, found = one.pop('delay', []), other.pop('delay', None)
        if not all_of or not found:
            if all_of or found:
                return False
            continue
        least, median, greatest = (float(found[name]) for name in ('least', 'median', 'greatest'))
        true = all_of[(len(all_of) - 1) // 2][0]
        if found['count'] != len(all_of) or least != all_of[0][0] or abs(median - true) > max(true / 16, 0.000002) or \
                [greatest, found['greatest_tsn'], found['greatest_packet']] not in all_of:
            return False
        if greatest != all_of[-1][0]:
            return False
    return want == got


def compare(path, program):
    """Compares a capture, and returns the number of channels and of those that differ."""
    name, want = os.path.basename(path), modelled(path)
    got = [json.loads(line, parse_float=str) for line in messages.printed(program, path, '--json', '--channels', '--summary')]
    got, wrong = [line for line in got if 'channel_of' in line], []
    if [line for line in messages.printed(program, path, '--channels') if line.startswith('channel of ')] != [text_of(line) for line in got]:
        wrong.append('lines that are not those of the objects')
    order = lambda line: (line['channel_of'], line['stream'], line.get('opened_packet', 0), line.get('ppid', 0), json.dumps(line['ends']))  # noqa: E731
    for one in sorted(want, key=order):
        found = [line for line in got if agree(one, line)]
        if found:
            got.remove(found[0])
        else:
            wrong.append('not printed: %s' % json.dumps(one))
    wrong += ['printed: %s' % json.dumps(line) for line in got]
    for line in wrong[:6]:
        print('%s: %s' % (name, line))
    return len(want), len(wrong)


# ---- captures

def opening(tsn, stream=1, label=b'chat', protocol=b'', typ=0, reliability=0, priority=256, number=0):
    value = struct.pack('>BBHIHH', 3, typ, priority, reliability, len(label), len(protocol)) + label + protocol
    return piece(tsn, BEGINS | ENDS, stream, number, value, DCEP)


def accepting(tsn, stream=1, number=0):
    return piece(tsn, BEGINS | ENDS, stream, number, b'\2', DCEP)


def request(number, *streams):
    value = struct.pack('>III', number, 0, 0) + b''.join(struct.pack('>H', stream) for stream in streams)
    return base.chunk(RE_CONFIG, 0, base.parameter(OUTGOING_RESET, value))


def response(number, result=1):
    return base.chunk(RE_CONFIG, 0, base.parameter(RESPONSE, struct.pack('>II', number, result)))


def lives():
    """A channel that is closed and opened again, with another type; two ends that open one stream; one that is replaced."""
    capture = base.Capture('lives')
    tags = base.handshake(capture, tsn_a=100, tsn_b=200)

    def to_b(*chunks):
        capture.add(A, B, tags[1], *chunks, after=1000)

    def to_a(*chunks):
        capture.add(B, A, tags[0], *chunks, after=1000)

    to_b(opening(100))
    to_b(opening(100))
    to_a(accepting(200), base.sack(100))
    to_b(piece(101, 3, 1, 1), base.sack(200))
    to_a(base.sack(101))
    to_b(request(1, 1))
    to_b(request(1, 1))
    to_a(response(1, 6))
    to_a(response(1))
    to_a(request(9, 2, 1))
    to_b(response(9, 2))
    to_a(request(10))
    to_b(response(10))
    # sent again, after it was denied and after it was performed
    to_a(request(9, 2, 1), response(1, 2))
    to_b(response(9, 2))
    # after the reset without and with DCEP; a third of the same stream without a reset between
    to_b(piece(102, 3, 1, 0))
    to_b(opening(103, 1, b'again', b'proto', 0x82, 500, 3, 1))
    # of the channel before
    to_b(request(1, 1))
    to_a(response(1))
    to_a(base.sack(103), accepting(201))
    to_b(opening(104, 1, b'third', b'', 1, 7), base.sack(201))
    to_a(base.sack(104))
    # both ends open a stream, of a type of its own and of none that is known
    to_b(opening(105, 4, b'both', b'', 0x80))
    to_a(opening(202, 4, b'other', b'', 0x33), base.sack(105))
    to_b(base.sack(202), piece(106, 3, 7, 0, b'never acknowledged', 18), request(2))
    capture.add(B, A, tags[0], base.chunk(ABORT, 0, b''))
    return capture


def midway():
    """The capture begins within a channel, and in I-DATA whose beginning wasn't seen."""
    capture = base.Capture('midway')
    capture.add(A, C, 0x61, piece(50, 3, 1, 7), piece(51, 3, 1, 8, ppid=53))
    capture.add(C, A, 0x62, base.sack(51), accepting(9))
    capture.add(A, C, 0x61, base.sack(9), request(5, 1))
    capture.add(C, A, 0x62, response(5))
    capture.add(A, C, 0x61, piece(52, 3, 1, 0), opening(53, 1))
    capture.add(C, A, 0x62, base.sack(53))
    capture.add((7, 1), (8, 2), 0x63, i_piece(9, ENDS, 3, 4, 1))
    return capture


def drawn(seed):
    """Channels of two associations that are opened, reset and opened again, with loss, repeats, refusals and streams without DCEP."""
    draw = random.Random(seed)
    capture, all_of = base.Capture('channels%d' % seed), []
    for port in 1001, 1002:
        ends, tags = ((1, port), (2, 5000)), (draw.getrandbits(32) or 1, draw.getrandbits(32) or 1)
        base.handshake(capture, *ends, *tags)
        all_of.append({'ends': ends, 'tags': tags, 'next': [1000, 2 ** 32 - 40], 'sent': ([], []), 'number': [0, 0], 'asked': ([], [])})
    for _ in range(1500):
        one, end, what = draw.choice(all_of), draw.randrange(2), draw.random()
        stream, tsn, chunks = draw.randrange(6), one['next'][end], []
        if what < 0.45:
            one['next'][end] += 1
            bits = BEGINS | ENDS | draw.choice((0, UNORDERED))
            chunks = [piece(tsn, bits, stream, 0, bytes(draw.randrange(1, 50)), draw.choice((51, 53, 18)))]
        elif what < 0.55 and stream < 4:
            one['next'][end] += 1
            chunks = [opening(tsn, stream, b'l%d' % tsn, draw.choice((b'', b'p')), draw.choice((*TYPES, 9)), draw.randrange(9))]
        elif what < 0.6:
            one['next'][end] += 1
            chunks = [accepting(tsn, stream)]
        elif what < 0.68 and one['sent'][end]:
            chunks = [draw.choice(one['sent'][end][-8:])[1]]
        elif what < 0.76:
            one['number'][end] += draw.choice((0, 1, 1, 1))
            one['asked'][end].append(one['number'][end])
            chunks = [request(one['number'][end], *draw.choice(((), (stream,), (stream, 9), (stream, 1, 2))))]
        elif what < 0.85 and one['asked'][1 - end]:
            chunks = [response(draw.choice(one['asked'][1 - end][-2:]), draw.choice((0, 1, 1, 1, 2, 6, 9)))]
        elif one['sent'][1 - end]:
            last = draw.choice(one['sent'][1 - end][-4:])[0]
            chunks = [base.sack(last, 1000) if draw.random() < 0.9 else base.forward_tsn(one['next'][end] - 1, ())]
        if chunks and what < 0.6:
            one['sent'][end].append((tsn, chunks[0]))
        if chunks and draw.random() < 0.95:
            capture.add(*(one['ends'][::-1] if end else one['ends']), one['tags'][1 - end], *chunks, after=draw.randrange(1, 9000))
    return capture


def main():
    parser = argparse.ArgumentParser(usage=__doc__.strip()[7:], add_help=False)
    parser.add_argument('--help', action='store_true')
    parser.add_argument('--seed', type=int, default=1)
    parser.add_argument('--into')
    parser.add_argument('program', nargs='?')
    parser.add_argument('captures', nargs='*')
    given = parser.parse_args()
    if given.help:
        print(__doc__.strip())
        return 0
    if not given.program:
        parser.error('no PROGRAM')
    total = wrong = 0
    with tempfile.TemporaryDirectory() as folder:
        captures = given.captures
        if not captures:
            cases = [lives(), midway(), messages.reasons(), *(drawn(given.seed + step) for step in range(3))]
            captures = [case.write(given.into or folder) for case in cases] + [os.path.join(base.ROOT, path) for path in messages.STORED]
        base.known_fields()
        for path in captures:
            channels, differing = compare(path, given.program)
            total, wrong = total + channels, wrong + differing
    print('model: channels %d, differing %d' % (total, wrong))
    return 1 if wrong or not total else 0


if __name__ == '__main__':
    sys.exit(main())
