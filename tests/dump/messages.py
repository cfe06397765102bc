#!/usr/bin/env python3
# SPDX-License-Identifier: Apache-2.0
"""usage: tests/dump/messages.py [--seed 1] [--into FOLDER] [--model] PROGRAM [CAPTURE ..]
       tests/dump/messages.py --help

Compares what sctp_dump says of a capture's user messages, as lines and as JSON, with a model over tshark's dissection.

  --seed 1       the seed of the captures that are drawn
  --into FOLDER  keeps the captures that are made
  --model        prints the model's messages, a line each, and compares nothing

Without a CAPTURE it makes some, and compares these and some stored ones, of crates/sctp_dump/data and tests/dump/data; it names each as
it begins. The model finds room for all fragments. tshark has no field for a payload: these, and the values of INIT, RE-CONFIG and
FORWARD-TSN, are taken from the capture, a pcap file of this byte order, after the common header that tshark found. One with packets
that were cut off can't be compared. Status: 0 if all agree, 1 if not. Needed is tshark.
"""
import argparse
import json
import os
import random
import struct
import subprocess
import sys
import tempfile
from concurrent.futures import ThreadPoolExecutor

sys.dont_write_bytecode = True
sys.path.insert(0, os.path.dirname(os.path.abspath(__file__)))
import associations as base  # noqa: E402
from associations import A, B, C, ABORT, DATA, FORWARD_TSN, I_DATA, I_FORWARD_TSN, INIT, INIT_ACK, NR_SACK, RE_CONFIG, SACK, SHUTDOWN, \
    SHUTDOWN_COMPLETE  # noqa: E402

base.FIELDS += ['sctp.data_sid', 'sctp.data_ssn', 'sctp.data_mid', 'sctp.data_fsn', 'sctp.data_payload_proto_id',
                'sctp.data_b_bit', 'sctp.data_e_bit', 'sctp.data_u_bit']
STORED = ['crates/sctp_dump/data/associations.pcap', 'crates/sctp_dump/data/raw.pcap', 'tests/dump/data/usrsctp.pcap']


# of these chunks all that follows the numbers of DATA or I-DATA is taken, or the header
VALUES = DATA, I_DATA, INIT, INIT_ACK, RE_CONFIG, FORWARD_TSN, I_FORWARD_TSN

# ---- the model


class Fragment:
    """A DATA or an I-DATA, by its fields; `at` is its TSN, counted on beyond 2^32."""

    def __init__(self, tsn, size, kind, take, payload=b''):
        self.tsn, self.size, self.is_i_data, self.payload = tsn, size, kind == I_DATA, payload
        self.stream = next(take['sctp.data_sid'])
        self.begins, self.ends, self.unordered = (next(take['sctp.data_%s_bit' % bit]) for bit in 'beu')
        self.number = next(take['sctp.data_mid' if self.is_i_data else 'sctp.data_ssn'])
        # an I-DATA has a PPID if it begins a message, and else its FSN (RFC 8260 section 2.1)
        self.ppid = next(take['sctp.data_payload_proto_id']) if self.begins or not self.is_i_data else None
        self.place = tsn if not self.is_i_data else 0 if self.begins else next(take['sctp.data_fsn'])
        self.key = self.is_i_data, self.stream, self.unordered, self.number
        self.again, self.changed, self.closed = [], False, []
        self.acknowledged = self.over = False
        self.late = self.wait = self.passed_by = None

    @property
    def order(self):
        """What it shares with the others of its stream, that are numbered one after the other."""
        return self.key[:3]

    @property
    def due(self):
        """What has to be passed if nothing of the message is seen after it: DATA that doesn't end it has another one after it."""
        return self.at if self.ends or self.is_i_data else self.at + 1

    def same(self, other):
        names = 'is_i_data', 'stream', 'unordered', 'number', 'place', 'begins', 'ends', 'ppid', 'payload'
        return all(getattr(self, name) == getattr(other, name) for name in names)

    def leads_to(self, other):
        """The other one is the next that was seen of the same message of DATA (RFC 9260 section 6.9)."""
        if self.ends or other.begins or self.is_i_data or other.is_i_data or self.over != other.over:
            return False
        if self.unordered:
            return other.unordered and self.stream == other.stream and other.at - self.at <= 2
        return self.key == other.key


def is_whole(group):
    """All from the one that begins the message to the one that ends it: of each one's number the next one's is the next."""
    return group[0].begins and group[-1].ends and not any(
        before.ends or after.begins or (before.place + 1 - after.place) % 2 ** 32 for before, after in zip(group, group[1:]))


def next_number(is_i_data, number):
    """A MID has 32 bits, and an SSN 16."""
    return (number + 1) % 2 ** (32 if is_i_data else 16)


def is_not_after(is_i_data, number, other):
    """Serial Number Arithmetic (RFC 1982) of as many bits."""
    bits = 32 if is_i_data else 16
    return (number - other) % 2 ** bits == 0 or (number - other) % 2 ** bits >= 2 ** (bits - 1)


class Sender:
    def __init__(self, association, side):
        self.association, self.side, self.all, self.passed, self.last, self.over = association, side, [], None, 0, False
        # of each stream the number of the message that is over last, and whether that is 'none yet' of the others
        self.ended, self.is_fresh, self.request, self.is_told = {}, False, None, False
        self.before_reset = None, ()

    def counted_on(self, tsn):
        """Serial Number Arithmetic (RFC 9260 section 2.6), from the last TSN on."""
        return self.last + (tsn - self.last + 2 ** 31) % 2 ** 32 - 2 ** 31

    def begin(self, tsn):
        if self.passed is None and not self.all:
            self.passed = self.last = (tsn - 1) % 2 ** 32
            self.is_fresh = self.is_told = True

    def key_at(self, key, at):
        """After the last TSN of a request its streams are others (RFC 6525 section 4.1): before that they have negative numbers."""
        last, streams = self.before_reset
        is_before = last is not None and at <= last and (not streams or key[1] in streams) and key[1] >= 0
        return (key[0], ~key[1], *key[2:]) if is_before else key

    def reset(self, number, last, streams):
        if self.request is None or not is_not_after(True, number, self.request):
            self.request, self.before_reset = number, (self.counted_on(last), streams)
            for one in self.all:
                one.key = self.key_at(one.key, one.at)
            self.ended = {order: last for order, last in self.ended.items() if streams and order[1] not in streams}

    def send(self, fragment, moment):
        """Returns the lines of messages of which this shows that nothing comes any more."""
        fragment.at = self.counted_on(fragment.tsn)
        if self.is_told and fragment.at <= self.passed:
            # it begins elsewhere than its INIT says
            self.passed, self.is_fresh = None, False
        self.is_told = False
        if self.over or self.passed is not None and fragment.at <= self.passed:
            return []
        self.last, fragment.sent = fragment.at, moment
        fragment.key = self.key_at(fragment.key, fragment.at)
        for known in self.all:
            if known.at == fragment.at:
                known.again.append(moment[1] - known.sent[1])
                known.changed |= not known.same(fragment)
                return []
        # what goes on with a message of I-DATA that is over belongs to that
        if fragment.is_i_data and not fragment.begins:
            others = [one.over for one in self.all if one.key == fragment.key]
            fragment.over = others[-1] if others else self.is_ended(fragment.key)
        later = [one for one in self.all if one.at > fragment.at and one.sent[0] < moment[0]]
        if later:
            first = min(later, key=lambda one: one.sent[0])
            fragment.late = first.tsn, moment[1] - first.sent[1]
        fragment.wait = self.unseen_before(fragment)
        fragment.in_flight = fragment.size + sum(
            one.size for one in self.all if one.stream == fragment.stream and not one.acknowledged)
        self.all = sorted(self.all + [fragment], key=lambda one: one.at)
        before = [one for one in self.all if one.at < fragment.at and (not fragment.is_i_data or one.order == fragment.order)]
        if not before or before[-1].over or not before[-1].passed_by:
            return []
        group = next(group for group in self.groups() if before[-1] in group)
        fate = before[-1].passed_by
        return [self.end(group, fate)] if self.is_over_by(group, fate) else []

    def is_ended(self, key):
        last = self.ended.get(key[:3])
        return last is not None and is_not_after(key[0], key[3], last)

    def unseen_before(self, fragment):
        """The first hole in the numbers of its stream before a fragment, in which a TSN wasn't seen: the number that comes next there, and
        that TSN. A hole in its own message isn't meant."""
        if fragment.unordered:
            return None
        seen = {one.at for one in self.all}
        at = self.passed + 1 if self.passed is not None else min(seen, default=fragment.at)
        last = self.ended.get(fragment.order)
        due = None
        if last is not None or self.is_fresh and fragment.key[1] >= 0:
            due = (0 if last is None else next_number(fragment.is_i_data, last)), None
        for one in [one for one in self.all if one.order == fragment.order and one.at < fragment.at] + [fragment]:
            unseen = at
            while unseen in seen:
                unseen += 1
            fits = due and due[0] == one.number and (one.begins if due[1] is None else not one.begins and one.place == due[1])
            if unseen < one.at and due and not fits and due[0] != fragment.number:
                return due[0], unseen % 2 ** 32
            ended = one.ends or one.over
            due = (next_number(one.is_i_data, one.number), None) if ended else (one.number, (one.place + 1) % 2 ** 32)
            at = max(at, one.at + 1)
        return None

    def groups(self):
        """Returns the fragments of each message that isn't over."""
        groups, numbered = [], {}
        for before, one in zip([None] + self.all, self.all):
            if one.over:
                continue
            if one.is_i_data and one.key in numbered:
                numbered[one.key].append(one)
            elif not one.is_i_data and before and before.leads_to(one):
                groups[-1].append(one)
            else:
                groups.append([one])
                if one.is_i_data:
                    numbered[one.key] = groups[-1]
        return groups

    def is_passed(self, group, is_last):
        """Nothing of it is awaited: its end was seen, or nothing comes after its last fragment, and that is passed."""
        last = group[-1]
        if self.passed is None or any(one.ends for one in group):
            return self.passed is not None and last.at <= self.passed
        is_last = is_last or any(one.at > last.at and (not last.is_i_data or one.order == last.order and one.number != last.number)
                                 for one in self.all)
        return last.due <= self.passed and is_last

    def is_over_by(self, group, fate):
        if fate[0] == 'acknowledged':
            return all(one.acknowledged for one in group) and is_whole(group) or self.is_passed(group, False)
        return any(not one.acknowledged and one.at <= self.passed for one in group) or \
            self.is_passed(group, not group[0].is_i_data and group[-1].passed_by == fate)

    def pass_to(self, cumulative, fate):
        """Passes the TSNs up to this one, and returns the messages that are over by that."""
        new, before, self.is_told = self.counted_on(cumulative), self.passed, False
        self.passed = new if before is None else max(before, new)
        self.is_blind = before is not None and self.passed - before > sum(before < one.at <= self.passed for one in self.all)
        for one in self.all:
            if one.due <= self.passed:
                one.passed_by = one.passed_by or fate
        return [group for group in self.groups() if self.is_over_by(group, fate)]

    def forget(self):
        """Forgets what is over and passed; after TSNs that weren't seen it isn't known up to where the streams are."""
        if self.is_blind:
            self.ended, self.is_fresh = {}, False
        for one in self.all:
            if one.over and one.at <= self.passed and not self.is_blind and (one.is_i_data or not one.unordered) and one.key[1] >= 0:
                self.ended[one.order] = one.number
        self.all = [one for one in self.all if not one.over or one.at > self.passed]

    def acknowledge(self, cumulative, blocks, is_closed, moment):
        for one in self.all:
            offset = (one.tsn - cumulative) % 2 ** 32
            one.acknowledged |= offset == 0 or offset >= 2 ** 31 or any(first <= offset <= last for first, last in blocks)
        fate = 'acknowledged', moment
        ended = self.pass_to(cumulative, fate)
        # of those that are acknowledged at once none waits for another
        waited = [self.waited_for(group, ended) for group in ended]
        lines = [self.end(group, fate, tsn) for group, tsn in zip(ended, waited)]
        for one in self.all:
            if is_closed and not one.over:
                one.closed.append(moment[0])
        self.forget()
        return lines

    def waited_for(self, group, ended):
        """Head-of-line blocking: an earlier TSN of the stream, ordered, that isn't acknowledged."""
        first = group[0]
        for one in self.all:
            if not first.unordered and one.at < first.at and not one.acknowledged and not one.over and \
                    one.order == first.order and not any(one in other for other in ended):
                return one.tsn
        return None

    def skip(self, cumulative, kind, value, moment):
        fate = base.NAMES[kind], moment
        lines = [self.end(group, fate) for group in self.pass_to(cumulative, fate)]
        self.forget()
        if self.passed != self.counted_on(cumulative):
            return lines
        size = 8 if kind == I_FORWARD_TSN else 4
        for at in range(4, len(value) - size + 1, size):
            if kind == I_FORWARD_TSN:
                stream, flags, number = struct.unpack_from('>HHI', value, at)
                key = True, stream, flags & 1, number
            else:
                key = False, *struct.unpack_from('>H', value, at), 0, *struct.unpack_from('>H', value, at + 2)
            key = self.key_at(key, self.passed)
            lines += [self.end(group, fate) for group in self.groups() if group[0].key == key and key[0]]
            if not self.is_ended(key) and key[1] >= 0:
                self.ended[key[:3]] = key[3]
        return lines

    def finish(self):
        lines = [self.end(group, group[-1].passed_by) for group in self.groups()]
        self.all, self.over = [], True
        return lines

    def end(self, group, fate, waited_for=None):
        """Returns what the program should print of a message."""
        first = group[0]
        key, sent = ('mid' if first.is_i_data else 'ssn'), min(one.sent for one in group)
        line = {'message_of': self.association, 'end': self.side, 'stream': first.stream, key: first.number,
                'unordered': bool(first.unordered)}
        ppids = [one.ppid for one in group if one.ppid is not None]
        if ppids:
            line['ppid'] = ppids[0]
        line.update(size=sum(one.size for one in group), fragments=len(group), first_tsn=first.tsn, last_tsn=group[-1].tsn,
                    sent=base.seconds(sent[1], 6), sent_packet=sent[0][1])
        if fate and fate[0] == 'acknowledged':
            line.update(acknowledged=base.seconds(fate[1][1], 6), acknowledged_packet=fate[1][0][1])
            if fate[1][1] >= sent[1]:
                line['delay'] = base.seconds(fate[1][1] - sent[1], 6)
        elif fate:
            line.update(abandoned_by=fate[0], abandoned_packet=fate[1][0][1])
        again = [one for one in group if one.again]
        if again:
            line.update(repeated=sum(len(one.again) for one in again), first_repeated_tsn=again[0].tsn)
            if again[0].again[0] >= 0:
                line['repeated_after'] = base.seconds(again[0].again[0], 6)
        changed = [one.tsn for one in group if one.changed]
        if changed:
            line['changed_tsn'] = changed[0]
        late = [one for one in group if one.late]
        if late:
            line.update(late_tsn=late[0].tsn, late_after_tsn=late[0].late[0])
            if late[0].late[1] >= 0:
                line['late_after'] = base.seconds(late[0].late[1], 6)
        holes, odd = [], False
        for index, (before, after) in enumerate(zip(group, group[1:])):
            hole = (after.place - before.place) % 2 ** 32 - 1
            odd |= hole < 0 or hole >= 2 ** 31 or before.ends or after.begins
            known = any(one.acknowledged for one in group[index + 1:])
            known |= not first.is_i_data and self.passed is not None and before.at + 1 <= self.passed
            if 0 < hole < 2 ** 31 and known:
                holes.append(((before.place + 1) % 2 ** 32, hole))
        if holes:
            line.update({'missing': sum(hole for _, hole in holes), 'first_missing_' + ('fsn' if first.is_i_data else 'tsn'): holes[0][0]})
        for name, is_so in (('contradictory', odd), ('no_beginning', not any(one.begins for one in group)),
                            ('no_end', not any(one.ends for one in group))):
            if is_so:
                line[name] = True
        # when all of it was seen
        wait = max(reversed(group), key=lambda one: one.sent[0]).wait if is_whole(group) else None
        if wait:
            line.update({'waited_for_tsn': wait[1], 'waited_for_' + key: wait[0]})
        elif waited_for is not None:
            line['waited_for_tsn'] = waited_for
        closed = [packet for one in group for packet in one.closed]
        if closed:
            line.update(closed_first=min(closed)[1], closed_last=max(closed)[1])
        if is_whole(group):
            line['payload'] = b''.join(one.payload for one in group).hex()
        # (the line of a channel says it, and none of a message)
        line['in_flight'] = max(one.in_flight for one in group)
        for one in group:
            one.over = True
        return line


def payloads(path):
    """Returns a function that yields the payloads of the DATA and I-DATA of a packet, whose number, ports and tag are given."""
    with open(path, 'rb') as file:
        content, frames, at = file.read(), [], 24
    while at < len(content):
        size = struct.unpack_from('<I', content, at + 8)[0]
        frames.append(content[at + 16:at + 16 + size])
        at += 16 + size

    def of_packet(number, *header):
        frame = frames[number - 1]
        at = frame.index(struct.pack('>HHI', *header)) + 12
        while at + 4 <= len(frame):
            kind, _, size = struct.unpack_from('>BBH', frame, at)
            if kind in VALUES:
                before = {DATA: 16, I_DATA: 20}.get(kind, 4)
                yield frame[at + before:at + size]
            at += max(4, (size + 3) // 4 * 4)

    return of_packet


def resets_of(content):
    """Yields the number and the streams of each Outgoing SSN Reset Request (RFC 6525 section 4.1) of a RE-CONFIG's value."""
    at = 0
    while at + 4 <= len(content):
        kind, size = struct.unpack_from('>HH', content, at)
        if kind == 13 and size >= 16:
            yield *struct.unpack_from('>I4xI', content, at + 4), struct.unpack_from('>%dH' % ((size - 16) // 2), content, at + 16)
        at += max(4, (size + 3) // 4 * 4)


def modelled(path):
    """Returns the messages of a capture."""
    model, senders, lines, payloads_of = base.Model(), {}, [], payloads(path)
    for packet in base.packets(path, ()):
        model.see(packet)
        member = model.members[packet['number']]
        if not member:
            continue
        take = {name: iter([1 if text == 'True' else 0 if text == 'False' else base.number(text) for text in values])
                for name, values in packet['fields'].items() if name.startswith('sctp.data_')}
        own, moment = (member['association'], member['end']), (packet['number'], packet['time'])
        other = own[0], 1 - own[1]
        header = (base.number(packet['fields'][name][0]) for name in ('sctp.srcport', 'sctp.dstport', 'sctp.verification_tag'))
        rest = payloads_of(packet['number'][1], *header)
        for kind, value in packet['chunks']:
            content = next(rest) if kind in VALUES else b''
            if kind in (DATA, I_DATA):
                lines += senders.setdefault(own, Sender(*own)).send(Fragment(*value, kind, take, content), moment)
            elif kind in (INIT, INIT_ACK) and len(content) >= 16:
                senders.setdefault(own, Sender(*own)).begin(struct.unpack_from('>I', content, 12)[0])
            elif kind == RE_CONFIG and own in senders:
                for request in resets_of(content):
                    senders[own].reset(*request)
            elif kind in (FORWARD_TSN, I_FORWARD_TSN) and own in senders:
                lines += senders[own].skip(value[0], kind, content, moment)
            elif kind in (SACK, NR_SACK) and other in senders:
                lines += senders[other].acknowledge(value[0], value[2], value[1] == 0, moment)
            elif kind == SHUTDOWN and other in senders:
                lines += senders[other].acknowledge(value, (), False, moment)
            elif kind in (ABORT, SHUTDOWN_COMPLETE):
                for end in (own[0], 0), (own[0], 1):
                    lines += senders[end].finish() if end in senders else []
    for end in sorted(senders):
        lines += senders[end].finish()
    return sorted(lines, key=order_of)


def over_by(line):
    """Returns the packet by which a message was over."""
    return line.get('acknowledged_packet', line.get('abandoned_packet'))


def order_of(line):
    return over_by(line) or 2 ** 64, line['message_of'], line['end'], line['first_tsn'], line['sent_packet']


def text_of(line, names):
    """Returns the line of an object."""
    key = 'mid' if 'mid' in line else 'ssn'
    text = 'message of %d %s stream %d, %s %d' % (line['message_of'], '><'[line['end']], line['stream'], key, line[key])
    text += ', unordered' * line['unordered']
    if 'ppid' in line:
        text += ', ppid %d' % line['ppid'] + (' (%s)' % names[line['ppid']] if line['ppid'] in names else '')
    text += ', size %d, tsn %d' % (line['size'], line['first_tsn'])
    text += ' to %d' % line['last_tsn'] * (line['last_tsn'] != line['first_tsn'])
    text += ': sent %s (packet %d)' % (line['sent'], line['sent_packet'])
    if 'acknowledged' in line:
        text += ', acknowledged %s (packet %d)' % (line['acknowledged'], line['acknowledged_packet'])
        text += ' after %s s' % line['delay'] if 'delay' in line else ''
    elif 'abandoned_by' in line:
        text += ', abandoned by %s in packet %d' % (line['abandoned_by'], line['abandoned_packet'])
    else:
        text += ', not acknowledged'
    if 'repeated' in line:
        text += '; tsn %d sent again' % line['first_repeated_tsn']
        text += ' after %s s' % line['repeated_after'] if 'repeated_after' in line else ''
        text += ', %d repeats in all' % line['repeated'] if line['repeated'] > 1 else ''
    if 'changed_tsn' in line:
        text += '; tsn %d sent again with other bytes' % line['changed_tsn']
    if 'late_tsn' in line:
        text += '; tsn %d first seen %safter tsn %d' % (
            line['late_tsn'], line['late_after'] + ' s ' if 'late_after' in line else '', line['late_after_tsn'])
    for name in 'tsn', 'fsn':
        if 'first_missing_' + name in line:
            text += '; %s %d' % (name, line['first_missing_' + name])
            text += ' and %d more' % (line['missing'] - 1) * (line['missing'] > 1) + ' never seen in this capture'
    text += '; fragments contradict one another' * ('contradictory' in line)
    text += '; beginning not seen' * ('no_beginning' in line) + '; end not seen' * ('no_end' in line)
    if 'waited_for_' + key in line:
        text += '; waited for %s %d, tsn %d not seen yet' % (key, line['waited_for_' + key], line['waited_for_tsn'])
    elif 'waited_for_tsn' in line:
        text += '; waited for tsn %d of its stream' % line['waited_for_tsn']
    if 'closed_first' in line:
        first, last = line['closed_first'], line['closed_last']
        text += '; peer\'s window was 0 ' + ('in packet %d' % first if first == last else 'from packet %d to %d' % (first, last))
    return text


def printed(program, path, *options):
    run = subprocess.run([program, *options, path], stdout=subprocess.PIPE, stderr=subprocess.DEVNULL, text=True, check=False)
    return run.stdout.splitlines()


def utf8(digits):
    """Returns the text of bytes; None where they are none, or not UTF-8."""
    try:
        return None if digits is None else bytes.fromhex(digits).decode()
    except UnicodeDecodeError:
        return None


def rows_of(line):
    """Returns the rows of an object's payload, and of its text, which DUMP.md says how to quote, if it is UTF-8: that of ASCII alone."""
    if 'payload' not in line:
        return ['  payload: not known']
    payload = bytes.fromhex(line['payload'])
    rows = ['  payload: %d byte%s' % (len(payload), '' if len(payload) == 1 else 's')]
    for at in range(0, len(payload), 16):
        row = payload[at:at + 16]
        ascii_of = ''.join(chr(byte) if 32 <= byte < 127 else '.' for byte in row)
        rows.append('    %04x: %-47s  |%s|' % (at % 65536, row.hex(' '), ascii_of))
    if line.get('ppid') == 51 and utf8(line['payload']) is None:
        rows.append('  text: not UTF-8')
    elif line.get('ppid') == 51:
        shown = (chr(byte) if 32 <= byte < 127 and byte not in b'"\\' else '\\x%02x' % byte for byte in payload)
        rows.append('  text: "%s"' % ''.join(shown))
    return rows


def compare(path, program):
    """Compares a capture, and returns the number of messages and of those that differ."""
    name = os.path.basename(path)
    print('messages.py: %s' % name, file=sys.stderr)
    want = modelled(path)
    for line in want:
        del line['in_flight']
    got = [json.loads(line, parse_float=str) for line in printed(program, path, '--json', '--messages', '--payload', '--summary')]
    got, wrong = [line for line in got if 'message_of' in line], []
    for line in got:
        if line.get('ppid') == 51 and line.pop('text', None) != utf8(line.get('payload')):
            wrong.append('the text of %s' % line)
    names = {line['ppid']: line.pop('ppid_name') for line in got if 'ppid_name' in line}
    texts = [line for line in printed(program, path, '--messages') if line.startswith('message of ')]
    rows = [line for line in printed(program, path, '--messages', '--payload') if not line.startswith('packets ')]
    if rows != [row for line, text in zip(got, texts) for row in (text, *rows_of(line))]:
        wrong.append('rows that are not those of the objects')
    # in the order of the packets by which they were over, those apart of which the end wasn't seen
    packets = [over_by(line) for line in got if over_by(line) and 'no_end' not in line]
    if packets != sorted(packets) or texts != [text_of(line, names) for line in got]:
        wrong.append('lines in another order, or not those of the objects')
    got.sort(key=order_of)
    for index in range(max(len(want), len(got))):
        pair = [some[index] if index < len(some) else None for some in (want, got)]
        if pair[0] != pair[1]:
            wrong.append('expected %s\n  printed  %s' % tuple(json.dumps(one) for one in pair))
    for line in wrong[:5]:
        print('%s: %s' % (name, line))
    return len(want), len(wrong)


# ---- captures

BEGINS, ENDS, UNORDERED = 2, 1, 4
# how many bytes of user data are kept; of messages of one size, so many are outstanding at once that some find no room
KEPT, SIZE, OUTSTANDING, MORE = 16_777_216, 60_000, 290, 20


def piece(tsn, bits, stream=1, number=0, payload=b'hello', ppid=51):
    return base.chunk(DATA, bits, struct.pack('>IHHI', tsn % 2 ** 32, stream, number, ppid) + payload)


def i_piece(tsn, bits, stream=1, mid=0, fsn=51, payload=b'hello'):
    """An I-DATA; at a beginning its FSN's place has the PPID."""
    return base.chunk(I_DATA, bits, struct.pack('>IHHII', tsn % 2 ** 32, stream, 0, mid, fsn) + payload)


def reasons():
    """Each fate and each reason, by itself."""
    capture = base.Capture('reasons')
    tags = base.handshake(capture, tsn_a=-1)

    def sent(*chunks, after=1000):
        capture.add(A, B, tags[1], *chunks, after=after)

    def answered(*report, after=1000):
        capture.add(B, A, tags[0], base.sack(*report), after=after)

    # in three fragments over the wrap of TSNs, one of which comes twice; one that waits for it; and one of another stream
    sent(piece(-1, BEGINS), piece(0, 0), piece(1, ENDS))
    sent(piece(2, BEGINS | ENDS, number=1), piece(3, BEGINS | ENDS, stream=2))
    answered(-1, 5000, ((2, 4),))
    sent(piece(0, 0), after=1_420_000)
    sent(piece(0, 0))
    answered(3)
    # a TSN that is never seen, in an ordered message; two of an unordered one, which may have an end and a beginning
    sent(piece(4, BEGINS, number=1), piece(6, ENDS, number=1))
    sent(piece(7, BEGINS | UNORDERED), piece(9, UNORDERED), piece(12, ENDS | UNORDERED))
    answered(12)
    # abandoned, in part and wholly; acknowledged in part, with what comes after it
    sent(piece(13, BEGINS, number=2), piece(14, 0, number=2), piece(15, ENDS, number=2), piece(16, BEGINS | ENDS, number=3))
    answered(13, 5000, ((3, 3),))
    sent(base.forward_tsn(14, (1,)))
    answered(16)
    # the window is 0 while one is outstanding
    sent(piece(17, BEGINS | ENDS, number=4))
    for _ in range(3):
        answered(16, 0)
    answered(17, 100)
    # two beginnings, two ends, and a TSN with other bytes
    sent(piece(18, BEGINS, number=5), piece(19, BEGINS, number=6), piece(20, ENDS, number=6), piece(21, ENDS, number=6))
    sent(piece(18, BEGINS, number=5, payload=b'others'))
    answered(21)
    # what an end sends after its TSN was acknowledged; and what is outstanding as the association ends
    sent(piece(21, ENDS, number=6))
    sent(piece(22, BEGINS, number=7))
    # of the same size, with another byte in the first eight, or after them
    sent(piece(24, BEGINS | ENDS, number=8, payload=b'hello, hello'), piece(25, BEGINS | ENDS, number=9, payload=b'hello, hello'))
    sent(piece(24, BEGINS | ENDS, number=8, payload=b'hallo, hello'), piece(25, BEGINS | ENDS, number=9, payload=b'hello, hallo'))
    capture.add(B, A, tags[0], piece(2000, BEGINS | ENDS))
    capture.add(A, B, tags[1], base.chunk(ABORT, 0, b''))
    sent(piece(23, ENDS, number=7))
    return capture


def interleaved():
    """I-DATA of three streams in turn (RFC 8260 section 2.1)."""
    capture = base.Capture('interleaved')
    tags = base.handshake(capture)
    bits = lambda fsn, last: BEGINS * (fsn == 0) | ENDS * (fsn == last)  # noqa: E731
    tsn = 1000
    for fsn in range(4):
        for stream in 1, 2, 3:
            if (stream, fsn) != (2, 2):
                unordered = UNORDERED if stream == 3 else 0
                capture.add(A, B, tags[1], i_piece(tsn, bits(fsn, 3) | unordered, stream, 7, fsn or 51))
            tsn += 1
    capture.add(B, A, tags[0], base.sack(1002, 5000, ((2, 4), (6, 9))))
    capture.add(B, A, tags[0], base.sack(1011))
    # two beginnings of one message, and one that goes on as the capture ends
    capture.add(A, B, tags[1], i_piece(1012, BEGINS, mid=8), i_piece(1013, BEGINS | ENDS, mid=8), i_piece(1014, BEGINS, mid=9))
    capture.add(B, A, tags[0], base.sack(1014))
    return capture


def midway():
    """The capture begins within a message; and one end is seen alone."""
    capture = base.Capture('midway')
    capture.add(A, C, 0x61, piece(50, 0), piece(51, ENDS), piece(52, BEGINS | ENDS, number=1))
    capture.add(C, A, 0x62, base.sack(52))
    capture.add((7, 1), (8, 2), 0x63, piece(9, 0), piece(10, ENDS), piece(12, 0))
    return capture


def drawn(seed):
    """Some associations at once, with loss, reordering, repetition, FORWARD-TSN, windows of 0, resets, interleaving, wraps of TSNs,
    chunks that contradict one another, and beginnings that weren't captured."""
    draw = random.Random(seed)
    capture, live, port = base.Capture('messages%d' % seed), [], 1000
    for _ in range(6000):
        if len(live) < 5 and draw.random() < 0.05:
            port += 1
            a, b = (draw.randrange(1, 9), port), (draw.randrange(11, 19), 5000)
            tags = draw.getrandbits(32) or 1, draw.getrandbits(32) or 1
            first = [draw.choice((draw.getrandbits(32), 2 ** 32 - 20)) for _ in 'ab']
            if draw.random() < 0.7:
                base.handshake(capture, a, b, *tags, *first)
            live.append({'ends': (a, b), 'tags': tags, 'i_data': draw.random() < 0.4, 'loss': draw.choice((0, 0.05, 0.3)), 'sent': ([], []),
                         'next': first, 'open': ({}, {}), 'numbers': ({}, {}),
                         'cumulative': [None, None], 'got': (set(), set()), 'requests': [draw.getrandbits(32), b'']})
        if not live:
            continue
        one = draw.choice(live)
        side, after, what = draw.randrange(2), draw.randrange(1, 5000), draw.random()
        source, destination, tag = one['ends'][side], one['ends'][1 - side], one['tags'][1 - side]
        if what < 0.5:
            fragment = next_fragment(draw, one, side)
            one['sent'][side].append(fragment)
            if draw.random() < 0.97:
                one['got'][side].add(fragment[0])
            if draw.random() >= one['loss']:
                capture.add(source, destination, tag, fragment[1], after=after)
        elif what < 0.62 and one['sent'][side]:
            again = draw.choice(one['sent'][side][-12:])
            one['got'][side].add(again[0])
            bytes_of = again[1] if draw.random() < 0.95 else again[1][:2] + struct.pack('>H', len(again[1])) + again[1][4:] + b'more'
            capture.add(source, destination, tag, bytes_of, after=after)
        elif what < 0.9 and one['sent'][1 - side]:
            capture.add(source, destination, tag, report_of(draw, one, 1 - side), after=after)
        elif what < 0.96 and one['sent'][side]:
            tsn = draw.choice(one['sent'][side][-6:])[0]
            one['got'][side].update(range(tsn - 40, tsn + 1))
            kind = I_FORWARD_TSN if one['i_data'] else FORWARD_TSN
            capture.add(source, destination, tag, base.forward_tsn(tsn, (1,), kind), after=after)
        elif what < 0.975 and side == 0 and one['sent'][side]:
            capture.add(source, destination, tag, next_request(draw, one), after=after)
        elif what > 0.997:
            live.remove(one)
            if draw.random() < 0.5:
                base.shutdown(capture, one['tags'], *one['ends'], one['next'][1] - 1)
            else:
                capture.add(source, destination, tag, base.chunk(ABORT, 0, base.parameter(12, b'')), after=after)
    return capture


def full():
    """More user data at once than is kept, and then some more, one message after the other."""
    capture = base.Capture('full')
    tags = base.handshake(capture)
    payload = bytes(SIZE)
    for tsn in range(1000, 1000 + OUTSTANDING + MORE):
        capture.add(A, B, tags[1], piece(tsn, BEGINS | ENDS, number=tsn, payload=payload), checksum='zero')
        if tsn >= 1000 + OUTSTANDING - 1:
            capture.add(B, A, tags[0], base.sack(tsn))
    return capture


def unkept(program, path):
    """Returns how many messages have user data that isn't known, or that should not be: each that is known has a file."""
    print('messages.py: %s' % os.path.basename(path), file=sys.stderr)
    with tempfile.TemporaryDirectory() as folder:
        printed(program, path, '--messages', '--write-messages', folder)
        known = {int(name.split('-')[0][len('message'):]) for name in os.listdir(folder)}
    wanted = {at + 1 for at in range(OUTSTANDING + MORE) if at < KEPT // SIZE or at >= OUTSTANDING}
    if known != wanted:
        print('full.pcap: of %d messages the user data is known or not, and should not be' % len(known ^ wanted))
    return len(known ^ wanted)


def next_fragment(draw, one, side):
    """Draws the next TSN of an end, and its chunk: of the message that is open, or with I-DATA of one of them."""
    tsn, streams = one['next'][side], one['open'][side]
    one['next'][side] += 1
    stream = draw.choice(list(streams)) if streams and (not one['i_data'] or draw.random() < 0.6) else draw.randrange(3)
    if stream not in streams:
        number = one['numbers'][side][stream] = one['numbers'][side].get(stream, -1) + 1
        streams[stream] = [number, draw.choice((0, 0, UNORDERED)), draw.choice((1, 1, 1, 2, 3, 6)), 0]
    number, unordered, count, fsn = streams[stream]
    streams[stream][3] += 1
    bits = unordered | BEGINS * (fsn == 0) | ENDS * (fsn + 1 == count)
    if fsn + 1 == count:
        del streams[stream]
    if draw.random() < 0.02:
        bits ^= draw.choice((BEGINS, ENDS))
    count, ppid = draw.randrange(1, 50), draw.choice((51, 53, 3_000_000))
    payload = bytes(draw.randrange(128) for _ in range(count)) + b'\xff' * (draw.random() < 0.1)
    if one['i_data']:
        return tsn, i_piece(tsn, bits, stream, number, ppid if bits & BEGINS else fsn, payload)
    return tsn, piece(tsn, bits, stream, number % 2 ** 16, payload, ppid)


def next_request(draw, one):
    """Draws a request of the first end to reset streams of which no message is open, or all (RFC 6525 section 4.1), or repeats one."""
    number, last = one['requests']
    free = [stream for stream in range(3) if stream not in one['open'][0]]
    if not free or last and draw.random() < 0.3:
        return last or base.chunk(RE_CONFIG, 0, b'')
    streams = draw.sample(free, draw.randrange(1 if len(free) < 3 else 0, len(free) + 1))
    for stream in streams or free:
        one['numbers'][0].pop(stream, None)
    value = struct.pack('>III', number, 0, (one['next'][0] - 1) % 2 ** 32) + b''.join(struct.pack('>H', stream) for stream in streams)
    one['requests'] = (number + 1) % 2 ** 32, base.chunk(RE_CONFIG, 0, base.parameter(13, value))
    return one['requests'][1]


def report_of(draw, one, side):
    """Draws a SACK or an NR-SACK of what an end's receiver got."""
    got = one['got'][side]
    cumulative = one['cumulative'][side]
    cumulative = one['sent'][side][0][0] - 1 if cumulative is None else cumulative
    while cumulative + 1 in got:
        cumulative += 1
    one['cumulative'][side] = cumulative
    offsets = sorted(tsn - cumulative for tsn in got if tsn > cumulative)
    blocks = []
    for offset in offsets:
        if blocks and blocks[-1][1] + 1 == offset:
            blocks[-1][1] = offset
        else:
            blocks.append([offset, offset])
    cumulative -= draw.choice((0, 0, 0, 0, 3))
    window, blocks = draw.choice((0, 1, 50_000)), blocks if cumulative == one['cumulative'][side] else []
    return base.sack(cumulative, window, blocks) if draw.random() < 0.8 else base.nr_sack(cumulative, window, blocks[:1], blocks[1:])


def main():
    parser = argparse.ArgumentParser(usage=__doc__.strip()[7:], add_help=False)
    for flag in '--model', '--help':
        parser.add_argument(flag, action='store_true')
    parser.add_argument('--seed', type=int, default=1)
    parser.add_argument('--into')
    parser.add_argument('program', nargs='?')
    parser.add_argument('captures', nargs='*')
    given = parser.parse_args()
    if given.help:
        print(__doc__.strip())
        return 0
    if not given.program:
        parser.error('no PROGRAM')
    with tempfile.TemporaryDirectory() as folder:
        return run(given, given.into or folder)


def run(given, folder):
    total = wrong = 0
    captures = given.captures
    if not captures:
        cases = [reasons(), interleaved(), midway(), *(drawn(given.seed + step) for step in range(3))]
        captures = [case.write(folder) for case in cases] + [os.path.join(base.ROOT, path) for path in STORED]
    base.known_fields()
    if given.model:
        for path in captures:
            for line in modelled(path):
                print(json.dumps(line))
        return 0
    if not given.captures:
        total, wrong = OUTSTANDING + MORE, unkept(given.program, full().write(folder))
    with ThreadPoolExecutor(2) as pool:
        for messages, differing in pool.map(lambda path: compare(path, given.program), captures):
            total, wrong = total + messages, wrong + differing
    print('model: messages %d, differing %d' % (total, wrong))
    return 1 if wrong or not total else 0


if __name__ == '__main__':
    sys.exit(main())
