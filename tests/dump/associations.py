#!/usr/bin/env python3
# SPDX-License-Identifier: Apache-2.0
"""usage: tests/dump/associations.py [--seed 1] [--into FOLDER] [--together] [--model] PROGRAM [CAPTURE ..]
       tests/dump/associations.py --write | --help

Compares what sctp_dump says of a capture's associations and their paths, and of each packet's place in them, with a model over
tshark's dissection.

  --seed 1       the seed of the captures that are drawn
  --into FOLDER  keeps the captures that are made
  --together     reads the captures as one, in this order, in place of each alone
  --model        prints the model's associations, a line each, and compares nothing
  --write        writes crates/sctp_dump/data/associations.pcap anew

Without a CAPTURE it makes some, one a case, and compares all, some of them together; and the stored capture has to be that of
the case `whole`. The model keeps all TSNs, HEARTBEATs, requests and round trips, where the program keeps windows of them; no
association leaves its table. Of a packet that was cut off tshark shows the header alone, so a capture with such packets can't
be compared. Which packets were refused is compared of the captures that are made alone. What a tshark has no field for isn't
compared (it says which fields). Status: 0 if all agree, 1 if not. Needed is tshark.
"""
import argparse
import ipaddress
import json
import os
import random
import struct
import subprocess
import sys
import tempfile
from concurrent.futures import ThreadPoolExecutor

ROOT = os.path.dirname(os.path.dirname(os.path.dirname(os.path.abspath(__file__))))
DATA_FOLDER = os.path.join(ROOT, 'crates/sctp_dump/data')
DATA, INIT, INIT_ACK, SACK, HEARTBEAT, HEARTBEAT_ACK, ABORT = 0, 1, 2, 3, 4, 5, 6
SHUTDOWN, SHUTDOWN_ACK, COOKIE_ECHO, COOKIE_ACK, SHUTDOWN_COMPLETE, I_DATA = 7, 8, 10, 11, 14, 64
NAMES = {DATA: 'DATA', INIT: 'INIT', INIT_ACK: 'INIT ACK', SACK: 'SACK', HEARTBEAT: 'HEARTBEAT', ABORT: 'ABORT',
         HEARTBEAT_ACK: 'HEARTBEAT ACK', SHUTDOWN: 'SHUTDOWN', SHUTDOWN_ACK: 'SHUTDOWN ACK', 9: 'ERROR',
         COOKIE_ECHO: 'COOKIE ECHO', COOKIE_ACK: 'COOKIE ACK', SHUTDOWN_COMPLETE: 'SHUTDOWN COMPLETE', I_DATA: 'I-DATA',
         192: 'FORWARD-TSN', 193: 'ASCONF', 128: 'ASCONF ACK', 130: 'RE-CONFIG', 15: 'AUTH', 16: 'NR-SACK',
         194: 'I-FORWARD-TSN'}
NR_SACK, RE_CONFIG, FORWARD_TSN, I_FORWARD_TSN = 16, 130, 192, 194
ERROR, ASCONF_ACK, ASCONF = 9, 128, 193
# the parameters of a RE-CONFIG that are requests (RFC 6525 sections 4.1 to 4.3, 4.5 and 4.6), and the response (4.4)
REQUESTS, RESPONSE = (13, 14, 15, 17, 18), 16
# addresses (RFC 9260 section 3.3.2.1), the requests of an ASCONF by what they say, and what refuses one (RFC 5061 section 4.2)
ADDRESSES = {5: 'sctp.parameter_ipv4_address', 6: 'sctp.parameter_ipv6_address'}
TOPICS, REFUSAL, GRANT = {0xc001: 'added', 0xc002: 'deleted', 0xc004: 'primary'}, 0xc003, 0xc005
STALE_COOKIE = 3
MOST_WAITING, MOST_ADDRESSES, MOST_ANNOUNCED, MOST_PATHS = 16, 4, 8, 16


# ---- the model (RFC 9260), over tshark's fields

FIELDS = ['frame.number', 'frame.time_epoch', 'ip.src', 'ip.dst', 'ipv6.src', 'ipv6.dst', 'sctp.srcport', 'sctp.dstport',
          'sctp.verification_tag', 'sctp.checksum', 'sctp.checksum.status', 'sctp.chunk_type', 'sctp.chunk_flags',
          'sctp.chunk_length', 'sctp.data_tsn_raw', 'sctp.init_initiate_tag', 'sctp.initack_initiate_tag',
          'sctp.sack_cumulative_tsn_ack_raw', 'sctp.sack_a_rwnd', 'sctp.sack_number_of_gap_blocks',
          'sctp.sack_gap_block_start', 'sctp.sack_gap_block_end', 'sctp.parameter_heartbeat_information',
          'sctp.cause_code', 'sctp.chunk_value', 'sctp.shutdown_cumulative_tsn_ack', 'sctp.forward_tsn_tsn',
          'sctp.i_forward_tsn_tsn', 'sctp.nr_sack_cumulative_tsn_ack', 'sctp.nr_sack_a_rwnd',
          'sctp.nr_sack_number_of_gap_blocks', 'sctp.nr_sack_number_of_nr_gap_blocks', 'sctp.nr_sack_gap_block_start',
          'sctp.nr_sack_gap_block_end', 'sctp.nr_sack_nr_gap_block_start', 'sctp.nr_sack_nr_gap_block_end',
          'sctp.parameter_type', 'sctp.parameter_reconfig_request_sequence_number',
          'sctp.parameter_reconfig_response_sequence_number', 'sctp.parameter_ipv4_address', 'sctp.parameter_ipv6_address',
          'sctp.asconf_seq_nr_number', 'sctp.asconf_ack_seq_nr_number', 'sctp.correlation_id', 'sctp.cause_measure_of_staleness']
# what isn't compared if tshark lacks a field that begins so
WITHOUT = {'sctp.parameter_reconfig': ('requests', 'requests_unanswered', 'last_request_unanswered')}
SKIPPED_KEYS = set()


def known_fields():
    """Leaves out the fields that this tshark doesn't have, and what can't be compared without them."""
    run = subprocess.run(['tshark', '-G', 'fields'], stdout=subprocess.PIPE, stderr=subprocess.DEVNULL, text=True, check=True)
    known = {line.split('\t')[2] for line in run.stdout.splitlines() if line.startswith('F\t')}
    for field in [field for field in FIELDS if field not in known]:
        FIELDS.remove(field)
        keys = [key for prefix, names in WITHOUT.items() if field.startswith(prefix) for key in names]
        SKIPPED_KEYS.update(keys)
        print('tshark has no field %s: %s' % (field, 'not compared: ' + ', '.join(keys) if keys else 'its chunks count as empty'))


def dissected(path):
    """Yields the SCTP packets of a capture, each as a dictionary of lists of texts."""
    command = ['tshark', '-n', '-r', path, '-o', 'sctp.checksum:CRC 32c', '-o', 'sctp.tsn_analysis:FALSE', '-o',
               'sctp.relative_tsns:FALSE', '-o', 'sctp.reassembly:FALSE', '-Y', 'sctp', '-T', 'fields', '-E', 'separator=/t',
               '-E', 'occurrence=a', '-E', 'aggregator=;']
    for field in FIELDS:
        command += ['-e', field]
    run = subprocess.run(command, stdout=subprocess.PIPE, stderr=subprocess.DEVNULL, text=True, check=True)
    for line in run.stdout.splitlines():
        yield {name: value.split(';') if value else [] for name, value in zip(FIELDS, line.split('\t'))}


def number(text):
    return int(text, 16) if text.startswith('0x') else int(text)


def nanoseconds(text):
    seconds, _, fraction = text.partition('.')
    return int(seconds) * 10 ** 9 + int((fraction + '000000000')[:9])


def after(tsn, other):
    """Serial Number Arithmetic (RFC 9260 section 2.6)."""
    return 0 < (tsn - other) % 2 ** 32 < 2 ** 31


class Trips:
    """Round trips of DATA, and the TSNs that are awaited."""

    def __init__(self):
        self.waiting, self.trips, self.passed = {}, [], None

    def wait(self, tsn, time):
        is_passed = self.passed is not None and not after(tsn, self.passed)
        if len(self.waiting) < MOST_WAITING and not is_passed:
            self.waiting[tsn] = time

    def leave(self, tsn):
        self.waiting.pop(tsn, None)

    def skip(self, tsn):
        for waiting in [one for one in self.waiting if not after(one, tsn)]:
            del self.waiting[waiting]

    def acknowledged(self, cumulative, blocks, packet, time):
        if self.passed is None or after(cumulative, self.passed):
            self.passed = cumulative
        for tsn in list(self.waiting):
            offset = (tsn - cumulative) % 2 ** 32
            if offset == 0 or offset >= 2 ** 31 or any(first <= offset <= last for first, last in blocks):
                sent = self.waiting.pop(tsn)
                if sent <= time:
                    self.trips.append((time - sent, packet, tsn))


class Path(Trips):
    """What one end sent from one address to another."""

    def __init__(self, packet):
        super().__init__()
        self.packets = self.refused = self.zero = self.wrong = self.chunks = self.i_data = self.bytes = self.inits = 0
        self.first, self.last, self.repeated, self.sent, self.pending = packet, packet, 0, 0, []


class End(Trips):
    def __init__(self, port):
        super().__init__()
        self.addresses, self.port, self.tags = [], port, []
        self.packets = self.refused = self.zero = self.wrong = self.chunks = self.bytes = 0
        self.seen, self.first, self.last, self.repeated, self.first_repeated = set(), None, None, 0, None
        self.sacks = self.gaps = 0
        self.window = self.cumulative = None
        self.closed, self.opened = [], None
        self.sent, self.pending = 0, []
        self.inits = self.i_data = self.forward_tsns = self.abandoned = self.requests = 0
        # skipped: how many TSNs, up to which, by which packet
        self.skipped, self.asked = None, []
        # what it said of its addresses, how much found no room, and the number of its last ASCONF; Stale Cookie causes
        self.announced, self.more_announced, self.sequence, self.stale = [], 0, None, []
        # the correlation ids of its ASCONFs, in their order
        self.correlations = {}

    def may_be_at(self, address):
        """Returns whether an address may be its own: it used or announced it, or more than are kept."""
        return address is None or address in self.addresses or len(self.addresses) > MOST_ADDRESSES or self.more_announced > 0 or \
            address in [one['address'] for one in self.announced]

    def tsn(self, tsn, packet, time):
        """Counts a TSN. Returns the key and the number by which it counts for its packet."""
        # unwrapped, so that numbers beyond 2^32 follow
        if self.last is not None:
            tsn = self.last + (tsn - self.last + 2 ** 31) % 2 ** 32 - 2 ** 31
        if tsn in self.seen:
            self.repeated += 1
            self.first_repeated = self.first_repeated or packet
            self.first_repeated_tsn = tsn % 2 ** 32 if self.repeated == 1 else self.first_repeated_tsn
            self.leave(tsn % 2 ** 32)
            return 'repeated', 1
        self.seen.add(tsn)
        ahead = 1 if self.last is None else tsn - self.last
        self.first = tsn if self.first is None else min(self.first, tsn)
        self.last = tsn if self.last is None else max(self.last, tsn)
        self.wait(tsn % 2 ** 32, time)
        return ('missing', ahead - 1) if ahead > 0 else ('late', 1)

    def note_acknowledged(self, tsn, packet):
        if self.cumulative is None or after(tsn, self.cumulative[0]):
            self.cumulative = tsn, packet

    def note_skipped(self, tsn, streams, packet):
        """FORWARD-TSN (RFC 3758 section 3.2) and I-FORWARD-TSN (RFC 8260 section 2.3.1)."""
        self.forward_tsns += 1
        self.abandoned += streams
        reached = [one[0] for one in (self.cumulative,) if one] + [one[1] for one in (self.skipped,) if one]
        if not reached and self.first is not None:
            reached = [(self.first - 1) % 2 ** 32]
        # of the two the later one
        if len(reached) == 2 and after(reached[1], reached[0]):
            reached.reverse()
        advance = (tsn - reached[0]) % 2 ** 32 if reached and after(tsn, reached[0]) else 0
        if self.skipped is None:
            self.skipped = advance, tsn, packet
        elif after(tsn, self.skipped[1]):
            self.skipped = self.skipped[0] + advance, tsn, packet
        self.skip(tsn)

    def ask(self, request, packet):
        """One with the number of one of the last 8 is that one, sent again."""
        if request not in [number for number, _, _ in self.asked[-8:]]:
            self.requests += 1
            self.asked.append([request, packet, False])

    def announce(self, topic, address, chunk, packet, request=None):
        """Says something of an address of its own. Returns whether there was no room for it."""
        for one in self.announced:
            if one['address'] == address and one.get('deleted', {'refused': True})['refused']:
                break
        else:
            if len(self.announced) == MOST_ANNOUNCED:
                return True
            one = {'address': address, 'used': False}
            self.announced.append(one)
        if topic != 'added' or one.get('added', {'refused': True})['refused']:
            one[topic] = {'chunk': chunk, 'packet': packet, 'request': request, 'refused': False, 'accepted': None}
        return False

    def note_asconf(self, sequence, requests, source, packet):
        """RFC 5061 section 4.2: zeros stand for the source, or for all others."""
        if sequence == self.sequence:
            return
        self.sequence = sequence
        self.correlations[sequence] = [correlation for _, correlation, _ in requests]
        for topic, correlation, address in requests:
            request = sequence, correlation
            if address not in ('0.0.0.0', '::'):
                self.more_announced += self.announce(topic, address, ASCONF, packet, request)
            elif topic != 'deleted':
                self.more_announced += self.announce(topic, source, ASCONF, packet, request)
            else:
                for one in self.announced:
                    if one['address'] != source and one.get('deleted', {'refused': True})['refused']:
                        one['deleted'] = {'packet': packet, 'request': request, 'refused': False, 'accepted': None}

    def answer(self, sequence, refused, granted, packet):
        """What an ASCONF ACK says of the requests of its ASCONF: those without a response succeeded, unless one before them failed (RFC
        5061 section 5.1, A7 and A8)."""
        has_failed = False
        for correlation in self.correlations.get(sequence, ()):
            fails = correlation in refused or has_failed and correlation not in granted
            has_failed |= fails
            for said in (one[topic] for one in self.announced for topic in TOPICS.values() if topic in one):
                if said['request'] == (sequence, correlation) and not said['refused'] and not said['accepted']:
                    said.update(refused=True) if fails else said.update(accepted=packet)

    def respond(self, response):
        for one in self.asked[-8:]:
            if one[0] == response and not one[2]:
                one[2] = True
                break


class Association:
    def __init__(self, number, packet, time, chunk, ends, restart_of):
        self.number, self.packet, self.time, self.chunk, self.ends = number, packet, time, chunk, ends
        self.restart_of, self.ended, self.last, self.established, self.strays = restart_of, None, time, None, 0
        # sides and tags of packets beside it, in their order
        self.beside = []
        # by the sender's side and both addresses, in the order of their first packets, and how many packets went on others
        self.paths, self.other_paths = {}, 0

    def answer(self, side, packet):
        """Notes the tag of a packet beside it. Returns the tag with which it answered one another: after a packet with it one of the other
        end came, without T, and no other tag of this end between; None if there is none."""
        if packet['reflected'] or not packet['tag']:
            return None
        tag, answer = packet['tag'], None
        for other_side, other in reversed(self.beside):
            if other_side == side:
                if other == tag and answer is not None:
                    return answer
                if other != tag:
                    break
            elif answer is None:
                answer = other
        self.beside.append((side, tag))
        return None

    def path(self, side, packet):
        """Returns the path of a packet; None if there is no room for it."""
        way = side, packet['route'][0][0], packet['route'][1][0]
        if way not in self.paths and len(self.paths) < MOST_PATHS:
            self.paths[way] = Path(packet)
        return self.paths.get(way)

    def paths_of(self, side):
        return [path for way, path in self.paths.items() if way[0] == side]


class Model:
    """Of captures whose addresses are known, and whose associations don't leave the table."""

    def __init__(self):
        self.all, self.by_tag, self.by_route, self.unknown = [], {}, {}, 0
        # those that began midway, by the ports of what the second end sends
        self.midway = {}
        # of each packet's number what is printed of its association
        self.members = {}

    def sender(self, packet):
        """Returns the association of a packet, and which end sent it; None if it begins another."""
        key, types = packet['key'], packet['types']
        found = self.with_tag(packet)
        if found or packet['reflected']:
            return found
        on_route = [(self.by_route.get(packet['route'][::-1] if side else packet['route']), side) for side in (0, 1)]
        for known, side in on_route:
            if not known:
                continue
            from_end, to_end = known.ends[side], known.ends[1 - side]
            is_initiated = known.chunk == INIT and not known.ended
            if types[:1] == [INIT]:
                if is_initiated and not from_end.tags and to_end.tags[:1] != [packet['initiate']]:
                    return known, side
            # an INIT that is sent again may be answered by several tags
            elif not to_end.tags or types[:1] == [COOKIE_ECHO] and is_initiated and not known.established:
                return known, side
        known = self.midway.get(key)
        if known and not known.ends[0].tags and packet['chunks'] and self.goes_on(known, *packet['chunks'][0]):
            return known, 1
        return None

    def with_tag(self, packet):
        """Returns the association whose end chose the packet's tag: of several the latest with one of its addresses, else the latest, but
        an INIT between other addresses is of none."""
        key, is_init = packet['key'], packet['types'][:1] == [INIT]
        by_sender = is_init or packet['reflected']
        chosen = (key[1], key[0], packet['initiate'] if is_init else packet['tag']) if by_sender else (*key, packet['tag'])
        found = [(known, 1 - side if by_sender else side) for known, side in self.by_tag.get(chosen, ())]
        near = [(known, side) for known, side in found
                if known.ends[side].may_be_at(packet['route'][0][0]) or known.ends[1 - side].may_be_at(packet['route'][1][0])]
        return (near or ([] if is_init else found) or [None])[-1]

    @staticmethod
    def goes_on(known, kind, value):
        """Returns whether the second end, of which no packet was seen, goes on so: it acknowledges what the first end sent, or sends what
        follows the TSN that the first end acknowledged."""
        first, second = known.ends
        if kind in (SACK, NR_SACK, SHUTDOWN) and first.last is not None:
            return (first.last - (value if kind == SHUTDOWN else value[0])) % 2 ** 32 < 2048
        if kind in (DATA, I_DATA) and second.cumulative:
            return 0 < (value[0] - second.cumulative[0]) % 2 ** 32 <= 2048
        return kind == HEARTBEAT_ACK and value in [info for info, _ in first.pending]

    def beside(self, packet):
        """Returns the living association beside which a packet is out of the blue (RFC 9260 section 8.4), and its sender's side there."""
        route = packet['route']
        known, side = self.by_route.get(route), 0
        if not known:
            known, side = self.by_route.get(route[::-1]), 1
        if packet['types'][:1] == [INIT] or not known or known.ended or route[0] == route[1]:
            return None
        return known, side

    def learn(self, association, side, tag):
        """The end chose this tag: packets to it carry it. The two latest tags are known."""
        end, other = association.ends[side], association.ends[1 - side]
        if not tag or end.tags[:1] == [tag]:
            return
        if tag in end.tags:
            end.tags.reverse()
            return
        if len(end.tags) == 2:
            self.by_tag[other.port, end.port, end.tags.pop()].remove((association, 1 - side))
        end.tags.insert(0, tag)
        self.by_tag.setdefault((other.port, end.port, tag), []).append((association, 1 - side))

    def see(self, packet):
        member = self.members[packet['number']] = {}
        found = self.sender(packet)
        answer = None
        if not found and self.beside(packet):
            known, side = self.beside(packet)
            answer = known.answer(side, packet)
            if answer is None:
                known.strays += 1
                self.unknown += 1
                return
        if not found:
            ends = [End(packet['key'][0]), End(packet['key'][1])]
            route, restart_of = packet['route'], None
            latest = self.by_route.get(route) or self.by_route.get(route[::-1])
            if packet['types'][:1] == [INIT] and latest and not latest.ended and route[0] != route[1] and \
                    (latest.established or latest.chunk != INIT):
                restart_of = latest.number
            association = Association(len(self.all) + 1, packet['number'], packet['time'], (packet['types'] + [None])[0],
                                      ends, restart_of)
            self.all.append(association)
            self.by_route.pop(route[::-1], None)
            self.by_route[route] = association
            if packet['types'][:1] != [INIT]:
                self.midway[packet['key'][::-1]] = association
            self.learn(association, 0, answer)
            found = association, 0
        association, side = found
        self.learn(association, side, packet['initiate'])
        self.learn(association, side if packet['reflected'] else 1 - side, packet['tag'])
        steps = self.count(association, side, packet)
        member.update(association=association.number, end=side)
        member.update({key: count for key, count in steps.items() if count})

    def count(self, association, side, packet):
        """Counts a packet. Returns how its TSNs follow those before."""
        steps = {'repeated': 0, 'late': 0, 'missing': 0}
        sender, receiver = association.ends[side], association.ends[1 - side]
        for end, address in zip((sender, receiver), (place[0] for place in packet['route'])):
            if address and address not in end.addresses:
                end.addresses.append(address)
        path = association.path(side, packet)
        association.other_paths += not path
        for one in filter(None, (sender, path)):
            one.packets += 1
            one.refused += packet['refused']
            one.zero += packet['checksum'] == 'zero'
            one.wrong += packet['checksum'] == 'wrong'
        # where there is no room for a path nothing else is counted of it
        path = path or Path(packet)
        path.last = packet
        for kind, value in packet['chunks']:
            self.count_chunk(association, side, packet, kind, value)
            self.count_on_path(association, side, path, packet, kind, value)
            if kind in (DATA, I_DATA):
                key, count = sender.tsn(value[0], packet['number'], packet['time'])
                steps[key] += count
                if key == 'repeated':
                    path.repeated += 1
                    for one in association.paths_of(side):
                        one.leave(value[0])
                else:
                    path.wait(value[0], packet['time'])
            if kind == COOKIE_ACK or kind in (SACK, NR_SACK) and receiver.chunks:
                association.established = association.established or (packet['number'], packet['time'], kind)
        for one in sender.announced:
            one['used'] |= one['address'] == packet['route'][0][0]
        association.last = packet['time']
        return steps

    @staticmethod
    def count_on_path(association, side, path, packet, kind, value):
        path.inits += kind == INIT
        if kind in (DATA, I_DATA):
            path.chunks += 1
            path.i_data += kind == I_DATA
            path.bytes += value[1]
        elif kind in (SACK, NR_SACK, SHUTDOWN):
            cumulative, blocks = (value, ()) if kind == SHUTDOWN else (value[0], value[2])
            for one in association.paths_of(1 - side):
                one.acknowledged(cumulative, blocks, packet['number'], packet['time'])
        elif kind in (FORWARD_TSN, I_FORWARD_TSN):
            for one in association.paths_of(side):
                one.skip(value[0])
        elif kind == HEARTBEAT:
            path.sent += 1
            path.pending.append((value, packet['number']))
        elif kind == HEARTBEAT_ACK:
            # the first of the paths on which such a HEARTBEAT is awaited
            for one in association.paths_of(1 - side):
                found = [sent for sent in one.pending if sent[0] == value]
                if found:
                    one.pending.remove(found[0])
                    break

    def count_chunk(self, association, side, packet, kind, value):
        sender, receiver, number = association.ends[side], association.ends[1 - side], packet['number']
        sender.inits += kind == INIT
        if kind in (DATA, I_DATA):
            sender.chunks += 1
            sender.i_data += kind == I_DATA
            sender.bytes += value[1]
        elif kind in (SACK, NR_SACK):
            sender.sacks += 1
            sender.gaps += bool(value[2])
            if value[1] == 0:
                sender.closed.append(number)
                sender.opened = None
            elif sender.closed:
                sender.opened = sender.opened or number
            if sender.window is None or value[1] < sender.window[0]:
                sender.window = value[1], number
            receiver.note_acknowledged(value[0], number)
            receiver.acknowledged(value[0], value[2], number, packet['time'])
        elif kind == SHUTDOWN:
            receiver.note_acknowledged(value, number)
            receiver.acknowledged(value, (), number, packet['time'])
        elif kind in (FORWARD_TSN, I_FORWARD_TSN):
            sender.note_skipped(value[0], value[1], number)
        elif kind == RE_CONFIG:
            for request in value[0]:
                sender.ask(request, number)
            for response in value[1]:
                receiver.respond(response)
        elif kind in (INIT, INIT_ACK):
            left_out = sum(sender.announce('added', address, kind, number) for address in value)
            sender.more_announced = max(sender.more_announced, left_out)
        elif kind == ASCONF:
            sender.note_asconf(*value, packet['route'][0][0], number)
        elif kind == ASCONF_ACK:
            receiver.answer(*value, number)
        elif kind == ERROR:
            sender.stale += value
        elif kind == HEARTBEAT:
            sender.sent += 1
            sender.pending.append((value, number))
        elif kind == HEARTBEAT_ACK:
            for sent in receiver.pending:
                if sent[0] == value:
                    receiver.pending.remove(sent)
                    break
        elif kind in (ABORT, SHUTDOWN_COMPLETE) and not association.ended:
            association.ended = number, packet['time'], kind, side, value


def re_config(take):
    """Returns the numbers of the requests and of the responses in a RE-CONFIG: it has at most two parameters."""
    requests, responses = [], []
    for kind in take['sctp.parameter_type']:
        kind = number(kind)
        if kind in REQUESTS:
            requests.append(number(next(take['sctp.parameter_reconfig_request_sequence_number'])))
        if kind == RESPONSE or kind == 13:
            response = number(next(take['sctp.parameter_reconfig_response_sequence_number']))
            if kind == RESPONSE:
                responses.append(response)
    return requests, responses


def announcements(take):
    """Returns the addresses of an INIT or an INIT ACK, which has its packet alone."""
    kinds = [number(kind) for kind in take['sctp.parameter_type']]
    return [next(take[ADDRESSES[kind]]) for kind in kinds if kind in ADDRESSES]


def asconf(take):
    """Returns the number and the requests of an ASCONF, which has its packet alone: after its own address, what each says, its
    correlation id and its address, whose parameter follows it."""
    sequence, requests = number(next(take['sctp.asconf_seq_nr_number'])), []
    kinds = [number(kind) for kind in take['sctp.parameter_type']]
    next(take[ADDRESSES[kinds[0]]])
    for kind, inner in zip(kinds[1::2], kinds[2::2]):
        requests.append((TOPICS[kind], number(next(take['sctp.correlation_id'])), next(take[ADDRESSES[inner]])))
    return sequence, requests


def asconf_ack(take):
    """Returns the number of an ASCONF ACK, which has its packet alone, and the correlation ids that it refuses, and
    those that it grants."""
    sequence = number(next(take['sctp.asconf_ack_seq_nr_number']))
    # those of the requests in its causes, too
    kinds = [kind for kind in map(number, take['sctp.parameter_type']) if kind not in ADDRESSES]
    answers = [(kind, number(next(take['sctp.correlation_id']))) for kind in kinds]
    return (sequence, *([correlation for kind, correlation in answers if kind == one] for one in (REFUSAL, GRANT)))


def packets(path, refused, file=0):
    """Yields the packets of a capture as the model takes them."""
    for fields in dissected(path):
        if not fields['sctp.srcport']:
            continue
        take = {name: iter(values) for name, values in fields.items()}

        def next_number(name, take=take):
            return number(next(take[name]))

        chunks, types, initiate, reflected = [], [number(text) for text in fields['sctp.chunk_type']], 0, False
        flags = [number(text) for text in fields['sctp.chunk_flags']]
        lengths = [number(text) for text in fields['sctp.chunk_length']]
        try:
            for index, kind in enumerate(types):
                value = None
                if kind in (DATA, I_DATA):
                    value = next_number('sctp.data_tsn_raw'), lengths[index] - (16 if kind == DATA else 20)
                elif kind == INIT:
                    initiate = next_number('sctp.init_initiate_tag')
                    value = announcements(take)
                elif kind == INIT_ACK:
                    initiate = next_number('sctp.initack_initiate_tag')
                    value = announcements(take)
                elif kind == SACK:
                    cumulative, window = next_number('sctp.sack_cumulative_tsn_ack_raw'), next_number('sctp.sack_a_rwnd')
                    blocks = [(next_number('sctp.sack_gap_block_start'), next_number('sctp.sack_gap_block_end'))
                              for _ in range(next_number('sctp.sack_number_of_gap_blocks'))]
                    value = cumulative, window, blocks
                elif kind == NR_SACK:
                    cumulative, window = next_number('sctp.nr_sack_cumulative_tsn_ack'), next_number('sctp.nr_sack_a_rwnd')
                    counts = [next_number('sctp.nr_sack_number_of_%sgap_blocks' % name) for name in ('', 'nr_')]
                    value = cumulative, window, [
                        tuple(next_number('sctp.nr_sack_%sgap_block_%s' % (name, end)) for end in ('start', 'end'))
                        for name, count in zip(('', 'nr_'), counts) for _ in range(count)]
                elif kind == SHUTDOWN:
                    value = next_number('sctp.shutdown_cumulative_tsn_ack')
                elif kind == FORWARD_TSN:
                    value = next_number('sctp.forward_tsn_tsn'), (lengths[index] - 8) // 4
                elif kind == I_FORWARD_TSN:
                    value = next_number('sctp.i_forward_tsn_tsn'), (lengths[index] - 8) // 8
                elif kind == RE_CONFIG:
                    value = re_config(take) if 'sctp.parameter_type' in take else ([], [])
                elif kind == ASCONF:
                    value = asconf(take)
                elif kind == ASCONF_ACK:
                    value = asconf_ack(take)
                elif kind == ERROR:
                    codes = [number(code) for code in take['sctp.cause_code']]
                    value = [next_number('sctp.cause_measure_of_staleness') for code in codes if code == STALE_COOKIE]
                elif kind in (HEARTBEAT, HEARTBEAT_ACK):
                    value = next(take['sctp.parameter_heartbeat_information'], '')
                elif kind == ABORT:
                    value = number(next(take['sctp.cause_code'], '-1'))
                if kind in (ABORT, SHUTDOWN_COMPLETE) and index == 0:
                    reflected = bool(flags[0] & 1)
                chunks.append((kind, value))
        except StopIteration:
            pass
        source = (fields['ip.src'] or fields['ipv6.src'] or [None])[0]
        destination = (fields['ip.dst'] or fields['ipv6.dst'] or [None])[0]
        key = number(fields['sctp.srcport'][0]), number(fields['sctp.dstport'][0])
        status = fields['sctp.checksum.status'][:1]
        checksum = {'1': 'right', '0': 'wrong'}.get(status[0] if status else '', 'unknown')
        if checksum == 'wrong' and number(fields['sctp.checksum'][0]) == 0:
            checksum = 'zero'
        frame = int(fields['frame.number'][0])
        yield {'number': (file, frame), 'time': nanoseconds(fields['frame.time_epoch'][0]), 'key': key, 'checksum': checksum,
               'tag': number(fields['sctp.verification_tag'][0]), 'types': types, 'chunks': chunks, 'initiate': initiate,
               'reflected': reflected, 'route': ((source, key[0]), (destination, key[1])),
               'refused': frame in refused, 'fields': fields}


def modelled(paths, refused):
    model = Model()
    for file, path in enumerate(paths):
        for packet in packets(path, refused, file):
            model.see(packet)
    return model


def resolution(path):
    """Returns how many digits of a second a pcap file's times have."""
    with open(path, 'rb') as file:
        return 9 if file.read(4) == struct.pack('<I', 0xa1b23c4d) else 6


def seconds(time, digits):
    """Returns a time as the program's number of seconds, which `numbers` keeps as text."""
    return ('%d.%09d' % divmod(time, 10 ** 9))[:digits - 9 or None]


def packet_keys(packet, key, file_key, paths):
    """Returns a packet's number, and if there are several files its file's name."""
    file, frame = packet
    return {key: frame, file_key: paths[file]} if len(paths) > 1 else {key: frame}


def expected_address(address, at, knows_sources):
    """Returns what the program should print of an address, and of what its end said of it."""
    one = {'address': address['address']}
    if 'added' in address:
        one.update(at(address['added']['packet'], 'packet', 'file'), chunk=NAMES[address['added']['chunk']])
        if not address['used'] and knows_sources:
            one['never_used'] = True
    for topic in 'added', 'primary', 'deleted':
        if topic in address and topic != 'added':
            one.update(at(address[topic]['packet'], topic + '_packet'))
        if topic not in address or not address[topic]['request']:
            continue
        front = '' if topic == 'added' else topic + '_'
        if address[topic]['refused']:
            one[front + 'refused'] = True
        elif address[topic]['accepted']:
            one.update(at(address[topic]['accepted'], front + 'accepted_packet'))
        else:
            one[front + 'unanswered'] = True
    return one


def expected_end(end, digits, paths):
    """Returns what the program should print of an end."""
    def at(packet, key, file_key=None):
        return packet_keys(packet, key, file_key or key.replace('_packet', '') + '_file', paths)

    one = {'addresses': end.addresses[:MOST_ADDRESSES], 'port': end.port}
    if len(end.addresses) > MOST_ADDRESSES:
        one['more_addresses'] = True
    if end.tags:
        one['tag'] = end.tags[0]
    if end.announced:
        one['announced'] = [expected_address(address, at, bool(end.addresses)) for address in end.announced]
    if end.more_announced:
        one['more_announced'] = end.more_announced
    if end.stale:
        one.update(stale_cookies=len(end.stale), greatest_staleness=max(end.stale))
    one.update(packets=end.packets, refused=end.refused, zero_checksums=end.zero, wrong_checksums=end.wrong, inits=end.inits,
               data=end.chunks, i_data=end.i_data, bytes=end.bytes)
    if end.first is not None:
        one.update(first_tsn=end.first % 2 ** 32, last_tsn=end.last % 2 ** 32, repeated=end.repeated,
                   missing=end.last - end.first + 1 - len(end.seen))
        if end.repeated:
            one.update(first_repeated_tsn=end.first_repeated_tsn, **at(end.first_repeated, 'first_repeated'))
    if end.cumulative:
        one.update(acknowledged=end.cumulative[0], **at(end.cumulative[1], 'acknowledged_packet'))
    one['forward_tsns'] = end.forward_tsns
    if end.skipped:
        one.update(skipped=end.skipped[0], skipped_to=end.skipped[1], abandoned=end.abandoned,
                   **at(end.skipped[2], 'skipped_packet'))
    one.update(sacks=end.sacks, sacks_with_gaps=end.gaps)
    if end.window:
        one.update(least_a_rwnd=end.window[0], **at(end.window[1], 'least_a_rwnd_packet'))
    if end.closed:
        one.update(at(end.closed[0], 'closed_first'), **at(end.closed[-1], 'closed_last'))
    if end.opened:
        one.update(at(end.opened, 'opened_packet'))
    one.update(heartbeats=end.sent, heartbeats_unanswered=len(end.pending))
    if end.pending:
        one.update(at(max(packet for _, packet in end.pending), 'last_unanswered'))
    open_requests = [packet for _, packet, answered in end.asked if not answered]
    one.update(requests=end.requests, requests_unanswered=len(open_requests))
    if open_requests:
        one.update(at(open_requests[-1], 'last_request_unanswered'))
    one.update(expected_trips(end, digits, at))
    return one


def expected_trips(end, digits, at):
    """Returns what the program should print of round trips."""
    if not end.trips:
        return {}
    times = sorted(time for time, _, _ in end.trips)
    greatest = next(packet for time, packet, _ in end.trips if time == times[-1])
    tsns = {tsn for time, packet, tsn in end.trips if packet == greatest and time == times[-1]}
    return {'round_trip': {'count': len(times), 'least': seconds(times[0], digits),
                           'median': times[(len(times) - 1) // 2], 'greatest': seconds(times[-1], digits),
                           'greatest_tsn': tsns, **at(greatest, 'greatest_packet')}}


def expected_path(way, path, digits, paths):
    """Returns what the program should print of a path."""
    def at(packet, key):
        return packet_keys(packet, key, key.replace('_packet', '') + '_file', paths)

    def moment(packet):
        return {**packet_keys(packet['number'], 'packet', 'file', paths), 'time': seconds(packet['time'], digits)}

    one = {'end': way[0], 'first': moment(path.first), 'last': moment(path.last), 'packets': path.packets, 'refused': path.refused,
           'zero_checksums': path.zero, 'wrong_checksums': path.wrong, 'inits': path.inits, 'data': path.chunks,
           'i_data': path.i_data, 'bytes': path.bytes, 'repeated': path.repeated, 'heartbeats': path.sent,
           'heartbeats_unanswered': len(path.pending)}
    if way[1]:
        one.update({'from': way[1], 'to': way[2]})
    if path.pending:
        one.update(at(path.pending[0][1], 'first_unanswered'), **at(path.pending[-1][1], 'last_unanswered'))
    one.update(expected_trips(path, digits, at))
    return one


def expected(model, digits, paths):
    """Returns what the program should print of the model's associations."""
    def first(packet, time, kind):
        return {**packet_keys(packet, 'packet', 'file', paths), 'time': seconds(time, digits),
                'chunk': NAMES.get(kind, 'chunk type %d (0x%02x)' % (kind, kind))}

    for association in model.all:
        ends = [expected_end(end, digits, paths) for end in association.ends]
        line = {'association': association.number, 'ends': ends,
                'began': first(association.packet, association.time, association.chunk or 0)}
        if association.chunk is None:
            del line['began']['chunk']
        if association.restart_of:
            line['restart_of'] = association.restart_of
        if association.chunk != INIT:
            line['midway'] = True
        if association.established:
            packet, time, kind = association.established
            line['established'] = first(packet, time, kind)
            if association.chunk == INIT and kind == COOKIE_ACK and time >= association.time:
                line['established']['after'] = seconds(time - association.time, digits)
        last = association.last
        if association.ended:
            packet, last, kind, side, cause = association.ended
            line['ended'] = {**first(packet, last, kind), 'by': side}
            if kind == ABORT and cause >= 0:
                line['ended']['cause'] = cause
        if last >= association.time:
            line['duration'] = seconds(last - association.time, digits)
        if association.strays:
            line['out_of_the_blue'] = association.strays
        line['paths'] = [expected_path(way, path, digits, paths) for way, path in association.paths.items()]
        if association.other_paths:
            line['packets_on_other_paths'] = association.other_paths
        yield line


def differences(path, want, got, checks_refused):
    """Prints how two associations differ, and returns whether they do."""
    found = []

    def compare(place, a, b):
        if isinstance(a, dict) and isinstance(b, dict):
            for key in sorted(set(a) | set(b)):
                if key == 'median' and key in a and key in b:
                    exact, printed = a[key], nanoseconds(b[key])
                    if abs(exact - printed) > max(exact / 16, 512) + 1000:
                        found.append('%s.median: %d, %d' % (place, exact, printed))
                elif key == 'greatest_tsn' and b.get(key) in a.get(key, ()):
                    pass
                elif key not in ('reason', 'cause_name', *SKIPPED_KEYS) and (key != 'refused' or checks_refused):
                    compare('%s.%s' % (place, key), a.get(key), b.get(key))
        elif isinstance(a, list) and isinstance(b, list) and len(a) == len(b):
            for index, pair in enumerate(zip(a, b)):
                compare('%s.%d' % (place, index), *pair)
        elif a != b:
            found.append('%s: expected %s, printed %s' % (place, a, b))

    compare('association %d' % want['association'], want, got)
    for line in found[:20]:
        print('%s: %s' % (os.path.basename(path), line))
    return bool(found)


def compare(paths, program, refused):
    """Compares a capture, of one file or several, and returns the number of associations and of those that differ."""
    name = ' '.join(os.path.basename(path) for path in paths)
    run = subprocess.run([program, '--json', '--paths', *paths], stdout=subprocess.PIPE, text=True, check=False)
    # a number with a fraction is kept as it is written
    lines = [json.loads(line, parse_float=str) for line in run.stdout.splitlines()]
    got, model = [it for it in lines if 'ends' in it], modelled(paths, refused or ())
    want = list(expected(model, resolution(paths[0]), paths))
    got.sort(key=lambda one: one['association'])
    wrong = sum(differences(name, a, b, refused is not None) for a, b in zip(want, got))
    if len(want) != len(got):
        print('%s: expected %d associations, printed %d' % (name, len(want), len(got)))
        wrong += 1
    for line in lines:
        if 'packet' in line:
            printed = {key: line[key] for key in ('association', 'end', 'repeated', 'late', 'missing') if key in line}
            wanted = model.members.pop((paths.index(line.get('file', paths[0])), line['packet']), None)
            if wanted != printed:
                print('%s: packet %d: expected %s, printed %s' % (name, line['packet'], wanted, printed))
                wrong += 1
    if model.members:
        print('%s: not printed: %s' % (name, list(model.members)[:9]))
        wrong += 1
    return len(want), wrong


# ---- captures, one a case

def crc32c(data, table=[]):
    if not table:
        for byte in range(256):
            for _ in range(8):
                byte = byte >> 1 ^ 0x82f63b78 * (byte & 1)
            table.append(byte)
    crc = 0xffffffff
    for byte in data:
        crc = crc >> 8 ^ table[(crc ^ byte) & 255]
    return struct.pack('<I', crc ^ 0xffffffff)


def chunk(kind, flags, value, length=None):
    size = 4 + len(value)
    return struct.pack('>BBH', kind, flags, size if length is None else length) + value + bytes(-size % 4)


def parameter(kind, value):
    return struct.pack('>HH', kind, 4 + len(value)) + value + bytes(-len(value) % 4)


def address(text):
    packed = ipaddress.ip_address(text).packed
    return parameter(5 if len(packed) == 4 else 6, packed)


def asconf_of(sequence, *requests):
    """An ASCONF with requests, each a type, a correlation id and an address (RFC 5061 section 4.1.1)."""
    inner = b''.join(parameter(kind, struct.pack('>I', one) + address(text)) for kind, one, text in requests)
    return chunk(ASCONF, 0, struct.pack('>I', sequence) + address('10.0.0.1') + inner)


def refusal_of(correlation):
    """An Error Cause Indication with Invalid Mandatory Parameter (RFC 5061 section 4.2.3)."""
    return parameter(REFUSAL, struct.pack('>I', correlation) + parameter(7, b''))


def init(kind, tag, tsn, parameters=b''):
    return chunk(kind, 0, struct.pack('>IIHHI', tag, 131072, 10, 10, tsn % 2 ** 32) + parameters)


def data(tsn, payload=b'hello', kind=DATA):
    more = bytes(4) if kind == I_DATA else b''
    return chunk(kind, 3, struct.pack('>IHHI', tsn % 2 ** 32, 1, 0, 51) + more + payload)


def sack(cumulative, window=131072, blocks=()):
    value = struct.pack('>IIHH', cumulative % 2 ** 32, window, len(blocks), 0)
    return chunk(SACK, 0, value + b''.join(struct.pack('>HH', *block) for block in blocks))


def heartbeat(info, kind=HEARTBEAT):
    return chunk(kind, 0, parameter(1, info))


def nr_sack(cumulative, window=131072, blocks=(), nr_blocks=()):
    value = struct.pack('>IIHHHH', cumulative % 2 ** 32, window, len(blocks), len(nr_blocks), 0, 0)
    return chunk(NR_SACK, 0, value + b''.join(struct.pack('>HH', *block) for block in (*blocks, *nr_blocks)))


def forward_tsn(cumulative, streams=(), kind=FORWARD_TSN):
    """A FORWARD-TSN that lists these streams, each with number 3, or an I-FORWARD-TSN."""
    form = '>HH' if kind == FORWARD_TSN else '>HHI'
    listed = b''.join(struct.pack(form, *((stream, 3) if kind == FORWARD_TSN else (stream, 0, 3))) for stream in streams)
    return chunk(kind, 0, struct.pack('>I', cumulative % 2 ** 32) + listed)


def reset_request(request, response=0, last_tsn=0):
    """An Outgoing SSN Reset Request Parameter for stream 1 (RFC 6525 section 4.1)."""
    return parameter(13, struct.pack('>IIIH', request, response, last_tsn, 1))


def response_to(request, result=1):
    return parameter(RESPONSE, struct.pack('>II', request, result))


class Capture:
    """A pcap file of raw IPv4, with the numbers of the packets that are refused."""

    def __init__(self, name):
        self.name, self.records, self.time, self.refused = name + '.pcap', [], 1718195696 * 10 ** 6, set()

    def add(self, source, destination, tag, *chunks, after=100, checksum='right', refused=False):
        """Adds a packet, some microseconds after the one before; a place is an address' last two bytes and a port."""
        self.time += after
        header = struct.pack('>HHI', source[1], destination[1], tag)
        body = b''.join(chunks)
        field = {'right': crc32c(header + bytes(4) + body), 'zero': bytes(4), 'wrong': b'\1\2\3\4'}[checksum]
        packet = header + field + body
        ip = struct.pack('>BBHHHBBHHHHH', 0x45, 0, 20 + len(packet), 0, 0, 64, 132, 0, 0x0a00, source[0], 0x0a00,
                         destination[0])
        self.records.append((self.time, ip + packet))
        if refused:
            self.refused.add(len(self.records))

    def content(self):
        return struct.pack('<IHHiIII', 0xa1b2c3d4, 2, 4, 0, 0, 262144, 101) + b''.join(
            struct.pack('<IIII', time // 10 ** 6, time % 10 ** 6, len(frame), len(frame)) + frame
            for time, frame in self.records)

    def write(self, folder):
        path = os.path.join(folder, self.name)
        with open(path, 'wb') as file:
            file.write(self.content())
        return path


A, B, C, D = (1, 36412), (2, 40000), (3, 40000), (4, 40000)
COOKIE = parameter(7, b'cookie..')


def handshake(capture, a=A, b=B, tag_a=0x4d2df52d, tag_b=0x0da73798, tsn_a=1000, tsn_b=2000, parameters=b''):
    capture.add(a, b, 0, init(INIT, tag_a, tsn_a, parameters))
    capture.add(b, a, tag_a, init(INIT_ACK, tag_b, tsn_b, COOKIE))
    capture.add(a, b, tag_b, chunk(COOKIE_ECHO, 0, b'cookie..'))
    capture.add(b, a, tag_a, chunk(COOKIE_ACK, 0, b''))
    return tag_a, tag_b


def shutdown(capture, tags, a=A, b=B, cumulative=0):
    capture.add(a, b, tags[1], chunk(SHUTDOWN, 0, struct.pack('>I', cumulative % 2 ** 32)))
    capture.add(b, a, tags[0], chunk(SHUTDOWN_ACK, 0, b''))
    capture.add(a, b, tags[1], chunk(SHUTDOWN_COMPLETE, 0, b''))


def plain():
    capture = Capture('plain')
    tags = handshake(capture)
    capture.add(A, B, tags[1], data(1000), data(1001, bytes(1200)))
    capture.add(B, A, tags[0], sack(1001, 100000), data(2000, b'x', I_DATA), after=210)
    capture.add(A, B, tags[1], sack(2000), after=400)
    capture.add(A, B, tags[1], heartbeat(b'one'))
    capture.add(B, A, tags[0], heartbeat(b'one', HEARTBEAT_ACK))
    shutdown(capture, tags)
    return capture


def tsns():
    capture = Capture('tsns')
    first = 2 ** 32 - 3
    tags = handshake(capture, tsn_a=first)
    for step in 0, 1, 3, 6, 5, 3, 10, 2, 10, 9:
        capture.add(A, B, tags[1], data(first + step))
    capture.add(B, A, tags[0], sack(first, 5000, ((2, 2), (4, 5))))
    capture.add(B, A, tags[0], sack(first + 6, 0))
    capture.add(B, A, tags[0], sack(first + 10, 0))
    capture.add(A, B, tags[1], data(first - 2), after=7)
    capture.add(A, B, tags[1], data(first + 3000))
    capture.add(A, B, tags[1], data(first + 1500), data(first + 3000))
    capture.add(B, A, tags[0], chunk(ABORT, 0, parameter(12, b'bye')), after=61_000_000)
    return capture


def beginnings():
    capture = Capture('beginnings')
    # an INIT that is sent again, answered twice; the first answer is used
    capture.add(A, B, 0, init(INIT, 0x11, 1))
    capture.add(A, B, 0, init(INIT, 0x11, 1))
    capture.add(B, A, 0x11, init(INIT_ACK, 0x22, 1))
    capture.add(B, A, 0x11, init(INIT_ACK, 0x23, 1))
    capture.add(A, B, 0x22, chunk(COOKIE_ECHO, 0, b'cook'))
    capture.add(B, A, 0x11, chunk(COOKIE_ACK, 0, b''))
    # a restart by the other end, and its data
    tags = handshake(capture, B, A, 0x31, 0x32)
    capture.add(B, A, tags[1], data(1000))
    capture.add(A, B, tags[0], sack(1000))
    capture.add(A, B, tags[0], chunk(ABORT, 0, b''))
    # the same places again, after the end: no restart
    tags = handshake(capture, A, B, 0x41, 0x42)
    shutdown(capture, tags)
    # both send INIT (RFC 9260 section 5.2.1)
    capture.add(A, C, 0, init(INIT, 0x51, 1))
    capture.add(C, A, 0, init(INIT, 0x52, 1))
    capture.add(A, C, 0x52, init(INIT_ACK, 0x51, 1))
    capture.add(C, A, 0x51, init(INIT_ACK, 0x52, 1))
    capture.add(A, C, 0x52, chunk(COOKIE_ECHO, 0, b'cook'))
    # midway, and then the other direction
    capture.add((4, 1), (5, 2), 0x61, data(7))
    capture.add((5, 2), (4, 1), 0x62, sack(7))
    capture.add((4, 1), (5, 2), 0x61, data(8))
    # an INIT that is refused, and an association that begins with its INIT ACK
    capture.add((6, 1), (7, 2), 0, init(INIT, 0x71, 1))
    capture.add((7, 2), (6, 1), 0x71, chunk(ABORT, 0, parameter(4, b'')))
    capture.add((8, 1), (9, 2), 0x81, init(INIT_ACK, 0x82, 1))
    capture.add((9, 2), (8, 1), 0x82, chunk(COOKIE_ECHO, 0, b'cook'))
    return capture


def endings():
    capture = Capture('endings')
    # the other side's tag, reflected
    capture.add(A, B, 0x11, data(1))
    capture.add(B, A, 0x11, chunk(ABORT, 1, b''))
    # of nothing known: each is an association of its own
    capture.add(B, C, 0x99, chunk(ABORT, 1, b''))
    capture.add(B, C, 0x98, chunk(SHUTDOWN_COMPLETE, 1, b''))
    capture.add(C, B, 0x97, chunk(ABORT, 0, parameter(13, b'text')))
    tags = handshake(capture, A, C, 0x21, 0x22)
    capture.add(A, C, tags[1], chunk(SHUTDOWN, 0, bytes(4)))
    capture.add(C, A, tags[1], chunk(SHUTDOWN_COMPLETE, 1, b''))
    capture.add(C, A, tags[0], chunk(ABORT, 0, b''))
    return capture


def checksums():
    capture = Capture('checksums')
    tags = handshake(capture, parameters=parameter(0x8001, struct.pack('>I', 1)))
    capture.add(A, B, tags[1], data(1000), checksum='zero')
    capture.add(A, B, tags[1], data(1001), checksum='wrong')
    capture.add(B, A, tags[0], sack(1001), checksum='zero')
    capture.add(A, B, tags[1], chunk(COOKIE_ACK, 0, b'', length=3), refused=True)
    capture.add(A, B, tags[1], data(1002), chunk(COOKIE_ACK, 0, b'', length=90), refused=True)
    return capture


def heartbeats():
    capture = Capture('heartbeats')
    tags = handshake(capture)
    for step in range(20):
        capture.add(A, B, tags[1], heartbeat(bytes([step] * 20)))
        if step % 3 == 1:
            capture.add(B, A, tags[0], heartbeat(bytes([step - 1] * 20), HEARTBEAT_ACK))
    capture.add(B, A, tags[0], heartbeat(b'unknown', HEARTBEAT_ACK))
    return capture


def homes():
    capture = Capture('homes')
    tags = handshake(capture)
    for step in range(9):
        capture.add((100 + step, 36412), (200 + step % 2, 40000), tags[1], data(1000 + step))
        capture.add((200 + step % 2, 40000), (100 + step, 36412), tags[0], sack(1000 + step))
    return capture


def two_paths():
    """Two paths: DATA that is sent again and acknowledged on the other one, and HEARTBEATs, of which one path loses most."""
    capture = Capture('paths')
    tags = handshake(capture)
    a, b = (9, A[1]), (10, B[1])
    capture.add(A, B, tags[1], data(1000), data(1001), data(1002))
    capture.add(b, a, tags[0], sack(1000), after=300)
    capture.add(a, b, tags[1], data(1001), data(1003), after=1_000_000)
    capture.add(B, A, tags[0], sack(1003), after=500)
    # on the first path these are awaited, and skipped on the second
    capture.add(A, B, tags[1], data(1004), data(1005))
    capture.add(a, b, tags[1], forward_tsn(1004, (1,)))
    capture.add(b, a, tags[0], sack(1005), after=700)
    # of ten on the first path one is answered, of equal ones on both paths two, and all on the way back of the second
    for step in range(10):
        capture.add(A, B, tags[1], heartbeat(b'%d' % step))
        capture.add(a, b, tags[1], heartbeat(b'other%d' % step))
        capture.add(b, a, tags[0], heartbeat(b'other%d' % step, HEARTBEAT_ACK))
    capture.add(b, a, tags[0], heartbeat(b'9', HEARTBEAT_ACK))
    for one, other in ((a, b), (A, B)):
        capture.add(one, other, tags[1], heartbeat(b'same'))
    for _ in range(3):
        capture.add(b, a, tags[0], heartbeat(b'same', HEARTBEAT_ACK))
    # from the one to the other path's address: two further paths
    capture.add(A, b, tags[1], data(1006), checksum='wrong')
    capture.add(b, A, tags[0], data(2000, b'x', I_DATA))
    shutdown(capture, tags, cumulative=2000)
    return capture


def abandoned():
    """FORWARD-TSN and I-FORWARD-TSN: what they skip is no round trip; and the last DATA, which a SHUTDOWN acknowledges."""
    capture = Capture('abandoned')
    tags = handshake(capture)
    capture.add(A, B, tags[1], data(1000))
    capture.add(B, A, tags[0], sack(1000), after=300)
    capture.add(A, B, tags[1], data(1001), data(1002), data(1003))
    capture.add(A, B, tags[1], forward_tsn(1002, (1, 2)), after=3_000_000)
    capture.add(B, A, tags[0], sack(1003), after=10_000)
    capture.add(A, B, tags[1], data(1005))
    capture.add(A, B, tags[1], data(1005))
    capture.add(A, B, tags[1], forward_tsn(1008, (1,), I_FORWARD_TSN))
    capture.add(A, B, tags[1], forward_tsn(1002))
    capture.add(B, A, tags[0], sack(1008))
    capture.add(B, A, tags[0], data(2000))
    shutdown(capture, tags, cumulative=2000)
    # all is skipped before anything is acknowledged; of the other end nothing is seen
    capture.add((4, 1), (5, 2), 0x61, data(2 ** 32 - 2), data(2 ** 32 - 1))
    capture.add((4, 1), (5, 2), 0x61, forward_tsn(3, (7,)))
    capture.add((6, 1), (7, 2), 0x62, forward_tsn(9, (7,)))
    return capture


def nr_sacks():
    capture = Capture('nr_sacks')
    tags = handshake(capture)
    for step in range(6):
        capture.add(A, B, tags[1], data(1000 + step))
    capture.add(B, A, tags[0], nr_sack(1000, 5000, ((2, 2),), ((4, 5),)), after=300)
    capture.add(B, A, tags[0], nr_sack(1005, 0), after=300)
    return capture


def requests():
    """RE-CONFIG: answered, sent again, never answered, and both in one chunk."""
    capture = Capture('requests')
    tags = handshake(capture)
    capture.add(A, B, tags[1], chunk(RE_CONFIG, 0, reset_request(1000)))
    capture.add(A, B, tags[1], chunk(RE_CONFIG, 0, reset_request(1000)))
    capture.add(B, A, tags[0], chunk(RE_CONFIG, 0, response_to(1000) + reset_request(2000, 1000)))
    capture.add(B, A, tags[0], chunk(RE_CONFIG, 0, parameter(17, struct.pack('>IHH', 2001, 4, 0))))
    capture.add(A, B, tags[1], chunk(RE_CONFIG, 0, response_to(2001, 0)))
    return capture


def announced():
    """Addresses in INIT, INIT ACK and ASCONF, of which the requests are granted, refused and sent again; and stale cookies."""
    capture, tags = Capture('announced'), (0x11, 0x22)
    capture.add(A, B, 0, init(INIT, tags[0], 1, address('10.0.0.1') + address('10.0.0.9') + address('2001:db8::9')))
    capture.add(B, A, tags[0], init(INIT_ACK, tags[1], 1, address('10.0.0.2') + COOKIE))
    capture.add(A, B, tags[1], chunk(COOKIE_ECHO, 0, b'cookie..'))
    capture.add(B, A, tags[0], chunk(ERROR, 0, parameter(STALE_COOKIE, struct.pack('>I', 5000)) + parameter(4, b'')))
    capture.add(B, A, tags[0], chunk(ERROR, 0, parameter(STALE_COOKIE, struct.pack('>I', 70))))
    capture.add(B, A, tags[0], chunk(COOKIE_ACK, 0, b''))
    nine = 9, A[1]
    first = asconf_of(2 ** 32 - 1, (0xc001, 1, '10.0.0.10'), (0xc002, 2, '10.0.0.1'), (0xc004, 3, '10.0.0.9'), (0xc002, 4, '10.0.0.77'))
    capture.add(nine, B, tags[1], first)
    capture.add(B, nine, tags[0], chunk(ASCONF_ACK, 0, struct.pack('>I', 2 ** 32 - 1) + refusal_of(2) + parameter(GRANT, bytes(4))))
    capture.add(nine, B, tags[1], first)
    capture.add(nine, B, tags[1], asconf_of(0, (0xc001, 1, '0.0.0.0'), (0xc004, 2, '::'), (0xc002, 3, '0.0.0.0')))
    capture.add(B, nine, tags[0], chunk(ASCONF_ACK, 0, bytes(4)))
    capture.add(nine, B, tags[1], asconf_of(1, *((0xc001, one, '10.0.1.%d' % (one % 6)) for one in range(9))))
    capture.add(B, nine, tags[0], chunk(ASCONF_ACK, 0, struct.pack('>I', 1) + refusal_of(1) + refusal_of(7)))
    capture.add(B, nine, tags[0], asconf_of(1, (0xc001, 1, '2001:db8::2'), (0xc004, 2, '2001:db8::2')))
    capture.add(nine, B, tags[1], chunk(ASCONF_ACK, 0, struct.pack('>I', 1) + refusal_of(1) + refusal_of(2)))
    capture.add(B, nine, tags[0], asconf_of(2, (0xc001, 1, '2001:db8::2'), (0xc002, 2, '10.0.0.2')))
    return capture


def blue():
    """Packets out of the blue beside an association that lives, and after its end."""
    capture = Capture('blue')
    tags = handshake(capture)
    capture.add(A, B, 0x77777777, data(1))
    capture.add(B, A, 0x77777777, chunk(ABORT, 1, b''))
    capture.add(A, B, tags[1], data(1000))
    shutdown(capture, tags)
    capture.add(A, B, 0x77777778, data(1))
    return capture


def back():
    """Times that go back: no duration, no round trip."""
    capture = Capture('back')
    tags = handshake(capture)
    capture.add(A, B, tags[1], data(1000))
    capture.add(B, A, tags[0], sack(1000), after=-86_000_000)
    return capture


def others():
    """Other associations between the same places, and others with the same tags; ends of several addresses, midway."""
    capture = Capture('others')
    capture.add(A, B, 0xb1, data(100))
    capture.add(B, A, 0xa1, sack(100))
    for step in range(2):
        capture.add(A, B, 0xb2, data(7 + step))
        capture.add(B, A, 0xa2, sack(7 + step))
    # the first one goes on, and a third one is begun by the answer of the other end
    capture.add(A, B, 0xb1, data(101))
    for tag in 0xa3, 0xa4:
        capture.add(B, A, tag, data(9))
    for step in range(3):
        capture.add(B, A, 0xa3, data(9 + step))
        capture.add(A, B, 0xb3, sack(9 + step))
    # tags that don't answer one another, and one that is reflected
    for tag in 0xc1, 0xc2:
        capture.add(A, B, tag, data(7))
    capture.add(B, A, 0xc2, chunk(ABORT, 1, b''))
    capture.add(A, B, 0xc2, data(7))
    capture.add(B, A, 0xc3, sack(7))
    for tag in 0xc4, 0xc2:
        capture.add(A, B, tag, data(7))
    # midway, with two addresses each: DATA and its SACK, a SACK and the DATA after it, HEARTBEAT and its answer; and other hosts
    for port, there, back in (1, data(7), sack(7)), (2, sack(99), data(100)), (3, heartbeat(b'a'), heartbeat(b'a', HEARTBEAT_ACK)), \
            (4, data(7), sack(7 + 2 ** 31)), (5, sack(99), data(99)), (6, heartbeat(b'a'), heartbeat(b'b', HEARTBEAT_ACK)):
        capture.add((21, port), (22, 36412), 0xd1, there)
        capture.add((32, 36412), (31, port), 0xd2, back)
    # the same tags between other hosts; the first one's INIT comes again from and to other addresses, one of which it has
    there = init(INIT, 0x71, 5, address('10.0.0.41') + address('10.0.0.51'))
    capture.add((41, 9), (42, 9), 0, there)
    capture.add((51, 9), (52, 9), 0, there)
    capture.add((43, 9), (44, 9), 0, init(INIT, 0x71, 6))
    for one, other in ((41, 9), (42, 9)), ((43, 9), (44, 9)):
        capture.add(other, one, 0x71, init(INIT_ACK, 0x72, 7, COOKIE))
    for one, other, tsn in ((41, 9), (42, 9), 5), ((43, 9), (44, 9), 6):
        capture.add(one, other, 0x72, data(tsn))
    return capture


def parts(folder):
    """One association in three files."""
    whole, files = drawn(3), []
    for step, (first, last) in enumerate(((0, 40), (40, 900), (900, 10 ** 9))):
        part = Capture('part%d' % step)
        part.records, part.refused = whole.records[first:last], set()
        files.append(part.write(folder))
    return files


def drawn(seed):
    """Some associations at once, with loss, reordering and repetition."""
    draw = random.Random(seed)
    capture = Capture('drawn%d' % seed)
    live = []
    for _ in range(4000):
        if len(live) < 6 and draw.random() < 0.05:
            a, b = (draw.randrange(1, 9), draw.choice((5000, 36412))), (draw.randrange(11, 19), draw.choice((5000, 36412)))
            tags = handshake(capture, a, b, draw.getrandbits(32) or 1, draw.getrandbits(32) or 1)
            live.append([a, b, tags, [draw.getrandbits(32), draw.getrandbits(32)], 0, 0])
        if not live:
            continue
        one = draw.choice(live)
        a, b, tags, next_tsns = one[:4]
        side = draw.randrange(2)
        source, destination, tag = ((a, b, tags[1]), (b, a, tags[0]))[side]
        after, what = draw.randrange(1, 5000), draw.random()
        if what < 0.03:
            kind = draw.choice((FORWARD_TSN, I_FORWARD_TSN))
            streams = [draw.randrange(9) for _ in range(draw.randrange(4))]
            capture.add(source, destination, tag, forward_tsn(next_tsns[side] - draw.randrange(9), streams, kind), after=after)
        elif what < 0.05:
            one[4 + side] += draw.randrange(2)
            capture.add(source, destination, tag, chunk(RE_CONFIG, 0, reset_request(one[4 + side])), after=after)
        elif what < 0.06:
            answer = response_to(max(one[5 - side] - draw.randrange(3), 0))
            capture.add(source, destination, tag, chunk(RE_CONFIG, 0, answer), after=after)
        elif what < 0.07:
            capture.add(source, destination, draw.getrandbits(32) or 1, data(1), after=after)
        elif what < 0.6:
            tsn = next_tsns[side]
            if draw.random() < 0.1:
                tsn -= draw.randrange(1, 30)
            else:
                next_tsns[side] += draw.choice((1, 1, 1, 1, 2, 3))
            capture.add(source, destination, tag, data(tsn, bytes(draw.randrange(1, 1400)), draw.choice((DATA, DATA, I_DATA))),
                        after=after, checksum=draw.choice(('right',) * 9 + ('wrong',)))
        elif what < 0.9:
            blocks = [(first, first + 1) for first in range(2, draw.choice((2, 2, 2, 20)), 4)]
            cumulative = next_tsns[1 - side] - draw.randrange(12)
            window = draw.randrange(200000)
            chunks = sack(cumulative, window, blocks), nr_sack(cumulative, window, blocks[:1], blocks[1:])
            capture.add(source, destination, tag, draw.choice(chunks), after=after)
        elif what < 0.99:
            one[4 + side] += 1
            info = bytes([side]) + struct.pack('>I', one[4 + side])
            capture.add(source, destination, tag, heartbeat(info), after=after)
            if draw.random() < 0.7:
                info = bytes([side]) + struct.pack('>I', max(one[4 + side] - draw.randrange(3), 0))
                capture.add(destination, source, tags[side], heartbeat(info, HEARTBEAT_ACK))
        else:
            live.remove(one)
            if draw.random() < 0.5:
                shutdown(capture, tags, a, b, next_tsns[1] - 1)
            else:
                capture.add(source, destination, tag, chunk(ABORT, 0, parameter(12, b'')), after=after)
    return capture


def whole():
    """The stored capture: each key of an association and of an end, and of each two of them an end in which they differ."""
    capture = Capture('associations')

    def sent(milliseconds, source, *chunks, **more):
        """Adds a packet to B, or of B to A, this long after `begin`."""
        destination, tag = (A, tags[0]) if source == B else (B, tags[1])
        capture.time = begin * 10 ** 6 + milliseconds * 1000
        capture.add(source, destination, 0 if chunks[0][0] == INIT else tag, *chunks, after=0, **more)

    # 1 to 6, in the last second of 2000-02-29: INIT twice, and two answers, of which the first one is used
    begin, tags = 951868799, (0x4d2df52d, 0x0da73798)
    sent(0, A, init(INIT, tags[0], -3))
    sent(1000, A, init(INIT, tags[0], -3))
    sent(1010, B, init(INIT_ACK, tags[1], 2000, COOKIE))
    sent(1020, B, init(INIT_ACK, 0x0da73799, 2000, COOKIE))
    sent(1030, A, chunk(COOKIE_ECHO, 0, b'cookie..'))
    sent(1040, B, chunk(COOKIE_ACK, 0, b''))
    # 7 to 17: TSNs over their wrap, a gap ack block, a TSN sent again, and a SACK that comes late
    for milliseconds, tsn in (1100, -3), (1160, -2), (1180, -1), (1190, 0), (1192, 1), (1196, 2):
        sent(milliseconds, A, data(tsn))
    sent(1200, B, sack(-4, 3000, ((2, 4),)))
    sent(1220, A, data(-3))
    sent(1230, B, sack(0, 2000))
    sent(1282, B, sack(2, 2000))
    sent(1285, B, sack(-1, 5000))
    # 18 to 21: one TSN comes late, and one before the first
    for milliseconds, tsn in (1300, 10), (1320, 5), (1340, -6):
        sent(milliseconds, A, data(tsn))
    sent(1390, B, sack(10, 4000))
    # 22 to 27: HEARTBEATs from four more addresses, an answer with other bytes, and one to the third
    for step in range(4):
        sent(1400, (5 + step, A[1]), heartbeat(b'%d' % step))
    for info in b'x', b'2':
        sent(1410, B, heartbeat(info, HEARTBEAT_ACK))
    # 28 to 36: DATA of the other end, in a window that closes twice; two TSNs again
    for milliseconds, tsn in (1500, 2000), (1510, 2001), (1520, 2002):
        sent(milliseconds, B, data(tsn, b'x'))
    for milliseconds, *report in (1540, 1999, 0, ((2, 2),)), (1560, 2001, 5000), (1640, 2002, 0), (1650, 2002, 1000):
        sent(milliseconds, A, sack(*report))
    for tsn in 2001, 2002:
        sent(1660, B, data(tsn, b'x'))
    # 37 to 40: two TSNs that are skipped, this twice, and a SACK of the first that was on its way
    sent(1700, A, data(11), data(12), checksum='wrong')
    for _ in range(2):
        sent(1710, A, forward_tsn(12, (1, 2, 3)), checksum='zero')
    sent(1720, B, sack(11, 2500), checksum='wrong')
    # 41 to 43: two requests, and a response to the first
    for request in 1000, 1001:
        sent(1800, A, chunk(RE_CONFIG, 0, reset_request(request)))
    sent(1810, B, chunk(RE_CONFIG, 0, response_to(1000)), checksum='zero')
    # 44 and 45: DATA before a fault, and the end
    sent(1900, A, data(13), chunk(COOKIE_ACK, 0, b'', length=90), refused=True)
    sent(2500, B, chunk(ABORT, 0, parameter(12, b'bye')), checksum='wrong')

    # 46 to 49: after this end the other one begins, on 2024-02-29
    begin, tags = 1709208000, (0x31, 0x32)
    sent(0, B, init(INIT, tags[1], 9))
    sent(7, A, init(INIT_ACK, tags[0], 500, COOKIE))
    sent(8, B, chunk(COOKIE_ECHO, 0, b'cookie..'))
    sent(9, A, chunk(COOKIE_ACK, 0, b''))
    # 50 to 52: I-DATA, twice, and skipped
    for _ in range(2):
        sent(10, B, data(9, b'abc', I_DATA))
    sent(12, B, forward_tsn(10, (4,), I_FORWARD_TSN))
    # 53 to 55: a tag of neither end, and DATA before a fault that a SHUTDOWN acknowledges
    capture.add(A, B, 0x77777777, data(1))
    sent(20, A, data(500), chunk(COOKIE_ACK, 0, b'', length=90), refused=True)
    sent(45, B, chunk(SHUTDOWN, 0, struct.pack('>I', 500)))

    # 56 to 59: a restart, in the last second of 2100-02-28, which no leap day follows
    begin, tags = 4107542399, (0x41, 0x42)
    sent(0, A, init(INIT, tags[0], 100))
    sent(1, B, init(INIT_ACK, tags[1], 1, COOKIE))
    sent(2, A, chunk(COOKIE_ECHO, 0, b'cookie..'))
    sent(3, B, chunk(COOKIE_ACK, 0, b''))
    # 60 to 66: more TSNs than are awaited at a time, the end, and a SHUTDOWN ACK after it, which is answered by its own tag
    sent(10, A, *(data(100 + step, b'x') for step in range(17)))
    sent(15, B, sack(116))
    capture.time += 2_000_000
    shutdown(capture, tags)
    capture.add(B, A, tags[0], chunk(SHUTDOWN_ACK, 0, b''), after=1_000_000)
    capture.add(A, B, tags[0], chunk(SHUTDOWN_COMPLETE, 1, b''))

    # 67 to 70: an INIT that is refused, and then two of the other end, which begin an association each
    capture.add(A, C, 0, init(INIT, 0x51, 1))
    capture.add(C, A, 0x51, chunk(ABORT, 0, parameter(4, b'')))
    for tag in 0x52, 0x53:
        capture.add(C, A, 0, init(INIT, tag, 1))
    # 71 and 72: DATA of an association whose INIT wasn't captured, and an INIT of the same end, which restarts it
    capture.add(A, D, 0x61, data(7))
    capture.add(A, D, 0, init(INIT, 0x62, 1))
    return capture


def main():
    parser = argparse.ArgumentParser(usage=__doc__.strip()[7:], add_help=False)
    for flag in '--together', '--model', '--write', '--help':
        parser.add_argument(flag, action='store_true')
    parser.add_argument('--seed', type=int, default=1)
    parser.add_argument('--into')
    parser.add_argument('program', nargs='?')
    parser.add_argument('captures', nargs='*')
    given = parser.parse_args()
    if given.help:
        print(__doc__.strip())
        return 0
    if given.write:
        whole().write(DATA_FOLDER)
        return 0
    if not given.program:
        parser.error('no PROGRAM')
    with tempfile.TemporaryDirectory() as folder:
        return run(given, given.into or folder)


def run(given, folder):
    total = wrong = 0
    if given.together:
        captures = [(given.captures, None)]
    elif given.captures:
        captures = [([path], None) for path in given.captures]
    else:
        cases = [case() for case in (plain, tsns, beginnings, endings, checksums, heartbeats, homes, two_paths, abandoned, nr_sacks, requests,
                                     announced, blue, others, back, whole)]
        cases += [drawn(given.seed), drawn(given.seed + 1)]
        captures = [([case.write(folder)], case.refused) for case in cases] + [(parts(folder), None)]
        with open(os.path.join(DATA_FOLDER, 'associations.pcap'), 'rb') as file:
            if file.read() != whole().content():
                print('associations.pcap isn\'t what --write writes')
                wrong = 1
    known_fields()
    if given.model:
        for paths, refused in captures:
            for line in expected(modelled(paths, refused or ()), resolution(paths[0]), paths):
                print(json.dumps(line, default=sorted))
        return 0
    with ThreadPoolExecutor() as pool:
        for associations, differing in pool.map(lambda it: compare(it[0], given.program, it[1]), captures):
            total, wrong = total + associations, wrong + differing
    print('model: associations %d, differing %d' % (total, wrong))
    return 1 if wrong else 0


if __name__ == '__main__':
    sys.exit(main())
