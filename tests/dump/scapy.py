#!/usr/bin/python3
# SPDX-License-Identifier: Apache-2.0
"""Compares all that sctp_dump prints of packets with scapy's dissection of the same bytes.

usage: tests/dump/scapy.py [OPTION]..

  --program PATH  the program, in place of crates/sctp_dump/out/sctp_dump
  --seed 1        the seed of the packets that bench/traffic.py draws
  --help          prints this

Makes four captures: Ethernet, raw IP, Linux cooked and SCTP links, in all forms of pcap. Each holds every kind of chunk,
parameter and error cause, and packets of each traffic file. What scapy doesn't dissect is compared with a reading of the
bytes by the RFC's layout, below. The stored run of crates/sctp_dump is made and compared in the same way, and its lines
without a packet with those written by hand, below. Prints what differs, and a last line that counts. Status: 0 if all
fields agree, 1 if not, 2 if it can't run.

Needed are scapy 2.5 (apt-get install python3-scapy) and the program, built (docs/DUMP.md)."""
import collections
import itertools
import os
import re
import string
import struct
import subprocess
import sys
import tempfile

ROOT = os.path.dirname(os.path.dirname(os.path.dirname(os.path.abspath(__file__))))
sys.dont_write_bytecode = True
# This file has scapy's name, so its folder isn't searched.
sys.path[0] = os.path.join(ROOT, 'bench')
from traffic import Draw, FILES, HOSTILE_PACKETS, Peer, chunk, in_list, padding, parameter, u16, u32

try:
    import scapy
    from scapy.config import conf
    from scapy.layers.inet import IP, UDP, IPOption_NOP
    from scapy.layers.inet6 import IPv6, IPv6ExtHdrDestOpt, IPv6ExtHdrHopByHop
    from scapy.layers.l2 import CookedLinux, Dot1Q, Ether
    from scapy.layers.sctp import SCTP, SCTP_PAYLOAD_PROTOCOL_INDENTIFIERS, ChunkParamField, crc32c
    from scapy.packet import Padding, Raw, bind_layers
    from scapy.utils import PcapReader
except ImportError:
    print("scapy.py: this Python hasn't scapy: apt-get install python3-scapy, for /usr/bin/python3", file=sys.stderr)
    sys.exit(2)

# RFC 9260 section 3.2, RFC 4960 appendix A, RFC 8260 sections 2.1 and 2.3.1, RFC 6525 section 3.1, RFC 3758 section 3.2.
CHUNKS = {0: 'DATA', 1: 'INIT', 2: 'INIT ACK', 3: 'SACK', 4: 'HEARTBEAT', 5: 'HEARTBEAT ACK', 6: 'ABORT', 7: 'SHUTDOWN',
          8: 'SHUTDOWN ACK', 9: 'ERROR', 10: 'COOKIE ECHO', 11: 'COOKIE ACK', 12: 'ECNE', 13: 'CWR', 14: 'SHUTDOWN COMPLETE',
          15: 'AUTH', 64: 'I-DATA', 128: 'ASCONF ACK', 130: 'RE-CONFIG', 192: 'FORWARD-TSN', 193: 'ASCONF', 194: 'I-FORWARD-TSN'}
# RFC 9260 section 3.3, RFC 6525 section 4, RFC 9653, RFC 4895, RFC 5061, RFC 3758.
PARAMETERS = {1: 'Heartbeat Info', 5: 'IPv4 Address', 6: 'IPv6 Address', 7: 'State Cookie', 8: 'Unrecognized Parameter',
              9: 'Cookie Preservative', 11: 'Host Name Address', 12: 'Supported Address Types',
              13: 'Outgoing SSN Reset Request', 14: 'Incoming SSN Reset Request', 15: 'SSN/TSN Reset Request',
              16: 'Re-configuration Response', 17: 'Add Outgoing Streams Request', 18: 'Add Incoming Streams Request',
              0x8000: 'ECN Capable', 0x8001: 'Zero Checksum Acceptable', 0x8002: 'Random', 0x8003: 'Chunk List',
              0x8004: 'Requested HMAC Algorithm', 0x8008: 'Supported Extensions', 0xC000: 'Forward-TSN-Supported',
              0xC001: 'Add IP Address', 0xC002: 'Delete IP Address', 0xC003: 'Error Cause Indication',
              0xC004: 'Set Primary Address', 0xC005: 'Success Indication', 0xC006: 'Adaptation Layer Indication'}
ADDRESSES_NAMED, HMACS = {5: 'IPv4', 6: 'IPv6'}, {1: 'SHA-1', 3: 'SHA-256'}
# scapy's names of payload protocols that aren't the program's: it takes the short forms of Wireshark's table.
PROTOCOLS = {46: 'Diameter', 58: 'XwAP'}
# RFC 9260 section 3.3.10, RFC 5061 section 4.3, RFC 4895 section 4.
CAUSES = {1: 'Invalid Stream Identifier', 2: 'Missing Mandatory Parameter', 3: 'Stale Cookie', 4: 'Out of Resource',
          5: 'Unresolvable Address', 6: 'Unrecognized Chunk Type', 7: 'Invalid Mandatory Parameter',
          8: 'Unrecognized Parameters', 9: 'No User Data', 10: 'Cookie Received While Shutting Down',
          11: 'Restart of an Association with New Addresses', 12: 'User-Initiated Abort', 13: 'Protocol Violation',
          0xA0: 'Request to Delete Last Remaining IP Address', 0xA1: 'Operation Refused Due to Resource Shortage',
          0xA2: 'Request to Delete Source IP Address', 0xA3: 'Association Aborted due to illegal ASCONF-ACK',
          0xA4: 'Request refused - no authorization', 0x0105: 'Unsupported HMAC Identifier'}
# RFC 6525 section 4.4.
RESULTS = ('Success - Nothing to do', 'Success - Performed', 'Denied', 'Error - Wrong SSN',
           'Error - Request already in progress', 'Error - Bad Sequence Number', 'In progress')
# RFC 8832 section 5.1: the kinds of channels, and what is said of their reliability.
CHANNELS = (('reliable', ''), ('partial reliable rexmit', 'reliability N, '), ('partial reliable timed', 'reliability N ms, '))
# Controls, what crates/dcsctp_report/specs/Printed.antt hides, and bytes that are no character of UTF-8.
UNSEEN = re.compile('[\0-\x1f"\\\\\x7f-\xa0\xad\u034f\u061c\u115f\u1160\u1680\u17b4\u17b5\u180b-\u180f\u2000-\u200f\u2028-\u202f'
                    '\u205f-\u206f\u2800\u3000\u3164\udc80-\udcff\ufe00-\ufe0f\ufeff\uffa0\ufff0-\ufffb\U0001bca0-\U0001bca3'
                    '\U0001d173-\U0001d17a\U000e0000-\U0010ffff]')

# A line that is expected: its form, the values of its fields, and whether they are scapy's or read by the layout.
Line = collections.namedtuple('Line', 'form values source')
SCAPY, LAYOUT, HAND = "scapy's", 'by the layout', 'by hand'
# The fields of a form that may be empty.
OPTIONAL = {'protocol': r'(?: \([^)]*\))?', 'algorithm': r'(?: \([^)]*\))?', 'order': ', (?:un)?ordered', 'beginning': '(?:, beginning)?',
            'end': '(?:, end)?', 'immediate': '(?:, immediate)?', 'reflected': '(?:, tag reflected)?'}
# The last fields of the lines of DATA and I-DATA.
BITS = '{order}{beginning}{end}{immediate}'


def scapys(form, *values):
    return Line(form, values, SCAPY)


def by_layout(form, *values):
    return Line(form, values, LAYOUT)


# What is expected.

def bits(unordered, beginning, end, immediate):
    return (', unordered' if unordered else ', ordered', ', beginning' if beginning else '', ', end' if end else '',
            ', immediate' if immediate else '')


def protocol(ppid):
    name = PROTOCOLS.get(ppid) or SCTP_PAYLOAD_PROTOCOL_INDENTIFIERS.get(ppid, 'Reserved')
    return '' if name == 'Reserved' else ' (%s)' % name


def algorithm(identifier):
    return ' (%s)' % HMACS[identifier] if identifier in HMACS else ''


def listed(p, name, names):
    """The lines of a parameter that is a list of names, ten on a line."""
    if not names:
        yield scapys('  parameter {type} {name}', p.type, name)
    for at in range(0, len(names), 10):
        row = ', '.join(names[at:at + 10]) + (',' if at + 10 < len(names) else '')
        yield scapys('    {names}', row) if at else scapys('  parameter {type} {name}: {names}', p.type, name, row)


def chunk_names(types):
    return [CHUNKS.get(it, '0x%02x' % it) for it in types]


def quoted(text):
    """A text between quotation marks, in which the bytes of what isn't seen, or is no character of UTF-8, are escaped."""
    coding = 'utf-8', 'surrogateescape'
    return '"%s"' % ''.join(''.join('\\x%02x' % byte for byte in it.encode(*coding)) if UNSEEN.match(it) else it
                            for it in text.decode(*coding))


def is_utf8(data):
    try:
        data.decode()
    except UnicodeDecodeError:
        return False
    return True


def dcep(data):
    """What a message of ppid 50 says (RFC 8832 section 5)."""
    if data == b'\2':
        return 'DATA_CHANNEL_ACK'
    if data[:1] != b'\3' or len(data) < 12:
        return 'not a DCEP message'
    channel, priority, reliability, label, protocol = struct.unpack('>BHIHH', data[1:12])
    if len(data) != 12 + label + protocol:
        return 'not a DCEP message'
    kind, number = CHANNELS[channel & 127]
    return 'DATA_CHANNEL_OPEN: %s %s, priority %d, %slabel %s, protocol %s' % (
        kind, 'unordered' if channel & 128 else 'ordered', priority, number.replace('N', str(reliability)),
        quoted(data[12:12 + label]), quoted(data[12 + label:]))


def payload(line, data, ppid, is_message, in_rows=True):
    """The lines of a payload: its size, its rows as `hexdump -C` prints them, and what a whole message says."""
    if in_rows:
        yield line('  payload: {size}', '%d byte%s' % (len(data), '' if len(data) == 1 else 's'))
        for at in range(0, len(data), 16):
            row = data[at:at + 16]
            text = ''.join(chr(it) if 32 <= it < 127 else '.' for it in row)
            yield line('    {row}', '%04x: %-47s  |%s|' % (at, row.hex(' '), text))
    else:
        yield line('  payload: {payload}', data)
    if is_message and ppid == 50:
        yield by_layout('  {message}', dcep(data))
    if is_message and ppid == 51:
        yield line('  text: {text}', quoted(data) if is_utf8(data) or not in_rows else 'not UTF-8')


def items(value):
    """The type and the value of each parameter or cause (RFC 9260 section 3.2.1)."""
    while len(value) >= 4:
        typ, length = struct.unpack('>HH', value[:4])
        yield typ, value[4:length]
        value = value[(length + 3) // 4 * 4:]


def are_items(value):
    """Whether nothing but parameters or causes is here."""
    while len(value) >= 4 and 4 <= int.from_bytes(value[2:4], 'big') <= len(value):
        value = value[(int.from_bytes(value[2:4], 'big') + 3) // 4 * 4:]
    return not value


def deeper(lines):
    """The lines of what is in an item."""
    return (line._replace(form='  ' + line.form) for line in lines)


class Expected:
    """The lines of a packet, by scapy's dissection, and the names of what it leaves as bytes."""

    def __init__(self):
        self.undissected = set()
        self.corrected = collections.Counter()
        self.in_rows = False  # payloads, as --payload prints them

    def layout(self, name):
        self.undissected.add(name)
        return by_layout

    def packet(self, number, frame, digits):
        yield scapys('packet {number}, time {time}', number, format(frame.time, '.%df' % digits))
        yield from self.addresses(frame)
        yield from self.sctp(frame[SCTP])

    def addresses(self, frame):
        ip = frame.getlayer(IP) or frame.getlayer(IPv6)
        if ip:
            yield scapys('from {source} to {destination}', ip.src, ip.dst)
        if UDP in frame:
            yield scapys('udp source {source}, destination {destination}', frame[UDP].sport, frame[UDP].dport)

    def sctp(self, sctp):
        yield scapys('source {source}, destination {destination}, tag {tag}', sctp.sport, sctp.dport, sctp.tag)
        word = crc32c(sctp.original[:8] + bytes(4) + sctp.original[12:])
        verdict = 'right' if sctp.chksum == word else 'zero' if sctp.chksum == 0 else 'wrong, expected 0x%08x' % word
        yield scapys('checksum {checksum}: {verdict}', sctp.chksum, verdict)
        yield from self.chunks(sctp)

    def chunks(self, sctp):
        found = sctp.payload
        while found and not isinstance(found, Padding):
            if isinstance(found, Raw):
                # scapy doesn't know the type, and takes all that follows
                typ, flags, length = struct.unpack('>BBH', found.load[:4])
                yield from self.unknown_to_scapy(typ, flags, found.load[4:length])
                rest = found.load[(length + 3) // 4 * 4:]
                found = sctp.default_payload_class(rest)(rest) if rest else None
            else:
                yield from self.chunk(found)
                # the chunk's length leaves out the last parameter's padding (RFC 9260 section 3.2)
                pad = -found.len % 4 if hasattr(found, 'params') else 0
                if pad:
                    self.corrected["a last parameter's padding read as a chunk"] += 1
                    rest = found.payload.original[pad:]
                    found = sctp.default_payload_class(rest)(rest) if rest else None
                else:
                    found = found.payload

    def chunk(self, c):
        name = CHUNKS.get(c.type)
        if c.type == 0:
            yield scapys('{chunk}: tsn {tsn}, stream {stream}, ssn {ssn}, ppid {ppid}{protocol}' + BITS,
                         name, c.tsn, c.stream_id, c.stream_seq, c.proto_id, protocol(c.proto_id),
                         *bits(c.unordered, c.beginning, c.ending, c.delay_sack))
            yield from payload(scapys, c.data or b'', c.proto_id, c.beginning and c.ending, self.in_rows)
        elif c.type in (1, 2):
            yield scapys('{chunk}: tag {tag}, a_rwnd {a_rwnd}, outbound streams {outbound}, inbound streams {inbound}, '
                         'initial tsn {tsn}', name, c.init_tag, c.a_rwnd, c.n_out_streams, c.n_in_streams, c.init_tsn)
            yield from self.parameters(c.params)
        elif c.type == 3:
            yield scapys('{chunk}: cumulative tsn {tsn}, a_rwnd {a_rwnd}', name, c.cumul_tsn_ack, c.a_rwnd)
            for block in c.gap_ack_list:
                of = [*map(int, block.split(':'))]
                tsns = [(c.cumul_tsn_ack + it) % 2 ** 32 for it in of]
                yield scapys('  block {start} to {last}: tsn {first_tsn} to {last_tsn}', *of, *tsns)
            for tsn in c.dup_tsn_list:
                yield scapys('  duplicate tsn {tsn}', tsn)
        elif c.type in (4, 5):
            yield scapys('{chunk}', name)
            yield from self.parameters(c.params)
        elif c.type == 6:
            yield scapys('{chunk}{reflected}', name, ', tag reflected' if c.TCB else '')
            yield from self.causes(c.error_causes)
        elif c.type == 7:
            yield scapys('{chunk}: cumulative tsn {tsn}', name, c.cumul_tsn_ack)
        elif c.type in (8, 11):
            yield scapys('{chunk}', name)
        elif c.type == 9:
            yield scapys('{chunk}', name)
            yield from self.causes(c.error_causes)
        elif c.type == 10:
            yield scapys('{chunk}: {cookie}', name, c.cookie)
        elif c.type == 14:
            yield scapys('{chunk}{reflected}', name, ', tag reflected' if c.TCB else '')
        elif c.type == 15:
            yield scapys('{chunk}: shared key {key}, hmac identifier {identifier}{algorithm}',
                         name, c.shared_key_id, c.HMAC_function, algorithm(c.HMAC_function))
            yield scapys('  hmac: {hmac}', bytes(c)[8:c.len])
        else:
            # ASCONF and ASCONF ACK
            yield scapys('{chunk}: sequence number {number}', name, c.seq)
            yield from self.parameters(c.params)

    def unknown_to_scapy(self, typ, flags, value):
        name = CHUNKS.get(typ)
        if typ == 64:  # RFC 8260 section 2.1
            tsn, stream, _, mid, last = struct.unpack('>IHHII', value[:16])
            of = bits(flags & 4, flags & 2, flags & 1, flags & 8)
            line = self.layout('I-DATA')
            if flags & 2:
                yield line('{chunk}: tsn {tsn}, stream {stream}, mid {mid}, ppid {ppid}{protocol}' + BITS,
                           name, tsn, stream, mid, last, protocol(last), *of)
            else:
                yield line('{chunk}: tsn {tsn}, stream {stream}, mid {mid}, fsn {fsn}' + BITS,
                           name, tsn, stream, mid, last, *of)
            yield from payload(line, value[16:], last, flags & 3 == 3, self.in_rows)
        elif typ == 192:  # RFC 3758 section 3.2
            line = self.layout('FORWARD-TSN')
            yield line('{chunk}: new cumulative tsn {tsn}', name, *struct.unpack('>I', value[:4]))
            for numbers in struct.iter_unpack('>HH', value[4:]):
                yield line('  stream {stream}, ssn {ssn}', *numbers)
        elif typ == 194:  # RFC 8260 section 2.3.1
            line = self.layout('I-FORWARD-TSN')
            yield line('{chunk}: new cumulative tsn {tsn}', name, *struct.unpack('>I', value[:4]))
            for stream, low, mid in struct.iter_unpack('>HHI', value[4:]):
                yield line('  stream {stream}{order}, mid {mid}', stream, bits(low & 1, 0, 0, 0)[0], mid)
        elif typ in (12, 13):  # RFC 4960 appendix A
            yield self.layout(name)('{chunk}: lowest tsn {tsn}', name, *struct.unpack('>I', value))
        elif typ == 130:  # RFC 6525 section 3.1
            yield self.layout('RE-CONFIG')('{chunk}', name)
            for item in items(value):
                yield from self.parameter_by_layout(*item)
        else:
            line = self.layout('a chunk of an unknown type')
            yield line('chunk type {number} ({type}), flags {flags}, {value}', typ, typ, flags, value)

    def parameters(self, found):
        found = list(found)
        while found:
            p = found.pop(0)
            if isinstance(p, Raw):
                # scapy doesn't know the type, and takes all that follows
                typ, length = struct.unpack('>HH', p.load[:4])
                yield from self.parameter_by_layout(typ, p.load[4:length])
                rest = p.load[(length + 3) // 4 * 4:]
                found = ChunkParamField('', [], length_from=lambda _: len(rest)).getfield(p, rest)[1]
            else:
                yield from self.parameter(p)

    def inner(self, value):
        """The lines of the parameters in an item."""
        return deeper(self.parameters(ChunkParamField('', [], length_from=lambda _: len(value)).getfield(Raw(value), value)[1]))

    def parameter(self, p):
        name = PARAMETERS.get(p.type)
        if p.type == 1:
            yield scapys('  parameter {type} {name}: {info}', p.type, name, p.data)
        elif p.type == 7:
            yield scapys('  parameter {type} {name}: {cookie}', p.type, name, p.cookie)
        elif p.type in (5, 6):
            yield scapys('  parameter {type} {name}: {address}', p.type, name, p.addr)
        elif p.type == 8:
            yield scapys('  parameter {type} {name}', p.type, name)
            yield from self.inner(bytes(p)[4:p.len])
        elif p.type in (0xC001, 0xC002, 0xC004):
            yield scapys('  parameter {type} {name}: correlation id {id}', p.type, name, p.correlation_id)
            yield scapys('    parameter {type} {name}: {address}', p.addr_type, PARAMETERS[p.addr_type], p.addr)
        elif p.type == 0xC003:
            yield scapys('  parameter {type} {name}: correlation id {id}', p.type, name, p.correlation_id)
            yield from deeper(self.causes(bytes(p)[8:p.len]))
        elif p.type == 0xC005:
            yield scapys('  parameter {type} {name}: correlation id {id}', p.type, name, p.correlation_id)
        elif p.type == 9:
            yield scapys('  parameter {type} {name}: increment {increment} ms', p.type, name, p.sug_cookie_inc)
        elif p.type == 11:
            yield scapys('  parameter {type} {name}: {host}', p.type, name, quoted(p.hostname))
        elif p.type == 12:
            yield from listed(p, name, [ADDRESSES_NAMED[it] for it in p.addr_type_list])
        elif p.type == 0x8003:
            yield from listed(p, name, chunk_names(p.chunk_list))
        elif p.type == 0x8004:
            yield from listed(p, name, [HMACS[it] for it in p.HMAC_functions_list])
        elif p.type == 0x8008:
            if p.len == 4:
                self.corrected["a default in place of Supported Extensions that are none"] += 1
            yield from listed(p, name, chunk_names(p.supported_extensions if p.len > 4 else ()))
        elif p.type == 0xC006:
            yield scapys('  parameter {type} {name}: {indication}', p.type, name, p.indication)
        elif p.type in (0x8000, 0xC000):
            yield scapys('  parameter {type} {name}', p.type, name)
        elif name:
            yield scapys('  parameter {type} {name}: {value}', p.type, name, bytes(p)[4:p.len])
        else:
            yield scapys('  parameter type {number} ({type}): {value}', p.type, p.type, bytes(p)[4:p.len])

    def parameter_by_layout(self, typ, value):
        name = PARAMETERS.get(typ)
        line = self.layout(name or 'a parameter of an unknown type')
        if typ == 13:  # RFC 6525 section 4.1
            yield line('  parameter {type} {name}: request {request}, response {response}, last tsn {tsn}',
                       typ, name, *struct.unpack('>III', value[:12]))
            yield from self.streams(line, value[12:])
        elif typ == 14:  # section 4.2
            yield line('  parameter {type} {name}: request {request}', typ, name, *struct.unpack('>I', value[:4]))
            yield from self.streams(line, value[4:])
        elif typ == 15:  # section 4.3
            yield line('  parameter {type} {name}: request {request}', typ, name, *struct.unpack('>I', value))
        elif typ == 16:  # section 4.4
            response, result = struct.unpack('>II', value[:8])
            yield line('  parameter {type} {name}: response {response}, result {result} ({meaning})',
                       typ, name, response, result, RESULTS[result])
            for whose, tsn in zip(("sender's", "receiver's"), struct.iter_unpack('>I', value[8:])):
                yield line('    {whose} next tsn {tsn}', whose, *tsn)
        elif typ in (17, 18):  # sections 4.5 and 4.6
            request, streams, _ = struct.unpack('>IHH', value)
            yield line('  parameter {type} {name}: request {request}, new streams {streams}', typ, name, request, streams)
        elif typ == 0x8001:  # RFC 9653 section 4
            yield line('  parameter {type} {name}: method {method}', typ, name, *struct.unpack('>I', value))
        elif name:
            yield line('  parameter {type} {name}: {value}', typ, name, value)
        else:
            yield line('  parameter type {number} ({type}): {value}', typ, typ, value)

    def streams(self, line, value):
        for stream in struct.iter_unpack('>H', value):
            yield line('    stream {stream}', *stream)

    def causes(self, value):
        """scapy gives the causes of an ERROR or an ABORT as bytes (RFC 9260 section 3.3.10)."""
        for code, value in items(value):
            name = CAUSES.get(code)
            line = self.layout('error cause ' + name if name else 'an error cause of an unknown code')
            if code == 2:
                yield line('  cause {code} {name}', code, name)
                count = struct.unpack('>I', value[:4])[0]
                for typ in struct.unpack('>%dH' % count, value[4:]):
                    yield line('    parameter type {type}', typ)
            elif code == 9:
                yield line('  cause {code} {name}: tsn {tsn}', code, name, *struct.unpack('>I', value))
            elif code == 1 and len(value) == 4:
                yield line('  cause {code} {name}: stream {stream}', code, name, *struct.unpack('>Hxx', value))
            elif code == 3 and len(value) == 4:
                yield line('  cause {code} {name}: staleness {microseconds} us', code, name, *struct.unpack('>I', value))
            elif code == 0x0105 and len(value) == 2:
                identifier = int.from_bytes(value, 'big')
                yield line('  cause {code} {name}: hmac identifier {identifier}{algorithm}', code, name, identifier, algorithm(identifier))
            elif code in (5, 8, 11, 0xA0, 0xA1, 0xA2, 0xA4) and are_items(value):
                yield line('  cause {code} {name}', code, name)
                yield from self.inner(value)
            elif code in (4, 7, 10, 0xA3) and not value:
                yield line('  cause {code} {name}', code, name)
            elif code in (12, 13):
                yield line('  cause {code} {name}: {text}', code, name, quoted(value))
            elif name:
                yield line('  cause {code} {name}: {value}', code, name, value)
            else:
                yield line('  cause code {number} ({code}): {value}', code, code, value)


# The comparison.

def names_of(form):
    return [it[1] for it in string.Formatter().parse(form) if it[1]]


def expression(form):
    parts = string.Formatter().parse(form)
    return ''.join(re.escape(text) + ('(%s)' % OPTIONAL.get(name, '.*?') if name else '') for text, name, _, _ in parts)


def meant(text, value, most):
    """What the program's text means, if it can be of the value's type; of more bytes than `most` it prints the first."""
    if isinstance(value, int):
        return int(text, 0) if re.fullmatch(r'\d+|0x[0-9a-f]+', text) else text
    if isinstance(value, bytes):
        found = re.fullmatch(r'(1 byte|(?!1 )\d+ bytes)(?:: ((?:[0-9a-f]{2})+)( \.\.)?)?', text)
        if not found:
            return text
        shown, size = bytes.fromhex(found[2] or ''), int(found[1].split()[0])
        if found[3]:
            return value if size == len(value) > most == len(shown) and value.startswith(shown) else text
        return shown if len(shown) == size <= most else text
    return text


def compared(lines, expected, most):
    """How many fields agree, by source, and what doesn't."""
    agreed, wrong = collections.Counter(), []
    if not lines:
        return agreed, ["it isn't printed"]
    for text, line in itertools.zip_longest(lines, expected):
        if text is None or line is None:
            wrong.append('the program: %r; expected %r' % (text, line))
            continue
        found = re.fullmatch(expression(line.form), text)
        if not found:
            wrong.append('the program: %r; expected (%s) %r with %r' % (text, line.source, line.form, line.values))
            continue
        for name, text_of, value in zip(names_of(line.form), found.groups(), line.values, strict=True):
            if meant(text_of, value, most) == value:
                agreed[line.source] += 1
            else:
                wrong.append('%s: the program %r, %s %r, in %r' % (name, text_of, line.source, value, text))
    return agreed, wrong


# The stored run.

def by_hand(text):
    """A line of no packet's field; a bad chunk's bytes and place by the layout of RFC 9260 section 3.2."""
    return Line(text.replace('{', '{{').replace('}', '}}'), (), HAND)


def refused(said, headers, fault, offset, row, *chunks):
    """The lines of bytes that are refused: how they were seen, what is before the fault, the fault and its place."""
    seen = (said,) if isinstance(said, str) else said
    return (*seen, *headers, *chunks, f'error: {fault}', f'at byte {offset}', row, (6 + offset % 16 * 3) * ' ' + '^^', '')


def header(tag, checksum, ports=(5000, 5000)):
    return 'source %d, destination %d, tag 0x%08x' % (*ports, tag), 'checksum ' + checksum


def skipped(first, last, reason):
    return tuple((f'line {number} skipped: {reason}', '') for number in range(first, last + 1))


# A file, and for each of its records or lines what is expected: a packet, or lines by hand. Record 2 carries TCP. In record
# 8 the chunk at byte 12 says a length of 3, which is less than its header. The last record of sctp.pcap says 2^32 - 1 bytes.
PACKET, ADDRESSES = object(), object()
ZERO, DATA_CHUNK = '0x00000000: zero', ('DATA: tsn 7, stream 1, ssn 0, ppid 51 (WebRTC String), ordered, beginning, end',
                                        '  payload: 1 byte: 68', '  text: "h"')
FROM = 'from 10.0.0.1 to 10.0.0.2'
GOLDEN = (
    ('ethernet.pcap', 6, (
        PACKET, (), PACKET, ('record 4 skipped: a fragment', ''), PACKET,
        ('packet 6, time 1700000004.000002, 26 of 36 bytes', FROM, *header(1, '0x58286aa4: not known', (5000, 5001)),
         'DATA: flags 0x03, 17 bytes, 10 captured: 00000007000100000000 ..', ''), PACKET,
        refused((ADDRESSES,), header(3, '0x277f41c4: right', (5000, 5001)), 'COOKIE ACK: length 3, but 4 are needed', 12,
                '0000: 13 88 13 89 00 00 00 03 27 7f 41 c4 0b 00 00 03'),
        ('record 9 skipped: the file ends in it', ''))),
    ('cooked.pcap', 9, (PACKET,)),
    ('raw.pcap', 6, (PACKET, PACKET)),
    ('sctp.pcap', 9, (PACKET, ('record 2 skipped: more than 262144 bytes', ''))),
    ('association.txt', 0, (
        *('packet %d' % number for number in range(1, 17)),
        refused('packet 17', header(0x4D2DF52D, '0x52e59eed: right'), 'SACK: length 20, but 16 bytes are left', 12,
                '0000: 13 88 13 88 4d 2d f5 2d 52 e5 9e ed 03 00 00 14'),
        refused('packet 18', header(0x0DA73798, '0x69fe24ea: right'),
                'parameter 0x0001 Heartbeat Info: length 44, but 40 bytes are left', 16,
                '0010: 00 01 00 2c 99 5c 05 6b d8 40 05 00 00 00 00 00'),
        refused('packet 19', header(0x4D2DF52D, '0x4e1a5bd0: right'),
                'parameter 0x0010 Re-configuration Response: result 7, but 6 is the highest', 16,
                '0010: 00 10 00 0c 79 06 b4 b0 00 00 00 07'),
        refused('packet 20', header(0x0DA73798, '0x892001d0: wrong, expected 0x84a0488a'),
                'packet: 15 bytes, but 16 are needed', 15, '0000: 13 88 13 88 0d a7 37 98 89 20 01 d0 0e 00 00'))),
    ('lines.txt', 0, (
        (), 'packet 1', 'packet 2, time 17:39:54.123, incoming', 'packet 3, time 17:39:54.124, outgoing', 'packet 4',
        ('line 8 skipped: not a packet; further lines like it are counted alone', ''), 'packet 5')),
    ('faults.txt', 0, (
        refused('packet 1', header(1, ZERO), 'packet: 13 bytes, but 16 are needed', 13,
                '0000: 13 88 13 88 00 00 00 01 00 00 00 00 0b'),
        refused('packet 2', header(1, ZERO), 'packet: 12 bytes, but 16 are needed', 12,
                '0000: 13 88 13 88 00 00 00 01 00 00 00 00'),
        refused('packet 3, time 17:39:54.125, incoming', header(2, ZERO), 'packet: 14 bytes, but 16 are needed', 14,
                '0000: 13 88 13 88 00 00 00 02 00 00 00 00 0b 00'),
        refused('packet 4', header(3, ZERO), 'parameter 0x0010 Re-configuration Response: result 8, but 6 is the highest', 16,
                '0010: 00 10 00 0c 00 00 00 01 00 00 00 08'),
        refused('packet 5', header(4, ZERO), "DATA: padding of 3 bytes isn't zero", 31,
                '0010: 00 00 00 07 00 01 00 00 00 00 00 33 68 00 00 01', *DATA_CHUNK),
        refused('packet 6', header(5, ZERO), 'DATA: padding of 3 bytes, but 0 bytes are left', 29,
                '0010: 00 00 00 07 00 01 00 00 00 00 00 33 68', *DATA_CHUNK),
        refused('packet 7', header(6, ZERO), "parameter 0x0001 Heartbeat Info: padding of 3 bytes isn't zero", 21,
                '0010: 00 01 00 05 ff 01 00 00'),
        refused('packet 8', header(7, ZERO), "cause 0x000c User-Initiated Abort: padding of 3 bytes isn't zero", 22,
                '0010: 00 0c 00 05 41 00 ff 00'),
        refused('packet 9', header(8, ZERO), "COOKIE ECHO: padding of 3 bytes isn't zero", 19, '0010: ff 00 00 01',
                'COOKIE ECHO: 1 byte: ff'),
        *skipped(18, 18, 'cut off'), ('packet 11, 15 of 16 bytes', FROM, *header(9, '0x00000000: not known'), ''),
        *skipped(20, 20, 'cut off'), ('packet 13, 8 of 16 bytes', FROM, 'udp source 9899, destination 9899',
                                   'source 5000, destination 5000, tag 0x0000000a', ''),
        *skipped(23, 28, 'a fragment'), *skipped(34, 41, "a header's length is wrong"),
        *skipped(60, 60, "its offset doesn't continue a packet; further lines like it are counted alone"))),
    ('-', 0, ('packet 1',)),
)
GOLDEN_COUNTS = ('packets 47: accepted 30, refused 14 (size 4, length 3, padding 5, value 2), cut off 3; skipped 38 (not SCTP 10, '
                 'fragment 7, cut 3, malformed 8, too long 1, unknown 9, link type 0)')


def stored_texts(lines):
    """The packets of a text: the bytes of each line, or of the lines of a dump."""
    for number, line in enumerate(lines):
        if line[:2] in ('I ', 'O '):
            yield SCTP(bytes.fromhex(''.join(line.split('#')[0].split()[3:])))
        elif re.match(r'[0-9a-f]{8}: ', line) and int(line[:8], 16) == 0:
            groups = [it[10:].split('  ')[0] for it in itertools.takewhile(lambda it: ': ' in it[:10], lines[number:])]
            yield SCTP(bytes.fromhex(''.join(groups)))
        elif line.startswith('\t0x0000:'):
            yield IP(bytes.fromhex(''.join(it.split(':')[1] for it in lines[number:] if it.startswith('\t0x'))))
        elif re.fullmatch('[0-9a-f ]+', line):
            yield SCTP(bytes.fromhex(line))


def stored_lines(expected, folder):
    for name, digits, records in GOLDEN:
        yield by_hand('file ' + name)
        yield by_hand('')
        path = os.path.join(folder, 'stdin' if name == '-' else os.path.join('data', name))
        if digits:
            frames = itertools.chain(PcapReader(path), itertools.repeat(None))
        else:
            with open(path, encoding='ascii') as file:
                frames = stored_texts(file.read().split('\n'))
        for number, said in enumerate(records, 1):
            frame = next(frames) if digits or isinstance(said, str) else None
            if said is PACKET:
                yield from expected.packet(number, frame, digits)
                yield by_hand('')
            elif isinstance(said, str):
                yield by_hand(said)
                yield from expected.addresses(frame)
                yield from expected.sctp(frame[SCTP])
                yield by_hand('')
            else:
                for line in said:
                    if line is ADDRESSES:
                        yield scapys('packet {number}, time {time}', number, format(frame.time, '.%df' % digits))
                        yield from expected.addresses(frame)
                    else:
                        yield by_hand(line)
    yield by_hand(GOLDEN_COUNTS)


def stored(expected, program):
    folder = os.path.join(ROOT, 'crates', 'sctp_dump')
    with open(os.path.join(folder, 'args'), encoding='utf-8') as args, open(os.path.join(folder, 'stdin'), 'rb') as stdin:
        run = subprocess.run([program, *args.read().splitlines()], stdin=stdin, capture_output=True, encoding='utf-8',
                             cwd=os.path.join(folder, 'data'), check=False)
    return compared(run.stdout.removesuffix('\n').split('\n'), list(stored_lines(expected, folder)), 16)


# The captures.

def association():
    """The chunks of each packet of an association; each number occurs once, where it can."""
    numbers = u32(0xA1B2C3D4) + u32(131072) + u16(10) + u16(2048) + u32(0xFFFFFFFE)
    cookie = bytes(range(60))
    payload = b'message of 21 bytes..'
    yield [chunk(1, 0, numbers)]
    yield [chunk(1, 0, numbers + in_list([
        parameter(5, bytes([192, 0, 2, 1])), parameter(6, bytes(range(16))), parameter(9, u32(60000)),
        parameter(11, b'host.example\0'), parameter(12, u16(5) + u16(6)), parameter(0x8000, b''),
        parameter(0x8001, u32(1)), parameter(0x8002, bytes(range(32))), parameter(0x8003, bytes([0, 192, 193])),
        parameter(0x8004, u16(3) + u16(1)), parameter(0x8008, bytes([64, 130, 192, 194, 193, 15, 128, 0, 1, 2, 3, 99])),
        parameter(0xC000, b''), parameter(0xC006, u32(77)), parameter(0x9234, b'seven..')]))]
    yield [chunk(2, 0, numbers[::-1] + in_list([
        parameter(0x8008, bytes([64, 130])), parameter(8, parameter(0x9234, b'seven..') + b'\0'), parameter(0x8001, u32(2)),
        parameter(0xC000, b''), parameter(7, cookie), parameter(0x8008, b'')]))]
    yield [chunk(10, 0, cookie), chunk(0, 3, u32(1) + u16(2) + u16(3) + u32(50) + payload)]
    yield [chunk(11, 0, b''), chunk(0, 3, u32(4) + u16(5) + u16(6) + u32(53))]
    texts = 'caf\u00e9 "1"'.encode(), b'\xff\0'
    opened = u32(0x01020304) + u16(len(texts[0])) + u16(len(texts[1])) + b''.join(texts)
    for message in [b'\2', b'\3', b'\2\0', *(bytes([3, channel]) + u16(256) + opened for channel in (0, 1, 2, 128, 129, 130))]:
        yield [chunk(0, 3, u32(4) + u16(5) + u16(6) + u32(50) + message), chunk(0, 2, u32(5) + u16(5) + u16(7) + u32(50) + message)]
    seldom = 'caf\u00e9 \x07\x7f\x85\xa0\u061c\u200a\u200b\u2010\u202e\u202f\u2066\ufefe\ufeff\ufffd\U0001f600\U000e0001'
    yield [chunk(0, 3, u32(4) + u16(5) + u16(6) + u32(51) + seldom.encode() + b'\xc0\x80\xed\xa0\x80\xf4\x90\x80\x80\xe2\x82')]
    for flags, ppid in zip(range(16), itertools.cycle([0, 46, 51, 52, 53, 54, 56, 57, 58, 0xFFFFFFFF])):
        yield [chunk(0, flags, u32(0xFFFFFFF0 + flags) + u16(1000 + flags) + u16(65535 - flags) + u32(ppid)
                     + payload[flags:])]
        yield [chunk(64, flags, u32(0xFFFFFFF0 + flags) + u16(1000 + flags) + u16(0) + u32(70000 + flags) + u32(ppid)
                     + payload[flags:])]
    yield [chunk(3, 0, u32(0xFFFFFFFF) + u32(9000) + u16(0) + u16(0))]
    yield [chunk(3, 0, u32(7) + u32(0) + u16(2) + u16(3) + u16(2) + u16(3) + u16(5) + u16(65535)
                 + u32(4) + u32(5) + u32(0xFFFFFFFD)), chunk(0, 3, u32(8) + u16(0) + u16(1) + u32(51) + b'h')]
    yield [chunk(4, 0, parameter(1, b'twelve bytes')), chunk(5, 0, parameter(1, b'twelve bytes'))]
    yield [chunk(4, 0, in_list([parameter(0x9234, b'odd'), parameter(1, b'thirteen byte')])), chunk(11, 0, b'')]
    yield [chunk(5, 0, parameter(1, b''))]
    yield [chunk(192, 0, u32(20) + u16(1) + u16(2) + u16(3) + u16(4)), chunk(192, 0, u32(21))]
    yield [chunk(194, 0, u32(22) + u16(5) + u16(0) + u32(0x12345678) + u16(6) + u16(1) + u32(7)), chunk(194, 0, u32(23))]
    yield [chunk(130, 0, in_list([parameter(13, u32(31) + u32(32) + u32(33) + u16(34) + u16(35) + u16(36))]))]
    yield [chunk(130, 0, in_list([parameter(13, u32(37) + u32(38) + u32(39))])), chunk(11, 0, b'')]
    yield [chunk(130, 0, in_list([parameter(14, u32(40) + u16(41)), parameter(16, u32(42) + u32(1))]))]
    yield [chunk(130, 0, parameter(15, u32(43)))]
    for result in range(7):
        yield [chunk(130, 0, parameter(16, u32(44) + u32(result)))]
    yield [chunk(130, 0, parameter(16, u32(45) + u32(1) + u32(46) + u32(47)))]
    yield [chunk(130, 0, in_list([parameter(17, u32(48) + u16(49) + u16(0)), parameter(18, u32(50) + u16(51) + u16(0))]))]
    values = {2: u32(2) + u16(7) + u16(13), 6: chunk(73, 1, b'eight by'), 9: u32(61), 10: b'',
              12: 'closed: "r\u00e9sum\u00e9" \\'.encode(), 13: b'not UTF-8: \xff\xe2\x82'}
    for code in range(16):
        yield [chunk(9, 0, parameter(code, values.get(code, b'%4d' % code)))]
    yield [chunk(9, 0, in_list([parameter(1, u16(62) + u16(0)), parameter(12, b'odd'), parameter(9, u32(63)),
                                parameter(0x0105, u16(64))]))]
    yield [chunk(6, 0, b'')]
    yield [chunk(6, 1, b'')]
    yield [chunk(6, 0, in_list([parameter(12, b'User called close'), parameter(13, b'')]))]
    yield [chunk(6, 1, in_list([parameter(12, b'\xc3(\xa9'), parameter(12, b'')]))]
    yield [chunk(7, 0, u32(71))]
    yield [chunk(8, 0, b'')]
    yield [chunk(14, 0, b'')]
    yield [chunk(14, 1, b'')]
    yield [chunk(15, 0, u16(1) + u16(3) + bytes(range(32))), chunk(11, 0, b'')]
    addresses = parameter(5, bytes([192, 0, 2, 1])), parameter(6, bytes(range(16)))
    yield [chunk(193, 0, u32(72) + parameter(5, bytes(4)) + parameter(0xC001, u32(73) + parameter(5, bytes(4))))]
    yield [chunk(193, 0, u32(74) + b''.join((*addresses[at:at + 1], *(
        parameter(typ, u32(75 + at) + it) for typ, it in zip((0xC001, 0xC002, 0xC004), addresses[at:] + addresses)),
        parameter(0xC006, u32(79))))) for at in range(2)]
    yield [chunk(128, 0, u32(72) + parameter(0xC005, u32(73)))]
    request = parameter(0xC002, u32(76) + addresses[1])
    for code in (0xA0, 0xA1, 0xA2, 0xA4):
        yield [chunk(128, 0, u32(77) + parameter(0xC003, u32(78) + parameter(code, request))), chunk(11, 0, b'')]
    yield [chunk(6, 0, in_list([parameter(0xA3, b''), parameter(4, b''), parameter(7, b''), parameter(11, b''.join(addresses))]))]
    yield [chunk(9, 0, in_list([parameter(5, parameter(11, b'a.example\0')), parameter(8, in_list([parameter(0x8008, b'\xc1\x80'), request])),
                                parameter(0x0105, u16(3)), parameter(3, u32(123456))]))]
    yield [chunk(12, 0, u32(98)), chunk(13, 0, u32(99))]
    yield [chunk(73, 0xA5, b'five.'), chunk(0, 3, u32(80) + u16(81) + u16(82) + u32(53) + payload), chunk(255, 0, b'')]


def packets(seed, link):
    """Packets whose checksums are right, but for one in eleven that is wrong and one that is zero."""
    plain = [u16(5000) + u16(2905) + u32(0x01020304 + at) + bytes(4) + b''.join(it + padding(it) for it in chunks)
             for at, chunks in enumerate(association())]
    for name, _, count, make in FILES:
        peer = Peer(Draw(seed, link, name))
        plain += [make(peer) for _ in range(5)] if count > HOSTILE_PACKETS else []
    for at, packet in enumerate(plain):
        word = crc32c(packet[:8] + bytes(4) + packet[12:])
        checksum = u32(word ^ 1 << at % 32) if at % 11 == 3 else bytes(4) if at % 11 == 7 else u32(word)
        yield packet[:8] + checksum + packet[12:]


V4 = dict(src='192.0.2.1', dst='255.10.0.254')
V6 = (dict(src='2001:db8::1:0:0:1', dst='::'), dict(src='2001:db8:0:1:1:1:1:1', dst='::ffff:192.0.2.1'),
      dict(src='fe80::1', dst='2001:0:0:1::'))
ETHER, IN_UDP = Ether(src='02:00:00:00:00:01', dst='02:00:00:00:00:02'), UDP(sport=9899, dport=9899)
IPV4 = IP(proto=132, **V4)
IPV4_OPTIONS = IP(proto=132, options=[IPOption_NOP()] * 4, **V4)
IPV6 = IPv6(nh=132, **V6[0])
# A capture's name, its byte order, the digits of its times, its link type, and the headers of its packets in turns.
CAPTURES = (
    ('ethernet', '<', 6, 1, (ETHER / IPV4, ETHER / IPV6, ETHER / Dot1Q(vlan=5) / IPV4_OPTIONS, ETHER / IP(**V4) / IN_UDP,
                             ETHER / IPv6(**V6[1]) / IN_UDP, ETHER / Dot1Q(vlan=6) / IPV6)),
    ('raw', '>', 9, 101, (IPV4, IPv6(nh=132, **V6[2]), IPv6(**V6[1]) / IPv6ExtHdrHopByHop(nh=60) / IPv6ExtHdrDestOpt(nh=132),
                          IP(**V4) / UDP(sport=40000, dport=9899), IPv6(**V6[0]) / UDP(sport=9899, dport=40000))),
    ('cooked', '<', 9, 113, (CookedLinux(proto=0x800) / IPV4, CookedLinux(proto=0x86DD) / IPV6)),
    ('sctp', '>', 6, 248, (None,)),
)
MAGIC = {6: 0xA1B2C3D4, 9: 0xA1B23C4D}


def capture(order, digits, link, headers, contents):
    file = struct.pack(order + 'IHHiIII', MAGIC[digits], 2, 4, 0, 0, 262144, link)
    for at, (packet, header) in enumerate(zip(contents, itertools.cycle(headers))):
        frame = bytes(header / Raw(packet)) if header else packet
        if link == 1:
            frame += bytes(max(0, 60 - len(frame)))
        file += struct.pack(order + 'IIII', 1700000000 + at, at * 1001, len(frame), len(frame)) + frame
    return file


def bind():
    """What scapy leaves unbound: SCTP in UDP (RFC 6951), after IPv6's extension headers, and alone."""
    bind_layers(UDP, SCTP, dport=9899)
    bind_layers(UDP, SCTP, sport=9899)
    bind_layers(IPv6ExtHdrDestOpt, SCTP, nh=132)
    conf.l2types.register(248, SCTP)


def blocks(output):
    """The program's lines by the packet's number, and its last line."""
    *found, last = output.split('\n\n')
    return {int(re.search(r'\d+', it)[0]): it.split('\n') for it in found}, last.strip()


def main():
    options = {'--program': os.path.join(ROOT, 'crates', 'sctp_dump', 'out', 'sctp_dump'), '--seed': '1'}
    words = sys.argv[1:]
    if words == ['--help']:
        print(__doc__)
        return 0
    if len(words) % 2 or not set(words[::2]) <= set(options):
        print(__doc__, file=sys.stderr)
        return 2
    options.update(zip(words[::2], words[1::2]))
    if not os.access(options['--program'], os.X_OK):
        print('scapy.py: no program %s (docs/DUMP.md builds it)' % options['--program'], file=sys.stderr)
        return 2
    with tempfile.TemporaryDirectory() as folder:
        return compare(os.path.abspath(options['--program']), options['--seed'], folder)


def compare(program, seed, folder):
    bind()
    expected, total, count, bad = Expected(), collections.Counter(), 0, 0
    agreed, wrong = stored(expected, program)
    total, bad = total + agreed, bad + bool(wrong)
    print('the stored run: %d fields agree' % sum(agreed.values()), *wrong, sep='\n  ')
    expected.in_rows = True
    for name, order, digits, link, headers in CAPTURES:
        path = os.path.join(folder, name + '.pcap')
        contents = list(packets(seed, name))
        with open(path, 'wb') as file:
            file.write(capture(order, digits, link, headers, contents))
        run = subprocess.run([program, '--payload', path], capture_output=True, encoding='utf-8', check=False)
        if run.returncode > 1:
            print('scapy.py: the program failed: %s' % run.stderr, file=sys.stderr)
            return 2
        printed, last = blocks(run.stdout)
        print('%s: %s' % (name, last))
        for number, (frame, packet) in enumerate(zip(PcapReader(path), contents, strict=True), 1):
            agreed, wrong = compared(printed.get(number, []), list(expected.packet(number, frame, digits)), 2 ** 16)
            count, bad, total = count + 1, bad + bool(wrong), total + agreed
            if wrong:
                print('packet %d: %s' % (number, packet.hex()), *wrong, sep='\n  ')
    print("scapy %s doesn't dissect: %s" % (scapy.VERSION, ', '.join(sorted(expected.undissected))))
    for fault, times in expected.corrected.items():
        print("scapy's fault, corrected %d times: %s" % (times, fault))
    print('scapy: %d packets and the stored run, %d with a difference; %d fields agree, %d with scapy and %d with the RFCs\' layout' % (
        count, bad, sum(total.values()), total[SCAPY], total[LAYOUT]))
    return 1 if bad else 0


if __name__ == '__main__':
    sys.exit(main())
