#!/usr/bin/env python3
# SPDX-License-Identifier: Apache-2.0
"""Compares what sctp_dump prints with tshark's dissection, field by field, over captures that other tools wrote.

usage: tests/dump/tshark.py [PROGRAM [FOLDER]]

PROGRAM is crates/sctp_dump/out/sctp_dump unless it is named (docs/DUMP.md says how to build it). Reads the stored captures, and
makes captures of each
link type, which FOLDER keeps: the packets of crates/sctp_dump/data/association.txt and one of each traffic file, with and
without VLAN tags, over IPv4 and IPv6, and in UDP. editcap, mergecap and text2pcap write them as pcap and pcapng files;
tcpdump, tshark, hexdump, od and xxd as text, whose packets are compared with those of the capture that they show.

Prints a line for each file with a difference, a line for each difference, and a last line that counts. Status: 0 if all
fields agree, 1 if not, 2 if it can't run. Needed are tshark 4, tcpdump, hexdump and xxd (apt-get install tshark tcpdump
bsdextrautils xxd)."""
import collections
import functools
import glob
import ipaddress
import itertools
import os
import re
import shutil
import struct
import subprocess
import sys
import tempfile
import xml.etree.ElementTree
from concurrent.futures import ThreadPoolExecutor
from decimal import Decimal

ROOT = os.path.dirname(os.path.dirname(os.path.dirname(os.path.abspath(__file__))))
sys.dont_write_bytecode = True
sys.path.append(os.path.join(ROOT, 'bench'))
import reports
from associations import crc32c
from traffic import Draw, FILES, HOSTILE_PACKETS, Peer, chunk, u16

DATA = os.path.join(ROOT, 'crates', 'sctp_dump', 'data')
TOOLS = 'tshark', 'editcap', 'mergecap', 'text2pcap', 'tcpdump', 'hexdump', 'od', 'xxd'
CHUNKS = {'DATA': 0, 'INIT': 1, 'INIT ACK': 2, 'SACK': 3, 'HEARTBEAT': 4, 'HEARTBEAT ACK': 5, 'ABORT': 6, 'SHUTDOWN': 7,
          'SHUTDOWN ACK': 8, 'ERROR': 9, 'COOKIE ECHO': 10, 'COOKIE ACK': 11, 'SHUTDOWN COMPLETE': 14, 'I-DATA': 64,
          'RE-CONFIG': 130, 'FORWARD-TSN': 192, 'I-FORWARD-TSN': 194, 'ECNE': 12, 'CWR': 13, 'AUTH': 15, 'NR-SACK': 16,
          'ASCONF ACK': 128, 'PKTDROP': 129, 'PAD': 132, 'ASCONF': 193}
# Those that end in bytes, and the bytes before them.
BYTES = {0: 16, 10: 4, 15: 8, 64: 20, 129: 16, 132: 4}
# tshark's fields of a chunk, and what sctp_dump calls them.
NUMBERS = {
    'data_tsn_raw': 'tsn', 'data_sid': 'stream', 'data_ssn': 'ssn', 'data_payload_proto_id': 'ppid', 'data_mid': 'mid',
    'data_fsn': 'fsn', 'init_initiate_tag': 'tag', 'init_credit': 'a_rwnd', 'init_nr_out_streams': 'outbound streams',
    'init_nr_in_streams': 'inbound streams', 'init_initial_tsn': 'initial tsn', 'initack_initiate_tag': 'tag',
    'initack_credit': 'a_rwnd', 'initack_nr_out_streams': 'outbound streams', 'initack_nr_in_streams': 'inbound streams',
    'initack_initial_tsn': 'initial tsn', 'sack_cumulative_tsn_ack_raw': 'cumulative tsn', 'sack_a_rwnd': 'a_rwnd',
    'sack_gap_block_start': 'block', 'sack_gap_block_end': 'to', 'sack_duplicate_tsn': 'duplicate tsn',
    'shutdown_cumulative_tsn_ack': 'cumulative tsn', 'forward_tsn_tsn': 'cumulative tsn', 'forward_tsn_sid': 'stream',
    'forward_tsn_ssn': 'ssn', 'i_forward_tsn_tsn': 'cumulative tsn', 'i_forward_tsn_sid': 'stream', 'forward_tsn_mid': 'mid',
    'parameter_type': 'parameter', 'parameter_reconfig_request_sequence_number': 'request',
    'parameter_reconfig_response_sequence_number': 'response', 'parameter_reconfig_response_result': 'result',
    'parameter_senders_last_assigned_tsn': 'last tsn', 'parameter_reconfig_sid': 'stream',
    'parameter_senders_next_tsn': 'next tsn', 'parameter_receivers_next_tsn': 'next tsn',
    'parameter_add_outgoing_streams_number': 'new streams', 'parameter_add_incoming_streams_number': 'new streams',
    'cause_code': 'cause', 'cause_tsn': 'tsn', 'cause_stream_identifier': 'stream', 'cause_measure_of_staleness': 'staleness',
    'cause_missing_parameter_type': 'parameter type', 'ecne_lowest_tsn': 'lowest tsn', 'cwr_lowest_tsn': 'lowest tsn',
    'shared_key_id': 'shared key', 'hmac_id': 'hmac identifier', 'asconf_seq_nr_number': 'sequence number',
    'asconf_ack_seq_nr_number': 'sequence number', 'correlation_id': 'correlation id', 'nr_sack_cumulative_tsn_ack': 'cumulative tsn',
    'nr_sack_a_rwnd': 'a_rwnd', 'nr_sack_gap_block_start': 'block', 'nr_sack_gap_block_end': 'to',
    'nr_sack_nr_gap_block_start': 'nr block', 'nr_sack_nr_gap_block_end': 'to', 'nr_sack_duplicate_tsn': 'duplicate tsn',
    'pktdrop_bandwidth': 'bandwidth', 'pktdrop_queuesize': 'queued', 'pktdrop_truncated_length': 'truncated length'}
ADDRESSES = 'parameter_ipv4_address', 'parameter_ipv6_address'
WORDS = {'data_u_bit': 'unordered', 'data_b_bit': 'beginning', 'data_e_bit': 'end', 'data_i_bit': 'immediate',
         'i_forward_tsn_u_bit': 'unordered', 'abort_t_bit': 'tag reflected', 'shutdown_complete_t_bit': 'tag reflected',
         'pckdrop_m_bit': 'from a middlebox', 'pckdrop_b_bit': 'bad checksum', 'pckdrop_t_bit': 'truncated'}
NUMBER = re.compile(r'(?<![\w-])(%s) (0x[0-9a-f]+|\d+)' % '|'.join(sorted(set(NUMBERS.values()), key=len, reverse=True)))
WORD = re.compile(', (%s)(?=,|$)' % '|'.join(set(WORDS.values())))
HEADERS = (('addresses', r'from (\S+) to (\S+)', ipaddress.ip_address), ('udp', r'udp source (\d+), destination (\d+)', int),
           ('ports', r'source (\d+), destination (\d+), tag \w+', int), ('tag', r'source .*, tag (\w+)', lambda it: int(it, 0)),
           ('checksum', r'checksum (\w+): .*', lambda it: int(it, 0)),
           ('verdict', r'checksum \w+: (right|zero|wrong|not known).*', str))


def printed(program, path):
    """What sctp_dump prints of each packet: its number, its values, its chunks, and whether that is all of it."""
    run = subprocess.run([program, path], capture_output=True, text=True, check=False)
    for block in run.stdout.split('\n\n'):
        head, *lines = block.split('\n')
        found = re.match(r'packet (\d+)(?:, time ([0-9.]+))?(?:, (\d+) of (\d+) bytes)?$', head)
        if found:
            refused = [at for at, line in enumerate(lines) if line.startswith('error: ')]
            values, chunks = {'missing': int(found[4]) - int(found[3]) if found[3] else 0}, []
            values.update({'time': Decimal(found[2])} if found[2] else {})
            for line in lines[:refused[0]] if refused else lines:
                said(line, values, chunks)
            yield int(found[1]), values, chunks, not (refused or found[3])


def said(line, values, chunks):
    """Adds what a line says: values of the packet, or a chunk or fields of the last one."""
    headers = [(name, tuple(map(read, found.groups()))) for name, form, read in HEADERS
               for found in [re.fullmatch(form, line)] if found]
    values.update(headers)
    if headers or not line:
        return
    # What is counted from other numbers, and what a message says, isn't compared.
    if line.startswith(('  text: ', '  DATA_CHANNEL_')):
        return
    line = re.sub(r'^( +)(parameter|cause) (?:type|code) (\d+) \(\w+\)', r'\1\2 \3', line)
    address = re.search(r' IPv[46] Address: (\S+)$', line)
    line = re.sub(r'"[^"]*"|\([^)]*\)|(?<= to )(\d+): tsn .*', r'\1', line)
    if line[0] != ' ' or not chunks:
        name = re.split('[:,]', line)[0]
        typ = re.match(r'chunk type (\d+) ', line)
        chunks.append([('chunk', int(typ[1]) if typ else CHUNKS.get(name, name))])
    chunks[-1] += [(name, int(number, 0)) for name, number in NUMBER.findall(line)] + [(it, 1) for it in WORD.findall(line)]
    chunks[-1] += [('address', ipaddress.ip_address(address[1]))] if address else []
    size = re.match(r'  (?:payload|hmac|packet): (\d+) byte|\S[^:,]*[:,] (?:flags \w+, )?(\d+) byte', line)
    chunks[-1] += [('bytes', int(size[1] or size[2]))] if size else []


@functools.lru_cache(None)
def dissected(path):
    """What tshark says of each packet, in the same form."""
    return list(dissect(path))


def dissect(path):
    command = ['tshark', '-n', '-r', path, '-T', 'pdml', '-Y', 'sctp.checksum and !(ip.flags.mf == 1 or ip.frag_offset > 0)',
               '-o', 'sctp.checksum:CRC 32c', '-o', 'ip.defragment:FALSE', '-o', 'ipv6.defragment:FALSE']
    with subprocess.Popen(command, stdout=subprocess.PIPE, stderr=subprocess.DEVNULL) as run:
        for _, packet in xml.etree.ElementTree.iterparse(run.stdout):
            if packet.tag == 'packet':
                yield shown(packet)
                packet.clear()


def shown(packet):
    of, chunks = {}, []
    for field in packet.iter('field'):
        of.setdefault(field.get('name'), field.get('show'))
    values = {'missing': int(of['frame.len']) - int(of['frame.cap_len']), 'time': Decimal(of['frame.time_epoch']),
              'tag': (int(of['sctp.verification_tag'], 0),), 'checksum': (int(of['sctp.checksum'], 0),),
              'ports': (int(of['sctp.srcport']), int(of['sctp.dstport']))}
    verdict = {'0': 'wrong', '1': 'right'}.get(of['sctp.checksum.status'], 'not known')
    values['verdict'] = ('zero' if verdict == 'wrong' and values['checksum'] == (0,) else verdict,)
    for version in 'ip', 'ipv6':
        if version + '.src' in of:
            values['addresses'] = tuple(ipaddress.ip_address(of[version + it]) for it in ('.src', '.dst'))
    if 'udp.srcport' in of:
        values['udp'] = int(of['udp.srcport']), int(of['udp.dstport'])
    for group in packet.iterfind("proto[@name='sctp']/field"):
        if group.find("field[@name='sctp.chunk_type']") is not None:
            chunks.append(list(fields_of(group)))
    return int(of['frame.number']), values, chunks, True


def inside(field):
    """What is in a field, but for a chunk that a cause quotes, and for the HMACs of a list, which have their names alone."""
    of = {it.get('name'): it.get('show') for it in field}
    is_listed, quotes = of.get('sctp.parameter_type') == '0x8004', of.get('sctp.cause_code') == '0x0006'
    for it in field:
        if not (is_listed and it.get('name') == 'sctp.hmac_id'):
            yield it.get('name').removeprefix('sctp.'), it.get('show')
        if not quotes:
            yield from inside(it)


def fields_of(chunk):
    """The fields of a chunk."""
    found = list(inside(chunk))
    typ, length = (int(next(it[1] for it in found if it[0] == name)) for name in ('chunk_type', 'chunk_length'))
    yield 'chunk', typ
    for name, text in found:
        if name in NUMBERS and typ in CHUNKS.values():
            yield NUMBERS[name], int(text, 0)
        elif name in ADDRESSES:
            yield 'address', ipaddress.ip_address(text)
        elif name in WORDS and text == '1':
            yield WORDS[name], 1
    if typ in BYTES or typ not in CHUNKS.values():
        yield 'bytes', length - BYTES.get(typ, 4)


def differences(mine, theirs, absent):
    """The number of fields that agree, and what differs, but for values that the file can't hold."""
    (number, values, chunks, whole), (_, others, their_chunks, _) = mine, theirs
    agreed, wrong = 0, []
    for at, (a, b) in enumerate(itertools.zip_longest([values.items()] + chunks, [others.items()] + their_chunks, fillvalue=())):
        if at == 0:
            a, b = ([it for it in fields if it[0] not in absent] for fields in (a, b))
        elif not whole and at >= min(len(chunks), len(their_chunks)):  # one of them says less of it, or nothing
            a = a[:1] if len(a) == 2 else a
            a, b = (a if b else b), [*(collections.Counter(a) & collections.Counter(b)).elements()]
        a, b = collections.Counter(a), collections.Counter(b)
        agreed += (a & b).total()
        if a != b:
            wrong.append('packet %d: sctp_dump %s, tshark %s' % (number, list(a - b), list(b - a)))
    return agreed, wrong


def compare(program, path, capture, absent=(), numbered=True):
    """Compares the packets of a file with those of the capture that it shows; a text has numbers of its own."""
    mine = [it for it in printed(program, path) if 'checksum' in it[1]]
    theirs = {it[0] if numbered else at: it for at, it in enumerate(dissected(capture), 1)}
    agreed, wrong = 0, []
    numbers = [it[0] for it in mine]
    if numbers != list(theirs) and not (set(absent) & {'missing'} and set(numbers) < set(theirs)):
        wrong.append('sctp_dump prints packets %s, tshark %s' % (numbers, list(theirs)))
    for packet in mine:
        if packet[0] in theirs:
            found = differences(packet, theirs[packet[0]], absent)
            agreed, wrong = agreed + found[0], wrong + found[1]
    if wrong:
        print('%s: %d packets, %d fields agree' % (path, len(mine), agreed), *wrong, sep='\n  ')
    return agreed, len(wrong)


# The captures.

def sealed(packet):
    """The packet with its CRC32c."""
    return packet[:8] + crc32c(packet[:8] + bytes(4) + packet[12:]) + packet[12:]


def chunks_of_rows():
    """The chunks of the rows of reports.txt, but for those with a part that is shown as bytes: of some, tshark shows more."""
    for row, answer in reports.rows():
        call, _, words = row.partition(' ')
        if call == 'report' and not any(re.match(r' *(?!payload|hmac|packet)[^:]*[:,] (?:flags \w+, )?\d+ byte', it) for it in answer):
            yield bytes.fromhex(re.sub(r'(\w\w)\*(\d+)', lambda it: it[1] * int(it[2]), words))


def packets():
    with open(os.path.join(DATA, 'association.txt'), encoding='ascii') as file:
        yield from (bytes.fromhex(line) for line in file if re.match('[0-9a-f]', line) and len(line) > 32)
    for at, (name, make) in enumerate((name, make) for name, _, count, make in FILES if count > HOSTILE_PACKETS):
        packet = make(Peer(Draw(1, name)))
        yield [sealed(packet), sealed(packet), packet, packet[:8] + bytes(4) + packet[12:]][at % 4]
    yield from (sealed(bytes.fromhex('1388138800000001') + bytes(4) + it) for it in chunks_of_rows())
    for typ in (15, 73, 132, 255):
        yield sealed(bytes.fromhex('1388138800000001') + bytes(4) + chunk(typ, 0, bytes(range(60))) + chunk(11, 0, b''))


def ipv4(packet, protocol=132):
    return struct.pack('>BBHHHBBH', 0x45, 0, 20 + len(packet), 1, 0x4000, 64, protocol, 0) + bytes(
        [192, 0, 2, 1, 198, 51, 100, 2]) + packet


def ipv6(packet, protocol=132):
    return struct.pack('>IHBB', 6 << 28, len(packet), protocol, 64) + b''.join(
        ipaddress.ip_address(it).packed for it in ('2001:db8::1:0:0:1', 'fe80::2')) + packet


def udp(packet):
    return struct.pack('>HHHH', 9899, 40000, 8 + len(packet), 0) + packet


def ip_packets(at, packet):
    """The packet in an IP packet, in one of four ways, and the type of it."""
    return ((0x0800, ipv4(packet)), (0x86DD, ipv6(packet)), (0x0800, ipv4(udp(packet), 17)),
            (0x86DD, ipv6(udp(packet), 17)))[at % 4]


# A capture's name, link type, and frame of a packet's number in the capture, type and IP packet.
LINKS = (
    ('ethernet', 1, lambda at, typ, ip: bytes(12) + (b'', b'\x81\0\0\5', b'\x88\xa8\0\6\x81\0\0\5')[at % 3] + u16(typ) + ip),
    ('cooked', 113, lambda at, typ, ip: u16(at % 5) + u16(1) + u16(6) + bytes(8) + u16(typ) + ip),
    ('cooked2', 276, lambda at, typ, ip: u16(typ) + bytes(2) + struct.pack('>IHBB', 2, 1, at % 5, 6) + bytes(8) + ip),
    ('raw', 101, lambda at, typ, ip: ip), ('raw12', 12, lambda at, typ, ip: ip),
    ('loopback', 0, lambda at, typ, ip: struct.pack('<I', 2 if typ == 0x0800 else (24, 28, 30)[at // 4 % 3]) + ip),
    ('loop', 108, lambda at, typ, ip: struct.pack('>I', 2 if typ == 0x0800 else (24, 28, 30)[at // 4 % 3]) + ip),
)


def run(*command):
    done = subprocess.run(command, capture_output=True, check=False)
    if done.returncode:
        sys.exit('tshark.py: %s failed: %s' % (' '.join(command), done.stderr.decode()))
    return done.stdout


def dumped(frames, *tool):
    """A dump of each frame by itself, one after the other."""
    return b''.join(subprocess.run(tool, input=frame, capture_output=True, check=True).stdout for frame in frames)


def write(path, contents):
    with open(path, 'wb') as file:
        file.write(contents)
    return path


def captures(folder):
    """Writes captures of each link type, and returns the frames of each by its path."""
    contents = list(packets())
    alone = [('sctp', 248, contents), ('ipv4', 228, [ipv4(it) for it in contents]), ('ipv6', 229, [ipv6(it) for it in contents])]
    framed = [(name, link, [frame(at, *ip_packets(at, it)) for at, it in enumerate(contents)]) for name, link, frame in LINKS]
    for at, (name, link, frames) in enumerate(framed + alone):
        order, magic = ('<', '>')[at % 2], (0xA1B2C3D4, 0xA1B23C4D)[at // 2 % 2]
        capture = struct.pack(order + 'IHHiIII', magic, 2, 4, 0, 0, 262144, link)
        for number, frame in enumerate(frames):
            capture += struct.pack(order + 'IIII', 1700000000 + number, number * 1001, len(frame), len(frame)) + frame
        yield write(os.path.join(folder, name + '.pcap'), capture), link, frames


def files_of(path, link, frames):
    """Writes the forms of a capture. Each has its path, that of the capture that it shows, and more for `compare`."""
    name = path.removesuffix('.pcap')
    yield path, path
    for suffix, *options in (('.nano.pcap', '-F', 'nsecpcap'), ('.pcapng', '-F', 'pcapng'),
                             ('.cut.pcap', '-F', 'pcap', '-s', '96'), ('.cut.pcapng', '-F', 'pcapng', '-s', '50')):
        run('editcap', *options, path, name + suffix)
        if 'cut' in suffix:  # what is left is what the whole packet has there
            yield name + suffix, name + suffix
            yield name + suffix, path, ('missing', 'verdict', 'time')
        else:
            yield name + suffix, path
    od = write(name + '.od', dumped(frames, 'od', '-A', 'x', '-t', 'x1', '-v'))
    for suffix in '.text.pcap', '.text.pcapng':
        run('text2pcap', '-q', '-F', suffix[6:], '-l', str(link), od, name + suffix)
        yield name + suffix, path, ('time',)
    texts = [] if link == 248 else [write(name + '.x', run('tcpdump', '-n', '-x', '-r', path))]
    if link in (1, 113, 101, 228, 229):  # frames that a text's bytes show
        texts.append(write(name + '.xx', run('tcpdump', '-n', '-xx', '-r', path)))
    if link in (1, 113, 101, 228, 229, 248):
        texts += [od, write(name + '.hexdump', dumped(frames, 'hexdump', '-C', '-v'))]
    if link == 248:
        texts.append(write(name + '.xxd', dumped(frames, 'xxd')))
    if link not in (0, 108, 276):
        texts.append(write(name + '.tshark', run('tshark', '-n', '-x', '-r', path)))
    yield from ((it, path, ('time',), False) for it in texts)


def main():
    if len(sys.argv) > 3 or sys.argv[1:2] in (['--help'], ['-h']):
        print(__doc__)
        return 0
    program = sys.argv[1] if len(sys.argv) > 1 else os.path.join(ROOT, 'crates', 'sctp_dump', 'out', 'sctp_dump')
    missing = [it for it in (*TOOLS, program) if not shutil.which(it)]
    if missing:
        print('tshark.py: there is no %s' % ', '.join(missing), file=sys.stderr)
        return 2
    if len(sys.argv) > 2:
        os.makedirs(sys.argv[2], exist_ok=True)
        return compare_all(program, sys.argv[2])
    with tempfile.TemporaryDirectory() as folder:
        return compare_all(program, folder)


def compare_all(program, folder):
    stored = DATA, os.path.join(ROOT, 'tests', 'dump', 'data')
    files = [(it, it) for folder in stored for it in glob.glob(os.path.join(folder, '*.pcap'))]
    made = list(captures(folder))
    # The tools work side by side.
    with ThreadPoolExecutor(os.cpu_count()) as pool:
        files += itertools.chain(*pool.map(lambda it: list(files_of(*it)), made))
    for name, options in (('merged', []), ('appended', ['-a']), ('interfaces', ['-I', 'none'])):
        path = os.path.join(folder, name + '.pcapng')
        run('mergecap', *options, '-w', path, *(it for it, _, _ in made))
        files.append((path, path))
    with ThreadPoolExecutor(os.cpu_count()) as pool:
        list(pool.map(dissected, sorted({it[1] for it in files})))
    results = [compare(program, *it) for it in files]
    agreed, differ = map(sum, zip(*results))
    print('tshark: %d files, %d fields agree, %d differ' % (len(results), agreed, differ))
    return 1 if differ else 0


if __name__ == '__main__':
    sys.exit(main())
