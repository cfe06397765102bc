#!/usr/bin/env python3
# SPDX-License-Identifier: Apache-2.0
"""usage: tests/dump/fields.py PROGRAM

Compares what `sctp_dump --json --places` and the Python package's kinds say of each packet of data/usrsctp.pcap with tshark's
dissection and scapy's, field by field and in order: each chunk, parameter and error cause with its type and length, its numbers,
addresses and bytes, and what is in it. The place of each field of the JSON has to be tshark's, and of the package that of each
chunk, parameter and cause. The capture has to have each kind that is named below.

scapy 2.5 knows neither NR-SACK nor I-DATA, RE-CONFIG and the FORWARD-TSNs, and takes error causes as bytes: they are left to tshark,
which shows no payload of a fragment. The package is built from bindings/python and dist/, as `pip install` does it. Without a C
compiler it is left out, and so is tshark or scapy where it isn't there. Prints what differs, and of each comparison how many fields
agree; status 0 if nothing differs."""
import collections
import dataclasses
import ipaddress
import itertools
import json
import os
import re
import shutil
import struct
import subprocess
import sys
import tempfile
import xml.etree.ElementTree

HERE = os.path.dirname(os.path.abspath(__file__))
ROOT = os.path.dirname(os.path.dirname(HERE))
CAPTURE = os.path.join(HERE, 'data', 'usrsctp.pcap')
sys.dont_write_bytecode = True

# A field: its name in the JSON, behind that of its list, its value, and its place (offset and size), or the offset alone, if the
# reader says it.
Field = collections.namedtuple('Field', 'name value offset size', defaults=(None, None))
# The name of what a reader leaves to others: up to the item at this offset. Its value says what.
LEFT = object()
# What is in these lists has its own head, and is read as what it is in.
INNER = 'chunks', 'parameters', 'causes'
HEAD = 'source', 'destination', 'tag', 'checksum'
# The chunks of which the number of fields is said.
CHUNKS = {1: 'INIT', 2: 'INIT ACK', 15: 'AUTH', 193: 'ASCONF', 128: 'ASCONF ACK', 16: 'NR-SACK', 6: 'ABORT', 9: 'ERROR'}
# Those of one byte, in the order in which they are here.
BITS = 'flags', 'beginning', 'end', 'immediate', 'tag_reflected', 'unordered'


def in_order(fields):
    return sorted(fields, key=lambda it: (it.offset, BITS.index(it.name) if it.name in BITS else -1))


def records():
    """The packets of the capture."""
    with open(CAPTURE, 'rb') as file:
        capture, at = file.read(), 24
    while at < len(capture):
        size = struct.unpack_from('<I', capture, at + 8)[0]
        yield capture[at + 16:at + 16 + size]
        at += 16 + size


# ---- the program

def of_json(holder, packet, name=''):
    for key, value in holder.items():
        if isinstance(value, list) and not key.endswith('@'):
            for it in value:
                yield from of_json(it, packet, '' if key in INNER else key + '.')
        elif key == 'payload@':  # (its bytes are the packet's)
            yield Field('payload', packet[value[0]:sum(value)], *value)
        elif key + '@' in holder and key != 'text':
            value = ipaddress.ip_address(value) if key == 'address' else value
            value = bytes.fromhex(value) if isinstance(value, str) and key in ('value', 'hmac', 'information') else value
            yield Field(name + key, value, *holder[key + '@'])


def of_program(program):
    done = subprocess.run([program, '--json', '--places', CAPTURE], capture_output=True, check=False, timeout=600)
    for line in done.stdout.splitlines()[:-1]:
        packet = json.loads(line)
        yield in_order(it for it in of_json(packet, bytes.fromhex(packet['bytes'])) if it.size)


# ---- tshark

TSHARK = {
    'srcport': 'source', 'dstport': 'destination', 'verification_tag': 'tag', 'checksum': 'checksum',
    'chunk_type': 'chunk', 'chunk_flags': 'flags', 'chunk_length': 'length', 'parameter_type': 'parameter',
    'parameter_length': 'length', 'cause_code': 'cause', 'cause_length': 'length',
    'data_tsn_raw': 'tsn', 'data_sid': 'stream', 'data_ssn': 'ssn', 'data_mid': 'mid', 'data_fsn': 'fsn',
    'data_payload_proto_id': 'ppid', 'data_u_bit': 'unordered', 'data_b_bit': 'beginning', 'data_e_bit': 'end',
    'data_i_bit': 'immediate', 'init_initiate_tag': 'initiate_tag', 'init_credit': 'a_rwnd', 'init_nr_out_streams': 'outbound_streams',
    'init_nr_in_streams': 'inbound_streams', 'init_initial_tsn': 'initial_tsn', 'initack_initiate_tag': 'initiate_tag',
    'initack_credit': 'a_rwnd', 'initack_nr_out_streams': 'outbound_streams', 'initack_nr_in_streams': 'inbound_streams',
    'initack_initial_tsn': 'initial_tsn', 'sack_cumulative_tsn_ack_raw': 'cumulative_tsn_ack', 'sack_a_rwnd': 'a_rwnd',
    'sack_gap_block_start': 'blocks.start', 'sack_gap_block_end': 'blocks.end', 'sack_duplicate_tsn': 'duplicates.tsn',
    'nr_sack_cumulative_tsn_ack': 'cumulative_tsn_ack', 'nr_sack_a_rwnd': 'a_rwnd', 'nr_sack_gap_block_start': 'blocks.start',
    'nr_sack_gap_block_end': 'blocks.end', 'nr_sack_nr_gap_block_start': 'nr_blocks.start',
    'nr_sack_nr_gap_block_end': 'nr_blocks.end', 'nr_sack_duplicate_tsn': 'duplicates.tsn',
    'shutdown_cumulative_tsn_ack': 'cumulative_tsn_ack', 'abort_t_bit': 'tag_reflected', 'shutdown_complete_t_bit': 'tag_reflected',
    'forward_tsn_tsn': 'new_cumulative_tsn', 'forward_tsn_sid': 'streams.stream', 'forward_tsn_ssn': 'streams.ssn',
    'i_forward_tsn_tsn': 'new_cumulative_tsn', 'i_forward_tsn_sid': 'streams.stream', 'forward_tsn_mid': 'streams.mid',
    'i_forward_tsn_u_bit': 'streams.unordered', 'cookie': 'value', 'parameter_state_cookie': 'value', 'random_number': 'value',
    'parameter_heartbeat_information': 'value', 'parameter_value': 'value', 'cause_information': 'value',
    'supported_chunk_type': 'chunk_types.type', 'chunk_type_to_auth': 'chunk_types.type',
    'parameter_supported_address_type': 'address_types.type', 'parameter_ipv4_address': 'address',
    'parameter_ipv6_address': 'address', 'shared_key_id': 'shared_key',
    'hmac_id': 'hmac_identifier', 'hmac': 'hmac', 'asconf_seq_nr_number': 'sequence_number',
    'asconf_ack_seq_nr_number': 'sequence_number', 'correlation_id': 'correlation_id',
    'parameter_reconfig_request_sequence_number': 'request_number',
    'parameter_reconfig_response_sequence_number': 'response_number',
    'parameter_reconfig_response_result': 'result', 'parameter_senders_last_assigned_tsn': 'last_tsn',
    'parameter_reconfig_sid': 'streams.stream', 'parameter_add_outgoing_streams_number': 'new_streams',
    'parameter_add_incoming_streams_number': 'new_streams', 'cause_stream_identifier': 'stream',
    'cause_measure_of_staleness': 'staleness', 'cause_tsn': 'tsn', 'parameter_cookie_preservative_incr': 'increment'}
# What is another field once more, is counted from others, or says nothing: bits of a type, reserved ones, padding.
NOT_COMPARED = {
    'port', 'assoc_index', 'checksum.status', 'chunk_bit_1', 'chunk_bit_2', 'parameter_bit_1', 'parameter_bit_2', 'chunk_padding',
    'parameter_padding', 'cause_padding', 'initiate_tag', 'data_reserved', 'sack_nounce_sum', 'nr_sack_nounce_sum',
    'nr_sack_reserved', 'sack_number_of_gap_blocks', 'sack_number_of_duplicated_tsns', 'sack_number_of_tsns_gap_acked',
    'sack_gap_block_start_tsn', 'sack_gap_block_end_tsn', 'nr_sack_number_of_gap_blocks', 'nr_sack_number_of_nr_gap_blocks',
    'nr_sack_number_of_duplicated_tsns', 'nr_sack_number_of_tsns_gap_acked', 'nr_sack_number_of_tsns_nr_gap_acked',
    'nr_sack_gap_block_start_tsn', 'nr_sack_gap_block_end_tsn', 'nr_sack_nr_gap_block_start_tsn', 'nr_sack_nr_gap_block_end_tsn',
    'i_forward_tsn_flags', 'i_forward_tsn_res', 'parameter_add_outgoing_streams_reserved',
    'parameter_add_incoming_streams_reserved', 'cause_reserved'}


def of_pdml(holder, kind=None):
    """The fields in one; `kind` is the type or code of the parameter or cause that has them."""
    for field in holder:
        protocol, _, name = field.get('name').partition('.')
        kind = field.get('show') if name in ('parameter_type', 'cause_code') else kind
        if not protocol and kind == '0x0006':  # a chunk that a cause quotes
            yield Field('value', bytes.fromhex(field.get('value')), int(field.get('pos')), int(field.get('size')))
            continue
        if (protocol, name) == ('data', 'data') or protocol == 'sctp' and name and name not in NOT_COMPARED:
            place = int(field.get('pos')), int(field.get('size'))
            known = 'payload' if protocol == 'data' else TSHARK[name]  # (a name that isn't there fails here)
            if known == 'address':
                yield Field(known, ipaddress.ip_address(field.get('show')), *place)
            elif known in ('payload', 'value', 'hmac'):
                yield Field(known, bytes.fromhex(field.get('value')), *place)
            elif known == 'streams.unordered':  # (it has the place of both bytes of flags)
                yield Field(known, int(field.get('show'), 0), place[0] + 1, 1)
            else:
                known = 'hmacs.identifier' if name == 'hmac_id' and kind == '0x8004' else known
                yield Field(known, int(field.get('show'), 0), *place)
        yield from of_pdml(field, kind)


def of_tshark():
    options = ('checksum:CRC 32c', 'reassembly:FALSE', 'tsn_analysis:FALSE', 'relative_tsns:FALSE')
    words = [word for it in options for word in ('-o', 'sctp.' + it)]
    done = subprocess.run(['tshark', '-n', '-r', CAPTURE, '-T', 'pdml', *words], capture_output=True, check=True, timeout=600)
    for packet in xml.etree.ElementTree.fromstring(done.stdout).iter('packet'):
        yield [*of_fragments(in_order(of_pdml(packet)))]


def of_fragments(fields):
    """The same; of a fragment tshark gives no payload, but of a whole message, which is another field."""
    for chunk in chunks_of(fields):
        bits = {it.name: it.value for it in chunk}
        yield from chunk
        if not (bits.get('beginning', 1) and bits.get('end', 1)):
            yield Field(LEFT, 'payload of a fragment', chunk[0].offset + bits['length'])


# ---- scapy

# Its fields; what isn't named has the name of the JSON, or isn't compared.
SCAPY = {
    'len': 'length', 'delay_sack': 'immediate', 'ending': 'end', 'TCB': 'tag_reflected', 'stream_id': 'stream', 'stream_seq': 'ssn',
    'proto_id': 'ppid', 'init_tag': 'initiate_tag', 'n_out_streams': 'outbound_streams', 'n_in_streams': 'inbound_streams',
    'init_tsn': 'initial_tsn', 'cumul_tsn_ack': 'cumulative_tsn_ack', 'dup_tsn_list': 'duplicates.tsn', 'cookie': 'value',
    'random': 'value', 'shared_key_id': 'shared_key', 'HMAC_function': 'hmac_identifier', 'HMAC': 'hmac', 'seq': 'sequence_number',
    'addr_type': 'parameter', 'addr_len': 'length', 'addr': 'address', 'addr_type_list': 'address_types.type',
    'chunk_list': 'chunk_types.type', 'HMAC_functions_list': 'hmacs.identifier', 'supported_extensions': 'chunk_types.type',
    'sug_cookie_inc': 'increment', 'param': 'parameters', 'params': 'parameters', 'error_causes': 'causes'}
COUNTS = 'reserved', 'n_gap_ack', 'n_dup_tsn'
# The error causes that hold parameters (RFC 9260 sections 3.3.10.5, 3.3.10.8 and 3.3.10.11, RFC 5061 section 4.3).
HOLDERS = 5, 8, 11, 0xA0, 0xA1, 0xA2, 0xA4


def items(data, at, end):
    """The place of each chunk, parameter or cause (RFC 9260 section 3.2), of the whole packet's bytes."""
    while end - at >= 4:
        length = int.from_bytes(data[at + 2:at + 4], 'big')
        yield at, at + length
        at += (length + 3) // 4 * 4


class Scapy:
    """Reads each item by scapy: what it doesn't know, it takes up to the end of what it is in."""

    def __init__(self):
        sys.path.remove(HERE)  # where a script has its name
        import scapy
        from scapy.layers import sctp
        from scapy.packet import Raw
        if not scapy.VERSION.startswith('2.5.'):
            raise ImportError
        self.sctp, self.raw = sctp, Raw

    def packet(self, data):
        head = self.sctp.SCTP(data)
        yield from (Field(name, it) for name, it in zip(HEAD, (head.sport, head.dport, head.tag, head.chksum)))
        for at, end in items(data, 12, len(data)):
            whole = data[at:(end + 3) // 4 * 4]
            yield from self.part('chunk', head.default_payload_class(whole)(whole), data, at, end)

    def parameters(self, data, at, end):
        for at, after in items(data, at, end):
            (part,) = self.sctp.ChunkParamField('', [], length_from=lambda _: after - at).getfield(self.raw(b''), data[at:after])[1]
            yield from self.part('parameter', part, data, at, after)

    def causes(self, data, at, end):
        """scapy gives them as bytes."""
        for at, after in items(data, at, end):
            code = int.from_bytes(data[at:at + 2], 'big')
            if code in HOLDERS:
                yield from (Field('cause', code, at), Field('length', after - at))
                yield from self.parameters(data, at + 4, after)
            else:
                yield Field(LEFT, 'cause %d' % code, after)

    def part(self, kind, part, data, at, end):
        if isinstance(part, self.raw):
            yield Field(LEFT, '%s %d' % (kind, int.from_bytes(data[at:at + 1 + (kind != 'chunk')], 'big')), end)
            return
        yield Field(kind, part.type, at)
        if kind == 'chunk':
            bits = {SCAPY.get(it.name, it.name): getattr(part, it.name) for it in part.fields_desc}
            yield Field('flags', bits.get('flags', data[at + 1]))  # (or bits by name)
            yield from (Field(name, bits[name]) for name in BITS[1:] if name in bits)
        inner = at
        for it in part.fields_desc:
            name, value = SCAPY.get(it.name, it.name), getattr(part, it.name)
            if name == 'parameters':
                yield from self.parameters(data, int(inner), end)
            elif name == 'causes':
                yield from self.causes(data, int(inner), end)
            elif name == 'gap_ack_list':
                for block in value:
                    yield from (Field('blocks.' + which, int(number)) for which, number in zip(('start', 'end'), block.split(':')))
            elif name == 'address':
                yield Field(name, ipaddress.ip_address(value))
            elif isinstance(value, list):
                yield from (Field(name, one) for one in value)
            elif name not in (*BITS, *COUNTS, 'type'):
                yield Field(('payload' if kind == 'chunk' else 'value') if name == 'data' else name, value)
            inner += it.sz


# ---- the package

# The names of its fields, by kind and of all kinds, and of what is in its lists; what isn't named has the name of the JSON.
PACKAGE = {
    'duplicates': 'duplicates.tsn', 'key': 'shared_key', 'cookie': 'value', 'info': 'value', 'data': 'value', 'reason': 'value',
    'chunk': 'value', 'chunk_types': 'chunk_types.type', 'ChunkList.types': 'chunk_types.type',
    'SupportedAddressTypes.types': 'address_types.type', 'hmacs': 'hmacs.identifier', 'microseconds': 'staleness',
    'milliseconds': 'increment'}
ENTRIES = {'is_unordered': 'unordered'}
# Fields that are bits of flags.
PACKAGE_BITS = {'beginning': 'is_beginning', 'end': 'is_end', 'immediate': 'immediate_ack', 'tag_reflected': 'tag_reflected',
                'unordered': 'is_unordered'}


class Package:
    """Reads by the kinds of the package; a chunk's flags and length, which most of them don't have, by `raw_chunks`."""

    def __init__(self, folder):
        python = os.path.join(ROOT, 'bindings', 'python')
        code = 'import backend, sys; print(backend.build_wheel(sys.argv[1]))'
        done = subprocess.run([sys.executable, '-B', '-c', code, folder], cwd=python, capture_output=True, text=True, check=False)
        if done.returncode:
            sys.exit('fields.py: the package was not built: %s' % done.stderr)
        shutil.unpack_archive(os.path.join(folder, done.stdout.split()[-1]), folder, 'zip')
        sys.path.insert(0, folder)
        import davgyuti
        self.package = davgyuti

    def packet(self, data):
        packet = self.package.Packet(data)
        head = packet.header
        numbers = head.source_port, head.destination_port, head.verification_tag, head.checksum
        yield from (Field(name, it) for name, it in zip(HEAD, numbers))
        for raw, chunk in zip(self.package.raw_chunks(data), packet, strict=True):
            yield from (Field('chunk', int(chunk.type), chunk.offset), Field('flags', raw.flags))
            yield from (Field(name, getattr(chunk, it)) for name, it in PACKAGE_BITS.items() if hasattr(chunk, it))
            yield Field('length', 4 + len(raw.value))
            yield from self.fields(chunk.registered() or chunk)

    def item(self, kind, item):
        yield Field(kind, int(item.code if kind == 'cause' else item.type), item.offset)
        yield Field('length', 4 + len(item.value))
        yield from self.fields(item.registered() or item)

    def fields(self, part):
        kind = type(part).__name__
        values = {it.name: getattr(part, it.name) for it in dataclasses.fields(part)}
        values = {key: it for key, it in values.items() if it is not None and key not in (*PACKAGE_BITS.values(), 'offset', 'flags', 'reserved')}
        if kind.startswith('Raw'):
            values = {'value': values['value']}
        if kind == 'IData':
            # One of two has the place before the payload.
            del values['fsn' if part.is_beginning else 'ppid']
            values['payload'] = values.pop('payload')
        for key, value in values.items():
            name = PACKAGE.get('%s.%s' % (kind, key)) or PACKAGE.get(key, key)
            if key == 'address' and kind not in ('Ipv4Address', 'Ipv6Address'):
                size = len(value.packed)
                yield from (Field('parameter', 5 if size == 4 else 6), Field('length', 4 + size), Field('address', value))
            elif key in ('parameters', 'causes'):
                for it in value:
                    yield from self.item(key[:-1], it)
            elif key == 'lists':
                yield from self.nr_sack_lists(part)
            elif isinstance(value, tuple) and key != 'counts':
                for it in value:
                    entry = it._asdict() if hasattr(it, '_asdict') else {name.partition('.')[2] or 'stream': it}
                    entry = {ENTRIES.get(key, key): it for key, it in entry.items()}
                    yield from (Field('%s.%s' % (name.partition('.')[0], key), entry[key])
                                for key in sorted(entry, key=lambda key: (key == 'mid', key not in ('stream', 'start'))))
            elif isinstance(value, bytes) and '.' in name:
                yield from (Field(name, it) for it in value)
            elif key != 'counts':
                yield Field(name, value)

    def nr_sack_lists(self, part):
        """The lists of NR-SACK, which the package leaves as bytes: both kinds of blocks, and the TSNs, as it counts them
        (draft-tuexen-tsvwg-sctp-multipath section 4.1)."""
        blocks, nr_blocks, duplicates = part.counts
        numbers = iter(struct.unpack('>%dH%dI' % (2 * (blocks + nr_blocks), duplicates), part.lists))
        for name, count in (('blocks', blocks), ('nr_blocks', nr_blocks)):
            for _ in range(count):
                yield from (Field(name + '.start', next(numbers)), Field(name + '.end', next(numbers)))
        yield from (Field('duplicates.tsn', it) for it in numbers)


# ---- the comparison

def chunks_of(fields):
    """The fields of the common header, and of each chunk."""
    found = [[]]
    for it in fields:
        if it.name == 'chunk' and it.offset is not None:
            found.append([])
        found[-1].append(it)
    return found


def is_same(mine, theirs):
    """Whether the names and values are equal, and the places, where both say one."""
    return mine[:2] == theirs[:2] and all(a is None or b is None or a == b for a, b in zip(mine[2:], theirs[2:]))


class Comparison:
    def __init__(self):
        self.agreed, self.by_kind, self.left, self.wrong = 0, collections.Counter(), collections.Counter(), []

    def packet(self, number, mine, theirs):
        """Compares a packet's fields with those of another reader, up to the first that differs."""
        at, chunk = 0, None
        for field in theirs:
            if field.name is LEFT:
                self.left[field.value] += 1
                while at < len(mine) and (mine[at].offset is None or mine[at].offset < field.offset):
                    at += 1
                continue
            if at == len(mine) or not is_same(mine[at], field):
                self.wrong.append('packet %d: %s, and not %s' % (number, mine[at] if at < len(mine) else 'nothing', field))
                return
            chunk = field.value if field.name == 'chunk' else chunk
            self.by_kind[chunk] += 1
            self.agreed, at = self.agreed + 1, at + 1
        if at < len(mine):
            self.wrong.append('packet %d: %s, and not nothing' % (number, mine[at]))


# What has to be in the capture: chunks, parameters and causes, by their types and codes.
NEEDED = {
    'chunk': {0, 1, 2, 3, 4, 5, 6, 7, 8, 9, 10, 11, 14, 15, 16, 64, 128, 130, 192, 193, 194},
    'parameter': {1, 5, 6, 7, 8, 9, 12, 13, 14, 16, 17, 0x8000, 0x8002, 0x8003, 0x8004, 0x8008, 0xC000, 0xC001, 0xC002, 0xC003, 0xC004},
    'cause': {1, 3, 6, 9, 12, 0xA2}}


def has_tshark():
    if not shutil.which('tshark'):
        return False
    done = subprocess.run(['tshark', '--version'], capture_output=True, text=True, check=False)
    return re.match(r'TShark .*\) 4\.', done.stdout) is not None


def missing(packets):
    found = {(it.name, it.value) for packet in packets for it in packet if it.name in NEEDED}
    return sorted((name, it) for name, types in NEEDED.items() for it in types if (name, it) not in found)


def main():
    if len(sys.argv) != 2 or sys.argv[1] in ('-h', '--help'):
        print(__doc__)
        return 0 if sys.argv[1:] in (['-h'], ['--help']) else 2
    data = [*records()]
    with tempfile.TemporaryDirectory() as folder:
        readers = {'sctp_dump --json': [*of_program(os.path.abspath(sys.argv[1]))]}
        if shutil.which(os.environ.get('CC', 'cc').split()[0]):
            readers['the package'] = [[*it] for it in map(Package(folder).packet, data)]
        else:
            print('fields: the package: left out, since there is no C compiler')
        others = {'tshark': [*of_tshark()]} if has_tshark() else {}
        try:
            others['scapy'] = [[*it] for it in map(Scapy().packet, data)]
        except ImportError:
            pass
        for name, version in ('tshark', 4), ('scapy', 2.5):
            if name not in others:
                print('fields: %s: left out, since there is no %s %s' % (name, name, version))
        return compare(readers, others, len(data))


def compare(readers, others, count):
    wrong = ['the capture has no %s %d' % it for it in missing(readers['sctp_dump --json'])]
    for (name, mine), (other, theirs) in itertools.product(readers.items(), others.items()):
        done = Comparison()
        for number, (fields, their_fields) in enumerate(itertools.zip_longest(mine, theirs, fillvalue=()), 1):
            done.packet(number, fields, their_fields)
        wrong += ['%s, and %s: %s' % (name, other, it) for it in done.wrong]
        kinds = ', '.join('%s %d' % (CHUNKS[it], done.by_kind[it]) for it in CHUNKS if done.by_kind[it])
        left = ', '.join('%d of %s' % (number, it) for it, number in sorted(done.left.items()))
        print('fields: %s, and %s: %d agree in %d packets, %d packets differ (%s); %s leaves %s' % (
            name, other, done.agreed, count, len(done.wrong), kinds, other, left or 'nothing'))
    print(*wrong[:40], sep='\n')
    return 1 if wrong else 0


if __name__ == '__main__':
    sys.exit(main())
