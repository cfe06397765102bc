#!/usr/bin/python3
# SPDX-License-Identifier: Apache-2.0
"""Compares the SCTP packets that sctp_dump finds in tunnels, and what it says of these, with what tshark finds.

usage: tests/dump/tunnels.py [PROGRAM]

scapy writes the frames; of those that are cut off or have a changed byte, what both find has to be from the same addresses. Frames that
lie are in runs.txt. Prints what differs. Status: 0 if all agree, 1 if not. Needed are scapy 2.5 and tshark 4."""
import json
import random
import struct
import subprocess
import sys
import tempfile
import xml.etree.ElementTree

sys.path.pop(0)  # a file beside this one has scapy's name
from scapy.contrib.erspan import ERSPAN_II, ERSPAN_III, ERSPAN_PlatformSpecific
from scapy.contrib.geneve import GENEVE, GeneveOptions
from scapy.contrib.gtp import GTP_U_Header, GTPPDUSessionContainer
from scapy.layers.inet import IP, UDP
from scapy.layers.inet6 import IPv6, IPv6ExtHdrDestOpt, IPv6ExtHdrHopByHop
from scapy.layers.l2 import Dot1Q, Ether, GRE
from scapy.layers.ppp import HDLC, PPP, PPPoE
from scapy.layers.vxlan import VXLAN
from scapy.packet import Raw

SCTP, V4, V6 = Raw(bytes.fromhex('138813890102030400000000 0b000004')), ('10.9.0.1', '10.9.0.2'), ('fd00:9::1', 'fd00:9::2')
INNER = (IP(proto=132, src=V4[0], dst=V4[1]) / SCTP, IP(src=V4[0], dst=V4[1]) / UDP(sport=9899, dport=9899, chksum=0) / SCTP,
         IPv6(nh=132, src=V6[0], dst=V6[1]) / SCTP, IPv6(src=V6[0], dst=V6[1]) / IPv6ExtHdrHopByHop() / IPv6ExtHdrDestOpt(nh=132) / SCTP)
MAC = Ether(src='02:00:00:00:00:01', dst='02:00:00:00:00:02')


# of tshark's layers that are a tunnel the kind, and the field with the identifier
KINDS = {'vxlan': ('VXLAN', 'vxlan.vni'), 'geneve': ('Geneve', 'geneve.vni'), 'gtp': ('GTP-U', 'gtp.teid'), 'gre': ('GRE', 'gre.key')}


def by_version(packet, four, six):
    return four if isinstance(packet, IP) else six


def in_ip(outer, number, payload, place=1):
    front = by_version(outer(), '192.0.2.', '2001:db8::')
    return outer(**{by_version(outer(), 'proto', 'nh'): number}, src=front + str(place), dst=front + str(place + 1)) / Raw(bytes(payload))


def tunnels(packet):
    """The protocol number and the payload of each kind of tunnel that has this packet in it."""
    in_udp = lambda port, *parts: (17, UDP(sport=50000, dport=port, chksum=0) / Raw(b''.join(map(bytes, parts))))
    frame, kind = bytes(MAC / packet), by_version(packet, 0x0800, 0x86dd)
    yield by_version(packet, 4, 41), packet
    for bits in range(8):  # a checksum, a key and a sequence number
        yield 47, GRE(proto=kind, chksum_present=bits & 1, key_present=bits >> 1 & 1, seqnum_present=bits >> 2, key=0x1020304) / packet
    yield from ((47, GRE(proto=kind, key_present=kind == 0x6558, key=0xfffefd07) / Raw(frame)) for kind in (0x6558, 0x88be))
    for protocol, layer in ((0x88be, ERSPAN_II(ver=1, session_id=677)), (0x22eb, ERSPAN_III(session_id=1023)),
                            (0x22eb, ERSPAN_III(o=1, session_id=3) / ERSPAN_PlatformSpecific())):
        yield 47, GRE(proto=protocol, seqnum_present=1) / Raw(bytes(layer) + frame)
        yield 47, GRE(proto=protocol, seqnum_present=1, key_present=1, key=9) / Raw(bytes(layer) + frame)
    yield from (in_udp(4789, VXLAN(vni=0x123456), it) for it in (frame, MAC / Dot1Q(vlan=7) / packet))
    yield from (in_udp(6081, GENEVE(proto=0x6558, vni=0xfedcba, options=[GeneveOptions(data=b'1234')] * count), frame) for count in (0, 3))
    yield in_udp(6081, GENEVE(proto=kind, vni=7), packet)
    for flags in {}, {'S': 1}, {'PN': 1}, {'S': 1, 'PN': 1}:
        yield in_udp(2152, GTP_U_Header(gtp_type=255, teid=0xa0b0c0d, **flags) / packet)
    yield in_udp(2152, GTP_U_Header(gtp_type=255, teid=1, E=1, next_ex=0x85) / GTPPDUSessionContainer(QFI=3) / packet)


def nflog(order, packet, family):
    logged = (1, bytes.fromhex('08000300')), (10, b'log\0'), (0x8012, bytes(8)), (9, packet)  # as Linux's nfnetlink_log.h numbers them
    return bytes([family, 0, 0, 5]) + b''.join(struct.pack(order + 'HH', len(it) + 4, kind) + it + bytes(-len(it) % 4) for kind, it in logged)


def frames():
    """Frames with the byte order and the link type of their capture; those of Ethernet have bytes behind that aren't theirs."""
    for inner in INNER:
        for outer in IP, IPv6:
            for number, payload in tunnels(inner):
                packet = in_ip(outer, number, payload)
                yield '<', 1, bytes(MAC / packet) + bytes(10)
                yield '<', 101, bytes(in_ip(IP, 47, GRE(proto=by_version(packet, 0x0800, 0x86dd)) / packet, 7))
        raw, code, kind = bytes(inner), *by_version(inner, (0x21, b'\x08\0'), (0x57, b'\x86\xdd'))
        yield from (('<', 9, front + bytes(number) + raw) for front in (b'', b'\xff\3') for number in ((0, code), (code,)))
        yield from (('<', 50, it + raw) for it in (bytes(HDLC() / PPP(proto=code)), b'\x0f\0' + kind))
        yield '<', 1, bytes(MAC / PPPoE(sessionid=1) / PPP(proto=code) / inner)
        yield from ((order, 239, nflog(order, raw, by_version(inner, 2, 10))) for order in '<>')


def mine(program, path):
    run = subprocess.run([program, '--json', path], capture_output=True, text=True, timeout=600, check=False)
    assert run.returncode in (0, 1, 2) and not run.stderr, run
    keys = 'from', 'to', 'udp_source', 'udp_destination', 'tunnels', 'tag', 'length'
    return {it['packet']: [it.get(key) for key in keys] for it in [*map(json.loads, run.stdout.splitlines())][:-1] if 'packet' in it}


def tunnels_of(layers):
    """The tunnels among tshark's layers, or None if there are none."""
    found, ends = [], None
    for (before, _), (name, of) in zip([(None, None)] + layers, layers):
        kind, key = KINDS.get(name, ('IP', None) if name in ('ip', 'ipv6') and before in ('ip', 'ipv6') else (None, None))
        if of.get('gre.proto') in ('0x000088be', '0x000022eb', '0x88be', '0x22eb'):
            kind, key = 'ERSPAN', None
        if kind and ends:  # (NFLOG's layers may have an empty one of IP)
            found.append({'kind': kind, 'from': ends[0], 'to': ends[1], **({'identifier': int(of[key], 0)} if key in of else {})})
        if name + '.src' in of and name in ('ip', 'ipv6'):
            ends = of[name + '.src'], of.get(name + '.dst')
        if name == 'erspan' and 'erspan.spanid' in of:
            found[-1]['identifier'] = int(of['erspan.spanid'], 0)
    return found or None


def theirs(path):
    """The same, of the last IP header, and of UDP if it is before SCTP."""
    run = subprocess.run(['tshark', '-n', '-r', path, '-T', 'pdml', '-o', 'ip.defragment:FALSE'], capture_output=True, check=False)
    for packet in xml.etree.ElementTree.fromstring(run.stdout).iter('packet'):
        found, layers = [], [(it.get('name'), {of.get('name'): of.get('show') for of in it.iter('field')}) for it in packet]
        for (before, ports), (name, of) in zip(layers, layers[1:]):
            found = [of.get(name + '.src'), of.get(name + '.dst'), None, None, tunnels_of(layers)] if name in ('ip', 'ipv6') else found
            if name == 'sctp' and 'sctp.verification_tag' in of:
                found[2:4] = (int(ports['udp.srcport']), int(ports['udp.dstport'])) if before == 'udp' else found[2:4]
                yield int(layers[0][1]['num']), found + [int(of['sctp.verification_tag'], 0), 16]


def main(program, path):
    draw, wrong, counts, whole = random.Random(1), [], [0, 0], [*frames()]
    for order, link in sorted({it[:2] for it in whole}):
        records = [(it[2], it[2]) for it in whole if it[:2] == (order, link)]
        for at, (_, frame) in ((draw.randrange(len(it[0])), it) for it in draw.choices(records, k=400)):
            records.append((frame[:at] + draw.choice((b'', bytes([draw.randrange(256)]) + frame[at + 1:])), frame))
        with open(path, 'wb') as file:
            file.writelines([struct.pack(order + 'IHHIIII', 0xa1b2c3d4, 2, 4, 0, 0, 262144, link)]
                            + [struct.pack(order + 'IIII', 0, 0, len(it), len(frame)) + it for it, frame in records])
        found, other = mine(program, path), dict(theirs(path))
        for number, (it, frame) in enumerate(records, 1):
            a, b, part = found.get(number), other.get(number), 7 if it is frame else 5
            if it is frame or a and b:
                counts[it is frame] += 1
                wrong += [] if a and b and a[:part] == b[:part] else ['%s: sctp_dump %s, tshark %s' % (it.hex(), a, b)]
    print(*wrong, 'tunnels: %d frames, %d cut off or changed ones, %d differ' % (*counts[::-1], len(wrong)), sep='\n')
    return 1 if wrong or 0 in counts else 0


if __name__ == '__main__':
    with tempfile.NamedTemporaryFile(suffix='.pcap') as place:
        sys.exit(main((sys.argv[1:] or ['crates/sctp_dump/out/sctp_dump'])[0], place.name))
