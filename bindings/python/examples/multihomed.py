# SPDX-License-Identifier: Apache-2.0
"""usage: python multihomed.py KEY ADDRESS ...

Answers as a host with these addresses does whose peer adds and deletes addresses while it talks. Each line of the input is the
address that a packet came from, and the packet in hexadecimal; what answers it is printed likewise, or an empty line. KEY, in
hexadecimal, is the key of the association (RFC 4895 section 6.1).

- INIT gets an INIT ACK with the host's addresses, a State Cookie, and the parameters that aren't known and ask to be reported.
- ASCONF after an AUTH that is right gets an ASCONF ACK after an AUTH, with an answer to each request.

It is no association: the cookie says nothing, and nothing is sent again.
"""

import sys
from collections.abc import Iterator
from ipaddress import ip_address

import davgyuti
from davgyuti import ParameterType, registered

SHA_256 = 3
KNOWN = {
    ParameterType.IPV4_ADDRESS,
    ParameterType.IPV6_ADDRESS,
    ParameterType.COOKIE_PRESERVATIVE,
    ParameterType.SUPPORTED_ADDRESS_TYPES,
    ParameterType.SUPPORTED_EXTENSIONS,
    ParameterType.RANDOM,
    ParameterType.CHUNK_LIST,
    ParameterType.REQUESTED_HMAC_ALGORITHM,
}


class Host:
    def __init__(self, key: bytes, own: list[davgyuti.Address]) -> None:
        self.key, self.own = key, own
        self.peer: list[davgyuti.Address] = []
        self.tag = self.next_number = 0
        self.last_ack = b""

    def answer(self, source: davgyuti.Address, data: bytes) -> bytes:
        """What answers a packet from this address; nothing, if it is none, or not one of these."""
        try:
            packet = davgyuti.Packet(data)
        except davgyuti.Fault as fault:
            print(fault, file=sys.stderr)
            return b""
        match packet.chunks():
            case [davgyuti.Init() as init] if packet.header.verification_tag == 0 and init.initiate_tag != 0:
                return self.init_ack(source, packet.header, init)
            case [davgyuti.RawChunk() as auth, davgyuti.RawChunk() as chunk] if self.is_right(packet, auth):
                match chunk.registered():
                    case registered.Asconf() as asconf:
                        return self.asconf_ack(source, packet.header, asconf)
        return b""

    def init_ack(self, source: davgyuti.Address, header: davgyuti.Header, init: davgyuti.Init) -> bytes:
        self.tag, self.next_number, self.peer = init.initiate_tag, init.initial_tsn, [source]
        for it in init.parameters:
            match it.registered():
                case registered.Ipv4Address(address=address) | registered.Ipv6Address(address=address):
                    self.peer.append(address)
        builder = davgyuti.PacketBuilder(header.destination_port, header.source_port, self.tag)
        with builder.init_ack(
            initiate_tag=0x0DA73798, a_rwnd=0x20000, outbound_streams=4, inbound_streams=4, initial_tsn=0x66E387AB
        ) as init_ack:
            for own in self.own:
                init_ack.parameter(registered.Ipv4Address(own) if own.version == 4 else registered.Ipv6Address(own))
            init_ack.parameter(davgyuti.StateCookie(b"abcd"))
            for unknown in reported(init.parameters):
                init_ack.parameter(registered.UnrecognizedParameter((unknown,)))
        return builder.seal()

    def asconf_ack(self, source: davgyuti.Address, header: davgyuti.Header, asconf: registered.Asconf) -> bytes:
        """RFC 5061 section 5.2: each ASCONF has the next number; the last one may come again."""
        if asconf.sequence_number == self.next_number:
            self.next_number = (self.next_number + 1) % 2**32
            answers = [answer for it in asconf.parameters if (answer := self.granted(source, it))]
            ack = registered.AsconfAck(asconf.sequence_number, tuple(answers))
            self.last_ack = self.authenticated(header, ack)
        elif (asconf.sequence_number + 1) % 2**32 != self.next_number:
            return b""
        return self.last_ack

    def granted(self, source: davgyuti.Address, request: davgyuti.Parameter) -> davgyuti.Parameter | None:
        match request.registered():
            case registered.AddIpAddress(correlation_id=number, address=address):
                self.peer.append(address)
            case registered.DeleteIpAddress(correlation_id=number, address=address):
                left = [it for it in self.peer if it != address]
                if not left:
                    return refused(number, registered.DeleteLastRemainingIpAddress((request,)))
                if address == source:
                    return refused(number, registered.DeleteSourceIpAddress((request,)))
                self.peer = left
            case registered.SetPrimaryAddress(correlation_id=number, address=address) if address in self.peer:
                self.peer.sort(key=lambda it: it != address)
            case _:
                return None
        return registered.SuccessIndication(number)

    def authenticated(self, header: davgyuti.Header, chunk: davgyuti.Chunk) -> bytes:
        builder = davgyuti.PacketBuilder(header.destination_port, header.source_port, self.tag)
        start = len(builder)
        builder.add(registered.Auth(0, SHA_256, bytes(32)))
        builder.add(chunk)
        builder.sign_auth(self.key, start)
        return builder.seal()

    def is_right(self, packet: davgyuti.Packet, auth: davgyuti.Chunk) -> bool:
        match auth.registered():
            case registered.Auth(hmac_identifier=identifier) if identifier == SHA_256:
                return davgyuti.verify_auth(self.key, bytes(packet)[auth.offset :])
        return False


def refused(number: int, cause: davgyuti.Cause) -> davgyuti.Parameter:
    return registered.ErrorCauseIndication(number, (cause,))


def reported(parameters: tuple[davgyuti.Parameter, ...]) -> Iterator[davgyuti.Parameter]:
    """Those that aren't known and are reported, up to one at which to stop (RFC 9260 section 3.2.1)."""
    for it in parameters:
        if it.type not in KNOWN:
            action = davgyuti.unrecognized_parameter(it.type)
            if action.reports:
                yield it
            if not action.skips:
                return


if __name__ == "__main__":
    host = Host(bytes.fromhex(sys.argv[1]), [ip_address(it) for it in sys.argv[2:]])
    for line in sys.stdin:
        address, _, digits = line.partition(" ")
        print(host.answer(ip_address(address), bytes.fromhex(digits)).hex())
