# SPDX-License-Identifier: Apache-2.0
"""usage: python responder.py

A responder to start from: the side of an association that is called (RFC 9260), and takes user data. Each line of the input is a
packet in hexadecimal; what answers it is printed likewise, or an empty line.

No byte is written by hand, and `Responder` has no I/O and no clock: packets and the time go in, and packets come out. Left out: user
data that is sent, and with it timers; messages put together, and streams in order; paths. There is one association at a time.
examples/c/responder.c in the repository answers the same; it calls as well, and takes COOKIE ECHO behind an AUTH, which gets no answer
here.
"""

import secrets
import sys
import time
from collections.abc import Callable, Iterable
from dataclasses import dataclass
from enum import Enum

import davgyuti
from davgyuti import Action, Answer, ChunkType, ParameterType, Refusal, TagVerdict, registered
from davgyuti import ReConfigResult as Result

COOKIE_LIFE = 60_000_000  # in microseconds, as all times
MOST_BLOCKS, MOST_DUPLICATES = 64, 16
SHA_1, SHA_256 = 1, 3
WINDOW, OUTBOUND_STREAMS, INBOUND_STREAMS = 1 << 20, 1, 64
EXTENSIONS = bytes((ChunkType.RE_CONFIG, ChunkType.I_DATA, ChunkType.FORWARD_TSN, ChunkType.I_FORWARD_TSN))
ADDRESS_TYPES = ParameterType.IPV4_ADDRESS, ParameterType.IPV6_ADDRESS
AUTH_TYPES = ParameterType.RANDOM, ParameterType.CHUNK_LIST, ParameterType.REQUESTED_HMAC_ALGORITHM
KNOWN = {
    *ADDRESS_TYPES,
    ParameterType.COOKIE_PRESERVATIVE,
    ParameterType.HOST_NAME_ADDRESS,
    ParameterType.SUPPORTED_ADDRESS_TYPES,
    ParameterType.FORWARD_TSN_SUPPORTED,
}
REQUESTS = (
    davgyuti.OutgoingSsnReset
    | davgyuti.IncomingSsnReset
    | davgyuti.SsnTsnReset
    | davgyuti.AddOutgoingStreams
    | davgyuti.AddIncomingStreams
)

State = Enum("State", "CLOSED ESTABLISHED SHUTDOWN_ACK_SENT")


@dataclass
class Next:
    """What the next association has: draw it anew once there is one. The tag isn't 0, and `random` has 32 bytes."""

    tag: int
    tsn: int
    random: bytes
    tie_tags: bytes


@dataclass
class Exchange:
    """A packet that came, and the chunks that answer it."""

    data: bytes
    answers: list[davgyuti.Chunk]
    is_sack_due: bool = False
    is_authenticated: bool = False


class Responder:
    def __init__(
        self,
        key: bytes,
        next: Next,
        take_data: Callable[[davgyuti.Data | davgyuti.IData], None],
        *,
        listed: bytes = b"",
        pair_key: bytes = b"",
        pair_key_identifier: int = 0,
    ) -> None:
        """Who knows `key` can forge cookies. `take_data` gets each TSN once, as it comes. `listed` are types of chunks that count
        after AUTH alone (RFC 4895), not COOKIE ECHO; if it is empty, there is no AUTH. The endpoint pair shared key may be empty."""
        self.key, self.next, self.take_data = key, next, take_data
        self.listed, self.pair_key, self.pair_key_identifier = listed, pair_key, pair_key_identifier
        self.state = State.CLOSED
        self.association: davgyuti.Cookie | None = None  # nothing is kept of an INIT until its cookie comes back
        self.tie_tags = b""

    def receive(self, now: int, data: bytes) -> bytes:
        """Takes a packet, and returns the one that answers it, or nothing: for bytes that are none too, and where no packet has
        room for the answer."""
        try:
            return self.answer_packet(now, davgyuti.Packet(data))
        except (davgyuti.Fault, davgyuti.WriteError):
            return b""

    def answer_packet(self, now: int, packet: davgyuti.Packet) -> bytes:
        header = packet.header
        if header.source_port == 0 or header.destination_port == 0:
            return b""
        match self.verdict(packet):
            case TagVerdict.ACCEPT:
                return self.answer_chunks(packet)
            case TagVerdict.DISCARD:
                return b""
            case TagVerdict.OUT_OF_THE_BLUE:
                answer = davgyuti.out_of_the_blue(bytes(packet), is_unicast=True)
                if answer in (Answer.SHUTDOWN_COMPLETE, Answer.ABORT):
                    return davgyuti.reply(header, answer)
                if answer == Answer.DISCARD:
                    return b""
        match packet.chunks()[0]:
            case davgyuti.Init() as init:
                return self.answer_init(now, packet, init)
            case davgyuti.CookieEcho(cookie=cookie):
                refusal = self.open_association(now, header, cookie)
                return self.answer_chunks(packet) if refusal is None else refusal
        return b""

    def verdict(self, packet: davgyuti.Packet) -> TagVerdict:
        it = self.association
        if self.state is State.CLOSED or it is None or not self.has_its_ports(packet.header):
            return TagVerdict.OUT_OF_THE_BLUE
        return davgyuti.verify_tag(bytes(packet), it.local_tag, it.peer_tag, awaits_cookie=False)

    def has_its_ports(self, header: davgyuti.Header) -> bool:
        it = self.association
        return it is not None and (header.source_port, header.destination_port) == (it.peer_port, it.local_port)

    # -- the beginning of an association

    def answer_init(self, now: int, packet: davgyuti.Packet, init: davgyuti.Init) -> bytes:
        """INIT ACK, also to a peer that begins anew; or the ABORT that says what is wrong with the INIT, if it asks for one."""
        header, is_there = packet.header, self.state is not State.CLOSED
        fault = davgyuti.init_fault(bytes(packet), is_ack=False)
        has_tag = self.association is not None and self.next.tag == self.association.local_tag
        if is_there and (not self.has_its_ports(header) or has_tag):
            return b""
        if fault != davgyuti.InitFault.NO_FAULT:
            is_refused = davgyuti.init_refusal(fault, is_ack=False, in_cookie_wait=False) == Refusal.ABORT
            return davgyuti.init_abort(header, init.initiate_tag, fault) if is_refused else b""
        if self.state is State.SHUTDOWN_ACK_SENT:  # section 9.2
            return self.answer([davgyuti.ShutdownAck()])
        builder = davgyuti.PacketBuilder(header.destination_port, header.source_port, init.initiate_tag)
        if is_there and davgyuti.adds_addresses(init, self.addresses):  # section 5.2.2
            builder.abort().new_addresses(init, self.addresses)
            return builder.seal()
        peer = of_types(init, AUTH_TYPES)
        if self.listed and any(it.type == ParameterType.RANDOM and len(it.value) != 32 for it in peer):
            builder.add(davgyuti.Abort((davgyuti.ProtocolViolation(b""),)))  # RFC 4895 section 6.1
            return builder.seal()
        own: list[davgyuti.Parameter] = []
        extensions = EXTENSIONS
        if self.listed:
            hmacs = registered.RequestedHmacAlgorithm((SHA_256, SHA_1))  # the first is preferred
            own = [registered.Random(self.next.random), registered.ChunkList(self.listed), hmacs]
            extensions += bytes((ChunkType.AUTH,))
        cookie = davgyuti.Cookie(
            created=now,
            lifespan=lifespan(init),
            local_tag=self.next.tag,
            peer_tag=init.initiate_tag,
            local_initial_tsn=self.next.tsn,
            peer_initial_tsn=init.initial_tsn,
            local_port=header.destination_port,
            peer_port=header.source_port,
            outbound_streams=OUTBOUND_STREAMS,
            inbound_streams=init.outbound_streams,
            extra=of_parameters(
                (
                    *([self.ties()] if is_there else []),
                    *own,
                    *(peer if self.listed else []),
                    *of_types(init, ADDRESS_TYPES),
                )
            ),
        )
        parameters = (
            *own,
            davgyuti.StateCookie(davgyuti.seal_cookie(self.key, cookie)),
            davgyuti.SupportedExtensions(extensions),
            davgyuti.ForwardTsnSupported(),
            *reported(init.parameters),
        )
        next = self.next
        builder.add(davgyuti.InitAck(next.tag, WINDOW, OUTBOUND_STREAMS, INBOUND_STREAMS, next.tsn, parameters))
        return builder.seal()

    def ties(self) -> davgyuti.Parameter:
        """The Tie-Tags (section 5.2.2) in a cookie, in the place of the association's tags, which nobody else may learn."""
        return davgyuti.HeartbeatInfo(self.tie_tags)

    def open_association(self, now: int, header: davgyuti.Header, sealed: bytes) -> bytes | None:
        """Opens the association of a cookie, also if the peer begins anew; one that is open stays. Returns None, or else what
        answers where it isn't open."""
        staleness = 0
        try:
            cookie = davgyuti.open_cookie(self.key, sealed, now)
        except davgyuti.CookieError as error:
            if error.cookie is None:
                return b""
            cookie, staleness = error.cookie, error.staleness
        numbers = cookie.peer_port, cookie.local_port, cookie.local_tag
        if (header.source_port, header.destination_port, header.verification_tag) != numbers:
            return b""
        kept = parameters_of(cookie.extra)
        it = self.association if self.state is not State.CLOSED else None
        is_local, is_next = it is not None and cookie.local_tag == it.local_tag, cookie.local_tag == self.next.tag
        is_peers = it is not None and cookie.peer_tag == it.peer_tag
        if is_local and is_peers:  # however old the cookie is (section 5.2.4, action D)
            return None
        if staleness > 0:
            builder = davgyuti.PacketBuilder(cookie.local_port, cookie.peer_port, cookie.peer_tag)
            builder.add(davgyuti.OperationError((registered.StaleCookie(min(staleness, 0xFFFFFFFF)),)))
            return builder.seal()
        # Neither action A nor B, and none of a new association.
        if not is_local and (not is_next or (it is not None and (is_peers or self.ties() not in kept))):
            return b""
        if self.state is State.SHUTDOWN_ACK_SENT:
            error_chunk = davgyuti.OperationError((davgyuti.CookieReceivedWhileShuttingDown(),))
            return self.answer([davgyuti.ShutdownAck(), error_chunk])
        self.state, self.association = State.ESTABLISHED, cookie
        if is_next:
            self.tie_tags = self.next.tie_tags
        self.cumulative_tsn = (cookie.peer_initial_tsn - 1) % 2**32
        self.next_request = cookie.peer_initial_tsn  # RFC 6525 section 5.1.1
        self.last_result = Result.NOTHING_TO_DO
        self.blocks: list[davgyuti.GapAckBlock] = []
        self.duplicates: list[int] = []  # since the last SACK
        self.addresses = of_parameters(tuple(it for it in kept if it.type in ADDRESS_TYPES))  # of the peer
        self.open_auth([it for it in kept if it.type not in (ParameterType.HEARTBEAT_INFO, *ADDRESS_TYPES)])
        return None

    def open_auth(self, kept: list[davgyuti.Parameter]) -> None:
        """Takes the parameters of AUTH, first the three of this end: without padding they are the key vectors (RFC 4895 section
        6.1)."""
        own, peer = kept[:3], kept[3:]
        self.shared_key, self.peer_listed, self.hmac = b"", b"", 0
        for it in peer:
            match it.registered():
                case registered.ChunkList(types=types):
                    self.peer_listed = types
                case registered.RequestedHmacAlgorithm(hmacs=hmacs):
                    self.hmac = next((hmac for hmac in hmacs if hmac in (SHA_1, SHA_256)), 0)
        if self.hmac and any(it.type == ParameterType.RANDOM for it in peer):
            vectors = (b"".join(map(bytes, it)) for it in (own, peer))
            self.shared_key = davgyuti.shared_key(self.pair_key, *vectors)

    # -- what comes in the association

    def answer_chunks(self, packet: davgyuti.Packet) -> bytes:
        exchange = Exchange(bytes(packet), [])
        for index, chunk in enumerate(packet):
            if not self.take_chunk(exchange, chunk, is_first=index == 0):
                break
        if exchange.is_sack_due and self.state is not State.CLOSED:
            sack = davgyuti.Sack(self.cumulative_tsn, WINDOW, tuple(self.blocks), tuple(self.duplicates))
            exchange.answers.append(sack)
            self.duplicates = []
        return self.answer(exchange.answers)

    def answer(self, chunks: list[davgyuti.Chunk]) -> bytes:
        """The packet of these chunks, with AUTH before the first of those that the peer listed (RFC 4895 section 6.2); nothing, if
        there are none."""
        it, start = self.association, None
        if it is None or not chunks:
            return b""
        builder = davgyuti.PacketBuilder(it.local_port, it.peer_port, it.peer_tag)
        for chunk in chunks:
            if self.shared_key and start is None and davgyuti.is_listed(self.peer_listed, chunk.type):
                start = len(builder)
                builder.add(registered.Auth(self.pair_key_identifier, self.hmac, bytes(20 if self.hmac == SHA_1 else 32)))
            builder.add(chunk)
        if start is not None:
            builder.sign_auth(self.shared_key, start)
        return builder.seal()

    def take_chunk(self, exchange: Exchange, chunk: davgyuti.Chunk, *, is_first: bool) -> bool:
        """Returns whether those after it are looked at (RFC 4895 section 6.3)."""
        if self.listed and chunk.type == ChunkType.AUTH:
            return self.take_auth(exchange, chunk)
        if not exchange.is_authenticated and davgyuti.is_listed(self.listed, chunk.type):
            return True
        return self.answer_chunk(exchange, chunk, is_first=is_first)

    def take_auth(self, exchange: Exchange, chunk: davgyuti.Chunk) -> bool:
        auth = chunk.registered()
        if exchange.is_authenticated or not isinstance(auth, registered.Auth):
            return False
        if auth.hmac_identifier not in (SHA_1, SHA_256):
            cause = registered.UnsupportedHmacIdentifier(auth.hmac_identifier)
            exchange.answers.append(davgyuti.OperationError((cause,)))
            return False
        exchange.is_authenticated = (
            auth.key == self.pair_key_identifier
            and self.shared_key != b""
            and davgyuti.verify_auth(self.shared_key, exchange.data[chunk.offset :])
        )
        return exchange.is_authenticated

    def answer_chunk(self, exchange: Exchange, chunk: davgyuti.Chunk, *, is_first: bool) -> bool:
        match chunk:
            case davgyuti.CookieEcho():
                if is_first:
                    exchange.answers.append(davgyuti.CookieAck())
                return is_first
            case davgyuti.Data() | davgyuti.IData():
                return self.take_user_data(exchange, chunk)
            case davgyuti.ForwardTsn() | davgyuti.IForwardTsn():
                self.skip(chunk.new_cumulative_tsn)
                exchange.is_sack_due = True
            case davgyuti.ReConfig():
                self.answer_requests(exchange, chunk.parameters)
            case davgyuti.Heartbeat(parameters=(davgyuti.HeartbeatInfo() as info, *_)):
                exchange.answers.append(davgyuti.HeartbeatAck((info,)))
            case davgyuti.Shutdown():
                self.state = State.SHUTDOWN_ACK_SENT
                exchange.answers.append(davgyuti.ShutdownAck())
            case davgyuti.ShutdownAck():
                self.state = State.CLOSED
                exchange.answers.append(davgyuti.ShutdownComplete())
                return False
            case davgyuti.ShutdownComplete() | davgyuti.Abort():
                self.state = State.CLOSED
                return False
            case davgyuti.RawChunk():  # unknown: reported, and perhaps the last that is looked at (section 3.2)
                action = davgyuti.unrecognized_chunk(chunk.type)
                if action in (Action.STOP_AND_REPORT, Action.SKIP_AND_REPORT):
                    exchange.answers.append(davgyuti.OperationError((davgyuti.UnrecognizedChunk(bytes(chunk)),)))
                return action in (Action.SKIP, Action.SKIP_AND_REPORT)
        return True

    def is_past(self, tsn: int) -> bool:
        """Whether a TSN is the cumulative one, or comes before it."""
        return (tsn - self.cumulative_tsn - 1) % 2**32 >= 2**31 - 1

    def take_user_data(self, exchange: Exchange, data: davgyuti.Data | davgyuti.IData) -> bool:
        """What is too far away, or would make too many gaps, is as if lost."""
        if not data.payload:  # section 6.2
            exchange.answers.append(davgyuti.Abort((davgyuti.NoUserData(data.tsn),)))
            self.state = State.CLOSED
            return False
        exchange.is_sack_due = True
        offset = (data.tsn - self.cumulative_tsn) % 2**32
        if self.is_past(data.tsn) or any(start <= offset <= end for start, end in self.blocks):
            self.duplicates = [*self.duplicates, data.tsn][:MOST_DUPLICATES]
        elif offset <= 0xFFFF and (offset == 1 or len(self.blocks) + 1 < MOST_BLOCKS):
            self.take_offsets(offset, offset)
            self.take_data(data)
        return True

    def take_offsets(self, first: int, last: int) -> None:
        """The cumulative TSN moves over those that have come without a gap."""
        self.blocks = davgyuti.clean_blocks([*self.blocks, (first, last)])
        start, moved = self.blocks[0]
        if start == 1:
            self.cumulative_tsn = (self.cumulative_tsn + moved) % 2**32
            self.blocks = [davgyuti.GapAckBlock(start - moved, end - moved) for start, end in self.blocks[1:]]

    def skip(self, new_cumulative_tsn: int) -> None:
        """RFC 3758 section 3.6."""
        offset = (new_cumulative_tsn - self.cumulative_tsn) % 2**32
        if self.is_past(new_cumulative_tsn):
            return
        if offset <= 0xFFFF:
            self.take_offsets(1, offset)
        else:
            self.cumulative_tsn, self.blocks = new_cumulative_tsn, []

    def answer_requests(self, exchange: Exchange, parameters: Iterable[davgyuti.Parameter]) -> None:
        """RFC 6525 sections 4.4 and 5.2; the last request is answered once more, as before. The own streams carry nothing, and
        stay."""
        responses = []
        for request in parameters:
            if not isinstance(request, REQUESTS):
                continue
            number = request.request_number
            is_next, result = number == self.next_request, Result.BAD_SEQUENCE_NUMBER
            if is_next:
                match request:
                    case davgyuti.OutgoingSsnReset(last_tsn=last_tsn):
                        self.last_result = Result.PERFORMED if self.is_past(last_tsn) else Result.IN_PROGRESS
                    case davgyuti.AddOutgoingStreams():
                        self.last_result = Result.PERFORMED
                    case _:
                        self.last_result = Result.DENIED
            if is_next or (number + 1) % 2**32 == self.next_request:
                result = self.last_result
            if is_next and self.last_result != Result.IN_PROGRESS:
                self.next_request = (number + 1) % 2**32
            responses.append(davgyuti.ReConfigResponse(number, result))
        if responses:
            exchange.answers.append(davgyuti.ReConfig(tuple(responses)))


def of_types(init: davgyuti.Init, types: Iterable[int]) -> list[davgyuti.Parameter]:
    """Those of the first type, then those of the next one."""
    return [it for kind in types for it in init.parameters if it.type == kind]


def lifespan(init: davgyuti.Init) -> int:
    """How long the cookie for an INIT is good: longer, if that asks for it (section 3.3.2.1.3), but not too long."""
    for it in init.parameters:
        match it.registered():
            case registered.CookiePreservative(milliseconds=milliseconds):
                return COOKIE_LIFE + min(1000 * milliseconds, COOKIE_LIFE)
    return COOKIE_LIFE


def reported(parameters: Iterable[davgyuti.Parameter]) -> list[davgyuti.Parameter]:
    """Those that aren't known and are reported, up to one at which to stop (section 3.2.1)."""
    found: list[davgyuti.Parameter] = []
    for it in parameters:
        if it.type not in KNOWN:
            action = davgyuti.unrecognized_parameter(it.type)
            if action in (Action.STOP_AND_REPORT, Action.SKIP_AND_REPORT):
                found.append(registered.UnrecognizedParameter((it,)))
            if action in (Action.STOP, Action.STOP_AND_REPORT):
                break
    return found


def of_parameters(parameters: tuple[davgyuti.Parameter, ...]) -> bytes:
    """A list of parameters, as bytes for a cookie; and back."""
    return registered.UnrecognizedParameter(parameters).value


def parameters_of(data: bytes) -> tuple[davgyuti.Parameter, ...]:
    it = davgyuti.parameter(ParameterType.UNRECOGNIZED_PARAMETER, data).registered()
    return it.parameters if isinstance(it, registered.UnrecognizedParameter) else ()


def draw() -> Next:
    return Next(1 + secrets.randbelow(2**32 - 1), secrets.randbits(32), secrets.token_bytes(32), secrets.token_bytes(8))


if __name__ == "__main__":
    responder = Responder(secrets.token_bytes(32), draw(), lambda data: print(data, file=sys.stderr))
    for line in sys.stdin:
        print(responder.receive(time.monotonic_ns() // 1000, bytes.fromhex(line)).hex(), flush=True)
        if responder.association is not None and responder.association.local_tag == responder.next.tag:
            responder.next = draw()
