# SPDX-License-Identifier: Apache-2.0
"""aiortc with the package davgyuti in place of what it reads and writes packets by itself."""

import collections
import contextlib

import davgyuti
from aiortc import rtcsctptransport as sctp


def items_of(chunk):
    """What aiortc keeps of parameters and error causes: types and bytes."""
    of_chunk = getattr(chunk, "parameters", None)
    return [(it.code, it.value) for it in chunk.causes] if of_chunk is None else [(it.type, it.value) for it in of_chunk]


def made(kind, flags=0, **fields):
    chunk = kind(flags)
    vars(chunk).update(fields)
    return chunk


def read_data(it):
    return made(sctp.DataChunk, it.flags, tsn=it.tsn, stream_id=it.stream, stream_seq=it.ssn, protocol=it.ppid, user_data=it.payload)


def read_init(it):
    kind = sctp.InitChunk if isinstance(it, davgyuti.Init) else sctp.InitAckChunk
    return made(kind, initiate_tag=it.initiate_tag, advertised_rwnd=it.a_rwnd, outbound_streams=it.outbound_streams,
                inbound_streams=it.inbound_streams, initial_tsn=it.initial_tsn, params=items_of(it))


READ = {
    davgyuti.Data: read_data,
    davgyuti.Init: read_init,
    davgyuti.InitAck: read_init,
    davgyuti.Sack: lambda it: made(sctp.SackChunk, cumulative_tsn=it.cumulative_tsn_ack, advertised_rwnd=it.a_rwnd,
                                   gaps=it.blocks, duplicates=it.duplicates),
    davgyuti.Heartbeat: lambda it: made(sctp.HeartbeatChunk, params=items_of(it)),
    davgyuti.HeartbeatAck: lambda it: made(sctp.HeartbeatAckChunk, params=items_of(it)),
    davgyuti.Abort: lambda it: made(sctp.AbortChunk, params=items_of(it)),
    davgyuti.OperationError: lambda it: made(sctp.ErrorChunk, params=items_of(it)),
    davgyuti.ReConfig: lambda it: made(sctp.ReconfigChunk, params=items_of(it)),
    davgyuti.ForwardTsn: lambda it: made(sctp.ForwardTsnChunk, cumulative_tsn=it.new_cumulative_tsn, streams=list(it.streams)),
    davgyuti.Shutdown: lambda it: made(sctp.ShutdownChunk, cumulative_tsn=it.cumulative_tsn_ack),
    davgyuti.ShutdownAck: lambda it: made(sctp.ShutdownAckChunk),
    davgyuti.ShutdownComplete: lambda it: made(sctp.ShutdownCompleteChunk),
    davgyuti.CookieEcho: lambda it: made(sctp.CookieEchoChunk, body=it.cookie),
    davgyuti.CookieAck: lambda it: made(sctp.CookieAckChunk),
}


# How often aiortc read and wrote by the package.
counts = collections.Counter()


def parse_packet(data):
    """As aiortc's: raises ValueError for what is no packet, and leaves out chunks that aiortc doesn't know, and flags of all but DATA."""
    counts["read"] += 1
    packet = davgyuti.Packet(data)
    header = packet.header
    chunks = [READ[type(it)](it) for it in packet.chunks() if type(it) in READ]
    return header.source_port, header.destination_port, header.verification_tag, chunks


def parameters(it):
    return tuple(davgyuti.parameter(typ, value) for typ, value in it.params)


def init(kind, it):
    return kind(it.initiate_tag, it.advertised_rwnd, it.outbound_streams, it.inbound_streams, it.initial_tsn, parameters(it))


def write_data(it):
    data = davgyuti.Data(tsn=it.tsn, stream=it.stream_id, ssn=it.stream_seq, ppid=it.protocol, payload=it.user_data)
    return data.with_flags(it.flags)


WRITTEN = {
    sctp.DataChunk: write_data,
    sctp.InitChunk: lambda it: init(davgyuti.Init, it),
    sctp.InitAckChunk: lambda it: init(davgyuti.InitAck, it),
    sctp.SackChunk: lambda it: davgyuti.Sack(it.cumulative_tsn, it.advertised_rwnd, tuple(davgyuti.GapAckBlock(*gap) for gap in it.gaps),
                                             tuple(it.duplicates)),
    sctp.HeartbeatChunk: lambda it: davgyuti.Heartbeat(parameters(it)),
    sctp.HeartbeatAckChunk: lambda it: davgyuti.HeartbeatAck(parameters(it)),
    sctp.AbortChunk: lambda it: davgyuti.Abort(tuple(davgyuti.cause(code, value) for code, value in it.params)),
    sctp.ErrorChunk: lambda it: davgyuti.OperationError(tuple(davgyuti.cause(code, value) for code, value in it.params)),
    sctp.ReconfigChunk: lambda it: davgyuti.ReConfig(parameters(it)),
    sctp.ForwardTsnChunk: lambda it: davgyuti.ForwardTsn(it.cumulative_tsn, tuple(davgyuti.SkippedStream(*of) for of in it.streams)),
    sctp.ShutdownChunk: lambda it: davgyuti.Shutdown(it.cumulative_tsn),
    sctp.ShutdownAckChunk: lambda it: davgyuti.ShutdownAck(),
    sctp.ShutdownCompleteChunk: lambda it: davgyuti.ShutdownComplete(),
    sctp.CookieEchoChunk: lambda it: davgyuti.CookieEcho(it.body),
    sctp.CookieAckChunk: lambda it: davgyuti.CookieAck(),
}


def serialize_packet(source_port, destination_port, verification_tag, chunk):
    counts["written"] += 1
    builder = davgyuti.PacketBuilder(source_port, destination_port, verification_tag)
    builder.add(WRITTEN[type(chunk)](chunk))
    return builder.seal()


@contextlib.contextmanager
def over_the_package():
    """Has aiortc read and write by the package."""
    own = sctp.parse_packet, sctp.serialize_packet
    counts.clear()
    sctp.parse_packet, sctp.serialize_packet = parse_packet, serialize_packet
    try:
        yield
    finally:
        sctp.parse_packet, sctp.serialize_packet = own
