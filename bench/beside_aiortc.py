#!/usr/bin/env python3
# SPDX-License-Identifier: Apache-2.0
"""Reads and writes packets by the package davgyuti, and by aiortc; bench/packages.py says what such a program does.

usage: beside_aiortc.py ROUNDS MILLIS FILE.."""
import struct
import sys
import time

import davgyuti
from aiortc import rtcsctptransport as aiortc


def sum_of_value(value):
    return len(value) + value[0] if value else 0


# ---- by davgyuti

# The sum of the value of a kind of parameters or error causes, by its fields. One that isn't here writes its value.
SUMS_OF_VALUES = {
    davgyuti.ForwardTsnSupported: lambda it: 0,
    davgyuti.HeartbeatInfo: lambda it: sum_of_value(it.info),
    davgyuti.StateCookie: lambda it: sum_of_value(it.cookie),
    davgyuti.SupportedExtensions: lambda it: sum_of_value(it.chunk_types),
    davgyuti.OutgoingSsnReset: lambda it: 12 + 2 * len(it.streams) + (it.request_number >> 24),
    davgyuti.ReConfigResponse: lambda it: (16 if it.next_tsns else 8) + (it.response_number >> 24),
    davgyuti.MissingMandatoryParameter: lambda it: 4 + 2 * len(it.types),
    davgyuti.UnrecognizedChunk: lambda it: sum_of_value(it.chunk),
    davgyuti.UserInitiatedAbort: lambda it: sum_of_value(it.reason),
    davgyuti.ProtocolViolation: lambda it: sum_of_value(it.information),
}


def sum_by_value(it):
    return sum_of_value(it.value)


def sum_of_parameters(parameters):
    total = 0
    for it in parameters:
        total += it.type + SUMS_OF_VALUES.get(type(it), sum_by_value)(it)
    return total


def sum_of_causes(causes):
    total = 0
    for it in causes:
        total += it.code + SUMS_OF_VALUES.get(type(it), sum_by_value)(it)
    return total


def sum_of_data(it):
    bits = it.is_unordered + it.is_beginning + it.is_end + it.immediate_ack
    return it.tsn + it.stream + it.ssn + it.ppid + bits + sum_of_value(it.payload)


def sum_of_i_data(it):
    bits = it.is_unordered + it.is_beginning + it.is_end + it.immediate_ack
    return it.tsn + it.stream + it.mid + it.ppid + it.fsn + bits + sum_of_value(it.payload)


def sum_of_init(it):
    numbers = it.initiate_tag + it.a_rwnd + it.outbound_streams + it.inbound_streams + it.initial_tsn
    return numbers + sum_of_parameters(it.parameters)


def sum_of_sack(it):
    return it.cumulative_tsn_ack + it.a_rwnd + sum(it.duplicates) + sum(map(sum, it.blocks))


SUMS = {
    davgyuti.Data: sum_of_data,
    davgyuti.IData: sum_of_i_data,
    davgyuti.Init: sum_of_init,
    davgyuti.InitAck: sum_of_init,
    davgyuti.Sack: sum_of_sack,
    davgyuti.Heartbeat: lambda it: sum_of_parameters(it.parameters),
    davgyuti.HeartbeatAck: lambda it: sum_of_parameters(it.parameters),
    davgyuti.Abort: lambda it: sum_of_causes(it.causes),
    davgyuti.Shutdown: lambda it: it.cumulative_tsn_ack,
    davgyuti.ShutdownAck: lambda it: 0,
    davgyuti.OperationError: lambda it: sum_of_causes(it.causes),
    davgyuti.CookieEcho: lambda it: sum_of_value(it.cookie),
    davgyuti.CookieAck: lambda it: 0,
    davgyuti.ShutdownComplete: lambda it: 0,
    davgyuti.ReConfig: lambda it: sum_of_parameters(it.parameters),
    davgyuti.ForwardTsn: lambda it: it.new_cumulative_tsn + sum(s.stream + s.ssn for s in it.streams),
    davgyuti.IForwardTsn: lambda it: it.new_cumulative_tsn + sum(s.stream + s.mid + s.is_unordered for s in it.streams),
    davgyuti.RawChunk: lambda it: sum_of_value(it.value),
}


def read_by_davgyuti(data):
    try:
        packet = davgyuti.Packet(data)
    except davgyuti.Fault:
        return 0
    total = 1
    for it in packet.chunks():
        total += it.type + SUMS[type(it)](it)
    return total


def iterated_by_davgyuti(data):
    """As the README's first lines read."""
    total = 1
    for it in davgyuti.Packet(data):
        total += it.type + SUMS[type(it)](it)
    return total


def kept_by_davgyuti(data):
    """What a packet is written from: its ports and tag, and its chunks."""
    packet = davgyuti.Packet(data)
    header = packet.header
    return header.source_port, header.destination_port, header.verification_tag, packet.chunks()


builder = davgyuti.PacketBuilder(0, 0, 0)


def written_by_davgyuti(kept):
    source_port, destination_port, tag, chunks = kept
    builder.reset(source_port, destination_port, tag)
    for it in chunks:
        builder.add(it)
    return builder.seal()


def add_data(builder, it):
    builder.data(
        it.payload, tsn=it.tsn, stream=it.stream, ssn=it.ssn, ppid=it.ppid, is_end=it.is_end, is_beginning=it.is_beginning,
        is_unordered=it.is_unordered, immediate_ack=it.immediate_ack)


def add_init(builder, it):
    with builder.init(
        initiate_tag=it.initiate_tag, a_rwnd=it.a_rwnd, outbound_streams=it.outbound_streams, inbound_streams=it.inbound_streams,
        initial_tsn=it.initial_tsn
    ) as init:
        for parameter in it.parameters:
            init.parameter(parameter)


def add_re_config(builder, it):
    with builder.re_config() as re_config:
        for parameter in it.parameters:
            re_config.parameter(parameter)


def add_abort(builder, it):
    abort = builder.abort(tag_reflected=it.tag_reflected)
    for cause in it.causes:
        abort.cause(cause)


def add_error(builder, it):
    with builder.error() as error:
        for cause in it.causes:
            error.cause(cause)


# Of the kinds of chunks that the files have.
METHODS = {
    davgyuti.Data: add_data,
    davgyuti.Init: add_init,
    davgyuti.Sack: lambda builder, it: builder.sack(it.cumulative_tsn_ack, it.a_rwnd, it.blocks, it.duplicates),
    davgyuti.CookieAck: lambda builder, it: builder.cookie_ack(),
    davgyuti.Abort: add_abort,
    davgyuti.OperationError: add_error,
    davgyuti.ReConfig: add_re_config,
    davgyuti.ForwardTsn: lambda builder, it: builder.forward_tsn(it.new_cumulative_tsn, it.streams),
}


def written_by_methods(kept):
    """As the README's first lines write: by a builder for each packet."""
    source_port, destination_port, tag, chunks = kept
    builder = davgyuti.PacketBuilder(source_port, destination_port, tag)
    for it in chunks:
        METHODS[type(it)](builder, it)
    return builder.seal()


# ---- by aiortc


def sum_of_its_data(it):
    flags = it.flags
    bits = (flags & 1) + (flags >> 1 & 1) + (flags >> 2 & 1) + (flags >> 3 & 1)
    return it.tsn + it.stream_id + it.stream_seq + it.protocol + bits + sum_of_value(it.user_data)


def sum_of_its_items(it):
    total = 0
    for typ, value in it.params:
        total += typ + sum_of_value(value)
    return total


def sum_of_its_init(it):
    total = it.initiate_tag + it.advertised_rwnd + it.outbound_streams + it.inbound_streams + it.initial_tsn
    return total + sum_of_its_items(it)


def sum_of_its_sack(it):
    return it.cumulative_tsn + it.advertised_rwnd + sum(it.duplicates) + sum(map(sum, it.gaps))


# The kinds of chunks that the files have.
ITS_SUMS = {
    aiortc.DataChunk: sum_of_its_data,
    aiortc.InitChunk: sum_of_its_init,
    aiortc.SackChunk: sum_of_its_sack,
    aiortc.CookieAckChunk: lambda it: 0,
    aiortc.AbortChunk: sum_of_its_items,
    aiortc.ErrorChunk: sum_of_its_items,
    aiortc.ReconfigChunk: sum_of_its_items,
    aiortc.ForwardTsnChunk: lambda it: it.cumulative_tsn + sum(map(sum, it.streams)),
}


class Chunks(list):
    """Several chunks in the place of the one that its writer takes."""

    def __bytes__(self):
        return b''.join(map(bytes, self))


def read_by_aiortc(data):
    _, _, _, chunks = aiortc.parse_packet(data)
    total = 1
    for it in chunks:
        total += it.type + ITS_SUMS[type(it)](it)
    return total


def kept_by_aiortc(data):
    source_port, destination_port, tag, chunks = aiortc.parse_packet(data)
    return source_port, destination_port, tag, Chunks(chunks) if len(chunks) > 1 else chunks[0]


def written_by_aiortc(kept):
    return aiortc.serialize_packet(*kept)


# ---- the clock

BY_PROCESSOR = "davgyuti, processor's CRC32c"
READERS = (('davgyuti', read_by_davgyuti), (BY_PROCESSOR, read_by_davgyuti), ('davgyuti, iterated', iterated_by_davgyuti),
           ('aiortc', read_by_aiortc))
WRITERS = (
    ('davgyuti writes', kept_by_davgyuti, written_by_davgyuti),
    ('davgyuti, methods writes', kept_by_davgyuti, written_by_methods),
    ('aiortc writes', kept_by_aiortc, written_by_aiortc),
)


def load(path):
    packets, at = [], 0
    with open(path, 'rb') as file:
        data = file.read()
    while at < len(data):
        (size,) = struct.unpack_from('>I', data, at)
        packets.append(data[at + 4:at + 4 + size])
        at += 4 + size
    return packets


def calls_over(packets, is_timed):
    """A call's name, its function, what it is called with, and the sum of what it gives."""
    calls = []
    for name, read in READERS if is_timed else READERS[:2]:
        davgyuti.use_processor_crc32c(name == BY_PROCESSOR)
        calls.append((name, read, packets, sum(map(read, packets))))
    davgyuti.use_processor_crc32c(False)
    for name, keep, write in WRITERS if is_timed else ():
        kept = [keep(it) for it in packets]
        if [write(it) for it in kept] != packets:
            sys.exit('beside_aiortc.py: %s another packet than it read' % name)
        calls.append((name, lambda it, write=write: len(write(it)), kept, sum(map(len, packets))))
    return calls


def timed(call, inputs, least, total):
    """The nanoseconds of a packet."""
    begin, done, took = time.process_time(), 0, 0.0
    while took < least:
        if sum(map(call, inputs)) != total:
            sys.exit('beside_aiortc.py: a sum changes')
        done += len(inputs)
        took = time.process_time() - begin
    return took * 1e9 / done


def main():
    if len(sys.argv) < 4:
        sys.exit(__doc__)
    rounds, least = int(sys.argv[1]), int(sys.argv[2]) / 1000
    for path in sys.argv[3:]:
        calls = calls_over(load(path), rounds > 0)
        best = [float('inf')] * len(calls)
        for _ in range(rounds):
            for i, (name, call, inputs, total) in enumerate(calls):
                davgyuti.use_processor_crc32c(name == BY_PROCESSOR)
                best[i] = min(best[i], timed(call, inputs, least, total))
        for (name, _, _, total), one in zip(calls, best):
            print('%s\t%s\t%d\t%.2f' % (path, name, total, one))


if __name__ == '__main__':
    main()
