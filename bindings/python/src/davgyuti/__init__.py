# SPDX-License-Identifier: Apache-2.0
"""The wire layer of SCTP (RFC 9260): reads, checks, prints and writes packets.

    packet = davgyuti.Packet(data)  # raises Fault, with the place, unless the bytes are a packet
    for chunk in packet:
        match chunk:
            case davgyuti.Data(stream=stream, payload=payload):
                ...

    builder = davgyuti.PacketBuilder(5000, 5000, tag)
    with builder.init_ack(initiate_tag=1, a_rwnd=131072, outbound_streams=4, inbound_streams=4, initial_tsn=7) as chunk:
        chunk.parameter(davgyuti.StateCookie(cookie))
    data = builder.seal()

Packets begin at the source port: at what follows the IP header, or that of UDP (RFC 6951). All numbers are plain values.
Each chunk, parameter and error cause that was read has its `offset`; `bytes(it)` is how it is written, with its header, and
of a RawChunk, RawParameter or RawCause also how it was read. Chunks and parameters have their `type`, causes their `code`,
and all of them a `name` and a `value`; `parameter(type, value)` and `cause(code, value)` make one of its kind. Of the rest of
IANA's registry, such as ASCONF, AUTH and addresses, `it.registered()` reads the fields: see `help(davgyuti.registered)`.
Whether bytes are a packet is said by functions that are compiled from proved sources; what reads and writes fields isn't proved.
Any number of threads may call at once; a list that is written call by call belongs to one thread at a time. In the forked
child of a process with threads `text` may not be called. A handler of `signal` may call everything.
"""

from typing import TYPE_CHECKING, Any

from . import _kinds, _numbers
from ._authentication import Cookie, is_listed, open_cookie, seal_cookie, shared_key, verify_auth
from ._builder import PacketBuilder, validate_sack
from ._kinds import *  # noqa: F401, F403
from ._library import version_text as __version__
from ._numbers import *  # noqa: F401, F403
from ._reading import (
    Packet, canonical, cause, check, chunks, first_fault, header, needs_checksum, parameter, raw_chunks, raw_items,
    read_chunk, report, text, use_processor_crc32c, word,
)
from ._receiving import (
    adds_addresses, broken_rules, init_abort, init_fault, init_refusal, out_of_the_blue, reply, unrecognized_chunk,
    unrecognized_parameter, verify_tag,
)
from ._registered import addresses
from ._values import (
    MAX_PACKET_SIZE, Address, BadPlace, BadValue, Buffer, CookieError, Error, Fault, Header, NoRoom, Policy,
    TooLong, Word, WriteError, cause_name, chunk_name, parameter_name,
)
from ._writing import ChunkWriter, clean_blocks, seal, set_tag, sign_auth

__all__ = [
    "Address", "BadPlace", "BadValue", "Buffer", "ChunkWriter", "Cookie", "CookieError", "Error", "Fault", "Header",
    "MAX_PACKET_SIZE", "NoRoom", "Packet", "PacketBuilder", "Policy", "TooLong", "Word", "WriteError", "__version__",
    "addresses", "adds_addresses", "broken_rules", "canonical", "cause", "cause_name", "check", "chunk_name",
    "chunks", "clean_blocks", "first_fault", "header", "init_abort", "init_fault", "init_refusal", "is_listed",
    "needs_checksum", "open_cookie", "out_of_the_blue", "parameter", "parameter_name", "raw_chunks", "raw_items",
    "read_chunk", "registered", "reply", "report", "seal", "seal_cookie", "set_tag", "shared_key", "sign_auth",
    "text", "unrecognized_chunk", "unrecognized_parameter", "use_processor_crc32c", "validate_sack", "verify_auth",
    "verify_tag", "word",
]
__all__ += _kinds.__all__
__all__ += _numbers.__all__

for _it in [globals().get(_name) for _name in __all__]:
    if isinstance(_it, type):
        _it.__module__ = __name__

if TYPE_CHECKING:
    from . import registered
else:

    def __getattr__(name: str) -> Any:
        """Imports `registered` where it is first asked for (PEP 562): it takes as long as a third of all else."""
        if name != "registered":
            raise AttributeError(f"module {__name__!r} has no attribute {name!r}")
        from importlib import import_module

        return import_module(".registered", __name__)
