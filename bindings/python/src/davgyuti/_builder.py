# SPDX-License-Identifier: Apache-2.0
"""Writing packets."""

from __future__ import annotations

from collections.abc import Iterable
from ctypes import byref, c_size_t, c_uint16

from . import _fast, _header, _kinds
from ._kinds import Heartbeat, HeartbeatAck, InitAck, ReConfig, Sack
from ._library import functions, number, numbers, sized, to_bytes
from ._numbers import Result
from ._reading import described
from ._values import BadValue, Buffer
from ._writing import ChunkWriter, listed, no_auth, reported, stop


class PacketBuilder(_fast.Builder):
    """Writes a packet (RFC 9260 section 3): a method for each kind of chunk, and `seal` for its bytes. It has at most `limit`
    bytes, and never more than 65,532; NoRoom where the limit is below 12. `reset` begins the next packet in the same memory.
    `bytes` of it is the packet with a checksum field of zero, and `len` how many there are.

    The values are written as they are: whether RFC 9260 lets them be sent, or `check` would accept the packet, isn't
    checked. A method that raises has changed nothing: NoRoom where the packet would have more bytes than the limit,
    BadValue where the chunk would have more than 65,535, ValueError where a number has no place in its field. Each call
    is atomic, in any number of threads; but a list that is written call by call, by a ChunkWriter, belongs to one thread:
    no other may add to the packet, or take a chunk back, until it is complete. `add` writes a whole list in one call."""

    __slots__ = ("__weakref__",)

    def __repr__(self) -> str:
        return f"<PacketBuilder {described(bytes(self))}>" if len(self) else "<PacketBuilder>"

    def sign_auth(self, key: Buffer, offset: int) -> None:
        """Writes the HMAC into the AUTH chunk that begins at an offset, what `len` was before it was added, under an association
        shared key (RFC 4895 section 6.2). The HMAC is of this chunk and of those after it, so add these first, and `seal` after
        this. Raises BadPlace where no AUTH begins there, its HMAC identifier is another than 1 (SHA-1) and 3 (SHA-256), or its
        field isn't as long as that HMAC, 20 or 32 bytes."""
        if not 0 <= offset <= len(self):
            raise ValueError(f"offset has to be 0 to {len(self)}, and is {offset}")
        if not self._sign(key, offset):
            raise no_auth()

    def chunk(self, type: int, flags: int = 0, value: Buffer = b"") -> ChunkWriter:
        """Adds a chunk of any type (RFC 9260 section 3.2), to which parameters or error causes can be added."""
        return self._listed(_kinds.RawChunk(type, flags, to_bytes(value)))

    def heartbeat(self, info: Buffer) -> ChunkWriter:
        """Adds HEARTBEAT with this Heartbeat Info (RFC 9260 section 3.3.5)."""
        return self._listed(Heartbeat((_kinds.HeartbeatInfo(to_bytes(info)),)))

    def heartbeat_ack(self, info: Buffer) -> ChunkWriter:
        """Adds HEARTBEAT ACK with this Heartbeat Info (RFC 9260 section 3.3.6)."""
        return self._listed(HeartbeatAck((_kinds.HeartbeatInfo(to_bytes(info)),)))

    def abort(self, reason: str | Buffer | None = None, *, tag_reflected: bool = False) -> ChunkWriter:
        """Adds ABORT (RFC 9260 section 3.3.7), to which error causes can be added; with a reason it has the cause
        User-Initiated Abort. BadValue where the reason isn't UTF-8, or can't be written in it."""
        if reason is None:
            return self._listed(_kinds.Abort(tag_reflected=tag_reflected))
        try:
            text = reason if isinstance(reason, str) else to_bytes(reason).decode()
            cause = _kinds.UserInitiatedAbort(text.encode())
        except UnicodeError as error:
            raise BadValue(Result.BAD_VALUE, f"the reason: {error}") from None
        return self._listed(_kinds.Abort((cause,), tag_reflected))

    def unrecognized_parameters_error(
        self, chunk: InitAck | Heartbeat | HeartbeatAck | ReConfig, known: Iterable[int]
    ) -> int | None:
        """Adds an ERROR with a cause Unrecognized Parameters (RFC 9260 section 3.3.10.8) for each parameter of an INIT ACK that
        came, or of another chunk but INIT, as `ChunkWriter.unrecognized_parameters` does; no ERROR if there is none. The packet is
        the one that answers: that of an INIT ACK begins with COOKIE ECHO."""
        (data, places), end, types = listed(chunk), c_size_t(), numbers(c_uint16, known, "a type")
        function = functions.dcsctp_add_unrecognized_parameters_error
        for error in reported(function, _fast.CHUNK, *sized(data), *types, byref(end)):
            self.add(error)
        return stop(places, end)

    def unrecognized_chunks(self, data: Buffer, known: Iterable[int]) -> int | None:
        """Adds an ERROR with a cause Unrecognized Chunk Type (RFC 9260 section 3.3.10.6) for each chunk of a packet that came whose
        type isn't known, and is to be reported (section 3.2), whole and in order, up to the first at which processing stops, and
        with it; no ERROR if there is none. All, or nothing. Returns the offset of the chunk at which processing stops, or None."""
        data, types, end = to_bytes(data), bytes(number(it, 8, "a type") for it in known), c_size_t()
        function = functions.dcsctp_add_unrecognized_chunks
        for error in reported(function, _fast.CHUNK, *sized(data), *sized(types), byref(end)):
            self.add(error)
        return end.value if end.value < len(data) else None


def validate_sack(sack: Sack) -> bool:
    """Returns whether the gap ack blocks are in order, with a gap between each two, and begin at 2 or later, as a receiver
    has to send them (RFC 9260 section 3.3.4). Raises NoRoom or BadValue where no packet can
    have as many."""
    packet = bytes(12) + bytes(Sack(0, 0, sack.blocks))
    chunk = _header.Chunk(3, 0, 16, len(packet) - 16, len(packet))
    return bool(functions.dcsctp_validate_sack(packet, len(packet), byref(chunk)))
