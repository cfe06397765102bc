# SPDX-License-Identifier: Apache-2.0
"""Reading packets: the verdict and the texts are the library's, and the fields are read by the module in C, of its generated table."""

from __future__ import annotations

from collections.abc import Iterator
from ctypes import byref, c_size_t
from typing import Any

from . import _fast, _header
from ._kinds import Cause, Chunk, Parameter, RawCause, RawChunk, RawParameter
from ._library import functions, number, start_of, to_bytes
from ._numbers import Result
from ._values import DEFAULT, Buffer, Fault, Header, Policy, Word, error_of

_FIRST_CHUNK, _LARGEST = 12, 0xFFFF
# An iteration reads as many chunks at once, and of a packet that has more each as it is reached.
_AT_ONCE = 64
_ALL = 1 << 30


# ---- a whole packet


def word(data: Buffer) -> Word:
    """Returns the word of a packet (RFC 9260 section 6.8): see Word. For fewer than 12 bytes it has no meaning."""
    data = to_bytes(data)
    return Word(functions.dcsctp_word(data, len(data)))


def use_processor_crc32c(is_used: bool = True) -> bool:
    """Has the processor's own instruction compute each CRC32c from now on, in every thread, where it has one; or with False the
    library again, as at first. Returns whether the instruction is used. It takes a sixth of the time, and isn't proved."""
    return _fast.use_processor_crc32c(is_used)


def needs_checksum(data: Buffer) -> bool:
    """Returns whether a packet has to have its CRC32c where a checksum of zero was negotiated, too (RFC 9653 section 5.2):
    it has INIT, COOKIE ECHO or ASCONF; or it answers a packet out of the blue, by an ABORT or a SHUTDOWN COMPLETE whose tag
    is reflected."""
    return _fast.needs_checksum(data)


def check(data: Buffer, policy: Policy = DEFAULT, *, word: Word | None = None) -> None:
    """Returns if the bytes are a packet (RFC 9260 section 3), and else raises the first Fault. `word` is for who knows what the
    checksum field has to be, as by `Word.from_crc32c`; None computes it, but for a policy that accepts any checksum. So does
    every function here that has these."""
    _fast.read(data, policy, word)


def first_fault(data: Buffer, policy: Policy = DEFAULT, *, word: Word | None = None) -> Fault | None:
    """Returns the first fault, from the left, or None for a packet; raises no Fault."""
    try:
        _fast.read(data, policy, word)
    except Fault as fault:
        return fault.with_traceback(None)
    return None


def _made(function: Any, data: Buffer, policy: Policy, word: Word | None, room: int, has_word: bool = False) -> bytes:
    """What a function writes of a packet, once that was accepted."""
    data = to_bytes(data)
    right, _ = _fast.read(data, policy, word)
    if right is None and has_word:
        right = functions.dcsctp_word(data, len(data))
    accepting, size, code = _header.Policy(any_checksum=True), c_size_t(room), Result.NO_ROOM
    while code == Result.NO_ROOM:
        output = bytearray(size.value)
        code = function(data, len(data), right or 0, byref(accepting), start_of(output), len(output), byref(size))
    if code:
        raise error_of(code)
    return bytes(output[: size.value])


def canonical(data: Buffer, policy: Policy = DEFAULT, *, word: Word | None = None) -> bytes:
    """Returns the canonical packet: a checksum of zero, padding of zeros, zeros in reserved bits, and else the same ports,
    tag and chunks. Two packets have the same one if and only if they mean the same. `seal` it before you send it.

    Raises Fault, and TooLong where it would have more than 65,532 bytes."""
    return _made(functions.dcsctp_canonical, data, policy, word, len(data) + 3)


def text(data: Buffer, policy: Policy = DEFAULT, *, word: Word | None = None) -> str:
    """Returns text for logs: a line for the header and one for each chunk, without a line feed at the end. In the line of
    an I-DATA `mid=` is the stream and `ssn=` the MID. Raises Fault, MemoryError."""
    return _made(functions.dcsctp_print, data, policy, word, 4096).decode()


def report(data: Buffer, policy: Policy = DEFAULT, *, word: Word | None = None) -> str:
    """Returns all that the packet holds: each line ends in a line feed, and what is inside of something is two blanks
    deeper. Raises Fault, MemoryError."""
    return _made(functions.dcsctp_report, data, policy, word, 4096, has_word=True).decode()


# ---- its parts, of any bytes


def header(data: Buffer) -> Header:
    """Returns the common header (RFC 9260 section 3.1) of bytes that need not be a packet. Raises Fault for fewer than 12."""
    return _fast.header(data)


def _each(data: bytes, is_raw: bool) -> Iterator[Any]:
    """The chunks, each read as it is reached."""
    at = _FIRST_CHUNK
    while found := _fast.parts(data, at, _fast.CHUNK, is_raw, 1, 0):
        yield found[0]
        at += int.from_bytes(data[at + 2 : at + 4], "big") + 3 & -4


def raw_chunks(data: Buffer) -> Iterator[RawChunk]:
    """Returns the chunks of bytes that need not be a packet, as they are, up to where there is no whole one."""
    return _each(to_bytes(data), True)


def chunks(data: Buffer) -> Iterator[Chunk]:
    """Returns the chunks of bytes that need not be a packet, up to where there is no whole one. A list ends where there is
    no whole parameter or error cause."""
    return _each(to_bytes(data), False)


def raw_items(data: Buffer) -> Iterator[tuple[RawChunk, tuple[RawParameter, ...]]]:
    """Returns the chunks of bytes that need not be a packet, as they are, each with its parameters or error causes, as they
    are; of a cause the code is the type: `cause(it.type, it.value)` makes one of it."""
    data = to_bytes(data)
    for chunk in _each(data, True):
        start, size = chunk.offset + 4, len(chunk.value)
        at = functions.dcsctp_list_offset(byref(_header.Chunk(chunk.type, chunk.flags, start, size, start + size)))
        yield chunk, _fast.parts(data[at : start + size], 0, _fast.PARAMETER, True, _ALL, at)


# ---- without a packet around it


def read_chunk(data: Buffer) -> Chunk:
    """Returns the chunk that the bytes are, without a packet around it, and with or without its padding: as SDP has an INIT
    in `a=sctp-init`, and the cause Unrecognized Chunk Type any. `bytes(chunk)` writes it. Raises Fault, whose offset is into
    these bytes; with FAULT_LENGTH where the chunk ends if something follows it."""
    data = to_bytes(data)
    found = _fast.parts(data, 0, _fast.CHUNK, False, 1, 0)
    end = min(len(data), int.from_bytes(data[2:4], "big") + 3 & -4 if found else _LARGEST)
    fault = first_fault(bytes(_FIRST_CHUNK) + data[:end], Policy(any_checksum=True))
    if fault is not None:
        raise Fault(fault.code, fault.offset - _FIRST_CHUNK)
    if end < len(data):
        raise Fault(Result.FAULT_LENGTH, end)
    chunk: Chunk = found[0]
    return chunk


def _part(level: int, number: int, value: Buffer) -> tuple[Any, ...]:
    """The parameter or error cause with a value: none where it is too long for one."""
    value = to_bytes(value)
    size = len(value) + 4
    header = number.to_bytes(2, "big") + min(size, 0xFFFF).to_bytes(2, "big")
    return _fast.parts(header + value, 0, level, False, 1, None) if size <= 0xFFFF else ()


def parameter(type: int, value: Buffer = b"") -> Parameter:
    """Returns the parameter of this type with this value: of its kind, or a RawParameter. It has them as its `type` and
    `value` again, reserved bytes too."""
    it: tuple[Parameter, ...] = _part(_fast.PARAMETER, number(type, 16, "type"), value)
    return it[0] if it else RawParameter(type, to_bytes(value))


def cause(code: int, value: Buffer = b"") -> Cause:
    """Returns the error cause of this code with this value, likewise."""
    it: tuple[Cause, ...] = _part(_fast.CAUSE, number(code, 16, "code"), value)
    return it[0] if it else RawCause(code, to_bytes(value))


def described(data: bytes) -> str:
    """What `repr` says of a packet."""
    it = _fast.header(data)
    return f"from port {it.source_port} to {it.destination_port}, tag {it.verification_tag:#010x}, {len(data)} bytes"


class Packet:
    """A packet, in its bytes, that was checked (RFC 9260 section 3).

    Iterating gives its chunks; where there are more than 64, each is read as it is reached. `bytes(packet)`, `len(packet)` and
    equality are those of the bytes; packets that mean the same have the same `canonical()`."""

    __slots__ = ("_bytes", "_count", "_policy", "_word")

    def __init__(self, data: Buffer | Packet, policy: Policy = DEFAULT, *, word: Word | None = None) -> None:
        """Checks the bytes, or those of another Packet; raises the first Fault if they are no packet."""
        self._bytes: bytes
        if type(data) is not bytes:
            data = data._bytes if isinstance(data, Packet) else to_bytes(data)
        self._bytes = data
        self._policy = policy
        self._word, self._count = _fast.read(data, policy, word)

    @property
    def header(self) -> Header:
        """The common header (section 3.1)."""
        return _fast.header(self._bytes)

    @property
    def word(self) -> Word:
        """What the checksum field has to be: its CRC32c (section 6.8), or what was passed."""
        if self._word is None:
            self._word = word(self._bytes)
        return Word(self._word)

    @property
    def _given(self) -> Word | None:
        """The word, where there is one."""
        return None if self._word is None else self.word

    def __iter__(self) -> Iterator[Chunk]:
        return iter(self.chunks()) if self._count <= _AT_ONCE else chunks(self._bytes)

    def chunks(self) -> tuple[Chunk, ...]:
        """Returns its chunks (section 3.2), at least one. Reads all of them, at each call."""
        return _fast.chunks(self._bytes)

    def raw_chunks(self) -> Iterator[RawChunk]:
        """Returns its chunks as they are: with all flags and padding inside."""
        return raw_chunks(self._bytes)

    def raw_items(self) -> Iterator[tuple[RawChunk, tuple[RawParameter, ...]]]:
        """Returns its chunks as they are, each with its parameters or error causes as they are."""
        return raw_items(self._bytes)

    def canonical(self) -> bytes:
        """Returns its canonical form: see the function."""
        return canonical(self._bytes, self._policy, word=self._given)

    def text(self) -> str:
        """Returns text for logs: see the function."""
        return text(self._bytes, self._policy, word=self._given)

    def report(self) -> str:
        """Returns all that it holds: see the function."""
        return report(self._bytes, self._policy, word=self._given)

    def __bytes__(self) -> bytes:
        return self._bytes

    def __len__(self) -> int:
        return len(self._bytes)

    def __eq__(self, other: object) -> bool:
        if not isinstance(other, Packet):
            return NotImplemented
        return self._bytes == other._bytes

    def __hash__(self) -> int:
        return hash(self._bytes)

    def __repr__(self) -> str:
        return f"<Packet {described(self._bytes)}>"
