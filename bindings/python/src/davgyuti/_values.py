# SPDX-License-Identifier: Apache-2.0
"""What all values of a packet have, and the errors."""

from __future__ import annotations

import operator
from dataclasses import dataclass, field, fields
from ipaddress import IPv4Address, IPv6Address
from typing import TYPE_CHECKING, TypeAlias

from . import _fast
from ._numbers import CauseCode, ChunkType, CookieState, ParameterType, Result, name_of

if TYPE_CHECKING:
    from ._authentication import Cookie

Address: TypeAlias = IPv4Address | IPv6Address
"""An address, as ipaddress.ip_address("192.0.2.1") makes one."""
Buffer: TypeAlias = bytes | bytearray | memoryview
"""What holds bytes. Those of a bytearray or a memoryview are copied first, in each call, so that no other thread changes them."""
MAX_PACKET_SIZE = 65532
"""The most bytes that a packet has that is written here: a multiple of 4, as each is."""


class Error(Exception):
    """What all errors of this package are, each also of a kind that Python has; but a number that has no place in its field
    is a plain ValueError, and there are MemoryError and TypeError."""

    code: Result | CookieState
    """Why."""

    @property
    def text(self) -> str:
        """Why, in a few words."""
        return self.code.text


class Fault(Error, ValueError):
    """The bytes are no packet: the first fault, from the left. Those of the same `code` and `offset` are equal. The offset is

    of FAULT_SIZE      how many bytes there are, or 65,535 if that is less;
    of FAULT_CHECKSUM  8;
    of FAULT_LENGTH    where the chunk, the parameter or the error cause with a wrong length begins;
    of FAULT_VALUE     where the parameter begins;
    of FAULT_PADDING   where the first byte is that isn't zero, or how many bytes there are if padding is missing."""

    code: Result
    offset: int
    """Where, by the code."""

    def __init__(self, code: Result, offset: int) -> None:
        super().__init__(code, offset)
        self.code, self.offset = code, offset

    def __str__(self) -> str:
        return f"{self.text} at byte {self.offset}"

    def __eq__(self, other: object) -> bool:
        if not isinstance(other, Fault):
            return NotImplemented
        return (self.code, self.offset) == (other.code, other.offset)

    def __hash__(self) -> int:
        return hash((self.code, self.offset))


class WriteError(Error):
    """Nothing was written, and all is as it was before. `str` says what had no place, with its size where that is known."""

    code: Result

    def __init__(self, code: Result, detail: str = "") -> None:
        super().__init__(code, detail)
        self.code, self._detail = code, detail

    def __str__(self) -> str:
        return self._detail or self.text


class NoRoom(WriteError, BufferError):
    """The packet would have more bytes than the builder's limit. Begin the next packet with the chunk; one that has no
    room in a new packet never will."""


class TooLong(WriteError, ValueError):
    """The canonical packet would have more than 65,532 bytes."""


class BadValue(WriteError, ValueError):
    """A chunk would have more than 65,535 bytes, the reason of an abort isn't UTF-8, a re-configuration's result is above 6,
    or a kind of `davgyuti.registered` has what its type does not allow."""


class BadPlace(WriteError, ValueError):
    """The chunk isn't the packet's last one any more; what is changed has fewer than 12 bytes; or there is no AUTH to sign."""


class CookieError(Error, ValueError):
    """A State Cookie isn't good (RFC 9260 section 5.1.5)."""

    code: CookieState
    """CookieState.STALE or CookieState.INVALID."""
    staleness: int
    """For how many microseconds a stale one hasn't been good: registered.StaleCookie has the lower 32 bits (section
    3.3.10.3). 0 of one that is invalid."""
    cookie: Cookie | None
    """What a stale one says; None of one that is invalid."""

    def __init__(self, code: CookieState, staleness: int = 0, cookie: Cookie | None = None) -> None:
        super().__init__(code, staleness, cookie)
        self.code, self.staleness, self.cookie = code, staleness, cookie

    def __str__(self) -> str:
        return f"{self.text}, for {self.staleness} microseconds" if self.staleness else self.text


_WRITE_ERRORS = {
    Result.NO_ROOM: NoRoom,
    Result.TOO_LONG: TooLong,
    Result.BAD_VALUE: BadValue,
    Result.BAD_PLACE: BadPlace,
}


def error_of(code: int, detail: int | str = "") -> Exception:
    """The error for what the library returned: of a fault its offset says more, of what isn't written a text."""
    result = Result(code)
    if isinstance(detail, int):
        return Fault(result, detail)
    return _WRITE_ERRORS[result](result, detail) if result in _WRITE_ERRORS else MemoryError()


def chunk_name(chunk_type: int) -> str:
    """Returns the name of a type of chunk as the standards write it; "chunk type 99 (0x63)" for one that ChunkType doesn't
    have."""
    return name_of(ChunkType, chunk_type) or f"chunk type {operator.index(chunk_type)} ({chunk_type:#04x})"


def parameter_name(parameter_type: int) -> str:
    """Returns the name of a type of parameter; "parameter type 32774 (0x8006)" for one that ParameterType doesn't
    have."""
    return name_of(ParameterType, parameter_type) or f"parameter type {operator.index(parameter_type)} ({parameter_type:#06x})"


def cause_name(code: int) -> str:
    """Returns the name of an error cause; "cause code 99 (0x0063)" for a code that CauseCode doesn't have."""
    return name_of(CauseCode, code) or f"cause code {operator.index(code)} ({code:#06x})"


class Word(int):
    """What the checksum field of a packet, bytes 8 to 11, has to be (RFC 9260 section 6.8): its CRC32c over zeros in that field, as
    the number that it is there, most significant byte first. `word` computes it. It is never what a packet has there."""

    __slots__ = ()

    @classmethod
    def from_crc32c(cls, crc: int) -> Word:
        """Returns the word of a CRC32c of your own, over zeros in the checksum field. ValueError for what isn't of 32 bits."""
        if not 0 <= crc < 1 << 32:
            raise ValueError(f"crc has to be 0 to 4294967295, and is {crc}")
        return cls.from_bytes(crc.to_bytes(4, "little"), "big")


class Referable:
    """What a `weakref.ref` takes, though it has slots."""

    __slots__ = ("__weakref__",)


@dataclass(frozen=True, slots=True, kw_only=True)
class Policy(Referable):
    """Which checksum fields are accepted, and whether padding is checked. By default, as for a socket, the field has to be
    the word, and padding is ignored. Each is a bool: for all else, such as "no", there is a TypeError."""

    any_checksum: bool = False
    """Accepts every checksum field: for captures whose checksums a network card filled in later. None is computed then."""
    zero_checksum: bool = False
    """Accepts a field of zero as well (RFC 9653), in every packet."""
    allowed_zero_checksum: bool = False
    """Accepts a field of zero where RFC 9653 section 5.2 allows one: not in a packet that `needs_checksum`. For an association
    in which you sent Zero Checksum Acceptable; a captured packet may be one of before."""
    strict_padding: bool = False
    """Padding has to be complete and zero: for a filter that refuses bytes hidden in it (RFC 9260 section 3.2)."""

    def __post_init__(self) -> None:
        for it in fields(self):
            value = getattr(self, it.name)
            if not isinstance(value, bool):
                raise TypeError(f"{it.name} has to be a bool, and is {value!r}")

    def __repr__(self) -> str:
        return f"Policy({', '.join(f'{it.name}=True' for it in fields(self) if getattr(self, it.name))})"


DEFAULT = Policy()
"""What is asked where nothing is passed."""


@dataclass(slots=True, unsafe_hash=True)
class Header(Referable):
    """The common header (RFC 9260 section 3.1)."""

    source_port: int
    destination_port: int
    verification_tag: int
    checksum: int
    """Bytes 8 to 11, most significant byte first. It is right if it is the packet's word."""


@dataclass(slots=True, unsafe_hash=True)
class Part(Referable):
    """What a chunk, a parameter and an error cause have."""

    offset: int | None = field(default=None, compare=False, repr=False, kw_only=True)
    """Where its type is, in the bytes that it was read from; None if it wasn't read. It doesn't matter to `==`, nor to
    what is written."""

    def __bytes__(self) -> bytes:
        """Its bytes as it is written, header included, without the padding after it. Those of a RawChunk, a RawParameter and
        a RawCause that were read are as they were. Raises what PacketBuilder raises for it."""
        return _fast.encoded(self)

    @property
    def value(self) -> bytes:
        """What follows its header of four bytes: of a parameter or an error cause as it was read, with its reserved bytes; of a
        chunk, and of a kind of `davgyuti.registered`, as it is written. Raises what PacketBuilder raises for it."""
        return _fast.value(self)
