# SPDX-License-Identifier: Apache-2.0
"""Changing packets, and writing the lists of their chunks."""

from __future__ import annotations

from collections.abc import Iterable
from ctypes import byref, c_size_t, c_uint16
from ipaddress import IPv4Address
from typing import Any

from . import _fast, _header
from ._kinds import GapAckBlock, Init
from ._library import array, functions, number, numbers, sized, start_of, to_bytes
from ._numbers import Result
from ._values import MAX_PACKET_SIZE, Address, BadPlace, Buffer, error_of


def _changed(function: Any, data: Buffer, *arguments: Any) -> bytes:
    packet = bytearray(to_bytes(data))
    code = function(start_of(packet), len(packet), *arguments)
    if code:
        raise error_of(code, f"fewer than 12 bytes: {len(packet)}")
    return bytes(packet)


def seal(data: Buffer) -> bytes:
    """Returns the packet with its CRC32c in the checksum field (RFC 9260 section 6.8); all other bytes are the same. Raises
    BadPlace for fewer than 12 bytes."""
    return _changed(functions.dcsctp_seal, data)


def set_tag(data: Buffer, verification_tag: int) -> bytes:
    """Returns the packet with this verification tag; all other bytes are the same, so `seal` it. Raises BadPlace for fewer
    than 12 bytes."""
    return _changed(functions.dcsctp_set_tag, data, number(verification_tag, 32, "verification_tag"))


def sign_auth(key: Buffer, data: Buffer) -> bytes:
    """Returns the bytes, which are those of a packet from an AUTH chunk on, with the HMAC in its place under an association
    shared key (RFC 4895 section 6.2); all other bytes are the same, so `seal` the packet. PacketBuilder has the same for what it
    writes. Raises BadPlace where `verify_auth` would return False whatever the HMAC is."""
    chunks = bytearray(to_bytes(data))
    if not functions.dcsctp_sign_auth(*sized(key), start_of(chunks), len(chunks)):
        raise no_auth()
    return bytes(chunks)


def no_auth() -> BadPlace:
    return BadPlace(Result.BAD_PLACE, "no AUTH that can be signed begins here")


def clean_blocks(blocks: Iterable[tuple[int, int]]) -> list[GapAckBlock]:
    """Returns gap ack blocks in order, with those joined that overlap or touch, and without those that end before their
    start: the fewest blocks that cover the same offsets, for a SACK that is to be sent (RFC 9260 section 3.3.4)."""
    pairs = [(number(start, 16, "a block's start"), number(end, 16, "a block's end")) for start, end in blocks]
    items, count = array(_header.GapAckBlock, pairs)
    left = functions.dcsctp_clean_blocks(items, count)
    return [GapAckBlock(it.start, it.end) for it in items[:left]] if items else []


# ---- what a receiver reports: the library writes it into a packet that is nobody's


def listed(chunk: Any) -> tuple[bytes, list[int]]:
    """The parameters of a chunk, all with their padding, and where each begins."""
    data, places = bytearray(), []
    for it in chunk.parameters:
        places.append(len(data))
        data += (part := bytes(it)) + bytes(-len(part) % 4)
    return bytes(data), places


def stop(places: list[int], end: c_size_t) -> int | None:
    """Which one processing stops at, or None."""
    return places.index(end.value) if end.value in places else None


def reported(function: Any, level: int, *arguments: Any) -> tuple[Any, ...]:
    """The chunks that a function adds to a packet, or the parameters or error causes that it adds to its last chunk, of any type."""
    packet = bytearray(12) + b"\0\0\0\4" if level != _fast.CHUNK else bytearray(12)
    start, end = len(packet), c_size_t(len(packet))
    packet += bytes(MAX_PACKET_SIZE - start)
    given = (start_of(packet), len(packet), byref(end), *([12] if start > 12 else []))
    code = function(*given, *arguments)
    if code:
        raise error_of(code)
    return _fast.parts(bytes(packet[: end.value]), start, level, True, len(packet), None)


class ChunkWriter(_fast.Writer):
    """Adds parameters or error causes to the packet's last chunk. In a `with` statement that ends by an exception the chunk
    is taken back; where it isn't the last one any more the packet is left as it is, and BadPlace is raised.

    A method that raises has changed nothing: BadPlace where the chunk isn't the last one any more, be it that another was
    added or that it was taken back, and what the methods of PacketBuilder raise. Let one thread at a time write a list."""

    __slots__ = ()

    def _raised(self, value: BaseException) -> None:
        if not self._back() and isinstance(value, Exception):
            raise BadPlace(Result.BAD_PLACE, "the chunk isn't the packet's last one any more") from value

    def addresses(self, addresses: Iterable[Address]) -> ChunkWriter:
        """Adds an IPv4 Address or IPv6 Address parameter for each of these (RFC 9260 section 3.3.2.1), and returns this: all of
        them, or nothing."""
        from . import registered

        kinds = [registered.Ipv4Address(it) if isinstance(it, IPv4Address) else registered.Ipv6Address(it) for it in addresses]
        self._items(_fast.PARAMETER, kinds)
        return self

    def unrecognized_parameters(self, init: Init, known: Iterable[int]) -> int | None:
        """Adds to an INIT ACK an Unrecognized Parameter (RFC 9260 section 3.3.3.1.2) for each parameter of an INIT that came whose
        type isn't known, and is to be reported (section 3.2.2), whole and in order, up to the first at which processing stops, and
        with it. All, or nothing. Returns the place of the parameter at which processing stops, among `init.parameters`, or None."""
        (data, places), end, types = listed(init), c_size_t(), numbers(c_uint16, known, "a type")
        function = functions.dcsctp_add_unrecognized_parameters
        items = reported(function, _fast.PARAMETER, *sized(data), *types, byref(end))
        self._items(_fast.PARAMETER, items)
        return stop(places, end)

    def new_addresses(self, init: Init, known: Buffer) -> ChunkWriter:
        """Adds to an ABORT the cause Restart of an Association with New Addresses (RFC 9260 section 3.3.10.11), with the addresses
        that an INIT adds to those of an association, `known`, as they are in the INIT, and returns this: see `adds_addresses`."""
        items = reported(functions.dcsctp_add_new_addresses, _fast.CAUSE, *sized(listed(init)[0]), *sized(known))
        self._items(_fast.CAUSE, items)
        return self
