# SPDX-License-Identifier: Apache-2.0
"""The kinds of `davgyuti.registered`: the library reads and writes their values, field by field."""

from __future__ import annotations

from collections.abc import Iterable
from ctypes import byref, c_size_t
from ipaddress import IPv4Address, IPv6Address, ip_address
from typing import Any

from . import _fast, _header, _kinds, _values
from ._kinds import CausePart, Parameter, ParameterPart, RawCause, RawChunk, RawParameter
from ._library import functions, number, sized, start_of, to_bytes
from ._values import Address, error_of
from ._writing import ChunkWriter

_NUMBERS = {name: 32 if "short" not in name else 16 for name, *_ in _header.Registered._fields_[:5]}
_COUNTS = [name for name, bits in _NUMBERS.items() if bits == 16]
_LEVELS = {"parameters": (_fast.PARAMETER, ParameterPart, "parameter"), "causes": (_fast.CAUSE, CausePart, "error cause")}
_CHUNK = 12


def by_fields(part: Any) -> Any:
    """What a raw chunk, parameter or error cause is by its fields, or None; what is so already, as it is."""
    from . import registered  # (late: see __init__.py)

    kind: Any
    if isinstance(part, RawChunk):
        kind, code, function = registered.CHUNKS.get(part.type), part.type, functions.dcsctp_registered_chunk
    elif isinstance(part, RawParameter):
        kind, code, function = registered.PARAMETERS.get(part.type), part.type, functions.dcsctp_registered_parameter
    elif isinstance(part, RawCause):
        kind, code, function = registered.CAUSES.get(part.code), part.code, functions.dcsctp_registered_cause
    else:
        return part if hasattr(part, "fields") else None
    if kind is None:
        return None
    data, out = to_bytes(part.value), _header.Registered()
    places = 0, len(data), len(data)
    is_chunk = isinstance(part, RawChunk)
    item = _header.Chunk(code, number(part.flags, 8, "flags"), *places) if is_chunk else _header.Parameter(code, *places)
    if not function(data, len(data), byref(item), byref(out)):
        return None
    found = {name: _field(data, out, form, part.offset) for name, form in kind.fields.items()}
    return kind(**found, **({"flags": out.flags} if is_chunk else {}), offset=part.offset)


def _field(data: bytes, out: Any, form: str, offset: int | None) -> Any:
    """A field of what was read of a value; the offset is that of its header, if it was read."""
    start, end = out.rest_offset, out.rest_offset + out.rest_size
    if form in _NUMBERS:
        return getattr(out, form)
    if form == "address":
        return ip_address(data[out.address_offset : out.address_offset + out.address_size])
    if form == "counts":
        return tuple(getattr(out, name) for name in _COUNTS)
    if form == "short_numbers":
        return tuple(int.from_bytes(data[at : at + 2], "big") for at in range(start, end, 2))
    if form == "bytes":
        return data[start:end]
    return _fast.parts(data[:end], start, _LEVELS[form][0], False, end, None if offset is None else offset + 4)


def addresses(parameters: Iterable[Parameter]) -> tuple[Address, ...]:
    """Returns the addresses of a list of parameters, in order: those of the IPv4 Address and IPv6 Address parameters of an INIT
    or INIT ACK (RFC 9260 section 3.3.2.1), or of the cause Restart of an Association with New Addresses. All else is passed
    over, and so is an address parameter of a wrong size."""
    from . import registered

    found = (it.registered() for it in parameters)
    return tuple(it.address for it in found if isinstance(it, registered.Ipv4Address | registered.Ipv6Address))


def _rest(form: str, value: Any) -> bytes:
    """What a value ends in, as it is written: of a list all items but the last with their padding."""
    if form == "bytes":
        return to_bytes(value)
    if form == "short_numbers":
        return b"".join([number(it, 16, "a number").to_bytes(2, "big") for it in value])
    data, (_, kind, name) = bytearray(), _LEVELS[form]
    for it in value:
        if not isinstance(it, kind):
            raise TypeError(f"{type(it).__name__} is no {name}")
        data += bytes(-len(data) % 4) + bytes(it)
    return bytes(data)


def _encoded(part: Any) -> bytes:
    """What is read by field as it is written, without padding."""
    values, data = _header.Registered(), b""
    for name, form in part.fields.items():
        it = getattr(part, name)
        if form in _NUMBERS:
            setattr(values, form, number(it, _NUMBERS[form], name))
        elif form == "counts":
            values.short_number, values.second_short_number, values.third_short_number = [number(count, 16, name) for count in it]
        elif form == "address":
            if not isinstance(it, IPv4Address | IPv6Address):
                raise TypeError(f"{name} has to be an address of ipaddress, and is {it!r}")
            values.address_size, data = len(it.packed), it.packed
        else:
            rest = _rest(form, it)
            values.rest_offset, values.rest_size = len(data), len(rest)
            data += rest
    # (into a packet that is nobody's; a parameter and an error cause into a chunk of any type)
    is_chunk, packet = isinstance(part, _kinds.RegisteredChunk), bytearray(_CHUNK + 64 + len(data))
    packet[_CHUNK : _CHUNK + 4] = bytes(3) + b"\4"
    start = _CHUNK if is_chunk else _CHUNK + 4
    given: tuple[Any, ...] = (start_of(packet), len(packet), byref(c_size_t(start)))
    if is_chunk:
        values.flags = number(part.flags, 8, "flags")
        function, given = functions.dcsctp_add_registered_chunk, (*given, part.type)
    elif isinstance(part, _kinds.RegisteredParameter):
        function, given = functions.dcsctp_add_registered_parameter, (*given, _CHUNK, part.type)
    else:
        function, given = functions.dcsctp_add_registered_cause, (*given, _CHUNK, part.code)
    code = function(*given, byref(values), *sized(data))
    if code:
        raise error_of(code)
    size = int.from_bytes(packet[start + 2 : start + 4], "big")
    return bytes(packet[start : start + size])


_fast.prepare({**vars(_values), **vars(_kinds)}, _encoded, ChunkWriter)
