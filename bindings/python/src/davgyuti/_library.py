# SPDX-License-Identifier: Apache-2.0
"""The functions of dcsctp.h by ctypes, as _header.py declares them: those that aren't called for each packet. The module in C has
them in it."""

import ctypes
import operator
from collections.abc import Iterable, Sequence
from ctypes import byref, c_size_t, c_uint8
from typing import Any

from . import _fast
from ._header import FUNCTIONS
from ._values import Buffer, error_of
from ._version import VERSION

# (each call takes less time than to let another thread go on, and to come back)
functions: Any = ctypes.PyDLL(_fast.__file__)
# (the module chooses by what a CRC32c is computed)
functions.dcsctp_word, functions.dcsctp_seal = functions.chosen_word, functions.chosen_seal
for _name, (_result, *_arguments) in FUNCTIONS.items():
    _function = getattr(functions, _name)
    _function.restype, _function.argtypes = _result, _arguments
_number = functions.dcsctp_version_number()
version_text = ".".join(map(str, VERSION))
if (_number >> 16, _number >> 8 & 255, _number & 255) != VERSION:
    raise ImportError(f"{_fast.__file__} isn't of davgyuti {version_text}: it has to be installed again")


def to_bytes(data: Buffer) -> bytes:
    return data if type(data) is bytes else memoryview(data).tobytes()


def sized(data: Buffer) -> tuple[bytes, int]:
    """The two arguments of C for bytes."""
    data = to_bytes(data)
    return data, len(data)


def number(value: int, bits: int, name: str) -> int:
    """The number, if it has a place in a field of C; ctypes would cut it."""
    index = operator.index(value)
    if not 0 <= index < 1 << bits:
        raise ValueError(f"{name} has to be 0 to {(1 << bits) - 1}, and is {index}")
    return index


def struct_of(kind: Any, it: Any, end: int | None = None) -> Any:
    """A struct of C with the numbers that an object has by the same names."""
    return kind(*[number(getattr(it, name), 8 * ctypes.sizeof(form), name) for name, form in kind._fields_[:end]])


def array(kind: Any, items: Sequence[Any]) -> tuple[Any, int]:
    """The two arguments of C for a list."""
    return ((kind * len(items))(*items) if items else None), len(items)


def numbers(kind: Any, values: Iterable[int], name: str) -> tuple[Any, int]:
    """The same for numbers."""
    return array(kind, [number(it, 8 * ctypes.sizeof(kind), name) for it in values])


def start_of(buffer: bytearray) -> Any:
    """What leads C to the bytes, whose size is not changed while it lives."""
    return byref(c_uint8.from_buffer(buffer)) if buffer else None


def written(function: Any, room: int, *arguments: Any) -> bytes:
    """What a function writes, where this is room enough."""
    output, end = bytearray(room), c_size_t()
    code = function(start_of(output), room, byref(end), *arguments)
    if code:
        raise error_of(code)
    return bytes(output[: end.value])
