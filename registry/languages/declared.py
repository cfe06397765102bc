# SPDX-License-Identifier: Apache-2.0
"""The functions and structs of dcsctp.h, as Python declares them for ctypes: those that its package calls."""
import os
import re

import header
from languages.words import wrapped

DECLARED = '''\
"""The functions and structs of dcsctp.h that are called by ctypes."""

import ctypes
from ctypes import POINTER, c_bool, c_char_p, c_size_t, c_uint8, c_uint16, c_uint32, c_uint64
from typing import Any'''


def c_type(it, is_field=False):
    """The type of ctypes for a declaration."""
    if it.is_pointer and it.is_const and it.type == 'uint8_t':
        return 'c_char_p'
    of = f'c_{it.type.removesuffix("_t") if it.type != "size_t" else it.type}'
    if it.type.startswith('dcsctp_'):
        of = ''.join(map(str.capitalize, it.type.removeprefix('dcsctp_').split('_')))
    return f'POINTER({of})' if it.is_pointer else f'{of} * {it.count}' if it.count else of


def declarations(folder, head, listed):
    """Those that are called in a folder, after the head of a file; `listed` lays out what follows one another."""
    structs, functions = header.parts()
    folder = os.path.join(os.path.dirname(header.PATH), os.pardir, folder)
    texts = [open(os.path.join(folder, name), encoding='utf-8').read() for name in os.listdir(folder) if name.endswith('.py')]
    named = {name for text in texts for name in re.findall(r'functions\.(dcsctp_\w+)', text)}
    called = {name: it for name, it in functions.items() if name in named}
    used = {it.type for _, arguments in called.values() for it in arguments}
    lines = [head.replace('sctp.txt', 'sctp.txt, and of include/dcsctp.h') + DECLARED]
    for name, fields in structs.items():
        if name in used:
            pairs = [f'("{it.name}", {c_type(it)})' for it in fields]
            name = ''.join(map(str.capitalize, name.removeprefix('dcsctp_').split('_')))
            lines += ['', '', f'class {name}(ctypes.Structure):', *listed('_fields_ = [', pairs, ']', '    ')]
    rows = [wrapped(f'"{name}": (', [c_type(it) for it in (result, *arguments)] + [''] * (not arguments), '),', '    ', '        ')
            for name, (result, arguments) in called.items()]
    return '\n'.join([*lines, '', '', '# What each returns, and what it takes.', 'FUNCTIONS: dict[str, tuple[Any, ...]] = {', *rows, '}', ''])
