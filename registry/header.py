# SPDX-License-Identifier: Apache-2.0
"""The structs and the functions of include/dcsctp.h, for the languages that declare them again."""
import os
import re
from dataclasses import dataclass

PATH = os.path.join(os.path.dirname(os.path.dirname(os.path.abspath(__file__))), 'include/dcsctp.h')
TYPES = ('bool', 'uint8_t', 'uint16_t', 'uint32_t', 'uint64_t', 'size_t', 'void')
"""The types of C that it has, beside its structs."""


@dataclass
class Declared:
    """A field of a struct, an argument, or what a function returns: the type of C, `struct x` as `x`; how many of an array, or 0."""
    name: str
    type: str
    is_pointer: bool = False
    is_const: bool = False
    count: int = 0


def declared(text):
    found = re.fullmatch(r'(const )?(?:struct )?(\w+) ?(\*?)(\w*)(?:\[(\d+)\])?', text.strip())
    return Declared(found[4], found[2], bool(found[3]), bool(found[1]), int(found[5] or 0))


def parts():
    """The structs, each a list of its fields by its name; and the functions that the library has, each what it returns and its
    arguments by its name; both in the header's order."""
    with open(PATH, encoding='utf-8') as file:
        library = file.read().partition('/* ---- names, in ASCII')[0]
    text = re.sub(r'/\*.*?\*/|^#[^\n]*', '', library, flags=re.S | re.M)
    structs = {name: [declared(field) for field in body.split(';') if field.strip()]
               for name, body in re.findall(r'^struct (\w+) \{(.*?)^\};', text, re.M | re.S)}
    functions = {}
    for result, name, arguments in re.findall(r'^((?!static|enum|struct \w+ \{)\w[\w ]*?) (dcsctp_\w+)\(([^)]*)\);', text, re.M):
        given = [] if arguments.strip() == 'void' else [declared(' '.join(it.split())) for it in arguments.split(',')]
        functions[name] = declared(result), given
    return structs, functions
