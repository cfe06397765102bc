#!/usr/bin/env python3
# SPDX-License-Identifier: Apache-2.0
"""usage: tools/check_header.py [--must-fail | --help]

Compares include/dcsctp.h with the library that it declares, crates/dcsctp_c: the names of the functions, their arguments
and results, the fields of the structs, and the values of the constants; and its version with CHANGELOG.md's newest one.
Prints each difference, and fails if there is one.

  --must-fail  changes a copy of the header in one place after the other, and fails if a change isn't noticed
  --help       prints this

No compiler sees both sides, and nothing in the proof speaks of the header: so this does. In a header a slice is a
pointer and a length, and an argument of the type Global is no argument. The header's `static inline` functions, which give
names, are no part of the library, and aren't looked at.
"""
import os
import re
import sys

ROOT = os.path.dirname(os.path.dirname(os.path.abspath(__file__)))
HEADER = 'include/dcsctp.h'
CRATE = 'crates/dcsctp_c'

TYPES = {'u8': 'uint8_t', 'u16': 'uint16_t', 'u32': 'uint32_t', 'u64': 'uint64_t', 'usize': 'size_t', 'bool': 'bool'}
# Names that a clause or the language keeps for itself, and the header's.
RENAMED = {'typ': 'type', 'user_data': 'data'}
# The struct of another crate, where it is, and the header's name of it.
BLOCK, BLOCK_FILE, C_BLOCK = 'GapAckBlock', 'crates/dcsctp_chunk/src/sack_chunk.rt', 'dcsctp_gap_ack_block'


class Unreadable(Exception):
    pass


def read(path):
    with open(os.path.join(ROOT, path), encoding='utf-8') as file:
        return file.read()


def without_comments(text):
    return re.sub(r'//.*', '', text)


def sources():
    """The crate's modules, one after the other, without comments."""
    texts = []
    for folder, _, names in sorted(os.walk(os.path.join(ROOT, CRATE, 'src'))):
        texts += [read(os.path.join(folder, name)) for name in sorted(names) if name.endswith('.rt')]
    return without_comments('\n'.join(texts))


def kinds_of(text):
    """The header without the constants of which the library knows no number: registry/make.py writes them, and
    tools/rules.py compares those of the rules."""
    return re.sub(r'^ *DCSCTP_(\w+ = \w+,? +/\* bytes to this library|RE_CONFIG_|RULE_).*\n', '', text, flags=re.M)


def listed(text, separator):
    return [part.strip() for part in text.split(separator) if part.strip()]


# What is compared: functions as {name: (result, [(type, names)])}, structs as {name: [(type, field)]}, constants as
# {name: value}, and the version. A type is as C writes it; of the names of an argument each would do.

def of_library(text):
    """The header without the functions that are C, and what is for these."""
    return text.partition('/* ---- names, in ASCII')[0]


def header_side(text):
    """What the header declares."""
    text = re.sub(r'/\*.*?\*/', '', of_library(text), flags=re.S)
    version = re.search(r'^#define DCSCTP_VERSION "(.*)"$', text, flags=re.M)
    if not version:
        raise Unreadable('no version')
    numbers = '.'.join(re.findall(r'^#define DCSCTP_VERSION_(?:MAJOR|MINOR|PATCH) (\d+)$', text, flags=re.M))
    text = re.sub(r'^#ifdef __cplusplus\n.*?\n#endif$', '', text, flags=re.M | re.S)
    text = re.sub(r'^#(?:.*\\\n)*.*$', '', text, flags=re.M)
    functions, structs, constants = {}, {}, {}

    def declared(words):
        found = re.fullmatch(r'(const )?(?:struct )?(\w+) (\*?)(\w+(?:\[\d+\])?)', ' '.join(words.split()))
        if not found:
            raise Unreadable(words)
        return (found[1] or '') + found[2] + (' *' if found[3] else ''), found[4]

    def enum(match):
        for line in listed(match[1], ','):
            name, value = listed(line, '=')
            constants[name.removeprefix('DCSCTP_')] = int(value, 0)
        return ''

    def struct(match):
        structs[match[1]] = [declared(field) for field in listed(match[2], ';')]
        return ''

    def function(match):
        arguments = [declared(argument) for argument in listed(match[3], ',') if argument != 'void']
        functions[match[2]] = match[1], [(kind, [name]) for kind, name in arguments]
        return ''

    text = re.sub(r'enum (?:\w+ )?\{(.*?)\};', enum, text, flags=re.S)
    text = re.sub(r'struct (\w+) \{(.*?)\};', struct, text, flags=re.S)
    text = re.sub(r'(\w+) (\w+)\(([^()]*)\);', function, text)
    if text.strip():
        raise Unreadable(text.strip().splitlines()[0])
    return functions, structs, constants, version[1], numbers


def c_type(kind):
    """The C type of a number, a bool or a struct."""
    if kind in TYPES:
        return TYPES[kind]
    if kind == BLOCK:
        return C_BLOCK
    if re.fullmatch(r'Dcsctp\w+', kind):
        return re.sub(r'(?<=.)([A-Z])', r'_\1', kind).lower()
    raise Unreadable(kind)


def c_arguments(name, kind):
    """The arguments in C of one in Rattle."""
    if kind == 'Global':
        return []
    name = RENAMED.get(name, name)
    found = re.fullmatch(r'(&mut |&)?(\[)?(\w+)\]?', kind)
    if not found or (found[2] and not found[1]):
        raise Unreadable(f'{name}: {kind}')
    if not found[1]:
        return [(c_type(kind), [name])]
    pointer = ('' if found[1] == '&mut ' else 'const ') + c_type(found[3]) + ' *'
    arguments = [(pointer, [name])]
    if found[2]:
        lengths = [f'{name}_size', f'{name.removesuffix("s")}_count']
        if name in ('bytes', 'packet'):
            lengths.append('length')
        if name in ('output', 'packet'):
            lengths.append('room')
        arguments.append(('size_t', lengths))
    return arguments


def library_side():
    """What the library exports."""
    text = sources()
    functions, structs = {}, {}
    exports = re.findall(r'#\[unsafe\(no_mangle\)\]\s*pub extern "C" fn (\w+)\s*\(([^()]*)\)\s*(?:->\s*(\w+))?', text)
    if len(exports) != len(re.findall(r'no_mangle', text)):
        raise Unreadable('an export')
    for name, arguments, result in exports:
        both = [listed(argument, ':') for argument in listed(arguments, ',')]
        functions[name] = c_type(result), [c for argument, kind in both for c in c_arguments(argument, kind)]
    text += without_comments(read(BLOCK_FILE))
    for name, fields in re.findall(r'#\[repr\(C\)\]\s*(?:#\[[^\]]*\]\s*)*pub struct (\w+) \{(.*?)\}', text, flags=re.S):
        both = [listed(field.strip().removeprefix('pub '), ':') for field in listed(fields, ',')]
        structs[c_type(name)] = [(c_type(kind), RENAMED.get(field, field)) for field, kind in both]
    return functions, structs, constants_of_library(), newest_version(), newest_version()


def newest_version():
    return re.search(r'^## (\d+\.\d+\.\d+)', read('CHANGELOG.md'), flags=re.M)[1]


def constants_of_library():
    codes = dict(re.findall(r'^pub const (\w+): u32 = (\d+);', read(f'{CRATE}/src/codes.rt'), flags=re.M))
    # the codes that the contracts have
    spec = read(f'{CRATE}/specs/Code.antt')
    proved = {'OK': re.search(r'^answer_code \(Ok \w+\) = (\d+)$', spec, flags=re.M)[1]}
    proved |= {f'FAULT_{fault.upper()}': code for fault, code in
               re.findall(r'^fault_code \(?(?:Chunk )?(\w+)\)? = (\d+)$', spec, flags=re.M)}
    proved |= {name.upper(): code for name, code in re.findall(r'^(\w+)_code = (\d+)$', spec, flags=re.M)}
    if codes != proved:
        raise Unreadable(f'the codes of codes.rt and of Code.antt differ: {codes} and {proved}')
    for file in ('receive', 'auth'):
        codes |= dict(re.findall(r'^pub const (\w+): u32 = (\d+);', read(f'{CRATE}/src/{file}.rt'), flags=re.M))
    wire = 'crates/dcsctp_wire/src'
    text = read(f'{wire}/laws.rt')
    # a law of the library says which number each type and each code is
    laws = dict(re.findall(r'ensures \w+ \{ (\w+) ≡ (\d+|0x[\dA-F]+) \}', text))
    for kind, constant in (('CHUNK', 'CHUNK_TYPE'), ('PARAMETER', r'PARAMETER_TYPE\w*'), ('CAUSE', 'CAUSE_CODE')):
        codes |= {f'{kind}_{name}': laws[name] for name in re.findall(rf'\b{constant} as (\w+)', text)}
    size = re.search(r'^pub const COMMON_HEADER_SIZE: usize = (\d+);', read(f'{wire}/packet/common_header.rt'), flags=re.M)
    codes['FIRST_CHUNK'] = size[1]
    bit = re.search(r'\btag_reflected: is_set\(flags, (\d)\)', read('crates/dcsctp_chunk/src/shutdown_complete_chunk.rt'))
    codes['TAG_REFLECTED'] = str(1 << int(bit[1]))
    return {name: int(value, 0) for name, value in codes.items()}


def argument_text(argument):
    kind, names = argument
    return f'{kind}{"" if kind.endswith("*") else " "}{" or ".join(names)}'


def differences(header, library):
    """A line for each difference."""
    for what, declared, exported in zip(('function', 'struct', 'constant'), header, library):
        for name in sorted(set(declared) | set(exported)):
            if name not in exported:
                yield f'{name}: a {what} of the header that the library does not have'
            elif name not in declared:
                yield f'{name}: a {what} of the library that the header does not declare'
    for name in sorted(set(header[0]) & set(library[0])):
        (result, arguments), (wanted, expected) = header[0][name], library[0][name]
        if result != wanted:
            yield f'{name}: returns {result} in the header, {wanted} in the library'
        if len(arguments) != len(expected):
            yield f'{name}: {len(arguments)} arguments in the header, {len(expected)} in the library'
        for place, (have, want) in enumerate(zip(arguments, expected), 1):
            if have[0] != want[0] or have[1][0] not in want[1]:
                yield f'{name}: argument {place} is {argument_text(have)} in the header, {argument_text(want)} in the library'
    for name in sorted(set(header[1]) & set(library[1])):
        fields = header[1][name]
        # (a reserve at the end is the header's alone: the library reads nothing of it)
        if fields[-1][1].startswith('reserved['):
            fields = fields[:-1]
        if fields != library[1][name]:
            for have, want in zip(fields + [('nothing', '')], library[1][name] + [('nothing', '')]):
                if have != want:
                    yield f'struct {name}: {" ".join(have)} in the header, {" ".join(want)} in the library'
    for name in sorted(set(header[2]) & set(library[2])):
        if header[2][name] != library[2][name]:
            yield f'DCSCTP_{name}: {header[2][name]} in the header, {library[2][name]} in the library'
    for name, have, want in zip(('DCSCTP_VERSION', 'DCSCTP_VERSION_MAJOR and its like'), header[3:], library[3:]):
        if have != want:
            yield f'{name}: {have} in the header, {want} in CHANGELOG.md'


# What is changed, and into what; each has to be noticed.
CHANGES = [
    ('two arguments of one type are swapped', 'uint16_t source_port, uint16_t destination_port,\n',
     'uint16_t destination_port, uint16_t source_port,\n'),
    ('a length and an offset are swapped', 'size_t length, size_t offset, struct dcsctp_chunk *chunk',
     'size_t offset, size_t length, struct dcsctp_chunk *chunk'),
    ('two lengths are swapped', 'size_t block_count, const uint32_t *duplicates,\n                         size_t duplicate_count',
     'size_t duplicate_count, const uint32_t *duplicates,\n                         size_t block_count'),
    ('an argument is missing', 'size_t room, size_t *size, bool is_ack,', 'size_t room, bool is_ack,'),
    ('an argument is narrower', 'uint32_t cumulative_tsn_ack, uint32_t a_rwnd,\n', 'uint16_t cumulative_tsn_ack, uint32_t a_rwnd,\n'),
    ('what is written is const', 'dcsctp_seal(uint8_t *packet', 'dcsctp_seal(const uint8_t *packet'),
    ('a list is of wider numbers', 'const uint16_t *types,', 'const uint32_t *types,'),
    ('a list is of other structs', 'dcsctp_clean_blocks(struct dcsctp_gap_ack_block', 'dcsctp_clean_blocks(struct dcsctp_skipped_stream'),
    ('a struct is another', 'const struct dcsctp_parameter *parameter, uint32_t *number', 'const struct dcsctp_chunk *parameter, uint32_t *number'),
    ('a result is narrower', 'uint32_t dcsctp_set_tag', 'bool dcsctp_set_tag'),
    ('a function is missing', 'uint32_t dcsctp_add_cookie_ack(uint8_t *packet, size_t room, size_t *size);\n', ''),
    ('a function has another name', 'uint32_t dcsctp_word(', 'uint32_t dcsctp_words('),
    ('a field is wider', '    uint16_t new_streams;', '    uint32_t new_streams;'),
    ('two fields are swapped', '    uint32_t mid;\n    uint32_t fsn;\n', '    uint32_t fsn;\n    uint32_t mid;\n'),
    ('a field is missing', '    bool zero_checksum;', ''),
    ('a field is added', '    uint16_t end;\n', '    uint16_t end;\n    uint16_t gap;\n'),
    ('a reserve is not at the end', '    bool strict_padding; /*', '    uint8_t reserved[1];\n    bool strict_padding; /*'),
    ('two codes are swapped', 'DCSCTP_FAULT_LENGTH = 3', 'DCSCTP_FAULT_LENGTH = 4'),
    ('a code of the writing is another', 'DCSCTP_BAD_VALUE = 9', 'DCSCTP_BAD_VALUE = 10'),
    ('a flag is another', 'DCSCTP_TAG_REFLECTED = 1', 'DCSCTP_TAG_REFLECTED = 2'),
    ('a type of chunk is another', 'DCSCTP_CHUNK_I_FORWARD_TSN = 194', 'DCSCTP_CHUNK_I_FORWARD_TSN = 193'),
    ('the version is another', 'DCSCTP_VERSION "0.', 'DCSCTP_VERSION "9.'),
    ('a number of the version is another', 'DCSCTP_VERSION_MINOR 1', 'DCSCTP_VERSION_MINOR 2'),
    ('the first chunk lies elsewhere', 'DCSCTP_FIRST_CHUNK = 12', 'DCSCTP_FIRST_CHUNK = 16'),
]


def must_fail(text, library):
    """Fails unless each change of the header is noticed."""
    text = of_library(text)
    for what, old, new in CHANGES:
        if text.count(old) != 1:
            sys.exit(f'check_header: the header has no place, or more than one, where {what}')
        found = list(differences(header_side(kinds_of(text.replace(old, new))), library))
        if not found:
            sys.exit(f'check_header: not noticed: {what}')
        print(f'noticed: {what}: {found[0]}')


def main():
    words = sys.argv[1:]
    if words == ['--help']:
        print(__doc__, end='')
        return
    if words not in ([], ['--must-fail']):
        print(__doc__, end='', file=sys.stderr)
        sys.exit(2)
    try:
        text, library = read(HEADER), library_side()
        found = list(differences(header_side(kinds_of(text)), library))
        if found:
            sys.exit('\n'.join([f'{HEADER} and {CRATE} differ:', *found]))
        if words:
            must_fail(text, library)
    except Unreadable as part:
        sys.exit(f'check_header: not understood: {part}')


if __name__ == '__main__':
    main()
