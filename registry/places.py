#!/usr/bin/env python3
# SPDX-License-Identifier: Apache-2.0
"""usage: registry/places.py [--compare | --help]

Prints which lines are missing, with their files: each chunk, parameter and error cause that registry/sctp.txt marks as `kind` has a
line in each place of registry/places.txt that is for such a kind. Of one that isn't written yet, all are missing. Fails if one is.

  --compare  does the same
  --help     prints this

That a line is there is looked at here. That it says what is so, the check of the proofs and the tests look at.
"""
import functools
import os
import re
import sys
import types

sys.dont_write_bytecode = True
import layouts
import make
from languages import words as written

PLACES = 'registry/places.txt'

LEVELS = {
    'chunk': dict(constant='CHUNK_TYPE', type='ChunkType', tree='ChunkTree', table='dcsctp_wire/specs/Chunk.antt',
                  code='dcsctp_wire/src/packet/chunk.rt'),
    'parameter': dict(constant='PARAMETER_TYPE', type='ParameterType', tree='ParameterTree', table='dcsctp_tlv/specs/Parameter.antt',
                      code='dcsctp_tlv/src/parameter.rt', laws='dcsctp_tlv/proofs/ParameterLaws.antt'),
    'cause': dict(constant='CAUSE_CODE', type='CauseCode', tree='CauseTree', table='dcsctp_cause/specs/Cause.antt',
                  code='dcsctp_cause/src/error_causes.rt', laws='dcsctp_cause/proofs/CauseLaws.antt'),
}
"""Of each level the names that all its kinds have."""

ENDS = {'chunk': ('_chunk', 'Chunk'), 'parameter': ('_parameter', 'Parameter'), 'cause': ('_error_cause', 'ErrorCause')}
"""How the names of a module and of a struct end."""

CRATES = {
    'chunk': [('dcsctp_chunk', 'src', 'dcsctp_chunk/src/lib.rt'), ('dcsctp_wire', 'src/packet', 'dcsctp_wire/src/packet.rt')],
    'parameter': [('dcsctp_tlv', 'src/parameter', 'dcsctp_tlv/src/parameter.rt')],
    'cause': [('dcsctp_cause', 'src', 'dcsctp_cause/src/lib.rt')],
}
"""Where the code of the kinds is, and the file that lists the modules there; of the chunks with a list last."""

LISTS = {'parameters': 'Parameters', 'causes': 'Causes'}
"""What a value that ends in a list ends in, in the table and in names."""

NUMBER, ARM = '\0', '\1'
"""What `{number}` and `{arm}` are until a line is looked for, or printed."""


@functools.cache
def read(path):
    """The text of a file; none, where there is no such file."""
    return make.read(path) if os.path.exists(os.path.join(make.ROOT, path)) else ''


def files_of(folder):
    """The name of each file in a folder, without its ending, and its text."""
    for name in sorted(os.listdir(os.path.join(make.ROOT, folder))):
        if name.endswith(('.rt', '.antt')):
            yield name.rpartition('.')[0], read(f'{folder}/{name}')


# ---- kinds

@functools.cache
def sources(level):
    """Of each kind of a level that has code, by its number: the crate, the folder, the list of modules, the module, the struct."""
    kinds = {}
    for crate, source, modules in CRATES[level]:
        for module, text in files_of(f'crates/{crate}/{source}'):
            number = re.search(rf'pub const {LEVELS[level]["constant"]}: \w+ = (0x[\da-fA-F]+|\d+);', text)
            struct = re.search(rf'pub struct (\w+{ENDS[level][1]})\b', text)
            if number and struct:
                kinds[int(number[1], 0)] = crate, source, modules, module, struct[1]
    return kinds


def last_field(row):
    """What a value ends in, in the table's words."""
    return row.layout.rest.form if row.layout.rest else ''


def own_names(row):
    """What `sources` has of a kind, and its module of definitions; what they should be, where there is no code."""
    module_end, struct_end = ENDS[row.level]
    if row.number in sources(row.level):
        crate, *_, module, struct = names = sources(row.level)[row.number]
        specs = [spec for spec, text in files_of(f'crates/{crate}/specs')
                 if re.search(rf'\b{module}\.(\{{.*)?\b{struct}\.', text) and 'pub kind : Kind' in text]
        return *names, specs[0] if specs else struct.removesuffix(struct_end)
    words = re.findall(r'\w+', row.name)
    name = ''.join(word.capitalize() for word in words)
    return *CRATES[row.level][-1 if last_field(row) in LISTS else 0], '_'.join(words).lower() + module_end, name + struct_end, name


def words_of(row, module, flags):
    """The words of a kind: its level, what its value is, and what there is of it already."""
    fields, last = row.layout.fields, last_field(row)
    has_flags = row.level == 'chunk' and row.number in flags
    tests = {
        'any': True,
        row.level: True,
        'list': last in LISTS,
        'plain': last not in LISTS,
        'parameters': last == 'parameters',
        'flagless': not has_flags,
        'empty': not fields and not has_flags,
        'number': [(it.what, it.form) for it in fields] == [('number', 'u32')],
        'several': len(fields) > 1,
        'text': last == 'text',
        'payload': any(it.name == 'payload' for it in fields),
        'streams': any(it.what == 'list' and it.form in row.records for it in fields) and not any(it.count for it in fields),
        # Its value is as long as its sender likes: it is on the heap.
        'memory': bool(row.layout.lists or row.layout.rest),
        # Some length of its value is a fault.
        'refused': row.least != '0+1',
        # More is known of its value than that it is bytes.
        'fields': not fields or last in (*LISTS, 'text') or bool(row.layout.size),
        # No part of it is read in place.
        'whole': last not in LISTS and f'{module}::' not in read('crates/dcsctp_borrowed/src/checked_chunks.rt'),
        # It has a form of its own that is added to a packet.
        'added': any(re.search(rf'\b{module}\b', text) for _, text in files_of('crates/dcsctp_buffer/src')),
        # The pages name it alone, and not with all requests of RE-CONFIG and their response.
        'named': not row.standard.startswith('6525 4'),
    }
    return {word for word, holds in tests.items() if holds}


def kind_of(row, flags, counts):
    """A kind: its row, its words, and its names by those that places have."""
    crate, source, modules, module, struct, spec = own_names(row)
    words, last = words_of(row, module, flags), last_field(row)
    module_end, struct_end = ENDS[row.level]
    variant, snake = struct.removesuffix(struct_end), module.removesuffix(module_end)
    names = LEVELS[row.level] | dict(
        level=row.level, upper=row.level.upper(), title=row.level.capitalize(), number=NUMBER, arm=ARM, name=row.name,
        identifier=row.identifier, lower=row.identifier.lower(),
        crate=crate, source=source, modules=modules, module=module, struct=struct, spec=spec, variant=variant, snake=snake,
        alias=module if spec.endswith(struct_end) else snake,
        term=variant if 'empty' in words else f'({variant} ..)',
        content='Text' if 'text' in words else 'Varied' if 'memory' in words else 'Fixed',
        front=f'{row.number:02x}' if row.level == 'chunk' else f'{row.number:04x}',
        standard=row.standard[:4], list=LISTS.get(last, ''), item=LISTS.get(last, '').lower()[:-1], **counts)
    return types.SimpleNamespace(row=row, words=words, names=names)


def kinds_of(table):
    """The kinds of a table."""
    flags = {row.chunk for row in table['flag']}
    kinds = [row for level in LEVELS for row in table[level] if row.read == 'kind']
    for row in kinds:
        row.records = table['records']
    counts = {f'{level}_kinds': sum(row.level == level for row in kinds) for level in LEVELS}
    return [kind_of(row, flags, counts) for row in kinds]


# ---- places

def is_for(words, kind):
    """Whether what comes after these words is for a kind."""
    return all(kind.words & set(word.split('|')) for word in words.strip('[]').split())


def places_of(kind):
    """The file of each place that is for a kind, and the line that it has there."""
    path = ''
    for line in read(PLACES).splitlines():
        if line.startswith('['):
            is_for_it = is_for(line, kind)
        elif line.startswith(' '):
            if is_for_it:
                yield path.format(**kind.names), line.strip().format(**kind.names)
        elif line and not line.startswith('#'):
            path = line


PART_OF_NAME = r'\w*'
END_OF_PART = re.compile(r'\n *\n|\n\}|\Z')
ARMS = re.compile(r'^ *((?:\w+(?: *\| *|\.\.=))*\d\w*)(?: if [^\n]*)? *=>', re.M)


@functools.cache
def pattern_of(line, number):
    """The pattern of a line, whose names are whole words."""
    def of_token(match):
        token = match[0]
        if token == NUMBER:
            return rf'(?<!\w)(?:{number}|0[xX]0*(?i:{number:x}))(?!\w)'
        if re.fullmatch(r'[\w*]+', token):
            return rf'(?<!\w){token.replace("*", PART_OF_NAME)}(?!\w)'
        return {'..': r'[^\n]*?', '': r'\s+(?:(?://+|--) )?'}.get(token.strip()) or re.escape(token)

    def of(line):
        return re.sub(r'\s*\.\.|\s+|[\w*]+|.', of_token, line)

    lines = [(r'(?<!-)' if line[0].isalnum() else '') + of(line) for line in line.split(' or ')]
    return re.compile('|'.join(lines))


def found(text, wanted, number):
    """Where a file has a line that is wanted: its start and its end; None, where it hasn't."""
    start, _, line = wanted.rpartition(' > ')
    for part in pattern_of(start, number).finditer(text) if start else [None]:
        span = (part.start(), END_OF_PART.search(text, part.end()).start()) if part else (0, len(text))
        if ARM not in line:
            match = pattern_of(line, number).search(text, *span)
            if match:
                return match.span()
            continue
        for arm in ARMS.finditer(text, *span):
            for numbers in re.split(r' *\| *', arm[1]):
                first, _, last = numbers.partition('..=')
                if first[0].isdigit() and int(first, 0) <= number <= int(last or first, 0):
                    return arm.span()
    return None


def missing(kind):
    """The file and the line of each place that lacks it."""
    return [(path, line) for path, line in places_of(kind) if not found(read(path), line, kind.row.number)]


def is_count(place):
    """Whether the line of a place counts kinds, and so is the same for many."""
    return re.search(r'\d kinds of ', place[1])


def said(kind, path, wanted, with_name):
    """What is printed of a place."""
    digits = written.digits(kind.row)
    start, _, line = wanted.replace(NUMBER, digits).replace(ARM, digits).rpartition(' > ')
    name = f'{kind.row.level} {digits}, {kind.row.name}: ' if with_name else ''
    return f'{path}: {name}no ' + ' or '.join(f'"{line}"' for line in line.split(' or ')) + (f' after "{start}"' if start else '')


def lines_of(kinds):
    """What is printed. A wrong count is named with the kinds that lack another line too; where there are none, with no kind."""
    lacking = [(kind, missing(kind)) for kind in kinds]
    new = [(kind, places) for kind, places in lacking if not all(map(is_count, places))]
    return list(dict.fromkeys(said(kind, *place, bool(new)) for kind, places in new or lacking for place in places))


def main(words):
    if words == ['--help']:
        print(__doc__.strip())
        return 0
    if words not in ([], ['--compare']):
        print(__doc__.split('\n')[0], file=sys.stderr)
        return 2
    try:
        kinds = kinds_of(make.table_of(make.rows_of(make.read(make.TABLE))))
    except (make.Broken, layouts.Wrong) as wrong:
        print(wrong, file=sys.stderr)
        return 1
    lines = lines_of(kinds)
    print(*lines, sep='\n', end='\n' if lines else '')
    return 1 if lines else 0


if __name__ == '__main__':
    sys.exit(main(sys.argv[1:]))
