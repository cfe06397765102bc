#!/usr/bin/env python3
# SPDX-License-Identifier: Apache-2.0
"""usage: registry/make.py [--compare | --help]

Writes what registry/sctp.txt says of types, names and sizes into each language: whole files, and what is between two lines that
say so. Stops at a line of the table that is broken, doubled or out of order, and prints its number.

  --compare  writes nothing: names each file that isn't what the table gives, and each line of the proved crates and their
             definitions that has another number, and fails if there is one
  --help     prints this
"""
import os
import re
import sys
import types

sys.dont_write_bytecode = True
import layouts
import proved
from languages import (c, c_inline, c_registered, cpp, go, javascript, page, pages, python, rattle, rattle_layouts, rattle_report, rust,
                       typescript)

ROOT = os.path.dirname(os.path.dirname(os.path.abspath(__file__)))
TABLE = 'registry/sctp.txt'

NAMED = ['number', 'identifier', 'name', 'standard']
COLUMNS = {
    'chunk': [*NAMED, 'read', 'struct', 'group', 'value', 'about'],
    'flag': ['chunk', *NAMED, 'field'],
    'parameter': [*NAMED, 'read', 'struct', 'value', 'about'],
    'cause': [*NAMED, 'read', 'value', 'about'],
    'record': ['name', 'standard', 'struct', 'value', 'about'],
    'field': ['name', 'about'],
    'shown': ['type', 'shown', 'words', 'key', 'form'],
    'result': NAMED,
    'address': ['number', 'name', 'standard'],
    'hmac': ['number', 'name', 'standard'],
    'channel': ['number', 'name', 'standard'],
    'port': NAMED,
    'enum': ['name', 'about'],
    'constant': ['of', 'number', 'identifier', 'text', 'about'],
    'rule': ['number', 'identifier', 'text', 'standard'],
    'protocol': ['number', 'name'],
}
FORMS = {
    'chunk': r'\d+',
    'number': r'\d+|0x[0-9a-f]+',
    'identifier': r'[A-Z][A-Z0-9_]*',
    'name': r'[A-Za-z0-9_./-]+( [A-Za-z0-9./-]+)*',
    'standard': r'\d{4}( [0-9A-Z]+(\.\d+)*)?|\d{4} [\d.]+ and [\d.]+|draft-[a-z-]+',
    'read': 'kind|bytes|draft',
    'struct': r'-|[a-z_]+',
    'group': r'-|[a-z]+',
    'value': r'.+',
    'field': r'[a-z ]+( = 1)?',
    'of': r'[a-z_]+',
    'text': r'[A-Za-z].*',
    'type': r'[A-Za-z0-9/-]+( [A-Za-z0-9/-]+)*',
    'shown': r'[A-Za-z ]+',
    'words': r'-|[a-z ]+',
    'key': r'[a-z_]+',
    'form': '-|hexadecimal|milliseconds|microseconds|text|hmac|address|chunk',
    'about': r'[A-Z].*',
}
BITS = {'chunk': 8, 'flag': 8, 'parameter': 16, 'cause': 16, 'address': 16, 'hmac': 16, 'channel': 8, 'port': 16}
# What has to differ from the rows of a level before it, of the rows of one chunk or of one enum.
UNIQUE = ('number', 'identifier', 'name')


class Broken(Exception):
    """A line of the table can't be used; its number, and why."""

    def __init__(self, at, why):
        super().__init__(f'{TABLE}:{at}: {why}')


def row_of(at, line):
    level, *cells = re.split(r' {2,}', line)
    if level not in COLUMNS:
        raise Broken(at, f'no level is {level}')
    columns = COLUMNS[level]
    if len(cells) != len(columns):
        raise Broken(at, f'{len(cells) + 1} columns, but {level} has {len(columns) + 1}')
    for column, cell in zip(columns, cells):
        if not re.fullmatch(FORMS[column], cell):
            raise Broken(at, f'no {column} is {cell}' if cell else f'no {column}')
    row = types.SimpleNamespace(level=level, notes={}, **dict(zip(columns, cells)))
    if 'number' in columns:
        row.number = int(row.number, 0)
        if row.number >= 1 << BITS.get(level, 32):
            raise Broken(at, f'{row.number} has more than {BITS.get(level, 32)} bits')
    if level == 'flag':
        row.chunk = int(row.chunk)
    if level == 'shown':
        row.name = f'{row.type} {row.shown}'
    # (what has no name is "unknown", or begins with a small letter)
    if level in ('chunk', 'parameter', 'cause') and not row.name[0].isupper():
        raise Broken(at, f'{row.name} doesn\'t begin with a capital')
    if getattr(row, 'read', '') == 'kind' and getattr(row, 'group', '') == '-':
        raise Broken(at, f'{row.name} is a kind, and has no group')
    return row


def note(at, line, row):
    """Keeps what an indented line says of a field of the row above it."""
    name, *about = re.split(r' {2,}', line.strip())
    if row is None or not hasattr(row, 'value'):
        raise Broken(at, f'no value has {name}')
    if len(about) != 1 or not re.fullmatch(FORMS['about'], about[0]) or name in row.notes:
        raise Broken(at, f'nothing is said of {name}')
    row.notes[name] = about[0]


def rows_of(text):
    """The rows of a table, in its order."""
    rows, seen, last = [], {}, None
    for at, line in enumerate(text.splitlines(), 1):
        if line.startswith('    '):
            note(at, line, rows[-1] if rows else None)
            continue
        if not line or line.startswith('#'):
            continue
        row = row_of(at, line)
        owner = getattr(row, 'chunk', getattr(row, 'of', ''))
        for column in UNIQUE:
            key = row.level, owner, column, getattr(row, column, at)
            if key in seen:
                raise Broken(at, f'the {column} of line {seen[key]} again')
            seen[key] = at
        owners = [it.name for it in rows if it.level == 'enum']
        if row.level == 'constant' and row.of not in owners:
            raise Broken(at, f'no enum is {row.of}')
        if row.level == 'flag' and not any(it.level == 'chunk' and it.number == owner for it in rows):
            raise Broken(at, f'no chunk is {owner}')
        place = list(COLUMNS).index(row.level), owners.index(owner) if row.level == 'constant' else owner or 0, getattr(row, 'number', 0)
        if last and place < last:
            raise Broken(at, 'not in order')
        last = place
        rows.append(row)
    return rows


def table_of(rows):
    """The rows of each level, laid out."""
    table = {level: [row for row in rows if row.level == level] for level in COLUMNS}
    table['records'] = layouts.lay_out(table)
    return table


def read(path):
    with open(os.path.join(ROOT, path), encoding='utf-8') as file:
        return file.read()


# ---- files

MARK = 'generated by registry/make.py of registry/sctp.txt'
END = 'end of what registry/make.py generates'


def between_marks(path, texts):
    """The text of a file with these texts between its marks, one after the other."""
    parts = re.split(rf'(^.*{re.escape(MARK)}.*\n)(?:.*\n)*?(.*{re.escape(END)}.*\n)', read(path), flags=re.M)
    if len(parts) != 3 * len(texts) + 1:
        sys.exit(f'{path}: {len(parts) // 3} places between marks, but there are {len(texts)} texts')
    for place, text in enumerate(texts):
        parts[3 * place + 1] += text
    return ''.join(parts)


# Of each language the files that are written whole, by their paths, and those that are written between marks.
LANGUAGES = (rattle, rattle_layouts, rattle_report, c, c_inline, c_registered, python, rust, go, javascript, typescript, cpp, page, pages)
MARKED = {path for language in LANGUAGES for path in language.MARKED}


def files_of(table):
    """The text of each file, by its path."""
    files = {path: text(table) for language in LANGUAGES for path, text in language.FILES.items()}
    return files | {path: between_marks(path, texts(table)) for language in LANGUAGES for path, texts in language.MARKED.items()}


def stale_files(table):
    """The new text of each file that isn't what the table gives."""
    return {path: text for path, text in files_of(table).items()
            if not os.path.exists(os.path.join(ROOT, path)) or read(path) != text}


def main(words):
    if words == ['--help']:
        print(__doc__.strip())
        return 0
    if words not in ([], ['--compare']):
        print(__doc__.split('\n')[0], file=sys.stderr)
        return 2
    try:
        table = table_of(rows_of(read(TABLE)))
        stale = stale_files(table)
    except Broken as broken:
        print(broken, file=sys.stderr)
        return 1
    except layouts.Wrong as wrong:
        print(f'{TABLE}: {wrong}', file=sys.stderr)
        return 1
    if words:
        lines = [f'{path}: not what {TABLE} gives; registry/make.py writes it' for path in stale]
        lines += proved.differences(ROOT, table)
        print(*lines, sep='\n', end='\n' if lines else '')
        return 1 if lines else 0
    for path, text in stale.items():
        with open(os.path.join(ROOT, path), 'w', encoding='utf-8') as file:
            file.write(text)
    return 0


if __name__ == '__main__':
    sys.exit(main(sys.argv[1:]))
