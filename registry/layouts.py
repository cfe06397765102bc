# SPDX-License-Identifier: Apache-2.0
"""What the column `value` of registry/sctp.txt says, field by field: of it each language's kinds and registered types are generated."""
import re
from dataclasses import dataclass, field as made_by
from itertools import zip_longest

WIDTHS = {'u8': 1, 'u16': 2, 'u32': 4}
"""The bytes of a number."""
LEAST = {'bytes': 1, 'text': 1, 'parameters': 4, 'causes': 4}
"""What the rest of a value may be, and the least bytes of one at least."""
ADDRESSES = ('ipv4', 'ipv6', 'address')
"""What an address may be: the octets of one, or an address parameter with its header."""
RESTS = {'bytes': 'bytes', 'parameters': 'items', 'causes': 'items', 'u16': 'short numbers'}
"""What the rest may be in the value of a registered type, and the word of it in Laid."""
FIELD = re.compile(
    r'(?:count of (?P<counted>[\w ]+) (?P<count>u16|u32)'
    r'|(?P<set>[\w ]+?) if (?P<flag>[A-Z]) or else (?P<clear>[\w ]+?) (?P<either>u16|u32)'
    r'|(?P<bit>[\w ]+?) bit (?P<width>u8|u16|u32)'
    r'|(?:(?P<name>[\w ]+?) )?(?P<form>u8|u16|u32|bytes|text|parameters|causes|ipv4|ipv6|address|[A-Z]\w*)'
    r'(?P<mark>[*+?]?)(?: of (?P<of>\w+))?)')


class Wrong(Exception):
    """A value that isn't in this language, and why."""


@dataclass
class Field:
    """A field of a value.

    what is of
      number    with its name and its width as `form`; `of` is the level that numbers it, or ''
      reserved  without a name, zeros when written
      count     how many a list has that comes later, by the name of the list
      either    `name` where the flag `flag` is set, and `other` where it isn't
      bit       the lowest bit of `form`; the others are reserved
      list      any number of `form`, a width or a record; `count` is the width of its count, or ''
      optional  a record or none, by the value's size
      address   an address, as `form` says
      rest      what `form` says, of at least `least` bytes
      flag      a flag of the chunk, `flag`
    """
    what: str
    name: str = ''
    form: str = ''
    other: str = ''
    flag: object = None
    of: str = ''
    count: str = ''
    least: int = 0
    at: int = 0  # the offset in the value, of what has the same in all values
    about: str = ''
    other_about: str = ''


@dataclass
class Laid:
    """The value of a registered type, which is no kind: its parts in order."""
    numbers: list  # at most two of four bytes
    short_numbers: list  # at most three of two bytes
    reserved: int  # bytes
    address: str  # one of ADDRESSES, or ''
    rest: str  # bytes, short numbers, items, lists whose counts are the three short numbers, or ''


@dataclass
class Layout:
    """The fields of a value in order, and the bytes of those before the first list, record, address or rest; `laid` of a registered
    type."""
    fields: list = made_by(default_factory=list)
    size: int = 0
    laid: Laid = None

    @property
    def numbers(self):
        """The fields at fixed places."""
        return [it for it in self.fields if it.what in ('number', 'reserved', 'count', 'either', 'bit')]

    @property
    def lists(self):
        return [it for it in self.fields if it.what == 'list']

    @property
    def optional(self):
        return next((it for it in self.fields if it.what == 'optional'), None)

    @property
    def address(self):
        return next((it for it in self.fields if it.what == 'address'), None)

    @property
    def rest(self):
        return next((it for it in self.fields if it.what == 'rest'), None)

    @property
    def items(self):
        """The list of parameters or error causes that the value ends in, if it does."""
        return self.rest if self.rest and self.rest.form in ('parameters', 'causes') else None


def field_of(part, flags, records, counts):
    """One field of a value, and its bytes, where they are the same in all values."""
    found = FIELD.fullmatch(part)
    if not found:
        raise Wrong(f'no field is {part}')
    it = found.groupdict()
    if it['count']:
        counts[it['counted']] = it['count']
        return Field('count', it['counted'], it['count']), WIDTHS[it['count']]
    if it['either']:
        flag = next((flag for flag in flags if flag.name == it['flag']), None)
        if not flag:
            raise Wrong(f'no flag is {it["flag"]}')
        return Field('either', it['set'], it['either'], other=it['clear'], flag=flag), WIDTHS[it['either']]
    if it['bit']:
        return Field('bit', it['bit'], it['width']), WIDTHS[it['width']]
    name, form, mark = it['name'] or '', it['form'], it['mark']
    if form in ADDRESSES and not mark:
        return Field('address', name or form, form), 0
    if form in LEAST and mark in ('', '+'):
        return Field('rest', name or form, form, least=LEAST[form] if mark else 0), 0
    if form not in WIDTHS and form not in records:
        raise Wrong(f'no record is {form}')
    if mark == '*' and name:
        return Field('list', name, form, count=counts.pop(name, '')), 0
    if mark == '?' and name and form in records:
        return Field('optional', name, form), 0
    if mark or form not in WIDTHS:
        raise Wrong(f'no field is {part}')
    return Field('number' if name else 'reserved', name, form, of=it['of'] or ''), WIDTHS[form]


def layout_of(value, flags, records):
    """The layout of a value; the flags are those of its chunk."""
    layout, counts = Layout(), {}
    for part in value.split(', ') if value != '-' else []:
        last = layout.fields[-1] if layout.fields else Field('reserved')
        if last.what in ('rest', 'optional') or (last.what == 'list' and not last.count):
            raise Wrong(f'{part} comes after {last.name}, which is the rest')
        it, width = field_of(part, flags, records, counts)
        if width and any(one.what in ('list', 'address') for one in layout.fields):
            raise Wrong(f'{part} comes after a list or an address')
        it.at = layout.size
        layout.size += width
        layout.fields.append(it)
    if counts:
        raise Wrong(f'no list is {", ".join(counts)}')
    return layout


def size_of(form, records):
    """The bytes of one of a list."""
    return WIDTHS.get(form) or records[form].layout.size


def least_of(layout, records):
    """The bytes of the least value: alone, where there is no other size; +N, where it is longer by a multiple of N; +?, where
    counts in the value say by how much."""
    for it in layout.fields:
        if it.what == 'list':
            return f'{layout.size}+?' if it.count else f'{layout.size}+{size_of(it.form, records)}'
        if it.what == 'optional':
            return f'{layout.size}+{size_of(it.form, records)}'
        if it.what == 'rest':
            return f'{layout.size + it.least}+1'
    return str(layout.size)


def laid_of(fields, records):
    """The parts of the value of a registered type."""
    def some(most, *whats, form=''):
        return [it for it in fields if it.what in whats and form in it.form and not it.of][:most]

    numbers, shorts = some(2, 'number', form='u32'), some(3, 'number', 'count', form='u16')
    reserved, address, last = some(None, 'reserved'), some(1, 'address'), some(None, 'rest', 'list')
    counts = [it.name for it in shorts if it.what == 'count']
    if counts:
        is_right = counts == [it.name for it in last] and [size_of(it.form, records) for it in last] == [4, 4, 4]
    else:
        is_right = all(it.form in RESTS and not it.least for it in last)
    for it, part in zip_longest(fields, [*numbers, *shorts, *reserved, *address, *(last if is_right else [])]):
        if it is not part:
            raise Wrong("a registered type can't have " + f'{it.name} {it.form} there'.lstrip())
    rest = 'lists' if counts else RESTS[last[0].form] if last else ''
    return Laid(numbers, shorts, sum(WIDTHS[it.form] for it in reserved), ''.join(it.form for it in address), rest)


def lay_out(table):
    """Gives each row that has a value its `layout`; its `least`, '-' of a registered type; and its `flags`, as fields. Each field has
    what is said of it."""
    abouts = {row.name: row.about for row in table['field']}
    used = set()

    def about(row, name):
        used.add(name)
        return row.notes.get(name) or abouts.get(name) or ''

    records = {row.name: row for row in table['record']}
    for row in [*table['record'], *(row for level in ('chunk', 'parameter', 'cause') for row in table[level])]:
        flags = [flag for flag in table['flag'] if row.level == 'chunk' and flag.chunk == row.number]
        is_kind = getattr(row, 'read', 'kind') == 'kind'
        try:
            row.layout = layout_of(row.value, flags, records)
            if is_kind and row.layout.address:
                raise Wrong(f'a kind has no {row.layout.address.form}')
            row.layout.laid = None if is_kind else laid_of(row.layout.fields, records)
        except Wrong as wrong:
            raise Wrong(f'{row.name}: {wrong}') from None
        row.least = least_of(row.layout, records) if is_kind else '-'
        row.flags = [Field('flag', flag.field.removesuffix(' = 1'), flag=flag) for flag in flags]
        for it in [*row.layout.fields, *row.flags]:
            it.about, it.other_about = about(row, it.name), about(row, it.other)
            if it.name and not it.about:
                raise Wrong(f'{row.name}: nothing is said of {it.name}')
        if unknown := set(row.notes) - {'-'} - {name for it in [*row.layout.fields, *row.flags] for name in (it.name, it.other)}:
            raise Wrong(f'{row.name}: no field is {", ".join(unknown)}')
    if unused := set(abouts) - used:
        raise Wrong(f'no value has {", ".join(sorted(unused))}')
    return records


def kinds_of(table, level):
    """The kinds of a level."""
    return [row for row in table[level] if row.read == 'kind']


def registered_of(table, level):
    """The registered types of a level."""
    return [row for row in table[level] if row.read != 'kind']
