# SPDX-License-Identifier: Apache-2.0
"""What chunks, parameters and error causes of each kind hold, and how it is read, in Rust."""
from dataclasses import dataclass, field as made_by

import header
from languages.rust_words import LISTS, WIDTH, Sample, about, arm, call, camel, chain, chunk_lines, docs, example, identifier
from languages.words import reference
from layouts import WIDTHS, kinds_of, size_of

TYPES = {'u8': 'u8', 'u16': 'u16', 'u32': 'u32'}

FRONT = '''\
//! What chunks, parameters and error causes of each kind hold, and how it is read.
//!
//! Each reader looks at the size of what it reads: of any bytes it returns what is there, or none.

use crate::chunk::{Chunk, u16_at, u32_at};
use crate::debug::{Bytes, ChunkTypes, list_of_items};
use crate::error::UnknownNumber;
use crate::items::{Cause, Causes, Parameter, Parameters};
use crate::list::list_of_numbers;
use crate::types::{CauseCode, ChunkType, ParameterType};
use core::fmt::{Debug, Formatter, Result as Shown};
use core::iter::FusedIterator;
'''


@dataclass
class Member:
    """A field of a struct: the kinds that have it, and what each says of it."""
    name: str
    type: str
    abouts: dict = made_by(default_factory=dict)
    flag: object = None


@dataclass
class Struct:
    """A struct of one kind or of several that are read into one."""
    name: str
    rows: list
    members: dict = made_by(default_factory=dict)
    lists: dict = made_by(default_factory=dict)

    @property
    def type(self):
        return camel(self.name)

    @property
    def lifetime(self):
        return "<'a>" if self.lists or any("'a" in it.type for it in self.members.values()) else ''


def list_of(row, it):
    """The name of a list, and of the iterator over it."""
    return LISTS.get((row.struct if hasattr(row, 'struct') else '', it.name)) or LISTS[(row.identifier, it.name)]


def type_of(it, records):
    if it.of:
        return 'ReConfigResult'
    if it.what in ('bit', 'flag'):
        return 'bool'
    if it.what == 'optional':
        return f'Option<{record_name(records[it.form])}>'
    return TYPES.get(it.form, "&'a [u8]")


def record_name(row):
    return camel(row.struct) if row.struct != '-' else row.name


def struct_of(name, rows, records):
    """The struct of rows, with the numbers first, then the flags, then the bytes."""
    struct = Struct(name, rows)
    for row in rows:
        named = [it for it in row.layout.fields if it.name and it.what in ('number', 'either', 'bit', 'optional')]
        rests = [it for it in row.layout.fields if it.what == 'rest' and it is not row.layout.items]
        for it in [*named, *row.flags, *rests]:
            for key, text in [(it.name, about(it)), (it.other, about(it, True))]:
                if key:
                    member = struct.members.setdefault(key, Member(identifier(key), type_of(it, records), flag=it.flag))
                    member.abouts[getattr(row, 'label', row.name)] = text
        for it in row.layout.lists:
            struct.lists[it.name] = list_of(row, it)
    members = sorted(struct.members.items(), key=lambda it: (it[1].type == 'bool', it[1].type.startswith('&')))
    struct.members = {key: it for key, it in members if not it.type.startswith('&')} | dict(it for it in members if it[1].type[0] == '&')
    return struct


def is_validated(struct):
    """Whether C has a verdict on it, which looks at its bytes."""
    return f'dcsctp_validate_{struct.name}' in header.parts()[1]


def said(struct, it):
    """The docs of a field: what differs between kinds is said for each."""
    first, *others = it.abouts.items()
    text = first[1] + ''.join(f' In {name}: {text[0].lower()}{text[1:]}' for name, text in others if text != first[1])
    return text if len(it.abouts) == len(struct.rows) else f'{text} Only in {" and ".join(it.abouts)}.'


def groups(table, level):
    """The structs of a level's kinds, each with its rows."""
    names = {}
    for row in kinds_of(table, level):
        if row.struct != '-':
            names.setdefault(row.struct, []).append(row)
    return [struct_of(name, rows, table['records']) for name, rows in names.items()]


def records_of(table):
    """The structs of the records."""
    names = {}
    for row in table['record']:
        # (what has it in a list is what a reader knows)
        row.flags, row.label = [], next((it.name for it in table['chunk'] if row.name in it.value), row.name)
        names.setdefault(row.struct if row.struct != '-' else 'next_tsns', []).append(row)
    return [struct_of(name, rows, table['records']) for name, rows in names.items()]


# ---- reading

def number(it, source='it'):
    """The expression that reads a number."""
    at = f'u{8 * WIDTHS[it.form]}_at({source}, {it.at})'
    if it.of:
        return f'ReConfigResult::of({at})?'
    return f'{at} & 1 != 0' if it.what == 'bit' else at


def fields_read(layout):
    """Each field at a fixed place, as `name: expression`."""
    lines = []
    for it in layout.numbers:
        if it.what == 'either':
            for name, (one, other) in ((it.name, ('0', number(it))), (it.other, (number(it), '0'))):
                lines.append((identifier(name), f'if self.flags() & {it.flag.number} == 0 {{ {one} }} else {{ {other} }}'))
        elif it.name and it.what != 'count':
            lines.append((identifier(it.name), number(it)))
    return lines


def steps(row, records, value):
    """The lines before a value is made: its sizes are looked at. And its fields that aren't at a fixed place."""
    layout, lines, fields = row.layout, [], []
    if not layout.lists and not layout.optional and not layout.rest:
        return [f'let it: &[u8; {layout.size}] = {value}.try_into().ok()?;'] if layout.size else [], []
    counts = {it.name: it for it in layout.fields if it.what == 'count'}
    rest = '' if layout.items else identifier(layout.rest.name) if layout.rest else 'rest'
    if not rest:
        lines.append(f'let it: &[u8; {layout.size}] = {value}.first_chunk()?;')
    elif layout.size:
        lines.append(f'let (it, {rest}) = {value}.split_first_chunk::<{layout.size}>()?;')
    for it in layout.lists:
        name, kind = list_of(row, it)
        size = size_of(it.form, records)
        if it.count:
            count = counts[it.name]
            at = f'u{8 * WIDTHS[count.form]}_at(it, {count.at})'
            count = f'usize::from({at})' if count.form == 'u16' else f'usize::try_from({at}).ok()?'
            lines.append(f'let {name}_size = {size} * {count};')
        else:
            lines += [f'if rest.len() % {size} != 0 {{', '    return None;', '}']
        fields.append((name, 'rest', kind, size))
    counted = [list_of(row, it)[0] for it in layout.lists if it.count]
    if counted:
        # (what the last has is what the others leave)
        lines += [f'if rest.len() != {" + ".join(f"{name}_size" for name in counted)} {{', '    return None;', '}']
        lines += [f'let ({name}, rest) = rest.split_at_checked({name}_size)?;' for name in counted[:-1]]
        fields = [(name, 'rest' if name == counted[-1] else name, kind, size) for name, _, kind, size in fields]
    if layout.optional:
        record = records[layout.optional.form]
        size, name = record.layout.size, record_name(record)
        made = ', '.join(f'{key}: {value}' for key, value in fields_read(record.layout))
        lines += [f'let {identifier(layout.optional.name)} = match rest.split_first_chunk::<{size}>() {{', '    None if rest.is_empty() => None,',
                  '    Some((it, [])) => {', f'        Some({name} {{ {made} }})', '    }', '    _ => return None,', '};']
        fields.append((identifier(layout.optional.name), identifier(layout.optional.name), '', 0))
    if layout.rest and not layout.items:
        fields.append((rest, rest, '', 0))
    return lines, fields


def shorthand(fields):
    return [name if name == value else f'{name}: {value}' for name, value in fields]


def struct_literal(indent, head, fields):
    """A struct's value; the base of one that begins with `..` has no comma after it."""
    text = call(indent, head, fields, ' }')
    return text.replace(f'{fields[-1]},\n', f'{fields[-1]}\n') if fields[-1].startswith('..') else text


def read_struct(struct, row, records):
    """The lines of an arm that reads a kind into its struct."""
    lines, more = steps(row, records, 'self.value()')
    fields = fields_read(row.layout)
    if is_validated(struct):
        fields.append(('value', 'self.value()'))
    for name, value, kind, size in more:
        fields.append((name, value))
        if kind and len(struct.rows) > 1:
            fields.append((f'{name}_size', str(size)))
    shown = shorthand(fields)
    if row.flags:
        shown.append(f'..{struct.type}::default().with_flags(self.flags())')
    return ''.join(f'                {line}\n' for line in lines) + struct_literal(16, f'{struct.type} {{ ', shown)


def sections(rows):
    return ' or '.join(f'{row.name} ({reference(row)})' for row in rows)


def sample_reads(row, records, name):
    """An example that reads a kind: hidden lines, and what is asserted."""
    sample = Sample(row, records)
    values = [(identifier(it.name), sample.values[it.name]) for it in row.layout.numbers
              if it.name and it.what == 'number' and it.name in sample.values][:3]
    return [*chunk_lines(sample.padded), f'let it = chunk.{name}().unwrap();',
            f'assert_eq!(({", ".join(f"it.{it}" for it, _ in values)}{"," if len(values) == 1 else ""}), '
            f'({", ".join(it for _, it in values)}{"," if len(values) == 1 else ""}));']


def reader(struct, records):
    """The method that reads a struct."""
    arms = {}
    for row in struct.rows:
        arms.setdefault(read_struct(struct, row, records), []).append(f'ChunkType::{row.identifier}')
    lifetime = struct.lifetime
    head = docs(f'Returns what {sections(struct.rows)} holds{", but for its parameters" if struct.rows[0].layout.items else ""}.', 4)
    text = ''.join(f'            {" | ".join(names)} => {{\n{body}            }}\n' for body, names in arms.items())
    return f'''\
{head}{example(sample_reads(struct.rows[0], records, struct.name), 4)}    #[doc(alias = "dcsctp_{struct.name}")]
    #[must_use]
    #[inline]
    pub fn {struct.name}(&self) -> Option<{struct.type}{lifetime}> {{
        Some(match self.chunk_type() {{
{text}            _ => return None,
        }})
    }}
'''


def has_number(row):
    """Whether a value is one number, and what it is of has no flags."""
    return row.struct == '-' and not row.flags and [it.what for it in row.layout.fields] == ['number']


def number_reader(row, records):
    """The method that reads a kind whose value is one number."""
    it, sample = row.layout.fields[0], Sample(row, records)
    name = row.identifier.lower()
    lines = [*chunk_lines(sample.padded), f'assert_eq!(chunk.{name}(), Some({sample.values[it.name]}));']
    return f'''\
{docs(f'Returns the {it.name} of {sections([row])}.', 4)}{example(lines, 4)}    #[doc(alias = "dcsctp_{name}")]
    #[must_use]
    #[inline]
    pub fn {name}(&self) -> Option<{TYPES[it.form]}> {{
        let it: &[u8; {row.layout.size}] = self.value().try_into().ok()?;
        (self.chunk_type() == ChunkType::{row.identifier}).then(|| {number(it)})
    }}
'''


# ---- what is in a chunk

def content_parts(row):
    """What the variant of a kind holds: its name, its type, its expression, and what is said of it."""
    parts = [(identifier(it.name), 'bool', f'self.flags() & {it.flag.identifier} != 0', about(it)) for it in row.flags]
    if row.struct != '-':
        lifetime = "<'a>" if row.layout.lists or (row.layout.rest and not row.layout.items) else ''
        parts = [('it', camel(row.struct) + lifetime, f'self.{row.struct}()?', '')]
    elif has_number(row):
        it = row.layout.fields[0]
        parts.append((identifier(it.name), TYPES[it.form], f'self.{row.identifier.lower()}()?', about(it)))
    if row.layout.items:
        form = row.layout.items.form
        parts.append((form, f"{camel(form)}<'a>", f'self.{form}()', about(row.layout.items)))
    elif row.struct == '-' and row.layout.rest:
        parts.append((identifier(row.layout.rest.name), "&'a [u8]", 'self.value()', about(row.layout.rest)))
    return parts


def is_tuple(row, parts):
    return row.struct != '-' or (len(parts) == 1 and bool(row.layout.rest))


def guard(row):
    """What has to hold of a value that no reader looks at."""
    if row.struct != '-' or has_number(row):
        return ''
    if not row.layout.fields:
        return ' if self.value().is_empty()'
    least = row.layout.rest.least
    return f' if self.value().len() >= {least}' if least > 1 else ' if !self.value().is_empty()' if least else ''


def variant(row):
    parts = content_parts(row)
    text = docs(f'{sections([row])}' + ('' if not is_tuple(row, parts) or row.struct != '-' else f': {parts[0][3][0].lower()}{parts[0][3][1:-1]}') +
                (', and its parameters' if row.struct != '-' and row.layout.items else '') + '.', 4)
    name = camel(row.identifier)
    if not parts:
        return f'{text}    {name},\n'
    if is_tuple(row, parts):
        return f'{text}    {name}({", ".join(typ for _, typ, _, _ in parts)}),\n'
    return f'{text}    {name} {{\n' + ''.join(docs(said, 8) + f'        {key}: {typ},\n' for key, typ, _, said in parts) + '    },\n'


def made(row):
    """The expression of a variant."""
    parts, name = content_parts(row), f'Content::{camel(row.identifier)}'
    if row.struct != '-':
        more = ''.join(f', {value}' for _, _, value, _ in parts[1:])
        return f'self.{row.struct}().map_or(Content::Other, ' + (f'|it| {name}(it{more}))' if more else f'{name})')
    if has_number(row):
        key = parts[0][0]
        return f'self.{row.identifier.lower()}().map_or(Content::Other, |{key}| {name} {{ {key} }})'
    if not parts:
        return name
    if is_tuple(row, parts):
        return f'{name}({", ".join(value for _, _, value, _ in parts)})'
    return f'{name} {{ {", ".join(f"{key}: {value}" for key, _, value, _ in parts)} }}'


def made_arm(row):
    """The arm that makes a variant."""
    pattern, parts = f'ChunkType::{row.identifier}{guard(row)}', content_parts(row)
    if min(12 + len(f'{pattern} => {made(row)},'), 16 + len(made(row))) <= WIDTH:
        return arm(12, pattern, made(row))
    if row.struct != '-' or has_number(row):
        first, rest = made(row).split('.map_or(', 1)
        other, closure = rest[:-1].split(', ', 1)
        key, body = closure[1:].split('| ', 1)
        return f'            {pattern} => {first}.map_or({other}, |{key}| {{\n                {body}\n            }}),\n'
    return call(12, f'{pattern} => Content::{camel(row.identifier)} {{ ', [f'{key}: {value}' for key, _, value, _ in parts], ' },')


def shown_variant(row):
    parts, name = content_parts(row), camel(row.identifier)
    value = {key: f'&Bytes({key})' if typ == "&'a [u8]" else key for key, typ, _, _ in parts}
    if not parts:
        return arm(12, f'Self::{name}', f'f.write_str("{name}")')
    if is_tuple(row, parts):
        calls = [f'.debug_tuple("{name}")', *(f'.field({value[key]})' for key in value), '.finish()']
        return chain(12, f'Self::{name}({", ".join(value)}) => ', 'f', calls, ',')
    calls = [f'.debug_struct("{name}")', *(f'.field("{key}", {value[key]})' for key in value), '.finish()']
    return chain(12, f'Self::{name} {{ {", ".join(value)} }} => ', 'f', calls, ',')


def holes(row):
    parts = content_parts(row)
    if not parts:
        return ''
    return ('(_)' if len(parts) == 1 else '(..)') if is_tuple(row, parts) else ' { .. }'
