# SPDX-License-Identifier: Apache-2.0
"""How each kind is written, in Rust."""
import header
from languages import rust_kinds as kinds
from languages.rust_words import BUILDER, ITEMS, LICENSE, WRITTEN, Sample, about, call, camel, docs, example, identifier, literal
from languages.words import reference
from layouts import WIDTHS, kinds_of, size_of

OWN = {'HEARTBEAT': ('ParameterType', 'HEARTBEAT_INFO'), 'HEARTBEAT_ACK': ('ParameterType', 'HEARTBEAT_INFO'),
       'ABORT': ('CauseCode', 'USER_INITIATED_ABORT')}
"""Chunks that are added with the first of their list."""

FRONT = '''\
//! How each kind is written.

use crate::builder::{ChunkBuilder, PacketBuilder, put};
use crate::error::WriteError;
use crate::kinds::{Data, GapAckBlock, Init, ReConfig, SkippedStream, TAG_REFLECTED};
use crate::types::{CauseCode, ChunkType, ParameterType};
'''


def loop(indent, source, size, name, form, records, wrapped):
    """The lines that write a list."""
    blanks = ' ' * indent
    if form in records:
        lines = [f'put(bytes, {it.at}, {f"u{8 * WIDTHS[it.form]}::from(it.{identifier(it.name)})" if it.what == "bit" else f"it.{identifier(it.name)}"}'
                 '.to_be_bytes());' for it in records[form].layout.numbers if it.name]
        if any(it.what == 'reserved' for it in records[form].layout.fields):
            lines.insert(0, 'bytes.fill(0);')
    else:
        lines = [f'put(bytes, 0, it{".0" if wrapped else ""}.to_be_bytes());']
    return ''.join([f'{blanks}for (bytes, it) in {source}.chunks_exact_mut({size}).zip({name}) {{\n',
                    *(f'{blanks}    {line}\n' for line in lines), f'{blanks}}}\n'])


def body(indent, row, value, adds, records, is_any=False):
    """The lines that write a kind; `value` gives a field, `adds` is the call that adds it but for its numbers and its rest. A list
    that is any iterator may say a wrong length, and one that no slice has."""
    blanks, layout, lines, sizes = ' ' * indent, row.layout, [], []
    if layout.size:
        lines.append(f'let mut it = [0; {layout.size}];')
    for it in layout.numbers:
        if it.what == 'count':
            width = f'u{8 * WIDTHS[it.form]}'
            name = kinds.list_of(row, next(one for one in layout.lists if one.name == it.name))[0]
            name = name if row.level == 'chunk' else identifier(it.name)
            lines += [f'let count = {width}::try_from({name}.len()).map_err(|_| WriteError::BadValue)?;',
                      f'put(&mut it, {it.at}, count.to_be_bytes());']
        elif it.what == 'either':
            flag = value(identifier(it.flag.field.removesuffix(' = 1')))
            lines += [f'let number = if {flag} {{ {value(identifier(it.name))} }} else {{ {value(identifier(it.other))} }};',
                      f'put(&mut it, {it.at}, number.to_be_bytes());']
        elif it.name:
            number = value(identifier(it.name)) + ('.number()' if it.of else '')
            lines.append(f'put(&mut it, {it.at}, {number}.to_be_bytes());')
    names = [(it, identifier(it.name) if row.level != 'chunk' else kinds.list_of(row, it)[0]) for it in layout.lists]
    sizes += [f'{size_of(it.form, records)} * {name}.len(){".min(0xffff)" if is_any else ""}' for it, name in names]
    if layout.optional:
        name = identifier(layout.optional.name)
        lines.append(f'let size = if {name}.is_some() {{ {records[layout.optional.form].layout.size} }} else {{ 0 }};')
        sizes.append('size')
    rest = layout.rest if layout.rest and not layout.items else None
    if rest:
        sizes.append(f'{value(identifier(rest.name))}.len()')
    total = ' + '.join(sizes) or '0'
    if len(sizes) > 1 or is_any and names:
        lines.append(f'let size = {total};')
        total = 'size'
    added = f'{adds}, {"it" if layout.size else "[]"}, {total})?;'
    lines.append(('let rest = ' if sizes else '') + added)
    lines += ['rest.fill(0);'] * (is_any and bool(names))
    text = ''.join(f'{blanks}{line}\n' for line in lines)
    for i, (it, name) in enumerate(names):
        size, source = size_of(it.form, records), 'rest'
        if i + 1 < len(names):
            source = 'list'
            text += f'{blanks}let (list, rest) = rest.split_at_mut({size} * {name}.len());\n'
        text += loop(indent, source, size, name, it.form, records, row.identifier in ITEMS)
    if layout.optional:
        puts = ''.join(f'{blanks}    put(rest, {it.at}, it.{identifier(it.name)}.to_be_bytes());\n'
                       for it in records[layout.optional.form].layout.numbers)
        text += f'{blanks}if let Some(it) = {identifier(layout.optional.name)} {{\n{puts}{blanks}}}\n'
    if rest:
        text += f'{blanks}rest.copy_from_slice({value(identifier(rest.name))});\n'
    return text


ERRORS = '''\
    ///
    /// # Errors
    /// %s
'''


def given(row, struct, records):
    """The arguments of a method: the name, the type, and what is said of it; and a value of each."""
    sample = Sample(row, records)
    if struct and not struct.lists:
        fields = [f'{identifier(name)}: {value}' for name, value in sample.values.items() if value]
        rest = ', ..Default::default()' if len(fields) < len(struct.members) else ''
        return [(struct.name, f'&{struct.type}', '')], [f'&davgyuti::{struct.type} {{ {", ".join(fields)}{rest} }}'], sample
    arguments = [(identifier(it.name), 'bool', about(it)) for it in row.flags]
    values = ['false' for _ in row.flags]
    for it in row.layout.fields:
        if it.what in ('reserved', 'count') or it is row.layout.items:
            continue
        if it.what == 'list':
            name, _ = kinds.list_of(row, it)
            form = kinds.record_name(records[it.form]) if it.form in records else kinds.TYPES[it.form]
            arguments.append((name, f'&[{form}]', about(it)))
            values.append(f'&[{sample.values[it.name]}]')
        else:
            arguments.append((identifier(it.name), kinds.TYPES.get(it.form, '&[u8]'), about(it)))
            values.append(sample.values[it.name])
    return arguments, values, sample


def method(row, struct, records, functions):
    """The method that adds a chunk of a kind."""
    arguments, values, sample = given(row, struct, records)
    name, has_items = row.identifier.lower(), bool(row.layout.items)
    text = f'Adds {row.name} ({reference(row)}).' + (f' {row.notes["-"]}' if '-' in row.notes else '')
    if has_items:
        text += f' Its {row.layout.items.form} are added to what is returned{", one at least" if row.layout.items.least else ""}.'
    if struct and not struct.lists:
        left = [it.name for it in struct.members.values() if row.name not in it.abouts]
        text += f' Of `{struct.name}` {" and ".join(f"`{it}`" for it in left)} {"are" if len(left) > 1 else "is"} ignored.' if left else ''
    said = ''.join('    ///\n' + docs(f'`{key}`: {what[0].lower()}{what[1:]}', 4) for key, _, what in arguments if what)
    lines = [*BUILDER, f'packet.{name}({", ".join(values)})?;', f'assert_eq!(packet.as_bytes()[12..], {literal(sample.padded)});', WRITTEN]
    is_fixed = not row.layout.lists and (not row.layout.rest or has_items)
    result = "ChunkBuilder<'_, 'a>" if has_items else '&mut Self'
    head = call(4, f'pub fn {name}(', ['&mut self', *(f'{key}: {typ}' for key, typ, _ in arguments)],
                f') -> Result<{result}, WriteError> {{')
    alias = f'    #[doc(alias = "dcsctp_add_{name}")]\n' if f'dcsctp_add_{name}' in functions else ''
    value = (lambda key: f'{struct.name}.{key}') if struct and not struct.lists else (lambda key: key)
    flags = (f'{struct.name}.flags()' if struct and row.flags else
             f'if {identifier(row.flags[0].name)} {{ {row.flags[0].flag.identifier} }} else {{ 0 }}' if row.flags else '0')
    first = ''
    if flags.startswith('if '):
        first, flags = f'        let flags = {flags};\n', 'flags'
    lines_of_body = first + body(8, row, value, f'self.add(ChunkType::{row.identifier}, {flags}', records)
    errors = ERRORS % ('[`WriteError::NoRoom`].' if is_fixed else '[`WriteError::BadValue`] or [`WriteError::NoRoom`].')
    return (f'{docs(text, 4)}{said}{example(lines, 4)}{errors}{alias}{head}{lines_of_body}'
            f'        Ok({"ChunkBuilder { packet: self }" if has_items else "self"})\n    }}\n')


def with_first(row, table):
    """The method that adds a chunk with the first of its list."""
    number, first = OWN[row.identifier]
    item = next(it for level in ('parameter', 'cause') for it in table[level] if it.identifier == first)
    field, sample = item.layout.rest, Sample(item, table['records'])
    name, key, is_text = row.identifier.lower(), identifier(field.name), field.form == 'text'
    flag = row.flags[0] if row.flags else None
    arguments = [('false', f'{identifier(flag.name)}: bool')] if flag else []
    arguments.append((sample.values[field.name], f'{key}: {"&str" if is_text else "&[u8]"}'))
    whole = Sample(row, table['records']).bytes[:2] + (4 + len(sample.bytes)).to_bytes(2, 'big') + sample.padded
    lines = [*BUILDER, f'packet.{name}({", ".join(value for value, _ in arguments)})?;', f'assert_eq!(packet.as_bytes()[12..], {literal(whole)});',
             WRITTEN]
    said = ''.join('    ///\n' + docs(f'`{identifier(it.name)}`: {about(it)[0].lower()}{about(it)[1:]}', 4) for it in [*row.flags, field])
    text = (f'Adds {row.name} ({reference(row)}) with a {item.name} ({reference(item)}). One with others, or none, is a '
            f'[`chunk`](Self::chunk) without a value, to whose list they are added.')
    flags = f'if {identifier(flag.name)} {{ {flag.flag.identifier} }} else {{ 0 }}' if flag else '0'
    value = f'{key}.as_bytes()' if is_text else key
    return f'''\
{docs(text, 4)}{said}{example(lines, 4)}{ERRORS % '[`WriteError::BadValue`] or [`WriteError::NoRoom`].'}\
    #[doc(alias = "dcsctp_add_{name.removesuffix('_ack')}")]
{call(4, f'pub fn {name}(', ['&mut self', *(it for _, it in arguments)], ") -> Result<ChunkBuilder<'_, 'a>, WriteError> {")}\
        let (flags, value) = ({flags}, {value});
        let mut it = [0; 4];
        put(&mut it, 0, {number}::{first}.0.to_be_bytes());
        let size = u16::try_from(4 + value.len()).map_err(|_| WriteError::BadValue)?;
        put(&mut it, 2, size.to_be_bytes());
        self.add(ChunkType::{row.identifier}, flags, it, value.len())?.copy_from_slice(value);
        Ok(ChunkBuilder {{ packet: self }})
    }}
'''


def requests(rows, records):
    """The method that adds a request or the response of RE-CONFIG."""
    arms = []
    for row in rows:
        names = [identifier(it.name) for it in row.layout.fields if it.name and it.what != 'count']
        text = body(16, row, lambda key: key, f'self.item(ParameterType::{row.identifier}.0', records, True)
        arms.append(f'            ReConfig::{camel(row.identifier)} {{ {", ".join(names)} }} => {{\n{text}            }}\n')
    row = next(row for row in rows if row.layout.lists)
    sample = Sample(row, records)
    fields = [f'{identifier(name)}: {"&[%s]" % value if name == "streams" else value}' for name, value in sample.values.items()]
    made = f'davgyuti::ReConfig::{camel(row.identifier)} {{ {", ".join(fields)} }}'
    lines = [*BUILDER, f'packet.re_config()?.re_config(&{made})?;', f'assert_eq!(packet.as_bytes()[16..], {literal(sample.padded)});', WRITTEN]
    errors = ERRORS % '[`WriteError::BadValue`] or [`WriteError::NoRoom`].'
    about_any = ('Adds the same with any list of streams that knows its length: that of a request which '
                 '[`Parameter::re_config`](crate::Parameter::re_config) read, too. Zeros follow a list that ends before the length it says.')
    again = [*BUILDER, f'let mut parameters = davgyuti::Parameters::of({literal(sample.padded)[1:]});',
             'let request = parameters.next().unwrap().re_config().unwrap();', 'packet.re_config()?.re_config_from(request)?;', f'assert_eq!(packet.as_bytes()[16..], {literal(sample.padded)});', WRITTEN]
    return f'''\
    /// Adds a request or the response of RE-CONFIG (RFC 6525 section 4).
{example(lines, 4)}{errors}    #[doc(alias = "dcsctp_add_re_config")]
    pub fn re_config(&mut self, re_config: &ReConfig<&[u16]>) -> Result<&mut Self, WriteError> {{
        self.re_config_from(re_config.map_streams(|it| it.iter().copied()))
    }}

{docs(about_any, 4)}{example(again, 4)}{errors}    pub fn re_config_from(
        &mut self,
        re_config: ReConfig<impl IntoIterator<Item = u16, IntoIter: ExactSizeIterator>>,
    ) -> Result<&mut Self, WriteError> {{
        match re_config.map_streams(IntoIterator::into_iter) {{
{''.join(arms)}        }}
        Ok(self)
    }}
'''


def listed(row, records):
    """The method that adds an error cause with a list of numbers."""
    it, sample = row.layout.lists[0], Sample(row, records)
    name, kept = kinds.list_of(row, it)[0], identifier(it.name)
    lines = [*BUILDER, f'packet.error()?.{name}(&[{sample.values[it.name]}])?;',
             f'assert_eq!(packet.as_bytes()[16..], {literal(sample.padded)});', WRITTEN]
    item = ITEMS.get(row.identifier) or kinds.TYPES[it.form]
    text = body(8, row, lambda key: key, f'self.item(CauseCode::{row.identifier}.0', records)
    return f'''\
{docs(f'Adds the error cause {row.name} ({reference(row)}). {about(it)}', 4)}{example(lines, 4)}\
{ERRORS % '[`WriteError::BadValue`] or [`WriteError::NoRoom`].'}    #[doc(alias = "dcsctp_add_{name}")]
{call(4, f'pub fn {name}(', ['&mut self', f'{kept}: &[{item}]'], ') -> Result<&mut Self, WriteError> {')}{text}        Ok(self)
    }}
'''


def rust_writes(table):
    records, functions = table['records'], header.parts()[1]
    structs = {row.identifier: it for it in kinds.groups(table, 'chunk') for row in it.rows}
    methods = [with_first(row, table) if row.identifier in OWN else method(row, structs.get(row.identifier), records, functions)
               for row in kinds_of(table, 'chunk')]
    rows = [row for row in kinds_of(table, 'parameter') if row.struct == 're_config']
    items = [requests(rows, records), *(listed(row, records) for row in kinds_of(table, 'cause') if row.layout.lists)]
    return ''.join([LICENSE, FRONT, "\nimpl<'a> PacketBuilder<'a> {\n", '\n'.join(methods), "}\n\nimpl ChunkBuilder<'_, '_> {\n",
                    '\n'.join(items), '}\n'])
