# SPDX-License-Identifier: Apache-2.0
"""What the runner of the vectors in the package for Rust has of each kind: its JSON, and how it is written of this."""
from languages import rust_kinds as kinds
from languages.rust_registered import LEVELS as REGISTERED_LEVELS
from languages.rust_words import LICENSE, camel, identifier
from languages.rust_writes import OWN
from languages.words import REGISTERED, kind_name, kinds as registered_kinds
from layouts import kinds_of

FRONT = '''\
//! Each kind as JSON with the table's names, and written of this: tests/vectors.rs reads it.
#![allow(clippy::pedantic, clippy::needless_update, clippy::redundant_closure)] // a kind in each line

use super::json::{Json, kind, object};
use super::add_own;
use davgyuti::*;
'''


def json_of(it, value):
    """The field of a kind as JSON."""
    if it.what == 'optional':
        return f'{value}.map_or(Json::Null, |it| {record("it", it)})'
    return f'Json::from({value})'


def record(value, it):
    return f'object([{", ".join(f"({chr(34)}{name}{chr(34)}, Json::from({value}.{name}))" for name in RECORDS[it.form])}])'


RECORDS = {}


def read_fields(row, value, methods):
    """The pairs of a kind's fields, each its name and its value as JSON."""
    pairs = []
    for it in [*row.flags, *row.layout.fields]:
        if not it.name or it.what == 'count':
            continue
        name = identifier(it.name)
        if it.what == 'list':
            method = kinds.list_of(row, it)[0]
            items = f'{value(method)}{"()" if methods else ""}'
            each = record('it', it) if it.form in RECORDS else 'Json::from(it)'
            pairs.append((name, f'Json::List({items}.map(|it| {each}).collect())'))
        elif it is row.layout.items:
            pairs.append((name, f'Json::List({name}.map(|it| {name[:-1]}(&it)).collect())'))
        elif it.of:
            pairs.append((name, f'Json::from({value(name)}.number())'))
        else:
            pairs.append((name, json_of(it, value(name))))
            if it.other:
                pairs.append((identifier(it.other), f'Json::from({value(identifier(it.other))})'))
    return ', '.join(f'("{name}", {text})' for name, text in pairs)


def read_chunk(row):
    parts, name = kinds.content_parts(row), camel(row.identifier)
    if not parts:
        return f'        Content::{name} => kind("{row.identifier}", []),\n'
    is_tuple = kinds.is_tuple(row, parts)
    names = [identifier(row.layout.rest.name) if is_tuple and row.struct == '-' else key for key, *_ in parts]
    pattern = f'({", ".join(names)})' if is_tuple else f' {{ {", ".join(names)} }}'
    value = (lambda key: f'it.{key}') if row.struct != '-' else (lambda key: key)
    return f'        Content::{name}{pattern} => kind("{row.identifier}", [{read_fields(row, value, True)}]),\n'


def read_item(row, number):
    """The arms that read a parameter or an error cause."""
    if getattr(row, 'struct', '-') != '-':
        names = ', '.join(identifier(it.name) for it in row.layout.fields if it.name and it.what != 'count')
        fields = read_fields(row, lambda key: key, False)
        return f'        (Some(ReConfig::{camel(row.identifier)} {{ {names} }}), _) => kind("{row.identifier}", [{fields}]),\n'
    fields = [it for it in row.layout.fields if it.name and it.what != 'count']
    head = f'        (_, {number}::{row.identifier})'
    if not fields:
        return f'{head} if it.value().is_empty() => kind("{row.identifier}", []),\n'
    it, name = fields[0], identifier(fields[0].name)
    if it.what == 'number':
        return f'{head} if it.number().is_some() => kind("{row.identifier}", [("{name}", Json::from(it.number().unwrap()))]),\n'
    if it.what == 'list':
        items = f'it.{kinds.list_of(row, it)[0]}()'
        return (f'{head} if is_list(it) => '
                f'kind("{row.identifier}", [("{name}", Json::List({items}.map(|it| Json::from(it.0)).collect()))]),\n')
    return f'{head} => kind("{row.identifier}", [("{name}", Json::from(it.value()))]),\n'


def made(it, key):
    """A field of JSON as what is written."""
    name = identifier(key or it.name)
    if it.of:
        return f'ReConfigResult::of(it.number("{name}")).unwrap()'
    if it.what in ('flag', 'bit'):
        return f'it.is("{name}")'
    if it.what == 'optional':
        fields = ', '.join(f'{field}: it.number("{field}")' for field in RECORDS[it.form])
        return f'it.some("{name}").map(|it| {kinds.record_name(ROWS[it.form])} {{ {fields} }})'
    if it.what == 'list':
        if it.form not in RECORDS:
            return f'&it.numbers("{name}")'
        fields = [f'{identifier(field.name)}: it.{"is" if field.what == "bit" else "number"}("{identifier(field.name)}")'
                  for field in ROWS[it.form].layout.fields if field.name]
        return (f'&it.items("{name}").map(|it| {kinds.record_name(ROWS[it.form])} {{ {", ".join(fields)}, ..Default::default() }})'
                '.collect::<Vec<_>>()')
    return f'&it.bytes("{name}")' if it.what == 'rest' else f'it.number("{name}")'


ROWS = {}


def written_chunk(row, structs):
    struct, name = structs.get(row.identifier), row.identifier.lower()
    fields = [(it, key) for it in [*row.flags, *row.layout.fields] if it.name and it.what != 'count' and it is not row.layout.items
              for key in (it.name, it.other) if key]
    if struct and not struct.lists:
        given = f'&{struct.type} {{ {", ".join(f"{identifier(key)}: {made(it, key)}" for it, key in fields)}, ..Default::default() }}'
    else:
        given = ', '.join(made(it, key) for it, key in fields)
    if row.layout.items:
        list_name = row.layout.items.form
        add = f'it.items("{list_name}").try_for_each(|it| add_{list_name[:-1]}(&mut chunk, it))'
        return f'        "{row.identifier}" => {{\n            let mut chunk = packet.{name}({given})?;\n            {add}\n        }}\n'
    return f'        "{row.identifier}" => packet.{name}({given}).map(|_| ()),\n'


def written_item(row, number, method):
    if getattr(row, 'struct', '-') != '-':
        fields = ', '.join(f'{identifier(it.name)}: {made(it, "").replace("&it.numbers", "&*it.numbers")}'
                           for it in row.layout.fields if it.name and it.what != 'count')
        return f'        "{row.identifier}" => chunk.re_config(&ReConfig::{camel(row.identifier)} {{ {fields} }}).map(|_| ()),\n'
    fields = [it for it in row.layout.fields if it.name and it.what != 'count']
    if fields and fields[0].what == 'list':
        types = f'it.numbers::<u16>("{identifier(fields[0].name)}").into_iter().map(ParameterType).collect::<Vec<_>>()'
        return f'        "{row.identifier}" => chunk.{kinds.list_of(row, fields[0])[0]}(&{types}).map(|_| ()),\n'
    if fields and fields[0].what == 'number':
        return f'        "{row.identifier}" => chunk.number_{method}({number}::{row.identifier}, {made(fields[0], "")}).map(|_| ()),\n'
    value = made(fields[0], '') if fields else '&[]'
    return f'        "{row.identifier}" => chunk.{method}({number}::{row.identifier}, {value}).map(|_| ()),\n'


FORMS = {'flags': '0', 'address': 'it.address("{0}")', 'counts': 'it.counts("{0}")', 'bytes': 'it.kept("{0}")',
         'short_numbers': 'ShortNumbers::of(it.kept_numbers("{0}"))', 'parameters': 'Parameters::of(it.kept_list("{0}", "type"))',
         'causes': 'Causes::of(it.kept_list("{0}", "code"))'}
SHOWN = {'address': 'Json::from(*{0})', 'counts': 'Json::List({0}.map(Json::from).to_vec())', 'bytes': 'Json::from(*{0})',
         'short_numbers': 'Json::List({0}.clone().map(Json::from).collect())',
         'parameters': 'Json::List({0}.clone().map(|it| plain("type", it.parameter_type().0, it.value())).collect())',
         'causes': 'Json::List({0}.clone().map(|it| plain("code", it.code().0, it.value())).collect())'}


def given(key, form):
    """A field of a registered value as it is made of JSON, which has no flags."""
    return f'{key}: ' + (FORMS.get(form) or 'it.number("{0}")').format(key)


def registered(table, level):
    """What is read of a registered value as JSON, and the value of this."""
    name, (number, *_) = REGISTERED[level], REGISTERED_LEVELS[level]
    rows = list(registered_kinds(table, level))
    read = ''.join(f'        {name}::{kind_name(row)}{" { " + ", ".join([*(key for key, _ in fields), *[".."] * bool(row.flags)]) + " }" if fields else ""} => '
                   f'object([{", ".join(f"({chr(34)}{key}{chr(34)}, " + (SHOWN.get(form) or "Json::from(*{0})").format(key) + ")" for key, form in fields)}]),\n'
                   for row, fields in rows)
    write = ''.join(f'        {number}::{row.identifier} => {name}::{kind_name(row)}'
                    f'{" { " + ", ".join(given(*it) for it in [*fields, *[("flags", "flags")] * bool(row.flags)]) + " }" if fields else ""},\n'
                    for row, fields in rows)
    return f'''
pub fn {name[10:].lower()}_fields(it: &{name}) -> Json {{
    match it {{
{read}        other => panic!("{{other:?}}"),
    }}
}}

pub fn {name[10:].lower()}_of(number: u16, it: &Json) -> {name}<'static> {{
    match {number}(number{'.try_into().unwrap()' if level == 'chunk' else ''}) {{
{write}        other => panic!("{{other}}"),
    }}
}}
'''


def rust_tests(table):
    RECORDS.update({name: [identifier(it.name) for it in row.layout.fields if it.name] for name, row in table['records'].items()})
    ROWS.update(table['records'])
    for row in table['parameter'] + table['cause']:
        row.flags = []
    structs = {row.identifier: it for it in kinds.groups(table, 'chunk') for row in it.rows}
    chunks, parameters, causes = (kinds_of(table, level) for level in ('chunk', 'parameter', 'cause'))
    return ''.join([LICENSE, FRONT, '''
fn plain(number: &'static str, it: u16, value: &[u8]) -> Json {
    object([(number, Json::from(it)), ("value", Json::from(value))])
}

/// Whether a list of types is there, if with none.
fn is_list(it: &Cause) -> bool {
    it.missing_parameters().len() > 0 || it.value() == [0; 4]
}

pub fn content(it: &Chunk) -> Json {
    match it.content() {
''', *map(read_chunk, chunks), '''\
        Content::Other => object([
            ("type", Json::from(it.chunk_type().0)),
            ("flags", Json::from(it.flags())),
            ("value", Json::from(it.value())),
        ]),
        other => panic!("{other:?}"),
    }
}

pub fn parameter(it: &Parameter) -> Json {
    match (it.re_config(), it.parameter_type()) {
''', *(read_item(row, 'ParameterType') for row in parameters), '''\
        (_, other) => plain("type", other.0, it.value()),
    }
}

pub fn cause(it: &Cause) -> Json {
    match ((), it.code()) {
''', *(read_item(row, 'CauseCode') for row in causes), '''\
        ((), other) => plain("code", other.0, it.value()),
    }
}

pub fn add_content(packet: &mut PacketBuilder, it: &Json) -> Result<(), WriteError> {
    match it.kind() {
''', *(written_chunk(row, structs) for row in chunks if row.identifier not in OWN), '''\
        _ => add_own(packet, it),
    }
}

pub fn add_parameter(chunk: &mut ChunkBuilder, it: &Json) -> Result<(), WriteError> {
    match it.kind() {
''', *(written_item(row, 'ParameterType', 'parameter') for row in parameters), '''\
        _ => chunk.parameter(ParameterType(it.number("type")), &it.bytes("value")).map(|_| ()),
    }
}

pub fn add_cause(chunk: &mut ChunkBuilder, it: &Json) -> Result<(), WriteError> {
    match it.kind() {
''', *(written_item(row, 'CauseCode', 'cause') for row in causes), '''\
        _ => chunk.cause(CauseCode(it.number("code")), &it.bytes("value")).map(|_| ()),
    }
}
''', *(registered(table, level) for level in REGISTERED)])
