# SPDX-License-Identifier: Apache-2.0
"""What registry/make.py writes of the table in TypeScript: kinds.d.ts, the types of kinds.js."""
from languages.javascript import COMPUTED, RECORDS, added, given_names, has_fields, is_named, structs_of
from languages.scripts import BEGIN, ITEMS, OBJECTS, class_name, comment, enums_of, js_fields, js_name
from languages.words import digits, kind_name, reference, registered
from layouts import WIDTHS


def type_of(member):
    if member.of:
        return OBJECTS[member.of.removesuffix('s')][0]
    if member.what == 'list':
        return 'number[]' if member.form in WIDTHS else f'{class_name(RECORDS[member.form].name)}[]'
    return {'number': 'number', 'bit': 'boolean', 'flag': 'boolean', 'rest': 'Uint8Array'}.get(member.what) or f'{member.form} | null'


def about_of(struct, member):
    """What is said of a member, and of which kinds, where these differ."""
    parts = [about if len(names) == len(struct.rows) else f'Of {" and ".join(names)}: {about}'
             for about, names in member.abouts.items()]
    return ' '.join(parts)


TS_FORMS = {
    **dict.fromkeys(('u32', 'u16'), 'number'), 'address': 'string; addressBytes: Uint8Array', 'parameters': 'Parameter[]',
    'causes': 'Cause[]', 'shorts': 'number[]', 'bytes': 'Uint8Array',
}


def interface(name, about, members):
    """An interface: of each member its name, its type and what it says."""
    lines = [line for key, its, says in members for line in ([*comment(says, '  ').split('\n')] if says else []) + [f'  {key}: {its};']]
    return '\n'.join([comment(about), f'export interface {name} {{', *lines, '}', ''])


def struct_type(struct, types=''):
    members = [(it.name, type_of(it), about_of(struct, it)) for it in struct.members.values()]
    if struct.name in COMPUTED:
        members.append((COMPUTED[struct.name][0], 'boolean', COMPUTED[struct.name][1]))
    if types:
        members.insert(0, ('type', types, 'Of the parameter.'))
    more = ' What the kind doesn\'t carry is 0, false, empty or null.' if any(it.rows != struct.rows for it in struct.members.values()) else ''
    about = ' or '.join(f'{row.name} ({reference(row)})' for row in struct.rows) if struct.rows[0].level != 'record' else ' '.join(f'{row.about} ({reference(row)}).' for row in struct.rows)
    return interface(class_name(struct.name), f'{about.removesuffix(".")}.{more}', members)


def needed(struct, row):
    """The type of what a call takes that writes a kind."""
    its = [js_name(it.name) for it in [*row.layout.fields, *row.flags] if it.name and it.what != 'count' and it is not row.layout.items]
    its += [js_name(it.other) for it in row.layout.fields if it.other]
    keys = [f"'{it.name}'" for it in struct.members.values() if it.name in its and not struct.is_optional(it)]
    return f'Needed<{class_name(struct.name)}, {" | ".join(keys)}>' if keys else f'Partial<{class_name(struct.name)}>'


def adder_types(chunks, items, table):
    structs = {row.name: struct for struct in chunks for row in struct.rows}
    lines = []
    for row in added(table):
        given = given_names(row)
        more = ', '.join(it.flag.field.removesuffix(' = 1') for it in row.flags if it.flag.field.endswith('= 1'))
        about = f'Adds {row.name} ({reference(row)}): {row.about[0].lower()}{row.about[1:]}.'
        about += f' What is left out of {more.replace(", ", " and ")} is true, and else 0, false or empty.' if more else ''
        its = f'{given}: {needed(structs[row.name], row)}' if has_fields(row) else f'{given}: Uint8Array' if row.layout.rest else ''
        if not its and row.flags:
            its = f'options?: {{ {"; ".join(f"{js_name(it.name)}?: boolean" for it in row.flags)} }}'
        lines += [*comment(about, '  ').split('\n'), f'  add{kind_name(row)}({its}): this;']
    for struct in items['parameter']:
        if is_named(struct):
            name = class_name(struct.name)
            about = 'Adds one of these parameters to the last chunk; what is left out is 0, empty or null, and what its kind doesn\'t carry is ' \
                'ignored. Throws BAD_VALUE for another type, or a result without a name.'
            lines += [*comment(about, '  ').split('\n'), f"  add{name}({js_name(struct.name)}: Needed<{name}, 'type'>): this;"]
    return '\n'.join([comment('What a `Builder` adds by its fields.'), 'export interface Kinds {', *lines, '}', ''])


def contents_type(level, structs):
    """A union of what a parameter or an error cause has by its number, and the fields that one is made of."""
    key, own = ITEMS[level], []
    for struct in structs:
        its = {js_name(struct.name): class_name(struct.name)} if is_named(struct) else {it.name: type_of(it) for it in struct.members.values()}
        own.append((' | '.join(digits(row) for row in struct.rows), its))
    names = [name for _, its in own for name in its]
    lines = [f'  | {{ {key}: {of}; {"; ".join(f"{name}: {its[name]}" if name in its else f"{name}?: undefined" for name in names)} }}'
             for of, its in [*own, ('number', {})]]
    what = 'a parameter has by its type' if level == 'parameter' else 'an error cause has by its code'
    return '\n'.join([comment(f'What {what}, besides its value.'), f'export type {level.capitalize()}Content =', *lines, ';', '']).replace(
        '\n;', ';')


def kind_fields(level, structs):
    members = []
    for struct in structs:
        for row in struct.rows:
            its = f'Needed<{class_name(struct.name)}, never>' if is_named(struct) else '{ ' + '; '.join(
                f'{it.name}: {"Iterable<number>" if it.what == "list" else type_of(it)}' for it in struct.members.values()) + ' }'
            says = f'{row.name} ({reference(row)}).' + ('' if is_named(struct) else ' ' + ' '.join(about_of(struct, it) for it in struct.members.values()))
            members.append((digits(row), its, says))
    what = 'parameters' if level == 'parameter' else 'error causes'
    return interface(f'{level.capitalize()}Kinds', f'The fields that {what} of these are written by.', members)


def fields_by_type(table, level):
    members = []
    for row, fields in registered(table, level):
        types = {name: [TS_FORMS[form] for form in forms] for name, forms in js_fields(fields).items()}
        parts = '; '.join(f'{name}: {of[0] if len(of) == 1 else "[" + ", ".join(of) + "]"}' for name, of in types.items())
        members.append((digits(row), f'{{ {parts} }}' if parts else '{}', f'{row.name} ({reference(row)}).'))
    what = {'chunk': 'a chunk of these types', 'parameter': 'a parameter of these types', 'cause': 'an error cause of these codes'}[level]
    return interface(f'{level.capitalize()}Fields', f'What {what} holds.', members)


def declared(name, about, its):
    lines = [line for identifier, number, says in its
             for line in ([*comment(says, '  ').split('\n')] if says else []) + [f'  readonly {identifier}: {number};']]
    return '\n'.join([comment(about), f'export const {name}: {{', *lines, '};', f'export type {name} = (typeof {name})[keyof typeof {name}];', ''])


def typescript(table):
    chunks, items, records = structs_of(table)
    parts = ["import { Cause, Parameter } from './davgyuti.js';\n\ntype Needed<T, K extends keyof T> = Pick<T, K> & Partial<T>;\n"]
    parts += [declared(*it) for it in enums_of(table)]
    parts += [struct_type(struct) for struct in [*records, *chunks]]
    parts += [struct_type(struct, ' | '.join(digits(row) for row in struct.rows)) for struct in items['parameter'] if is_named(struct)]
    of = [(js_name(struct.name), class_name(struct.name), struct) for struct in chunks]
    parts.append(interface('ChunkContent', 'What a chunk has by its type, besides its value; where the bytes aren\'t a packet, it may have nothing.',
                           [(f'{name}?', type_name, f'Of {" and ".join(row.name for row in struct.rows)}.') for name, type_name, struct in of]))
    parts.append('\n'.join([comment('What a chunk of a packet has by its type.'), 'export type KnownContent =', *(
        f'  | {{ type: {" | ".join(digits(row) for row in struct.rows)}; {name}: {type_name} }}' for name, type_name, struct in of)]) + ';\n')
    parts += [contents_type(level, structs) for level, structs in items.items()]
    parts += [kind_fields(level, structs) for level, structs in items.items()]
    parts += [fields_by_type(table, level) for level in ('chunk', 'parameter', 'cause')]
    return BEGIN + '\n'.join([*parts, adder_types(chunks, items, table), 'export {};\n'])


FILES = {'bindings/js/kinds.d.ts': typescript}
MARKED = {}
