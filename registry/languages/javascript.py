# SPDX-License-Identifier: Apache-2.0
"""What registry/make.py writes of the table in JavaScript: kinds.js, and its types in kinds.d.ts."""
import re

from languages.scripts import BEGIN, ITEMS, block, class_name, comment, constants, enums_of, js_name, wrapped
from languages.words import digits, kind_name
from layouts import WIDTHS, kinds_of, size_of

# What is computed of fields: whether the blocks of a SACK are in order, while they are read.
COMPUTED = {'sack': ('isInOrder', 'Whether the blocks are in order, apart, and begin at 2 or later.')}
ORDERED = 'GapAckBlock'
ORDER = (['let isInOrder = true, before = 0;'],
         ['if (start < before + 2 || start > end)', '  isInOrder = false;', 'before = end;'], ['to.isInOrder = isInOrder;'])
ZEROS = {'number': '0', 'bit': 'false', 'flag': 'false', 'list': '[]', 'optional': 'null'}


# ---- what the kinds hold


class Member:
    """A field of a struct, which some of its kinds have."""

    def __init__(self, it, name):
        self.name, self.what, self.form, self.of, self.rows, self.abouts = js_name(name), it.what, it.form, it.of, [], {}
        if it.what == 'either':
            self.what = 'number'


class Struct:
    """What kinds hold that are read into one object: its members are those of all of them."""

    def __init__(self, name, rows):
        self.name, self.rows, self.members = name, rows, {}
        for row in rows:
            for it in [*row.layout.fields, *row.flags]:
                if it.name and it.what != 'count' and it is not row.layout.items:
                    for name, about in [(it.name, it.about), *([(it.other, it.other_about)] if it.other else [])]:
                        member = self.members.setdefault(js_name(name), Member(it, name))
                        member.rows.append(row if it.what != 'either' else None)
                        member.abouts.setdefault(about, []).append(row.name)

    def is_optional(self, member):
        """Whether it may be left out: it is 0, where not each kind has it, and a list is empty."""
        return member.what not in ('number', 'rest', 'bit') or (member.what != 'rest' and member.rows != self.rows)

    @property
    def maker(self):
        return f'make{class_name(self.name)}'


RECORDS = {}
"""The structs of records, by the names of these; filled by `structs_of`."""


def grouped(rows):
    """The structs of rows, by their names."""
    groups = {}
    for row in rows:
        name = row.struct if getattr(row, 'struct', '-') != '-' else getattr(row, 'identifier', row.name)
        groups.setdefault(name if row.level == 'record' and name == row.name else name.lower(), []).append(row)
    return [Struct(name if name.islower() else re.sub('(?<=.)([A-Z])', r'_\1', name).lower(), its) for name, its in groups.items()]


def has_fields(row):
    """Whether its value is more than bytes or items."""
    return any(it.what not in ('rest', 'reserved') for it in row.layout.fields)


def structs_of(table):
    """The structs of chunks, those of parameters and error causes, and those of records."""
    records = grouped(table['record'])
    RECORDS.update({row.name: struct for struct in records for row in struct.rows})
    chunks = grouped([row for row in kinds_of(table, 'chunk') if has_fields(row)])
    items = {level: grouped([row for row in kinds_of(table, level) if has_fields(row)]) for level in ITEMS}
    return chunks, items, records


def is_named(struct):
    """Whether a parameter has an object of this, or else its members are its own."""
    return len(struct.rows) > 1


# ---- reading


def read_at(it, at='at'):
    place = f'{at} + {it.at}' if it.at else at
    number = f'view.getUint{8 * WIDTHS[it.form]}({place})'
    return f'({number} & 1) !== 0' if it.what == 'bit' else number


def refusals(row, records, table):
    """What a value's size is not, in a kind."""
    layout, size = row.layout, row.layout.size
    counted = [it for it in layout.lists if it.count]
    if counted:
        counts = {it.name: read_at(it) for it in layout.fields if it.what == 'count'}
        sizes = ' + '.join(f'{size_of(it.form, records)} * {counts[it.name]}' for it in counted)
        yield f'size < {size} || size !== {size} + {sizes}'
    elif layout.lists:
        step = size_of(layout.lists[0].form, records)
        yield f'size < {size} || (size - {size}) % {step} !== 0' if size else f'size % {step} !== 0'
    elif layout.optional:
        yield f'size !== {size} && size !== {size + size_of(layout.optional.form, records)}'
    elif layout.rest:
        yield f'size < {size + layout.rest.least}'
    else:
        yield f'size !== {size}'
    for it in layout.fields:
        if it.of:
            yield f'{read_at(it)} > {max(each.number for each in table[it.of.removesuffix("s")])}'


def value_of(row, member, records, is_lazy):
    """How a member is read in a kind; a list and bytes of a chunk are read when they are asked for."""
    layout = row.layout
    for it in [*layout.fields, *row.flags]:
        if it.what == 'count' or member.name not in (js_name(it.name), js_name(it.other)) or it is layout.items:
            continue
        if it.what == 'flag':
            return f'(flags & {it.flag.number}) !== 0'
        if it.what == 'either':
            yes, no = (read_at(it), '0') if member.name == js_name(it.name) else ('0', read_at(it))
            return f'(flags & {it.flag.number}) !== 0 ? {yes} : {no}'
        if it.what == 'rest':
            return str(layout.size)
        if it.what == 'optional':
            fields = ', '.join(f'{js_name(each.name)}: {read_at(each, f"at + {layout.size}")}' for each in records[it.form].layout.fields)
            return f'size === {layout.size} ? null : {{ {fields} }}'.replace(f'at + {layout.size} + ', f'at + {layout.size} + ')
        if it.what == 'list':
            counts = [read_at(each) for each in layout.fields if each.what == 'count' and each.name == it.name]
            count = counts[0] if counts else f'(size - {layout.size}) / {size_of(it.form, records)}'
            return count if is_lazy else f'{list_reader(it.form)}(view, at + {layout.size}, {count})'
        return read_at(it)
    return ZEROS[member.what]


def list_reader(form):
    return f'{form}sIn' if form in WIDTHS else f'read{form}s'


def arguments(struct, row, records, is_lazy):
    return [value_of(row, member, records, is_lazy) for member in struct.members.values()]


def maker(struct):
    """The function that makes the object of a struct, so that all are of one shape."""
    names = list(struct.members)
    fields = [f'{name},' for name in names] + ([f'{COMPUTED[struct.name][0]}: false,'] if struct.name in COMPUTED else [])
    return wrapped(f'const {struct.maker} = ({", ".join(names)}) => ({{') + '\n' + block('', fields, '});').lstrip('\n')


def call(begin, function, values, end):
    """A call, with a line for each value where it is long."""
    line = f'{begin}{function}({", ".join(values)}){end}'
    return [line] if len(line) < 110 else [f'{begin}{function}(', *(f'  {it},' for it in values), f'){end}']


def case(row, lines):
    return [f'case {digits(row)}: // {row.name}', *(f'  {line}' for line in lines)]


def reader(name, levels, structs, about, table, is_lazy):
    lines = []
    for struct in structs:
        for row in struct.rows:
            wrong = ' || '.join(f'({it})' if ' && ' in it else it for it in refusals(row, table['records'], table))
            values = arguments(struct, row, table['records'], is_lazy)
            if is_lazy:
                lines += case(row, [f'if ({wrong})', '  return null;', *call('return ', struct.maker, values, ';')])
                continue
            if is_named(struct):
                made = call(f'it.{js_name(struct.name)} = ', struct.maker, [digits(row), *values], ';')
            else:
                made = [f'it.{key} = {value};' for key, value in zip(struct.members, values)]
            lines += case(row, [f'if ({wrong})', '  return;', *made, 'return;'])
    given = 'view, type, flags, at, end' if is_lazy else 'it, view, type, at, end'
    default = ['  default:', '    return null;'] if is_lazy else ['  default:']
    return comment(about) + '\n' + block(f'function {name}({given}) {{', [
        'const size = end - at;', 'switch (type) {', *(f'  {line}' for line in lines), *default, '}'], '}')


def record_lists(struct, records):
    """Of each record of a struct the function that reads a list of it."""
    names = ', '.join(struct.members)
    for row in struct.rows:
        values = [value_of(row, member, records, False) for member in struct.members.values()]
        reads = [f'const {name} = {value};' for name, value in zip(struct.members, values)]
        if [it.form for it in row.layout.fields] == ['u16', 'u16'] and len(values) == 2:
            first, second = struct.members
            reads = [f'const both = view.getInt32(at), {first} = both >>> 16, {second} = both & 0xffff;']
        begin, each, end = ORDER if row.name == ORDERED else ([], [], [])
        yield comment(f'Reads so many of {row.name}, into a list that was given, or a new one.') + '\n' + block(
            f'function read{row.name}s(view, at, count, given{", to" if end else ""}) {{', [
                'const kept = keptOf(given, count), all = keptList(given, count, null);', *begin,
                f'for (let i = 0; i < count; i++, at += {row.layout.size}) {{', *(f'  {line}' for line in reads),
                '  // (to ask of each whether it is there would take half of the time to make it)', '  const it = i < kept ? all[i] : null;',
                '  if (it === null || it === undefined) {', f'    all[i] = {{ {names} }};', '  } else {',
                *(f'    it.{name} = {name};' for name in struct.members), '  }', *(f'  {line}' for line in each), '}', *end,
                'return all;'], '}')


def lists(structs, records):
    """The function that reads the lists of a chunk."""
    lines = []
    for struct in structs:
        for row in struct.rows:
            if not row.layout.lists:
                continue
            names, at, reads = [js_name(it.name) for it in row.layout.lists], f'at + {row.layout.size}', []
            for it in row.layout.lists:
                name = js_name(it.name)
                reads.append(f'to.{name} = {list_reader(it.form)}(view, {at}, {name}, to.{name}{", to" if it.form == ORDERED else ""});')
                at += f' + {size_of(it.form, records)} * {name}'
            lines += [f'case {digits(row)}: {{ // {row.name}', f'  const {{ {", ".join(names)} }} = from;',
                      *(f'  {line}' for line in reads), '  break;', '}']
    return comment('Reads the lists of a chunk that has how many there are, into those of an object, which may be its own.') + '\n' + block(
        'function readLists(type, from, to, view, at) {', ['switch (type) {', *(f'  {line}' for line in lines), '  default:', '}'], '}')


def getters(structs):
    """The function that gives what the chunks of each struct have: by `of` what was read, by `bytesOf` and `fill` what is read late."""
    lines = []
    for struct in structs:
        types, name = ', '.join(digits(row) for row in struct.rows), js_name(struct.name)
        late = next((member for member in struct.members.values() if member.what in ('list', 'rest')), None)
        lines.append(f'get {name}() {{')
        if late is None:
            lines += [f'  return of(this, {types});', '},']
            continue
        fill = f'it.{late.name} = bytesOf(this, it.{late.name});' if late.what == 'rest' else 'fill(this, it, it);'
        lines += [f'  const it = of(this, {types});', f"  if (it !== undefined && typeof it.{late.name} === 'number')", f'    {fill}',
                  '  return it;', '},']
    return comment('What chunks have by their types: what `of` gives, whose bytes and lists the other two read late.') + '\n' + block(
        'const contents = (of, bytesOf, fill) => ({', lines, '});')


# ---- writing


def checks(struct, row, given, name):
    """What takes the fields of a kind out of an object, each of its type, with the names of C's arguments; and how they are written."""
    layout, takes, tests, writes, sizes, flags = row.layout, [], [], [], [str(row.layout.size)], []
    at, seen = f'at + {layout.size}' if layout.size else 'at', set()

    def take(member, zero):
        if member.name not in seen:
            seen.add(member.name)
            takes.append(f'{member.name} = {zero}' if struct.is_optional(member) or zero == 'true' else member.name)

    for it in [*layout.fields, *row.flags]:
        place, bits = f'at + {it.at}' if it.at else 'at', 8 * WIDTHS.get(it.form, 0)
        if it is layout.items:
            continue
        if it.what == 'reserved':
            writes.append(f'view.setUint{bits}({place}, 0);')
            continue
        member = struct.members[js_name(it.name)]
        its = member.name
        if it.what == 'count':
            writes.append(f'view.setUint{bits}({place}, {its}Numbers.length{divided(layout, it.name)});')
        elif it.what == 'number':
            take(member, '0')
            tests.append(f"{it.form}({its}, '{its}');")
            if it.of:
                tests.append(f'if ({its} > RESULT_MOST)\n  return out.refuse();')
            writes.append(f'view.setUint{bits}({place}, {its});')
        elif it.what == 'either':
            other = struct.members[js_name(it.other)]
            for each in (member, other):
                take(each, '0')
                tests.append(f"{it.form}({each.name}, '{each.name}');")
            flag = next(js_name(each.name) for each in row.flags if each.flag is it.flag)
            writes.append(f'view.setUint{bits}({place}, {flag} ? {its} : {other.name});')
        elif it.what == 'flag':
            take(member, 'true' if it.flag.field.endswith('= 1') else 'false')
            flags.append(f"(truth({its}, '{its}') ? {it.flag.number} : 0)")
        elif it.what == 'rest':
            take(member, '0')
            tests.append(f"isBytes({its}, '{its}');")
            sizes.append(f'{its}.length')
            writes.append(f'out.bytes.set({its}, {at});')
        elif it.what == 'list':
            take(member, '[]')
            function = 'numbersOf' if it.form in WIDTHS else f'check{it.form}s'
            tests.append(f"const {its}Numbers = {function}({its}, '{its}'{f', {it.form}' if it.form in WIDTHS else ''});")
            sizes.append(list_size(it.form, its))
            writes.append(f'{writer(it.form)}(view, {at}, {its}Numbers);')
            at += f' + {sizes[-1]}'
        elif it.what == 'optional':
            take(member, 'null')
            tests.append(f'const {its}Numbers = {its} === null ? [] : check{it.form}s([{its}], \'{its}\');')
            sizes.append(list_size(it.form, its))
            writes.append(f'{writer(it.form)}(view, {at}, {its}Numbers);')
    if sizes[0] == '0' and len(sizes) > 1:
        del sizes[0]
    taken = [f"const {{ {', '.join(takes)} }} = record({given}, '{name}');"] if takes else []
    return taken, tests, writes, ' + '.join(sizes), ' | '.join(flags) or '0'


def list_step(form):
    """The bytes of one of a list, and of how many numbers it is made."""
    if form in WIDTHS:
        return WIDTHS[form], 1
    layout = RECORDS[form].rows[[row.name for row in RECORDS[form].rows].index(form)].layout
    return layout.size, len(layout.fields)


def list_size(form, name):
    step, count = list_step(form)
    return f'{step} * {name}Numbers.length' + (f' / {count}' if count > 1 else '')


def divided(layout, name):
    form = next(it.form for it in layout.lists if it.name == name)
    count = list_step(form)[1]
    return f' / {count}' if count > 1 else ''


def writer(form):
    return f'write{form.upper()}s' if form in WIDTHS else f'write{form}s'


def record_writers(struct):
    """Of each record of a struct the functions that take a list of it apart, and write it."""
    for row in struct.rows:
        takes = ', '.join(f'{js_name(it.name)} = {ZEROS[it.what]}' if struct.is_optional(struct.members[js_name(it.name)])
                          else js_name(it.name) for it in row.layout.fields)
        values = [f"truth({js_name(it.name)}, '{js_name(it.name)}') ? 1 : 0" if it.what == 'bit'
                  else f"{it.form}({js_name(it.name)}, '{js_name(it.name)}')" for it in row.layout.fields]
        count = len(values)
        writes = [f'view.setUint{8 * WIDTHS[it.form]}({f"at + {it.at}" if it.at else "at"}, all[i{f" + {i}" if i else ""}]);'
                  for i, it in enumerate(row.layout.fields)]
        yield comment(f'The numbers of a list of {row.name}, one after the other.') + '\n' + block(f'function check{row.name}s(list, name) {{', [
            'const all = [];', 'for (const it of isList(list, name)) {', f'  const {{ {takes} }} = record(it, `an item of ${{name}}`);',
            f'  if (all.push({", ".join(values)}) >= TOO_MANY)', '    break;', '}', 'return all;'], '}') + '\n' + block(f'function write{row.name}s(view, at, all) {{', [
                f'for (let i = 0; i < all.length; i += {count}, at += {row.layout.size}) {{', *(f'  {line}' for line in writes), '}'], '}')


def body(struct, row, given, name, begin, end):
    """The lines that write a kind; `begin` gives where its value lies, of its flags and its size."""
    taken, tests, writes, size, flags = checks(struct, row, given, name)
    lines = [*taken, *'\n'.join(tests).split('\n')] if tests else taken
    view = ', { view } = out' if any('view' in it for it in writes) else ''
    first = begin(flags, size)
    lines.append(f'const at = {first}{view};' if writes else f'{first};')
    return [it for line in [*lines, *writes, *end] for it in wrapped(line).split('\n')]


def given_names(row):
    """What the call that adds a chunk takes: fields, or the bytes that are its value, or flags, or nothing."""
    if has_fields(row):
        return js_name(row.struct if row.struct != '-' else row.identifier)
    return js_name(row.layout.rest.name) if row.layout.rest else 'options = {}' if row.flags else ''


def added(table):
    """The chunks that are added by their fields."""
    return [row for row in kinds_of(table, 'chunk') if has_fields(row) or not row.layout.items]


def adders(chunks, items, table):
    """The class of which builders are: a call for each kind of chunk, and for each struct of parameters."""
    structs, lines = {row.name: struct for struct in chunks for row in struct.rows}, ['#out;', '', 'constructor(out) {', '  this.#out = out;', '}']
    for row in added(table):
        names, given = given_names(row), given_names(row).partition(' ')[0]
        lines += ['', f'add{kind_name(row)}({names}) {{', '  const out = this.#out;']
        begin = lambda flags, size: f'out.chunk({digits(row)}, {flags}, {size})'
        end = ['return this;']
        if has_fields(row):
            lines += [f'  {line}' for line in body(structs[row.name], row, given, given, begin, end)]
        elif row.layout.rest:
            lines += [f"  const at = out.chunk({digits(row)}, 0, isBytes({given}, '{given}').length);", f'  out.bytes.set({given}, at);', '  return this;']
        else:
            lines += [f'  {line}' for line in body(Struct(row.name, [row]), row, given, given, begin, end)]
        lines.append('}')
    for struct in items['parameter']:
        if is_named(struct):
            name, types = js_name(struct.name), ', '.join(digits(row) for row in struct.rows)
            lines += ['', f'add{class_name(struct.name)}({name}) {{', f"  const {{ type }} = record({name}, '{name}');",
                      f"  if (![{types}].includes(u16(type, 'type')))", '    this.#out.refuse();',
                      f'  writeParameter(this.#out, type, {name});', '  return this;', '}']
    return comment('Adds what is a kind, by its fields: `chunk` gives where its value lies.') + '\n' + block('class Kinds {', lines, '}')


def item_writer(level, structs):
    lines = []
    for struct in structs:
        for row in struct.rows:
            name = js_name(struct.name) if is_named(struct) else 'fields'
            inner = body(struct, row, 'fields', name, lambda flags, size: f'out.item({digits(row)}, {size})', ['return true;'])
            lines += [f'case {digits(row)}: {{ // {row.name}', *(f'  {line}' for line in inner), '}']
    return comment(f'Adds {"a parameter" if level == "parameter" else "an error cause"} by its fields; returns whether there are some.') + '\n' + block(
        f'function write{level.capitalize()}(out, type, fields) {{',
        ['switch (type) {', *(f'  {line}' for line in lines), '  default:', '    return false;', '}'], '}')


IMPORTS = """// The kinds of chunks, parameters and error causes: what is read of their bytes, and how they are written. kinds.d.ts has the types.
'use strict';

const { u16, u32, truth, record, isList, isBytes, TOO_MANY, numbersOf, keptOf, keptList, u16sIn, u32sIn, writeU16s, writeU32s } =
  this ? require('./library.js') : globalThis[Symbol.for('davgyuti')];
"""
EXPORTS = """if (this)
  module.exports = kinds;
else
  Object.assign(globalThis[Symbol.for('davgyuti')], kinds);
"""


def javascript(table):
    chunks, items, records = structs_of(table)
    parts = [IMPORTS, *constants(table), f'const RESULT_MOST = {max(row.number for row in table["result"])};\n']
    parts += [maker(struct) for struct in chunks]
    for struct in items['parameter']:
        if is_named(struct):
            parts.append(maker(struct).replace(' = (', ' = (type, ', 1).replace('({\n', '({\n  type,\n', 1))
    for struct in records:
        parts += record_lists(struct, table['records'])
    parts.append(reader('readChunkValue', ['chunk'], chunks, 'What a chunk\'s value says, between two places of a view; null where it isn\'t '
                        'one of its type. A list is how many it has, and bytes are where they begin in it, until they are asked for.', table, True))
    parts += [lists(chunks, table['records']), getters(chunks)]
    for level, structs in items.items():
        types = ' || '.join(f'type === {digits(row)}' for struct in structs for row in struct.rows)
        parts.append(wrapped(f'const has{level.capitalize()}Fields = type => {types};') + '\n')
        parts.append(reader(f'read{level.capitalize()}', [level], structs, f'Gives {"a parameter" if level == "parameter" else "an error cause"} what '
                            'it has besides its value, where it is one of its type.', table, False))
    for struct in records:
        parts += record_writers(struct)
    parts += [item_writer(level, structs) for level, structs in items.items()] + [adders(chunks, items, table)]
    names = [name for name, _, _ in enums_of(table)] + ['RESULT_TEXTS', 'RULE_TEXTS', 'DATA_FLAGS', 'LIST_OFFSETS', 'hasCauses', 'STRUCTS']
    names += [f'{level.upper()}_{what}' for level in ('chunk', 'parameter', 'cause') for what in ('NAMES', 'FIELDS')]
    names += ['readChunkValue', 'readLists', 'contents', 'hasParameterFields', 'readParameter', 'hasCauseFields', 'readCause', 'writeParameter', 'writeCause', 'Kinds']
    return BEGIN + '\n'.join([*parts, wrapped(f'const kinds = {{ {", ".join(names)} }};') + '\n' + EXPORTS])


FILES = {'bindings/js/kinds.js': javascript}
MARKED = {}
