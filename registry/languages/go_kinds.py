# SPDX-License-Identifier: Apache-2.0
"""The kinds of the table in Go, bindings/go/kinds.go: their structs, and what reads and writes them and their lists."""
import header
from languages.go_words import HEAD, NUMBERS, camel, comment, constant, either, article, indented, lower, singular, small
from languages.words import LISTS, reference
from layouts import WIDTHS, kinds_of, size_of

ACCESSORS = {
    ('sack', 'blocks'): ('GapAckBlocks', 'GapAckBlock'), ('sack', 'duplicates'): ('DuplicateTSNs', 'uint32'),
    ('forward_tsn', 'streams'): ('SkippedStreams', 'SkippedStream'), ('re_config', 'streams'): ('ResetStreams', 'uint16'),
    ('MISSING_MANDATORY_PARAMETER', 'types'): ('MissingParameters', 'ParameterType'),
}
"""Of a struct's list, or of a kind's that has no struct, the method that goes over it, and what one of it is."""
BY_HAND = ('HEARTBEAT', 'HEARTBEAT_ACK', 'ABORT', 'ERROR', 'RE_CONFIG')
"""The chunks that write.go adds with what has to be in their lists, or that AddChunk begins."""
UINTS = {'u8': 'uint8', 'u16': 'uint16', 'u32': 'uint32'}
READ = {'u8': '{0}[{1}]', 'u16': 'shortAt({0}, {1})', 'u32': 'numberAt({0}, {1})'}
PUT = {'u8': '{0}[{1}] = {2}', 'u16': 'putShort({0}, {1}, {2})', 'u32': 'putNumber({0}, {1}, {2})'}
OWNERS = {'chunk': 'chunk', 'parameter': 'parameter', 'cause': 'cause'}
TYPED = {'chunk': 'Type', 'parameter': 'Type', 'cause': 'Code'}


# ---- kinds.go: structs

def members(row, records):
    """The fields of a kind's struct by C's names: the type of each, and what is said of it."""
    for it in [*row.layout.fields, *row.flags]:
        name = it.name.lower().replace(' ', '_')
        if it.what == 'number':
            yield name, NUMBERS['result'][0] if it.of else UINTS[it.form], it.about
        elif it.what in ('bit', 'flag'):
            yield name, 'bool', it.about
        elif it.what == 'either':
            yield name, UINTS[it.form], it.about
            yield it.other.lower(), UINTS[it.form], it.other_about
        elif it.what == 'optional':
            yield f'has_{name}', 'bool', f'Whether it has the next {len(records[it.form].layout.numbers)}.'
            for part in records[it.form].layout.numbers:
                yield f'{part.name}_{singular(name)}', UINTS[part.form], part.about
        elif it.what == 'list':
            yield f'{singular(name)}_count', 'int', f'How many {it.name} there are; writing ignores it.'
        elif it.what == 'rest' and it.form == 'bytes':
            yield f'{name}_size', '[]byte', f'{it.about[:-1]}, where it lies in the packet.'


def struct_lines(name, rows, records):
    """A struct of Go, whose fields are those of C's, in their order."""
    own, known = camel(name), {}
    for row in rows:
        for member, form, about in members(row, records):
            known.setdefault(member, {}).setdefault((form, about), []).append(row.name)
    names, places = either([row.name for row in rows]), either(list(dict.fromkeys(map(reference, rows))), 'and')
    about = f'{own} is what {names} has' if rows[0].level != 'record' else f'{article(own)} {own} is {lower(rows[0].about)}'
    yield from ['', *comment(f'{about} ({places}).{" What the kind does not carry is 0." if len(rows) > 1 else ""}'),
                f'type {own} struct {{']
    for it in header.parts()[0][f'dcsctp_{name}']:
        if it.name == 'type':
            yield from [*comment('Which of them it is.', '\t'), '\tType ParameterType']
        elif not it.name.endswith('_offset'):
            says = known[it.name]
            texts = [about if len(owners) == len(rows) else f'Of {either(owners, "and")}: {lower(about)}'
                     for (_, about), owners in says.items()]
            form = next(iter(says))[0]
            yield from [*comment(' '.join(texts), '\t'), f'\t{camel(it.name.removesuffix("_size"))} {form}']
    yield '}'


# ---- kinds.go: reading

def size_test(row, records):
    """When a value isn't one of the kind, by its size: '' where each size is one's."""
    layout, size = row.layout, row.layout.size
    if layout.optional:
        return f'len(value) != {size} && len(value) != {size + size_of(layout.optional.form, records)}'
    if layout.lists and not layout.lists[0].count:
        one = size_of(layout.lists[0].form, records)
        return f'len(value) < {size} || len(value)%{one} != {size % one}'
    if layout.lists or layout.rest:
        least = size + (layout.rest.least if layout.rest else 0)
        return f'len(value) < {least}' if least else ''
    return f'len(value) != {size}'


def read_lines(row, records):
    """What reads the fields of a value whose size is right into `it`."""
    layout = row.layout
    if layout.numbers:
        yield f'at := (*[{layout.size}]byte)(value)'
    for one in layout.numbers:
        if one.of:
            read = READ[one.form].format('at[:]', one.at)
            yield from [f'result := {NUMBERS["result"][0]}({read})', 'if result.name() == "" {', '\treturn false', '}']
    for one in layout.fields:
        name, read = camel(one.name), READ.get(one.form, '').format('at[:]', one.at)
        if one.what == 'number':
            yield f'it.{name} = {"result" if one.of else read}'
        elif one.what == 'bit':
            yield f'it.{name} = {read}&1 != 0'
        elif one.what == 'either':
            yield from [f'if flags&{one.flag.number} != 0 {{', f'\tit.{name} = {read}', '} else {', f'\tit.{camel(one.other)} = {read}', '}']
        elif one.what == 'list' and not one.count:
            yield f'it.{camel(singular(one.name))}Count = (len(value) - {layout.size}) / {size_of(one.form, records)}'
        elif one.what == 'optional':
            yield f'if it.Has{name} = len(value) > {layout.size}; it.Has{name} {{'
            for part in records[one.form].layout.numbers:
                read = READ[part.form].format('value', layout.size + part.at)
                yield f'\tit.{camel(part.name)}{camel(singular(one.name))} = {read}'
            yield '}'
        elif one.what == 'rest' and one.form == 'bytes':
            yield f'it.{name} = value[{layout.size}:]'
    yield from (f'it.{camel(flag.name)} = flags&{flag.flag.number} != 0' for flag in row.flags)


def counted_lines(row, records):
    """What compares the counts in a value with its size, and keeps them."""
    counts = {one.name: READ[one.form].format('value', one.at) for one in row.layout.fields if one.what == 'count'}
    if not counts:
        return []
    names = {name: small(singular(name) + ' count') for name in counts}
    sizes = '+'.join(f'{size_of(one.form, records)}*{names[one.name]}' for one in row.layout.lists)
    return [f'{", ".join(names.values())} := {", ".join(f"int({read})" for read in counts.values())}',
            f'if len(value)-{row.layout.size} != {sizes} {{', '\treturn false', '}',
            *(f'it.{camel(singular(name))}Count = {own}' for name, own in names.items())]


def reader_lines(name, rows, records):
    """The function that reads the values of a struct's kinds. What it returns false of, it leaves as it was."""
    level = rows[0].level
    cases = {}
    for row in rows:
        test = size_test(row, records)
        lines = [f'if {test} {{', '\treturn false', '}'] if test else []
        lines += [*counted_lines(row, records), *read_lines(row, records)]
        cases.setdefault(tuple(lines), []).append(row)
    flags = ', flags uint8' if level == 'chunk' else ''
    yield from ['', *comment(f'read reads the value of {either([row.name for row in rows])}; false for another type, and where the value '
                             'isn\'t one of its type.'),
                f'func (it *{camel(name)}) read(of {NUMBERS[level][0]}{flags}, value []byte) bool {{', '\tswitch of {']
    for lines, same in cases.items():
        yield from [f'\tcase {", ".join(map(constant, same))}:', *indented(lines, '\t\t')]
    yield from ['\tdefault:', '\t\treturn false', '\t}']
    yield from [*(['\tit.Type = of'] if level == 'parameter' else []), '\treturn true', '}']
    owner = OWNERS[level]
    given = f'{owner}.Type{", chunk.Flags" if level == "chunk" else ""}, {owner}.Value'
    names = either([row.name for row in rows])
    about = 'a request or the response of RE-CONFIG' if name == 're_config' else names
    yield from ['', *comment(f'{camel(name)} reads {about}; false for another type.'),
                f'func ({owner} {owner.capitalize()}) {camel(name)}() (it {camel(name)}, ok bool) {{', f'\tok = it.read({given})',
                '\treturn it, ok', '}']
    if level == 'chunk':
        yield from ['', *comment(f'{camel(name)} reads {names}; false for another type.'),
                    f'func (parsed *Parsed) {camel(name)}(i int) (it {camel(name)}, ok bool) {{', '\trow := &parsed.rows[i]',
                    '\tok = it.read(row.chunkType, row.flags, row.value(parsed.packet))', '\treturn it, ok', '}']
    else:
        yield from ['', *comment(f'{camel(name)} reads {about}, by the indices of its chunk and its own; false for another type, and in another '
                                 'chunk.'),
                    f'func (parsed *Parsed) {camel(name)}(i, index int) (it {camel(name)}, ok bool) {{',
                    '\tok = it.read(parsed.reConfigAt(i, index))', '\treturn it, ok', '}']


def number_lines(row):
    """What reads a chunk that is one number."""
    own, one = camel(row.identifier), row.layout.fields[0]
    result = f'({small(one.name)} {UINTS[one.form]}, ok bool)'
    about = f'{own} reads the {one.name} of {row.name}; false for another type.'
    yield from ['', f'func {own.lower()}Of(of ChunkType, value []byte) {result} {{',
                f'\tif of != {constant(row)} || {size_test(row, {})} {{', '\t\treturn 0, false', '\t}',
                f'\treturn {READ[one.form].format("value", 0)}, true', '}',
                '', *comment(about), f'func (chunk Chunk) {own}() {result} {{', f'\treturn {own.lower()}Of(chunk.Type, chunk.Value)', '}',
                '', *comment(about), f'func (parsed *Parsed) {own}(i int) {result} {{', '\trow := &parsed.rows[i]',
                f'\treturn {own.lower()}Of(row.chunkType, row.value(parsed.packet))', '}']


# ---- kinds.go: lists

def swaps(form, records):
    """The function that reads or writes a list whose items lie in Go as they do in the packet, but for the order of a number's bytes."""
    parts = [form] if form in WIDTHS else [it.form if it.what == 'number' else '' for it in records[form].layout.fields]
    if form in records and sum(it.struct == records[form].struct for it in records.values()) > 1:
        return None
    return {'u16': 'appendShorts', 'u32': 'appendNumbers'}.get(parts[0]) if len(set(parts)) == 1 else None


def item_expression(form, records):
    fields = records[form].layout.fields
    parts = [f'{camel(it.name)}: {READ[it.form].format("list", it.at)}{"&1 != 0" if it.what == "bit" else ""}' for it in fields if it.name]
    return f'{camel(records[form].struct)}{{{", ".join(parts)}}}'


def places(row):
    """What returns the bytes of a value's lists."""
    at, last, parts = str(row.layout.size), row.layout.lists[-1], []
    for one in row.layout.lists:
        end = '' if one is last else f'after{camel(one.name)}'
        parts.append(f'value[{at}:{end}]')
        at = end
    return f'return {", ".join(parts)}'


def read_list(method, item, one, rows, records, to, of, given):
    """What reads the bytes of a list."""
    swap = swaps(one.form, records)
    return f'{swap}[{item}]({to}, {given})' if swap else f'append{method}({to}, {of}, {given})'


def list_lines(name, rows, records):
    """What reads the lists of a kind, or of a struct's kinds."""
    level, own = rows[0].level, [row for row in rows if row.layout.lists]
    of, owner, struct = NUMBERS[level][0], OWNERS[level], camel(name)
    lists = own[0].layout.lists
    names = [one.name for one in lists]
    yield from ['', *comment(f'listsOf{struct} returns the bytes of the {either(names, "and")} in the value of {either([row.name for row in own])}.'),
                f'func listsOf{struct}(of {of}, value []byte) ({", ".join(names)} []byte) {{']
    nothing = f'return {", ".join("nil" for _ in names)}'
    counts = {it.name: READ[it.form].format('value', it.at) for it in own[0].layout.fields if it.what == 'count'}
    if counts:
        end, least = str(own[0].layout.size), own[0].layout.size
        yield from [f'\tif of != {constant(own[0])} || len(value) < {least} {{', f'\t\t{nothing}', '\t}']
        for one in lists:
            yield f'\tafter{camel(one.name)} := {end} + {size_of(one.form, records)}*uint64({counts[one.name]})'
            end = f'after{camel(one.name)}'
        yield from [f'\tif uint64(len(value)) != {end} {{', f'\t\t{nothing}', '\t}']
    else:
        yield from [f'\tvar it {struct}', f'\tif !it.read(of{", 0" if level == "chunk" else ""}, value) {{', f'\t\t{nothing}', '\t}']
    cases = {}
    for row in own:
        cases.setdefault(places(row), []).append(row)
    if len(cases) == 1 and len(own) == len(rows):
        yield f'\t{next(iter(cases))}'
    else:
        yield '\tswitch of {'
        for line, same in cases.items():
            yield from [f'\tcase {", ".join(map(constant, same))}:', f'\t\t{line}']
        yield from ['\t}', f'\t{nothing}']
    yield '}'
    for place, one in enumerate(lists):
        method, item = ACCESSORS[rows[0].identifier if getattr(rows[0], 'struct', '-') == '-' else name, one.name]
        if not swaps(one.form, records):
            yield from ['', *comment(f'append{method} adds what these bytes are.'),
                        f'func append{method}(to []{item}, of {of}, list []byte) []{item} {{', '\tswitch of {']
            for row in own:
                form = row.layout.lists[place].form
                size = size_of(form, records)
                yield from [f'\tcase {constant(row)}:', f'\t\tfor ; len(list) >= {size}; list = list[{size}:] {{',
                            f'\t\t\tto = append(to, {item_expression(form, records)})', '\t\t}']
            yield from ['\t}', '\treturn to', '}']
        given = ', '.join(one.name if it is one else '_' for it in lists)
        read = read_list(method, item, one, own, records, 'nil', f'{owner}.{TYPED[level]}', one.name)
        yield from ['', *comment(f'{method} goes over the {one.name} of {either([row.name for row in own])}; another type has none.'),
                    f'func ({owner} {owner.capitalize()}) {method}() *Iterator[{item}] {{',
                    f'\treturn &Iterator[{item}]{{items: {owner}.{method[0].lower()}{method[1:]}()}}', '}',
                    '', f'func ({owner} {owner.capitalize()}) {method[0].lower()}{method[1:]}() []{item} {{',
                    f'\t{given} := listsOf{struct}({owner}.{TYPED[level]}, {owner}.Value)', f'\treturn {read}', '}']
    if level == 'parameter':
        yield from ['', *comment(f'{method} returns the {one.name} of {either([row.name for row in own])}, by the same indices, and none of '
                                 'another type.'),
                    f'func (parsed *Parsed) {method}(i, index int) []{item} {{',
                    f'\treturn parsed.shortsOf(i, index, listsOf{struct}(parsed.reConfigAt(i, index)))', '}']


def parsed_lines(table, lists, records):
    """The lists of a Parsed."""
    yield from ['', *comment('lists has the lists of all chunks of a packet, one after the other.'), 'type lists struct {']
    width = max(len(one.name) for _, one, _ in lists)
    yield from (f'\t{one.name:{width}} []{ACCESSORS[struct, one.name][1]}' for struct, one, _ in lists)
    yield from ['}', '', 'func (all *lists) clear() {', *(f'\tall.{one.name} = all.{one.name}[:0]' for _, one, _ in lists), '}',
                '', *comment('read reads the lists of a chunk; false where its type has none of these.'),
                'func (all *lists) read(row *row, value []byte) bool {', '\tswitch row.chunkType {']
    structs = {}
    for struct, one, rows in lists:
        structs.setdefault(struct, []).append((one, rows))
    for struct, of in structs.items():
        yield from [f'\tcase {", ".join(constant(row) for row in of[0][1])}:',
                    f'\t\t{", ".join(one.name for one, _ in of)} := listsOf{camel(struct)}(row.chunkType, value)']
        for place, (one, rows) in enumerate(of):
            read = read_list(*ACCESSORS[struct, one.name], one, rows, records, f'all.{one.name}', 'row.chunkType', one.name)
            yield from [f'\t\trow.lists[{place}].first = uint16(len(all.{one.name}))', f'\t\tall.{one.name} = {read}',
                        f'\t\trow.lists[{place}].end = uint16(len(all.{one.name}))']
    yield from ['\tdefault:', '\t\treturn false', '\t}', '\treturn true', '}']
    for struct, of in structs.items():
        for place, (one, rows) in enumerate(of):
            method, item = ACCESSORS[struct, one.name]
            test = ' && '.join(f'row.chunkType != {constant(row)}' for row in rows)
            yield from ['', *comment(f'{method} returns the {one.name} of {either([row.name for row in rows])}, and none of another type.'),
                        f'func (parsed *Parsed) {method}(i int) []{item} {{', '\trow := &parsed.rows[i]', f'\tif {test} {{', '\t\treturn nil',
                        '\t}', f'\tit := row.lists[{place}]', f'\treturn parsed.lists.{one.name}[it.first:it.end:it.end]', '}']
    yield from ['', *comment('itemsOf returns the parameters or error causes in the value of a chunk of a type.'),
                'func itemsOf(of ChunkType, value []byte) []byte {', '\tswitch of {']
    sizes = {}
    for row in (row for row in kinds_of(table, 'chunk') if row.layout.items):
        sizes.setdefault(row.layout.size, []).append(row)
    for size, rows in sizes.items():
        lines = [f'if len(value) >= {size} {{', f'\treturn value[{size}:]', '}'] if size else ['return value']
        yield from [f'\tcase {", ".join(map(constant, rows))}:', *indented(lines, '\t\t')]
    yield from ['\t}', '\treturn nil', '}']
    for form in ('parameters', 'causes'):
        rows = [constant(row) for row in kinds_of(table, 'chunk') if row.layout.items and row.layout.items.form == form]
        yield from ['', f'func (t ChunkType) has{form.capitalize()}() bool {{', '\tswitch t {', f'\tcase {", ".join(rows)}:',
                    '\t\treturn true', '\t}', '\treturn false', '}']


# ---- kinds.go: writing

def put_lines(row, records, it):
    """What writes a value of the right size; `it` is the struct that it is written from, or ''."""
    layout = row.layout
    if layout.numbers:
        yield f'at := (*[{layout.size}]byte)(value)'
    for one in layout.fields:
        put, given = PUT.get(one.form, ''), f'{it}.{camel(one.name)}' if it else small(one.name) if one.name else ''
        if one.what == 'number':
            yield put.format('at[:]', one.at, f'uint32({given})' if one.of else given)
        elif one.what == 'reserved':
            yield put.format('at[:]', one.at, '0')
        elif one.what == 'count':
            yield put.format('at[:]', one.at, f'{UINTS[one.form]}(len({one.name}))')
        elif one.what == 'either':
            flag = next(flag for flag in row.flags if flag.flag is one.flag)
            yield from [f'if {it}.{camel(flag.name)} {{', '\t' + put.format('at[:]', one.at, given), '} else {',
                        '\t' + put.format('at[:]', one.at, f'{it}.{camel(one.other)}'), '}']
        elif one.what == 'rest' and one.form == 'bytes':
            yield f'copy(value{f"[{layout.size}:]" if layout.size else ""}, {given})'
        elif one.what == 'optional':
            yield f'if {it}.Has{camel(one.name)} {{'
            for part in records[one.form].layout.numbers:
                yield '\t' + PUT[part.form].format('value', layout.size + part.at, f'{it}.{camel(part.name)}{camel(singular(one.name))}')
            yield '}'
    at = str(layout.size)
    for one in layout.lists:
        size, swap = size_of(one.form, records), swaps(one.form, records)
        if swap:
            yield f'{swap.replace("append", "put")}(value[{at}:], {one.name})'
        else:
            parts = [PUT[part.form].format('to', part.at, f'{UINTS[part.form]}(bitOf(one.{camel(part.name)}))' if part.what == 'bit' else
                                           f'one.{camel(part.name)}' if part.name else '0') for part in records[one.form].layout.fields]
            yield from [f'for i, one := range {one.name} {{', f'\tto := value[{at}+{size}*i:]', *indented(parts), '}']
        at += f'+{size}*len({one.name})'


def size_expression(row, records, it):
    """The size of the value that is written, and an optional record's apart."""
    parts = [str(row.layout.size)] if row.layout.size else []
    parts += [f'{size_of(one.form, records)}*len({one.name})' for one in row.layout.lists]
    if row.layout.rest and row.layout.rest.form == 'bytes':
        parts.append(f'len({it}.{camel(row.layout.rest.name)})' if it else f'len({row.layout.rest.name})')
    return '+'.join(parts) or '0'


def add_lines(row, records):
    """The function of a Builder that adds a chunk of a kind."""
    layout, own = row.layout, camel(row.identifier)
    it = row.struct if row.struct != '-' and not layout.lists else ''
    rest = layout.rest if layout.rest and layout.rest.form == 'bytes' else None
    if it:
        arguments = f'{it} {camel(it)}'
    else:
        parts = [(small(one.name), UINTS[one.form]) for one in layout.numbers if one.what == 'number']
        parts += [(one.name, f'[]{UINTS.get(one.form) or camel(records[one.form].struct)}') for one in layout.lists]
        parts += [(rest.name, '[]byte')] if rest else []
        parts += [(small(flag.name), 'bool') for flag in row.flags]
        arguments = ', '.join(f'{name} {form}' for name, form in parts)
    flags = f'{it}.Flags()' if it and row.flags else f'bitOf({small(row.flags[0].name)})' if row.flags else '0'
    note = f', and no {singular(layout.items.form).replace("cause", "error cause")} yet' if layout.items else ''
    about = '. ' + row.notes['-'] if '-' in row.notes else '.'
    yield from ['', *comment(f'Add{own} adds {row.name} ({reference(row)}){note}{about}'), f'func (b *Builder) Add{own}({arguments}) error {{']
    if rest:
        given = f'{it}.{camel(rest.name)}' if it else rest.name
        yield f'\t{given} = b.apart({given})'
    puts = list(put_lines(row, records, it))
    yield f'\t{"value" if puts else "_"}, err := b.newChunk({constant(row)}, {flags}, {size_expression(row, records, it)})'
    if puts:
        yield from ['\tif err != nil {', '\t\treturn err', '\t}', *indented(puts), '\treturn nil', '}']
    else:
        yield from ['\treturn err', '}']


def add_item_lines(name, rows, records):
    """The function of a Builder that adds a parameter or an error cause of a struct's kinds, or of one kind that has a list."""
    struct = getattr(rows[0], 'struct', '-')
    lists = next(row.layout.lists[0] for row in rows if row.layout.lists)
    of, item = struct != '-', ACCESSORS[rows[0].identifier if struct == '-' else struct, lists.name][1]
    it = small(struct) if of else ''
    about = (f'a request or the response of RE-CONFIG, by its Type; the {lists.name} of {either([r.name for r in rows if r.layout.lists])} '
             'alone are written. ErrBadValue for another Type or Result') if of else f'the cause {rows[0].name} with these {lists.name}'
    arguments = f'{it} {camel(struct)}, ' if of else ''
    yield from ['', *comment(f'Add{name} adds {about}.'), f'func (b *Builder) Add{name}({arguments}{lists.name} []{item}) error {{']
    yield from [f'\tswitch {it}.Type {{'] if of else []
    for row in rows:
        lines = []
        if any(one.of for one in row.layout.numbers):
            lines += [f'if {it}.Result.name() == "" {{', '\treturn b.refusal()', '}']
        size = size_expression(row, records, '')
        if row.layout.optional:
            more = size_of(row.layout.optional.form, records)
            lines += [f'size := {size.replace("+", " + ")}', f'if {it}.Has{camel(row.layout.optional.name)} {{', f'\tsize += {more}', '}']
            size = 'size'
        lines += [f'value, err := b.newItem(uint16({constant(row)}), {size})', 'if err != nil {', '\treturn err', '}',
                  *put_lines(row, records, it)]
        yield from [f'\tcase {constant(row)}:', *indented(lines, '\t\t')] if of else indented(lines)
    yield from [*(['\tdefault:', '\t\treturn b.refusal()', '\t}'] if of else []), '\treturn nil', '}']


def flag_lines(struct, rows):
    """The flags of a struct as a number, and of chunks that have no struct."""
    if struct:
        own, flags = camel(struct), rows[0].flags
        yield from ['', *comment(f'Flags returns the bits as the number in the chunk: {", ".join(f"{it.flag.name} {it.flag.number}" for it in flags)}.'),
                    f'func ({struct} {own}) Flags() uint8 {{',
                    f'\treturn {" | ".join(f"bitOf({struct}.{camel(it.name)})" + (f"<<{it.flag.number.bit_length() - 1}" if it.flag.number > 1 else "") for it in flags)}',
                    '}', '', *comment('WithFlags returns the same with the bits of this number; its other bits are reserved.'),
                    f'func ({struct} {own}) WithFlags(flags uint8) {own} {{',
                    *(f'\t{struct}.{camel(it.name)} = flags&{it.flag.number} != 0' for it in flags), f'\treturn {struct}', '}']
        return
    it, names = rows[0].flags[0], either([row.name for row in rows], 'and')
    own, test = camel(it.name), ' || '.join(f'chunk.Type == {constant(row)}' for row in rows)
    yield from ['', *comment(f'{own} is the flag of {names}, the T bit: {lower(it.about.partition(": ")[2])} Chunk.Is{own} looks at the type first.'),
                f'const {own} = {it.flag.number}', '', *comment(f'Is{own} returns whether it is {either([row.name for row in rows])} with the flag {own}.'),
                f'func (chunk Chunk) Is{own}() bool {{', f'\treturn ({test}) && chunk.Flags&{own} != 0', '}']


def kinds(table):
    records, lines, lists = table['records'], [], []
    rows_of = {level: kinds_of(table, level) for level in LISTS}
    structs = {}
    for row in [*rows_of['chunk'], *table['record'], *rows_of['parameter']]:
        structs.setdefault(row.struct, []).append(row)
    alone = structs.pop('-')
    for name, rows in structs.items():
        lines += struct_lines(name, rows, records)
        if rows[0].level == 'record':
            continue
        lines += reader_lines(name, rows, records)
        lines += flag_lines(name, rows) if rows[0].flags else []
        if any(row.layout.lists for row in rows):
            lines += list_lines(name, rows, records)
        lists += [(name, one, rows) for one in rows[0].layout.lists if rows[0].level == 'chunk']
    for row in (row for row in alone if row.level == 'chunk' and [one.what for one in row.layout.fields] == ['number']):
        lines += number_lines(row)
    lines += flag_lines('', [row for row in alone if row.level == 'chunk' and row.flags])
    lines += parsed_lines(table, lists, records)
    for row in (row for row in rows_of['chunk'] if row.identifier not in BY_HAND):
        lines += add_lines(row, records)
    lines += add_item_lines('ReConfig', structs['re_config'], records)
    for row in (row for row in rows_of['cause'] if row.layout.lists):
        lines += list_lines(row.identifier, [row], records)
        lines += add_item_lines(ACCESSORS[row.identifier, row.layout.lists[0].name][0], [row], records)
    return HEAD + '\n'.join(lines) + '\n'
