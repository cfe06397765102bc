# SPDX-License-Identifier: Apache-2.0
"""What registry/make.py writes of the table in C++: bindings/cpp/dcsctp_kinds.hpp, which dcsctp.hpp includes."""
import re
import textwrap

import header
from languages.c import ENUMS, lower, prefix_of
from languages.words import LISTS, reference, registered_structs, rule_standard, snake
from layouts import WIDTHS, kinds_of, size_of

TYPES = {'u8': 'std::uint8_t', 'u16': 'std::uint16_t', 'u32': 'std::uint32_t'}
C_TYPES = {'bool': 'bool', 'size_t': 'std::size_t', **{f'uint{width}_t': f'std::uint{width}_t' for width in (8, 16, 32, 64)}}
# Of each level its enum, what C's names have, how a number without a name is written, and what is said of it.
NUMBERS = {
    'chunk': ('chunk_type', 'std::uint8_t', 'chunk', 'chunk type 99 (0x63)',
              'Types of chunks (RFC 9260 section 3.2). Any other number is one too: `static_cast<chunk_type>(99)`.'),
    'parameter': ('parameter_type', 'std::uint16_t', 'parameter', 'parameter type 32774 (0x8006)',
                  'Types of parameters (section 3.2.1). Any other number is one too.'),
    'cause': ('cause_code', 'std::uint16_t', 'cause', 'cause code 99 (0x0063)',
              'Codes of error causes (section 3.3.10). Any other number is one too.'),
    'result': ('re_config_result', 'std::uint32_t', 're_config_result', 'result 7',
               'The result of a response of RE-CONFIG (RFC 6525 section 4.4).'),
}
CODES = {'result': 'result_code'}  # another name in C++
RANGES = {'duplicates': 'duplicate_tsns', 'types': 'missing_parameters', 'streams': 'reset_streams'}  # by their lists
BASES = {'chunk': 'Place', 'parameter': 'item', 'cause': 'item'}  # (of a chunk also what a row has)
VALUE = ['        const bytes_view value = this->value();', '        const std::uint8_t *const at = value.data();']


def doc(text, indent=''):
    """A comment before what it says something of."""
    return textwrap.wrap(text, 120, initial_indent=f'{indent}/// ', subsequent_indent=f'{indent}/// ', break_on_hyphens=False)


def said(line, text):
    """A line, with what is said of it after it, or before it where that would be too long."""
    whole = f'{line} ///< {text}'
    return [whole] if len(whole) <= 120 else [*doc(text, line[:len(line) - len(line.lstrip())]), line]


def call(begin, arguments, end):
    """A line of arguments: more than one line, where it is long."""
    lines, line = [], begin
    for it in [f'{it},' for it in arguments[:-1]] + [(arguments or [''])[-1] + end]:
        if len(line) + len(it) + 1 > 120:
            lines.append(line.rstrip())
            line = ' ' * len(begin)
        line += it if line.endswith(('(', '{', ' ')) else f' {it}'
    return [*lines, line]


def words(names, last='or'):
    return f' {last} '.join([', '.join(names[:-1]), names[-1]] if len(names) > 1 else names)


def one_of(name):
    return name.removesuffix('s')


def constant(row):
    return f'{NUMBERS[row.level][0]}::{row.identifier.lower()}'


def record_name(record):
    return '_'.join(it.lower() for it in re.findall('[A-Z][a-z]*', record))


def enum(name, about, members):
    lines = []
    for at, (identifier, value, text) in enumerate(members):
        line = f'    {identifier.lower()} = {value}{"," if at + 1 < len(members) else ""}'
        lines += said(line, text) if text else [line]
    return [*doc(about), f'enum class {name} {{', *lines, '};']


def enums(table):
    lines = []
    for row in table['enum']:
        members = [(it.identifier, prefix_of(row.name) + it.identifier, lower(it.about))
                   for it in table['constant'] if it.of == row.name]
        lines += enum(f'{CODES.get(row.name, row.name)} : std::uint32_t', f'{row.about}.', members)
    for level, (name, width, _, _, about) in NUMBERS.items():
        numbers = [(row.identifier, ENUMS[level][1] + row.identifier, '') for row in table[level]]
        lines += enum(f'{name} : {width}', about, numbers)
    rules = [(row.identifier, f'DCSCTP_RULE_{row.identifier}', f'{row.text} ({rule_standard(row)})') for row in table['rule']]
    return lines + enum('rule : std::uint32_t', 'A rule beyond packet::check, as a bit: what breaks it.', rules)


NAMES = '''
/// Returns the name that the standards have; "unknown" for a number that the type above doesn't name.
[[nodiscard]] inline const char *name({type} of) noexcept {{ return ::dcsctp_{c}_name(number(of)); }}
/// Returns whether the type above names the number, not whether your association knows it.
[[nodiscard]] inline bool is_known({type} of) noexcept {{ return name(of) != std::string_view("unknown"); }}
/// Returns the name; for a number that isn't named what it is, with the number: "{other}".
[[nodiscard]] inline std::string to_string({type} of)
{{
    {text}
}}'''
TEXT = 'char text[DCSCTP_TEXT_SIZE];\n    return ::dcsctp_{c}_text(number(of), text);'
NUMBER = 'return is_known(of) ? name(of) : "{c} " + std::to_string(number(of));'


def names(level):
    name, _, c, other, _ = NUMBERS[level]
    text = NUMBER.format(c=level) if level == 'result' else TEXT.format(c=c)
    return NAMES.format(type=name, c=c, other=other, text=text)


def members(it, records):
    """The members of a struct that a field of a value is, each with what is said of it."""
    name = snake(it.name)
    if it.what in ('reserved', 'count') or it.form in ('parameters', 'causes'):
        return []
    if it.what == 'list':
        return [(f'{one_of(name)}_count', f'How many: {lower(it.about)}')]
    if it.what == 'optional':
        return [(f'has_{name}', it.about),
                *((f'{snake(of.name)}_{one_of(name)}', of.about) for of in records[it.form].layout.fields)]
    return [(name, it.about)] + ([(snake(it.other), it.other_about)] if it.what == 'either' else [])


def rows_by_struct(table):
    """The kinds and records that are read into one struct, by its name."""
    found = {}
    for row in [*table['record'], *(row for level in LISTS for row in kinds_of(table, level))]:
        if getattr(row, 'struct', '-') != '-':
            found.setdefault(row.struct, []).append(row)
    return found


def struct_fields(name, table):
    """The members of a struct in the order of C's: each its type, its name, and what is said of it."""
    abouts, rows = {}, rows_by_struct(table)[name]
    for row in rows:
        for it in [*row.layout.fields, *row.flags]:
            for member, about in members(it, table['records']):
                abouts.setdefault(member, {}).setdefault(about, []).append(row.name)
    for it in header.parts()[0][f'dcsctp_{name}']:
        member = it.name.removesuffix('_offset')
        if it.name.endswith('_size'):
            continue
        # What isn't of all kinds says of which it is.
        about = ' '.join(text if len(of) == len(rows) else f'Of {words(of, "and")}: {lower(text)}'
                         for text, of in abouts.get(member, {'Which of them it is.': rows}).items())
        named = {'type': 'parameter_type', 'result': 're_config_result'}
        yield 'bytes_view' if it.name != member else named.get(member, C_TYPES[it.type]), member, about


FLAGS = '''
    /// The bits as the number in the chunk.
    [[nodiscard]] constexpr std::uint8_t flags() const noexcept
    {{
        return static_cast<std::uint8_t>({or_ed});
    }}
    /// The same with the bits of this number; its other bits are reserved.
    [[nodiscard]] constexpr {name} with_flags(std::uint8_t flags) const noexcept
    {{
        {name} it = *this;
{set}
        return it;
    }}'''


def struct(name, rows, table):
    of = words([f'{row.name} ({reference(row)})' for row in rows])
    lines = doc(f'{of}. What the kind does not carry is 0.' if len(rows) > 1 else f'{of}: {lower(rows[0].about)}.')
    fields = list(struct_fields(name, table))
    lines.append(f'struct {name} {{')
    for kind, member, about in fields:
        value = ' = false' if kind == 'bool' else ' = 0' if kind.startswith('std::') else '{}'
        lines += said(f'    {kind} {member}{value};', about)
    if rows[0].flags:
        lines.append(FLAGS.format(
            name=name, or_ed='\n            | '.join(f'({snake(it.name)} ? {it.flag.number} : 0)' for it in rows[0].flags),
            set='\n'.join(f'        it.{snake(it.name)} = (flags & {it.flag.number}) != 0;' for it in rows[0].flags)))
    compared = [f'as_text(it.{member})' if kind == 'bytes_view' else f'it.{member}' for kind, member, _ in fields]
    return [*lines, '};', *call(f'DCSCTP_EQUAL({name}, ', compared, ')')]


def get(it, before=0):
    """A number of a value that begins at `at`."""
    at = before + it.at
    return f'get{8 * WIDTHS[it.form]}({f"at + {at}" if at else "at"})'


def wrong_size(layout, records):
    """When a value isn't one of these, by its size: the counts in it say how many there are of its lists."""
    size, last = layout.size, (layout.fields or [None])[-1]
    if last and last.what == 'rest':
        return f'value.size() < {size + last.least}'
    if last and last.what == 'optional':
        return f'value.size() != {size} && value.size() != {size + size_of(last.form, records)}'
    if not last or last.what != 'list':
        return f'value.size() != {size}'
    if last.count:
        counts = {it.name: it for it in layout.fields if it.what == 'count'}
        lists = [f'{size_of(it.form, records)}{"u" if counts[it.name].form == "u16" else "ull"} * {get(counts[it.name])}'
                 for it in layout.lists]
        return f'value.size() < {size} || value.size() != {" + ".join([str(size), *lists])}'
    step = size_of(last.form, records)
    return f'value.size() < {size} || value.size() % {step} != {size % step}'


def read_field(it, layout, records):
    """The lines that read a field into the member of `it`."""
    name = snake(it.name)
    if it.what == 'number':
        return [f'it.{name} = static_cast<re_config_result>({get(it)});' if it.of else f'it.{name} = {get(it)};']
    if it.what == 'bit':
        return [f'it.{name} = ({get(it)} & 1) != 0;']
    if it.what == 'count':
        return [f'it.{one_of(name)}_count = {get(it)};']
    if it.what == 'either':
        return [f'((flags() & {it.flag.number}) != 0 ? it.{name} : it.{snake(it.other)}) = {get(it)};']
    if it.what == 'list' and not it.count:
        return [f'it.{one_of(name)}_count = (value.size() - {layout.size}) / {size_of(it.form, records)};']
    if it.what == 'optional':
        return [f'it.has_{name} = value.size() != {layout.size};', f'if (it.has_{name}) {{',
                *(f'    it.{snake(of.name)}_{one_of(name)} = {get(of, layout.size)};'
                  for of in records[it.form].layout.fields), '}']
    return [f'it.{name} = value.subspan({layout.size});'] if it.what == 'rest' and it.form in ('bytes', 'text') else []


def reader(name, rows, table):
    """The method that reads the kinds of a struct."""
    bodies = {}
    lines = [*doc(f'Reads {words([row.name for row in rows])}.', '    '),
             f'    [[nodiscard]] std::optional<dcsctp::{name}> as_{name}() const noexcept', '    {',
             f'        std::optional<dcsctp::{name}> it;', *VALUE, '        switch (type()) {']
    for row in rows:
        tests, body = [wrong_size(row.layout, table['records'])], []
        for it in row.layout.fields:
            body += [f'            {line}'.replace('it.', 'it->') for line in read_field(it, row.layout, table['records'])]
            if it.of:
                assert [of.number for of in table[one_of(it.of)]] == list(range(len(table[one_of(it.of)]))), it.of
                tests = [f'({tests[0]})', f'{get(it)} >= {len(table[one_of(it.of)])}']
        body = [f'            if ({" || ".join(tests)})', '                return it;', '            it.emplace();', *body]
        bodies.setdefault('\n'.join(body), []).append(row)
    for body, same in bodies.items():
        lines += [*(f'        case {constant(row)}:' for row in same), body, '            break;']
    lines += ['        default:', '            return it;', '        }']
    lines += ['        it->type = type();'] if rows[0].level == 'parameter' else []
    lines += [f'        it->{snake(it.name)} = (flags() & {it.flag.number}) != 0;' for it in rows[0].flags]
    return [*lines, '        return it;', '    }']


def range_reader(name, lists, records):
    """The method that gives a list of these kinds."""
    tests = []
    for row, it in lists:
        counts = {of.name: get(of) for of in row.layout.fields if of.what == 'count'}
        before = row.layout.lists[:row.layout.lists.index(it)]
        part = ' + '.join([str(row.layout.size), *(f'{size_of(of.form, records)}u * {counts[of.name]}' for of in before)])
        step = size_of(it.form, records)
        if it is not row.layout.lists[-1]:
            part += f', {step}u * {counts[it.name]}'
        call_of, is_size = 'code' if row.level == 'cause' else 'type', f'!({wrong_size(row.layout, records)})'
        tests += [f'        if ({call_of}() == {constant(row)}', f'            && {is_size})',
                  f'            return {{{{value.subspan({part}), {step}}}, 0}};']
    return [*doc(f'{lists[0][1].about.rstrip(".")}, if it is {words([row.name for row, _ in lists])}.', '    '),
            f'    [[nodiscard]] dcsctp::{name} {name}() const noexcept', '    {',
            *VALUE[:1 + any('(at' in it for it in tests)], *tests, '        return {};', '    }']


def lists_of(table, levels):
    """The lists of kinds, each with its kind, by the names of their ranges."""
    found = {}
    for row, it in ((row, it) for level in levels for row in kinds_of(table, level) for it in row.layout.lists):
        record = table['records'].get(it.form)
        found.setdefault(f'{record.struct}s' if record else RANGES[it.name], []).append((row, it))
    return found


def put(row, it, of, records):
    """The lines that write a field after what is written, up to `at`."""
    name, write = snake(it.name), f'put{8 * WIDTHS[it.form]}(at, ' if it.form in WIDTHS else ''
    if it.what == 'list':
        record = records.get(it.form)
        return [f'for ({f"const {record.struct} &" if record else f"{TYPES[it.form]} "}it : {name})',
                f'    at = {f"put_{record_name(it.form)}(at, it)" if record else f"{write}it)"};']
    if it.what == 'optional':
        return [f'if ({of}has_{name}) {{', *(f'    at = put{8 * WIDTHS[part.form]}(at, {of}{snake(part.name)}_{one_of(name)});'
                                             for part in records[it.form].layout.fields), '}']
    if it.what == 'rest':
        return [f'put_bytes(at, {of}{name});'] if it.form in ('bytes', 'text') else []
    if it.what == 'either':
        flag = next(snake(flag.name) for flag in row.flags if flag.flag is it.flag)
        return [f'at = {write}{of}{flag} ? {of}{name} : {of}{snake(it.other)});']
    value = f'number({of}{name})' if it.of else of + name
    value = {'reserved': '0', 'count': f'static_cast<std::uint32_t>({name}.size())'}.get(it.what, value)
    return [f'at = {write}{value});']


def writer(begin, row, of, records):
    """The call that writes a kind: its numbers, its lists, and the rest."""
    terms, views, size = [str(row.layout.size)], [], '{}'
    for it in row.layout.fields:
        name = snake(it.name)
        if it.what == 'list':
            terms, views = [*terms, f'{size_of(it.form, records)} * {name}.size()'], [*views, name]
        elif it.what == 'optional':
            terms.append(f'{records[it.form].layout.size}u * {of}has_{name}')
        elif it.what == 'rest' and it.form in ('bytes', 'text'):
            terms, views = [*terms, f'{of}{name}.size()'], [*views, of + name]
        elif it.of:
            size = f'is_known({of}{name}) ? {{}} : no_size'
    size = size.format(' + '.join(terms if terms[0] != '0' else terms[1:] or terms))
    lines = [line for it in row.layout.fields for line in put(row, it, of, records)]
    if not lines:
        return [f'return {begin}{size}, [](std::uint8_t *) {{}});']
    return [f'return {begin}{size}, [&](std::uint8_t *at) {{', *(f'    {line}' for line in lines),
            f'}}{"".join(f", {it}" for it in views)});']


def adder(row, table):
    """The method that adds a chunk, of its struct, or of its fields where it has none or has lists; or a cause of a list."""
    records, of, given, said_of = table['records'], '', [], [f'Adds {row.name}.']
    if row.level == 'chunk' and row.struct != '-' and not row.layout.lists:
        of, given = 'of.', [f'const {row.struct} &of']
        own = {member for it in [*row.layout.fields, *row.flags] for member, _ in members(it, records)}
        ignored = [name for _, name, _ in struct_fields(row.struct, table) if name not in own]
        ignored += [f'{snake(it.other)} with {it.flag.name}, and else {snake(it.name)}'
                    for it in row.layout.fields if it.what == 'either']
        said_of += [f'Ignored: {words(ignored, "and")}.'] if ignored else []
    for it in row.layout.fields if not of else []:
        if it.what == 'list':
            element = records[it.form].struct if it.form in records else TYPES[it.form]
            given.append(f'view<const {element}> {snake(it.name)}{" = {}" if row.level == "chunk" else ""}')
        elif it.what not in ('count', 'reserved'):
            given.append(f'{"bytes_view" if it.what == "rest" else TYPES[it.form]} {snake(it.name)}')
    given += [f'bool {snake(it.name)} = false' for it in row.flags if not of]
    flags = '0' if not row.flags else f'{of}flags()' if of else f'{snake(row.flags[0].name)} ? {row.flags[0].flag.number} : 0'
    name, begin = row.identifier.lower(), f'add({constant(row)}, {flags}, '
    if row.level == 'cause':
        name, begin = RANGES[row.layout.lists[0].name], f'item(number({constant(row)}), '
    if row.layout.items:
        said_of.append('Its parameters are added after it.')
    said_of += filter(None, [row.notes.get('-')])
    return [*doc(' '.join(said_of), '    '), *call(f'    result add_{name}(', given, ')'), '    {',
            *(f'        {line}' for line in writer(begin, row, of, records)), '    }']


def item_adder(name, rows, table):
    about = 'to the last chunk, with the streams where it has some. bad_value for another type, or a result without a name.'
    lines = [*doc(f'Adds {words([row.name for row in rows])} {about}', '    '),
             f'    result add_{name}(const {name} &of, view<const std::uint16_t> streams = {{}})', '    {',
             '        switch (of.type) {']
    for row in rows:
        lines += [f'        case {constant(row)}:',
                  *(f'            {line}' for line in writer('item(number(of.type), ', row, 'of.', table['records']))]
    return [*lines, '        default:', '            return item(number(of.type), no_size, [](std::uint8_t *) {});',
            '        }', '    }']


def record_functions(table):
    lines = []
    for name, rows in rows_by_struct(table).items():
        if rows[0].level != 'record':
            continue
        step = ' step' if len(rows) > 1 else ''
        lines += ['', f'inline {name} get_{name}(const std::uint8_t *at, std::size_t{step}) noexcept', '{', f'    {name} it;']
        for row in rows:
            lines += [f'    if (step == {row.layout.size}) {{'] if step else []
            lines += [f'    {step and "    "}{line}' for it in row.layout.fields for line in read_field(it, row.layout, {})]
            lines += ['    }'] if step else []
        lines += ['    return it;', '}']
        for row in rows:
            lines += ['', f'inline std::uint8_t *put_{record_name(row.name)}(std::uint8_t *at, const {name} &it) noexcept', '{',
                      *(f'    {line}' for it in row.layout.fields for line in put(row, it, 'it.', {})), '    return at;', '}']
    return lines


# ---- the types that the library keeps as bytes

MEMBERS = {**TYPES, 'short_numbers': 'short_numbers', 'parameters': 'item_list<parameter>', 'causes': 'item_list<cause>'}


def kept(table, level):
    """The structs of these types, but for an address, which a parameter gives and a builder takes."""
    return [(name, *it) for name, it in registered_structs(table, level).items() if name != 'ip_address']


def kept_struct(name, rows, members):
    about = ' '.join(f'{row.name} ({reference(row)}): {lower(row.about)}.' for row in rows)
    fields = [('std::uint8_t', 'flags', 'The flags of the chunk.')] * (rows[0].level == 'chunk')
    fields += [(MEMBERS.get(form, 'bytes_view'), member, said_of) for member, form, _, said_of in members]
    lines = [*doc(about), f'struct {name} {{']
    for kind, member, said_of in fields:
        lines += said(f'    {kind} {member}{" = 0" if kind.startswith("std::") else "{}"};', said_of)
    compared = [f'it.{member}' if kind.startswith('std::') else f'as_text(it.{member})' if kind == 'bytes_view' else
                f'as_text(it.{member}.bytes())' for kind, member, _ in fields]
    return [*lines, '};', *call(f'DCSCTP_EQUAL({name}, ', compared, ')'), '']


def kept_reader(name, rows, members):
    values = ['it.flags'] * (rows[0].level == 'chunk')
    for member, form, _, _ in members:
        part = f'part(this->bytes_, it.{member}_offset, it.{member}_size)'
        values.append(f'it.{member}' if form in TYPES else part if form not in ('parameters', 'causes') else
                      f'{{this->bytes_.subspan(0, it.{member}_offset + it.{member}_size), it.{member}_offset}}')
    return [*doc(f'Reads {words([row.name for row in rows])}; none where the value is one that its type doesn\'t allow.', '    '),
            f'    [[nodiscard]] std::optional<dcsctp::{name}> as_{name}() const noexcept', '    {',
            f'        struct ::dcsctp_{name} it {{}};',
            f'        if (!call<bool>(::dcsctp_read_{name}, this->bytes_, &this->place(), &it))', '            return std::nullopt;',
            *call(f'        return dcsctp::{name}{{', values, '};'), '    }']


def kept_writer(name, rows, members):
    level = rows[0].level
    number = f'{NUMBERS[level][0]} {"code" if level == "cause" else "type"}'
    bytes_of = {member: f'of.{member}{"" if MEMBERS.get(form, "bytes_view") == "bytes_view" else ".bytes()"}'
                for member, form, _, _ in members if form not in TYPES}
    values, first = ['of.flags'] * (level == 'chunk'), '0'
    for member, form, _, _ in members:
        values += [f'of.{member}'] if form in TYPES else [first, f'{bytes_of[member]}.size()']
        first = values[-1] if form not in TYPES else first
    lines = [*doc(f'Adds {words([row.name for row in rows])}{"" if level == "chunk" else " to the last chunk"}; bad_value for a type that '
                  'isn\'t this, and for what it doesn\'t allow.', '    '),
             f'    result add_{name}({number + ", " if rows[1:] else ""}const {name} &of)', '    {']
    both = list(bytes_of.values())
    if both[1:]:
        lines += [f'        if ({" || ".join(f"overlaps({it})" for it in both)})', '            return code(DCSCTP_BAD_VALUE);',
                  f'        std::vector<std::uint8_t> both({both[0]}.begin(), {both[0]}.end());',
                  f'        const bytes_view rest = {both[1]};', '        both.insert(both.end(), rest.begin(), rest.end());']
        both = ['bytes_view(both)']
    passed = [f'::dcsctp_write_{name}', *['start_'] * (level != 'chunk'), *([number.split()[1]] if rows[1:] else []), '&it', *both]
    return [*lines, *call(f'        const struct ::dcsctp_{name} it {{', values, '};'),
            f'        return {"append" if level == "chunk" else "extend"}({", ".join(passed)});', '    }']


def kind_class(table, level):
    """What a chunk, a parameter or an error cause has by its kind."""
    enum_of, call_of = NUMBERS[level][0], 'code' if level == 'cause' else 'type'
    base = BASES[level]
    template = 'template <typename Place> ' if base == 'Place' else ''
    lines = ['', f'/// What of a {level} is by its kind.', f'{template}class {level}_kinds : public {base} {{', '  public:',
             *(f'    using Place::{name};' for name in ('flags', 'type') if base == 'Place'),
             *([] if base == 'Place' else
               [f'    [[nodiscard]] {enum_of} {call_of}() const noexcept {{ return static_cast<{enum_of}>(it_.type); }}'])]
    single = [row for row in kinds_of(table, level) if level == 'chunk' and row.struct == '-']
    if flagged := [row for row in single if row.flags]:
        flag = flagged[0].flags[0]
        lines += [*doc(f'Of {words([row.name for row in flagged])}: {lower(flag.about)} Else false.', '    '),
                  f'    [[nodiscard]] bool is_{snake(flag.name)}() const noexcept', '    {',
                  f'        return ({" || ".join(f"type() == {constant(row)}" for row in flagged)})',
                  f'            && (flags() & {flag.flag.number}) != 0;', '    }']
    for name, rows in rows_by_struct(table).items():
        lines += reader(name, rows, table) if rows[0].level == level else []
    for row in single:
        if [it.what for it in row.layout.fields] == ['number']:
            lines += [*doc(f'Reads {row.name}: {lower(row.layout.fields[0].about)}', '    '),
                      f'    [[nodiscard]] std::optional<std::uint32_t> as_{row.identifier.lower()}() const noexcept', '    {',
                      f'        return type() == {constant(row)} ? number_of(this->value()) : std::nullopt;', '    }']
    for name, lists in lists_of(table, [level]).items():
        lines += range_reader(name, lists, table['records'])
    for it in kept(table, level):
        lines += kept_reader(*it)
    return [*lines, '', '  protected:', f'    using {base}::{base};', '};']


def builder_class(table):
    lines = ['', '/// What a builder adds by its kind.', 'class builder_kinds : public writer {', '  public:']
    for row in [*kinds_of(table, 'chunk'), *(row for row in kinds_of(table, 'cause') if row.layout.lists)]:
        lines += adder(row, table) if not row.layout.items or row.layout.numbers else []
    for name, rows in rows_by_struct(table).items():
        lines += item_adder(name, rows, table) if rows[0].level == 'parameter' else []
    lines += [line for level in LISTS for it in kept(table, level) for line in kept_writer(*it)]
    return [*lines, '};']


HEAD = '''\
// SPDX-License-Identifier: Apache-2.0
// The kinds of chunks, parameters and error causes, for dcsctp.hpp: generated by registry/make.py of registry/sctp.txt
#ifndef DCSCTP_KINDS_HPP
#define DCSCTP_KINDS_HPP
#ifndef DCSCTP_HPP
#error "dcsctp.hpp is what a program includes"
#endif

namespace dcsctp {

// ---- numbers, and what calls return
'''


def kinds(table):
    records, lines = table['records'], [HEAD, *enums(table), *map(names, NUMBERS), '']
    for name, rows in rows_by_struct(table).items():
        lines += [*struct(name, rows, table), '']
    lines += [line for level in LISTS for it in kept(table, level) for line in kept_struct(*it)]
    lines += ['namespace detail {', *record_functions(table), '', '} // namespace detail', '']
    for name, lists in lists_of(table, LISTS).items():
        form = lists[0][1].form
        element, read = (one_of(name), one_of(name)) if form in records else (TYPES[form], form)
        lines += [*doc(f'Of {words([row.name for row, _ in lists])}: {lower(lists[0][1].about)}'),
                  f'using {name} = range<detail::list<{element}, &detail::get_{read}>>;']
    lines += ['', 'namespace detail {', *(line for level in LISTS for line in kind_class(table, level)), *builder_class(table)]
    return '\n'.join([*lines, '', '} // namespace detail', '', '} // namespace dcsctp', '', '#endif', ''])
