# SPDX-License-Identifier: Apache-2.0
"""The file kinds.rs of the package for Rust."""
from languages import rust_kinds as kinds
from languages.rust_kinds import camel, sections
from languages.rust_words import (ITEMS, WIDTH, Sample, about, arm, chain, chunk_lines, docs, example, literal,
                                  literal_arm)
from languages.words import reference
from layouts import WIDTHS, kinds_of, size_of

PLAIN = '#[derive(Clone, Copy, Default, PartialEq, Eq, PartialOrd, Ord, Hash, Debug)]\n'


def members(struct, indent=4):
    return ''.join(docs(kinds.said(struct, it), indent) + f'{" " * indent}pub {it.name}: {it.type},\n' for it in struct.members.values())


def carries(struct):
    """What is said of fields that some kinds don't have."""
    if all(len(it.abouts) == len(struct.rows) for it in struct.members.values()):
        return ''
    return ' What the kind does not carry is 0 where it is read, and ignored where it is written.'


# ---- records

def record(struct, records):
    """A struct of a list, and how it is read."""
    fields = [(it.name, it.type) for it in struct.members.values()]
    single = len(struct.rows) == 1
    text = ' '.join(f'{row.about} ({reference(row)}).' for row in struct.rows) + carries(struct)
    numbers = [str(i + 2) for i in range(len(fields))]
    values = ', '.join(f'{name}: {value}' for (name, _), value in zip(fields, numbers))
    if single:
        sample = [f'let it = davgyuti::{struct.type}::new({", ".join(numbers)});',
                  f'assert_eq!(it, davgyuti::{struct.type} {{ {values} }});']
    else:
        sample = [f'let it = davgyuti::{struct.type} {{ stream: 2, ..Default::default() }};', 'assert!(!it.is_unordered);']
    texts = [f'\n{docs(text)}{example(sample)}#[repr(C)]\n{PLAIN}pub struct {struct.type} {{\n{members(struct)}}}\n']
    if single:
        texts.append(f'''
impl {struct.type} {{
{docs('Returns one of these numbers.', 4)}{example(sample, 4)}    #[must_use]
    pub const fn new({', '.join(f'{name}: {typ}' for name, typ in fields)}) -> Self {{
        Self {{ {', '.join(name for name, _ in fields)} }}
    }}
}}
''')
    if struct.name in ('next_tsns',):
        return ''.join(texts)
    arms = []
    for row in struct.rows:
        shown = kinds.shorthand(kinds.fields_read(row.layout)) + ([] if single else [f'..{struct.type}::default()'])
        arms.append((row.layout.size, shown))
    head = f'\n/// What is read of the bytes of one.\n#[inline]\nfn {struct.name}_of(it: &[u8]) -> {struct.type} {{\n'
    if single:
        return ''.join([*texts, head, kinds.struct_literal(4, f'{struct.type} {{ ', arms[0][1]), '}\n'])
    texts.append(head + '    match it.len() {\n')
    for size, shown in arms:
        pattern = '_' if (size, shown) == arms[-1] else str(size)
        texts.append(literal_arm(8, pattern, f'{struct.type} ', shown))
    return ''.join([*texts, '    }\n}\n'])


# ---- structs of chunks

def flag_methods(struct):
    """The flags of a struct as a number, and from one."""
    flags = [it for it in struct.members.values() if it.flag and it.type == 'bool']
    if not flags:
        return ''
    terms = [(f'{it.flag.number} * ' if it.flag.number > 1 else '') + f'u8::from(self.{it.name})' for it in flags]
    line = '        ' + ' + '.join(terms)
    total = line if len(line) <= WIDTH else '        ' + '\n            + '.join(terms)
    said = ', '.join(f'{it.flag.name} {it.flag.number}' for it in flags)
    first, last = flags[0], flags[-1]
    lines = [f'let it = davgyuti::{struct.type}::default().with_flags({first.flag.number | last.flag.number});',
             f'assert!(it.{first.name} && it.{last.name} && !it.{flags[1].name});',
             f'assert_eq!(it.flags(), {first.flag.number | last.flag.number});']
    return f'''
impl {struct.type}<'_> {{
{docs(f'Returns the bits as the number in the chunk ({reference(struct.rows[0])}): {said}.', 4)}{example(lines, 4)}    #[must_use]
    #[inline]
    pub fn flags(&self) -> u8 {{
{total}
    }}

{docs(f'Returns the same with the bits of this number ({reference(struct.rows[0])}); its other bits are reserved.', 4)}{example(lines, 4)}\
    #[must_use]
    #[inline]
    pub const fn with_flags(self, flags: u8) -> Self {{
        Self {{
{''.join(f'            {it.name}: flags & {it.flag.number} != 0,{chr(10)}' for it in flags)}            ..self
        }}
    }}
}}
'''


def list_methods(struct, records):
    """The lists of a struct, as iterators."""
    if not struct.lists:
        return ''
    texts = []
    row = struct.rows[0]
    sample = Sample(row, records)
    for it in row.layout.lists:
        name, kind = struct.lists[it.name]
        size = f'self.{name}_size' if len(struct.rows) > 1 else size_of(it.form, records)
        more = f' {row.notes["-"]}' if it.form in records and row.notes.get('-') else ''
        lines = [*chunk_lines(sample.padded), f'let it = chunk.{struct.name}().unwrap();',
                 f'assert!(it.{name}().eq([{sample.values[it.name]}]));']
        texts.append(f'''\
{docs(about(it) + more, 4)}{example(lines, 4)}    #[must_use]
    #[inline]
    pub const fn {name}(&self) -> {kind}<'a> {{
        {kind} {{ bytes: self.{name}, size: {size} }}
    }}
''')
    return f"\nimpl<'a> {struct.type}<'a> {{\n" + '\n'.join(texts) + '}\n'


def shown_struct(struct):
    """What `{:?}` shows of a struct."""
    calls = [f'.debug_struct("{struct.type}")']
    calls += [f'.field("{it.name}", &{f"Bytes(self.{it.name})" if "[" in it.type else f"self.{it.name}"})' for it in struct.members.values()]
    calls += [f'.field("{name}", &self.{name}())' for name, _ in struct.lists.values()]
    return f'''
impl Debug for {struct.type}<'_> {{
    fn fmt(&self, f: &mut Formatter<'_>) -> Shown {{
{chain(8, '', 'f', [*calls, '.finish()'], '')}    }}
}}
'''


def same_struct(struct):
    """What `==` compares of a struct whose lists are read in ways that differ."""
    tests = [f'self.{it.name} == other.{it.name}' for it in struct.members.values()]
    tests += [f'self.{name}() == other.{name}()' for name, _ in struct.lists.values()]
    lines = '\n            && '.join(tests)
    return f'''
impl PartialEq for {struct.type}<'_> {{
    fn eq(&self, other: &Self) -> bool {{
        {lines}
    }}
}}

impl Eq for {struct.type}<'_> {{}}
'''


def struct_text(struct, records):
    """A struct that chunks are read into."""
    lists, lifetime = list(struct.lists.values()), struct.lifetime
    text = f'What {sections(struct.rows)} holds{", but for its parameters" if struct.rows[0].layout.items else ""}.' + carries(struct)
    derive = ('#[derive(Clone, Copy)]\n' if lists else '#[derive(Clone, Copy, Default, PartialEq, Eq, Hash)]\n' if lifetime else
              '#[derive(Clone, Copy, Default, PartialEq, Eq, Hash, Debug)]\n')
    if sum(it.type == 'bool' for it in struct.members.values()) > 3:
        derive += '#[allow(clippy::struct_excessive_bools)] // they are the bits of its flags\n'
    private = ''
    if lists:
        private = "    pub(crate) value: &'a [u8],\n" if kinds.is_validated(struct) else ''
        private += ''.join(f"    {name}: &'a [u8],\n" for name, _ in lists)
        private += ''.join(f'    {name}_size: usize,\n' for name, _ in lists if len(struct.rows) > 1)
    lines = [it.replace('let it =', f'let it: davgyuti::{struct.type} =') for it in kinds.sample_reads(struct.rows[0], records, struct.name)]
    texts = [f'\n{docs(text)}{example(lines)}{derive}pub struct {struct.type}{lifetime} {{\n{members(struct)}{private}}}\n',
             flag_methods(struct), list_methods(struct, records)]
    if lists:
        texts.append(same_struct(struct))
    if lifetime:
        texts.append(shown_struct(struct))
    return ''.join(texts)


def iterator(name, kind, item, read, text, lines):
    return f'''
list_of_numbers! {{
{docs(text, 4)}{example(lines, 4)}    #[doc(alias = "dcsctp_{name}")]
    {kind}, {item}, {read}
}}
'''


def snake(kind):
    return ''.join('_' + it.lower() if it.isupper() else it for it in kind)[1:]


def iterators(table):
    """The iterator over each list."""
    records, seen, texts = table['records'], set(), []
    for row in (row for level in ('chunk', 'parameter', 'cause') for row in kinds_of(table, level)):
        for it in row.layout.lists:
            name, kind = kinds.list_of(row, it)
            if kind in seen:
                continue
            seen.add(kind)
            sample = Sample(row, records)
            if it.form in records:
                item, read = kinds.record_name(records[it.form]), f'{records[it.form].struct}_of'
            else:
                item = ITEMS.get(row.identifier) or kinds.TYPES[it.form]
                read = f'u{8 * WIDTHS[it.form]}_at(it, 0)'
                read = f'|it| {item}({read})' if row.identifier in ITEMS else f'|it| {read}'
            if row.level == 'chunk':
                lines = [*chunk_lines(sample.padded), f'let mut list = chunk.{row.struct}().unwrap().{name}();']
            elif row.level == 'cause':
                lines = [f'let mut causes = davgyuti::Causes::of({literal(sample.padded)[1:]});',
                         f'let mut list = causes.next().unwrap().{name}();']
            else:
                lines = [f'let mut parameters = davgyuti::Parameters::of({literal(sample.padded)[1:]});', 'let mut list = None;',
                         'parameters.next().unwrap().re_config().unwrap().map_streams(|it| list = Some(it));', 'let mut list = list.unwrap();']
            lines += ['assert_eq!(list.len(), 1);', f'assert_eq!(list.next_back(), Some({sample.values[it.name]}));']
            text = f'The list `{it.name}` of {row.name} ({reference(row)}): {about(it)[0].lower()}{about(it)[1:]}'
            texts.append(iterator(snake(kind), kind, item, read, text, lines))
    return ''.join(texts)


# ---- contents

def contents(table):
    rows = kinds_of(table, 'chunk')
    arms = ''.join(arm(12, f'Self::{camel(row.identifier)}{kinds.holes(row)}', f'ChunkType::{row.identifier}') for row in rows)
    return f'''
/// What a chunk holds, by its type.
///
/// `==` compares what is read of it: numbers, items of lists, and values.
///
/// ```
/// use davgyuti::{{Content, Packet}};
///
/// fn acknowledged(packet: &Packet) -> Option<u32> {{
///     packet.chunks().find_map(|chunk| match chunk.content() {{
///         Content::Sack(sack) => Some(sack.cumulative_tsn_ack),
///         Content::Shutdown {{ cumulative_tsn_ack }} => Some(cumulative_tsn_ack),
///         _ => None,
///     }})
/// }}
/// ```
#[derive(Clone, PartialEq, Eq)]
#[non_exhaustive]
pub enum Content<'a> {{
{''.join(map(kinds.variant, rows))}\
    /// Any other type; and, in bytes that weren't checked, what its type doesn't allow. The
    /// [value](Chunk::value) has it, and [`registered`](Chunk::registered) reads some types.
    Other,
}}

impl Content<'_> {{
    /// Returns the type of the chunk (RFC 9260 section 3.2); none of [`Other`](Self::Other).
    ///
    /// ```
    /// use davgyuti::{{ChunkType, Content}};
    ///
    /// assert_eq!(Content::CookieAck.chunk_type(), Some(ChunkType::COOKIE_ACK));
    /// ```
    #[must_use]
    #[inline]
    pub const fn chunk_type(&self) -> Option<ChunkType> {{
        Some(match self {{
{arms}            Self::Other => return None,
        }})
    }}
}}

impl Debug for Content<'_> {{
    fn fmt(&self, f: &mut Formatter<'_>) -> Shown {{
        match self {{
{''.join(map(kinds.shown_variant, rows))}            Self::Other => f.write_str("Other"),
        }}
    }}
}}
'''


def places(table, form):
    """The arms that say where a list begins in a value."""
    rows = {}
    for row in kinds_of(table, 'chunk'):
        if row.layout.items and row.layout.items.form == form:
            rows.setdefault(row.layout.size, []).append(f'ChunkType::{row.identifier}')
    text = ''
    for size, names in rows.items():
        line = f'            {" | ".join(names)} => {size},\n'
        text += line if len(line) <= WIDTH + 1 else '            ' + '\n            | '.join(names) + f' => {size},\n'
    return text


def chunk_methods(table):
    records, rows = table['records'], kinds_of(table, 'chunk')
    readers = [kinds.reader(struct, records) for struct in kinds.groups(table, 'chunk')]
    readers += [kinds.number_reader(row, records) for row in rows if kinds.has_number(row)]
    text = '\n'.join(readers)
    return f'''
impl<'a> Chunk<'a> {{
    /// Returns what the chunk holds, by its type.
    ///
    /// ```
    /// # let bytes = *b"\\0\\x01\\0\\x02\\0\\0\\0\\x03\\0\\0\\0\\0\\x0a\\0\\0\\x07abc\\0";
    /// # let chunk = davgyuti::Chunk::at(&bytes, 12).unwrap();
    /// assert_eq!(chunk.content(), davgyuti::Content::CookieEcho(b"abc"));
    /// ```
    #[must_use]
    #[inline]
    pub fn content(&self) -> Content<'a> {{
        match self.chunk_type() {{
{''.join(map(kinds.made_arm, rows))}            _ => Content::Other,
        }}
    }}

{text}
    /// Where the parameters begin in the value; at the end of the value, if the type has none.
    #[inline]
    pub(crate) fn place_of_parameters(&self) -> usize {{
        match self.chunk_type() {{
{places(table, 'parameters')}            _ => self.value().len(),
        }}
    }}

    /// The same of the error causes.
    #[inline]
    pub(crate) fn place_of_causes(&self) -> usize {{
        match self.chunk_type() {{
{places(table, 'causes')}            _ => self.value().len(),
        }}
    }}
}}
'''


def shared_flags(table):
    """A constant for each flag of kinds that have no struct for it."""
    flags = {}
    for row in kinds_of(table, 'chunk'):
        for it in row.flags if row.struct == '-' else []:
            flags.setdefault((it.flag.identifier, it.flag.number), (it, []))[1].append(row)
    return ''.join(
        f'\n{docs(f"A flag of {sections(rows)}. {about(it)}")}pub const {name}: u8 = {value};\n' for (name, value), (it, rows) in flags.items())
