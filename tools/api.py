#!/usr/bin/env python3
# SPDX-License-Identifier: Apache-2.0
"""usage: tools/api.py --write | --compare | --help

Makes docs/API.md, the list of the libraries' public items, from their sources.

  --write    writes the page
  --compare  fails if the page isn't what the sources give, or if a doc comment breaks the house's rules: that of a public
             function of any crate begins with one of the verbs of this script, and none says "the same" of another, since each
             is read alone
  --help     prints this

Listed are the public items of the public modules of each library, under the path that a program writes: the signature, the
first sentence of the doc comment, public fields, variants, methods, and the traits that are derived or have an `impl`, of an
iterator with its items. A function that has conditions (`requires`) is marked with them, in words. Without a sentence comes what
its name says or the head of the page: a field; a variant that holds a kind; most numbers; what each kind has; a method whose name
and signature have each word of its sentence; a law, which docs/PROVED.md explains. Not listed is what the libraries
call of each other: what `dcsctp_wire` doesn't pass on of those below it, and what makes a kind of a value that was checked.
"""
import os
import re
import sys
import textwrap

ROOT = os.path.dirname(os.path.dirname(os.path.abspath(__file__)))
PAGE = os.path.join(ROOT, 'docs', 'API.md')

# The libraries that a program names, and those that it sees through `dcsctp_wire`; in the order in which their items come within
# a section.
NAMED = ['dcsctp_wire', 'dcsctp_borrowed', 'dcsctp_registry', 'dcsctp_buffer', 'dcsctp_receive', 'dcsctp_crc32c']
LIBRARIES = NAMED + ['dcsctp_chunk', 'dcsctp_tlv', 'dcsctp_cause', 'dcsctp_types']

# The sections of the page, and which modules each has, by their paths in a program: the first that matches.
SECTIONS = [
    ('Laws', r'dcsctp_wire::laws'),
    ('Packets', r'dcsctp_wire::packet(::sctp_packet)?$'),
    ('Chunks', r'dcsctp_wire::packet::(\w*chunk\w*|data|plain_check)$'),
    ('Parameters', r'dcsctp_wire::packet::(parameter|\w+_parameter$|add_streams_request$|request_numbers$)'),
    ('Error causes', r'dcsctp_wire::packet::\w+_\w+$'),
    ('Serial numbers, ids and times', r'dcsctp_wire::(types|api)'),
    ('Packets in their own bytes', r'dcsctp_borrowed'),
    ('What the registry has beyond the kinds', r'dcsctp_registry'),
    ("Packets written into the caller's buffer", r'dcsctp_buffer'),
    ('What a receiver is asked', r'dcsctp_receive::(?!(auth|cookie|hmac|shared_key)$)'),
    ('The checksum, authentication and cookies', r'dcsctp_crc32c|dcsctp_receive'),
]

# Traits that say nothing to a caller: what every type has, what the proofs see of a type, and those of the libraries themselves.
# And what others imply.
UNLISTED = {'Drop', 'Model', 'Field', 'Kind', 'ListedTlv', 'ReadableTlv', 'Widths', 'Debug', 'PartialEq', 'PartialOrd'}

# Columns of the page.
WIDTH = 140

# Methods and constants of a type that the head of the page explains once, and the sentences of constants whose name says what they are.
NUMBERS_HAVE = {'read', 'bytes', 'words'}
KINDS, KIND = re.compile('(Chunk|Parameter|ErrorCause)$'), r'[^(]*(\(RFC [^()]*\))\.'
REGISTERED = r'^[^(]* \((RFC|draft-)[^)]*\), (type|code) [0-9a-fx]+( or 6)?(: |\.$)'
NUMBERS = r'The (type|code|offset) of |(Their|Its) bytes|The bytes of the (value|header)'

# What another page says of each variant.
ELSEWHERE = {'Rule': '[DUMP.md](DUMP.md#rules) says what each asks, in this order.'}

# Words of a sentence that a name needn't say.
PLAIN_WORDS = set('''
    returns the a an of its their it is are this that these in on to and there number numbers how many iterator over order reads sets takes
'''.split())

# Modules that are public for the tool's crates alone, and not listed.
FOR_THE_TOOL = [r'dcsctp_receive::(chunk_test|chunk_type|fields)\b']

# What the doc comment of a public function begins with. One verb says one thing: a call returns, and doesn't give or yield.
VERBS = set('''
    Accepts Adds Appends Begins Brings Builds Checks Copies Counts Drops Ends Fills Finds Forgets Goes Hands Keeps Locates Makes Notes Opens
    Prints Proves Puts Reads Remembers Replaces Returns Runs Sets Shows Splits Takes Verifies Waits Watches Writes
'''.split())

HEAD = '''# The public items

Made from the sources by `tools/api.py --write`; the gate compares it. In bold is the path to write in a `use`, for `packet`, `api`,
`types` and `laws` after `dcsctp_wire::`, which each program needs. In braces are a struct's public fields; after a type come its
constants and its methods: `add_to` after `Tsn` is `Tsn::add_to`. What a name says comes without a sentence, and what a law proves is in
[PROVED.md](PROVED.md); the comment in the source says all. Not listed are `Debug`, a trait that another implies (`Clone` beside `Copy`),
and what the libraries call of each other alone. What the caller has to prove (`requires`) comes after the signature, after *needs*:

| *needs* | the caller proves that |
|---|---|
| *fits* | `fits()` is true |
| *encodable*, *placed* | `encodable()` is true |
| *room*, *size* | the output, or what is left of the builder's limit, is large enough; it has `canonical_size()` bytes |
| other words | what they say of the argument |

Each kind of chunk, parameter and error cause has `Display`, `SerializableTlv` and `try_from(raw)`, or where it owns memory
`try_from(alloc, raw)`, which reads the raw item if it is of this kind (`Unknown..`: of any); so have `Chunk`, `Parameter` and
`ErrorCause`. What is called `..Numbers` is the numbers at the front of a kind's value, and `Copy`. It has `SIZE`, their bytes; constants
that are offsets in the value, as `InitNumbers::A_RWND`; `read(value)`, which needs at least `SIZE` bytes; and `bytes()` or `words()`, the
numbers as they are written.
'''

# What a condition without a name says, in words.
CONDITIONS = [
    (r'IsOk \(|HasMeaning|MeansSome|MeansMany|AreItems', 'meant'),
    (r'Fits', 'fits'),
    (r'IsListEncodable|< 2 \^ 16', 'encodable'),
    (r'BeginsWithFrame', 'begins with a frame'),
    (r'(\d+) ≤ length (?:bytes|value|packet)', 'at least {} bytes'),
    (r'SIZE.* ≤ length bytes', 'enough bytes'),
    (r'≤ length output|length items.now ≤ room', 'room'),
    (r'index < ', 'index below the count'),
    (r'\* count ≤ ', 'as many bytes'),
    (r'place ≤ length value', 'place within the value'),
    (r'leading ≤ MAX_VALUE_SIZE', 'leading at most 65,531'),
    (r'round_up_to_4', 'n at most 2^64 - 4'),
    (r'bit < 8', 'bit below 8'),
    (r'n ≢ 0', 'not 0'),
]

ITEM = re.compile(r'^(?P<indent> *)pub (?P<kind>const fn|fn|struct|enum|trait|const|static|type) (?P<name>\w+)')
METHOD = re.compile(r'^    (?:pub )?(?:final )?(?:const )?fn (\w+)')


def lines_of(path):
    with open(path, encoding='utf-8') as file:
        return file.read().splitlines()


def modules_of(crate):
    """The public modules of a crate, each with its file, from the root on."""
    source = os.path.join(ROOT, 'crates', crate, 'src')
    found = [(crate, os.path.join(source, 'lib.rt'))]
    for name, path in found:
        folder = source if name == crate else path[:-len('.rt')]
        for line in lines_of(path):
            inner = re.match(r'^pub mod (\w+);', line)
            if inner:
                found.append((f'{name}::{inner[1]}', os.path.join(folder, inner[1] + '.rt')))
    return found


def first_sentence(doc):
    """The first sentence of a doc comment's first paragraph."""
    paragraph = []
    for line in doc:
        if not line:
            break
        paragraph.append(line)
    text = ' '.join(paragraph)
    end = re.search(r'\.(?= [A-Z`(]|$)|:(?= [A-Z])', text)
    return text[:end.end()] if end else text


def in_words(clause):
    for pattern, words in CONDITIONS:
        found = re.search(pattern, clause)
        if found:
            return words.format(*found.groups())
    return 'condition'


def signature_of(lines, at):
    """The signature that begins at a line, on one line, and the names of its conditions."""
    text, conditions = [], []
    for line in lines[at:]:
        bare = line.strip()
        clause = re.match(r'requires\*? *(\w*) *\{', bare)
        if clause:
            conditions.append(clause[1] or in_words(bare))
        if clause or bare.startswith(('ensures', 'ghost ', '{', '//')) or conditions:
            if bare == '{' or bare.endswith((';', '{}')) and not clause:
                break
            if clause or conditions:
                if bare == '{}':
                    break
                continue
            break
        text.append(bare)
        if bare.endswith(('{', ';', '{}')):
            break
    joined = re.sub(r'\s+', ' ', ' '.join(text)).rstrip('{}; ').strip()
    joined = re.sub(r'\( ', '(', re.sub(r',? \)', ')', joined))
    return joined, conditions


def members_of(lines, at):
    """The public fields of a struct, or the variants of an enum, each with its first sentence."""
    found, doc = [], []
    if not lines[at].endswith('{'):
        return found
    is_enum = ' enum ' in f' {lines[at]}'
    for line in lines[at + 1:]:
        bare = line.strip()
        if line.startswith('}'):
            break
        if bare.startswith('///'):
            doc.append(bare[3:].strip())
        elif re.match(r'^    pub \w+:', line) or is_enum and re.match(r'^    [A-Z]\w*', line):
            found.append((bare.removeprefix('pub ').rstrip(',{ '), first_sentence(doc)))
            doc = []
        elif not bare.startswith('#['):
            doc = []
    return found


def entry(signature, sentence, conditions=()):
    marks = f' *needs {", ".join(conditions)}*' if conditions else ''
    sentence = re.sub('^(Returns|Proves that) ', '', sentence)
    return f'`{signature}`{marks}' + (f': {sentence}' if sentence else '')


def are_numbers_of_kind(name):
    """Whether a type is the numbers at the front of a kind's value."""
    return (name or '').endswith('Numbers') and name not in ('Numbers', 'BytesAndNumbers')


def is_said(sentence, *names):
    """Whether these names have each word of the sentence, up to its first colon or semicolon."""
    words = re.findall(r'[a-z]+', re.split('[:;]', sentence)[0].lower())
    said = re.findall(r'[a-z]{3,}', ' '.join(re.sub('([A-Z])', r' \1', name) for name in names).lower())
    return all(any(word.startswith(it) or it.startswith(word) for it in said) for word in words if word not in PLAIN_WORDS)


def wrapped(depth, text):
    """An item of a list, in lines of the pages' width; a line of it begins with nothing that begins an item, too."""
    kept = re.sub(r' ([-+*=&|]) ', '\0\\1\0', text)
    lines = textwrap.wrap(kept, WIDTH, initial_indent='  ' * depth + '- ', subsequent_indent='  ' * (depth + 1),
                          break_long_words=False, break_on_hyphens=False)
    return [line.replace('\0', ' ') for line in lines]


class Item:
    """A public item: its name, the type that it is a method or a constant of, if any, its text on the page, its first sentence."""

    def __init__(self, kind, name, owner, text, sentence, value):
        self.kind, self.name, self.owner, self.text, self.sentence, self.value = kind, name, owner, text, sentence, value

    def is_law(self):
        return self.sentence.startswith('Proves that ')

    def is_bare(self):
        """Whether it has no sentence."""
        return self.text.endswith(('`', '*'))

    def is_short(self):
        return self.is_bare() or len(self.text) <= 110

    def is_explained(self):
        """Whether the head of the page says of all kinds, or of all that are numbers, that they have it."""
        return self.name == 'try_from' or are_numbers_of_kind(self.owner) and self.name in NUMBERS_HAVE | {self.name.upper()}

    def is_number_of_kind(self):
        return self.name in ('CHUNK_TYPE', 'PARAMETER_TYPE', 'CAUSE_CODE')

    def is_internal(self):
        """Whether the libraries alone call it: what builds a kind, or fills a list, of bytes that were checked."""
        return re.search(r'build$|_fill$', self.name) is not None and ' *needs meant' in self.text


def passed_on(crate, name, path, public):
    """The items of private modules that a public module passes on by `pub use`."""
    found = []
    text = re.sub(r'\s+', ' ', '\n'.join(lines_of(path)))
    for place, names in re.findall(r'pub use (\w+(?:::\w+)*)::(\w+|\{[^}]*\});', text):
        place = re.sub('^crate', crate, place) if place.startswith('crate') else f'{name}::{place}'
        source = os.path.join(ROOT, 'crates', crate, 'src', *place.split('::')[1:]) + '.rt'
        if place not in public and os.path.isfile(source):
            found += items_of(source, set(re.findall(r'\w+', names)))
    return found


def is_defined(owner, lines):
    return any(re.match(rf'(pub(\([^)]*\))? )?(struct|enum) {owner}\b', line) for line in lines)


def implementations():
    """The traits that types have by an `impl` of any library: pairs of a trait and a type, without their paths and lifetimes."""
    found = []
    for crate in LIBRARIES:
        for place, _, files in sorted(os.walk(os.path.join(ROOT, 'crates', crate, 'src'))):
            for file in sorted(files):
                lines = lines_of(os.path.join(place, file)) if file.endswith('.rt') else []
                for number, line in enumerate(lines):
                    made = re.match(r'impl(?:<[^>]*>)? ([\w:]+(?:<.*>)?) for (\w+)', line)
                    if made:
                        trait = re.sub(r'^(?:\w+::)+', '', made[1])
                        item = trait == 'Iterator' and re.search(r'\n    type Item = (.*);', '\n'.join(lines[number:]))
                        found.append((f'Iterator<Item = {item[1]}>' if item else trait, made[2]))
    return found


IMPLEMENTATIONS = implementations()


def public_types():
    """The names of the types that any library has for others."""
    found = set()
    for crate in LIBRARIES:
        for place, _, files in os.walk(os.path.join(ROOT, 'crates', crate, 'src')):
            for file in files:
                text = '\n'.join(lines_of(os.path.join(place, file))) if file.endswith('.rt') else ''
                found.update(re.findall(r'^pub (?:struct|enum) (\w+)', text, re.M))
    return found


PUBLIC_TYPES = public_types()


def traits_of(lines, at, name):
    """The traits that a type has: derived at its item, or by an `impl`."""
    text, found = '', [trait for trait, owner in IMPLEMENTATIONS if owner == name]
    for line in reversed(lines[:at]):
        if not line.startswith(('#[', ' ', ')', '///', '//')):
            break
        text = line + text
    for names in re.findall(r'derive\(([^)]*)\)', text):
        found += [it.split('::')[-1].strip() for it in names.split(',') if it.strip()]
    return sorted(set(found) - UNLISTED - ({'Clone'} if 'Copy' in found else set()))


def paths_of():
    """The paths under `dcsctp_wire` of the modules and items of other libraries, by their own."""
    found = {}
    for place in ('lib', 'laws', 'packet', 'packet/chunk'):
        source = os.path.join(ROOT, 'crates', 'dcsctp_wire', 'src', place + '.rt')
        here = '::'.join(['dcsctp_wire'] + (place.split('/') if place != 'lib' else []))
        text = re.sub(r'\s+', ' ', '\n'.join(lines_of(source)))
        for own, passed in re.findall(r'pub use (dcsctp_\w+(?:::\w+)*) as (\w+);', text):
            found[own] = f'{here}::{passed}'
        for path, names in re.findall(r'pub use (dcsctp_\w+(?:::\w+)*)::(\w+|\{[^}]*\});', text):
            for name in re.findall(r'\w+', names):
                own, passed = (path, path.split('::')[-1]) if name == 'self' else (f'{path}::{name}', name)
                found.setdefault(own, f'{here}::{passed}')
    return found


def path_in_program(name, paths):
    """The path of a module or an item in a program, or nothing if it has none."""
    parts = name.split('::')
    if any(re.match(it, name) for it in FOR_THE_TOOL):
        return ''
    if parts[0] in NAMED:
        return name
    for size in range(len(parts), 1, -1):
        front = '::'.join(parts[:size])
        if front in paths:
            return '::'.join([paths[front]] + parts[size:])
    return ''


def items_of(path, wanted=None):
    """The public items of a file; the wanted ones alone, and their methods, where they are named."""
    items, doc, inside, outside_tests = [], [], None, True
    lines = lines_of(path)
    for at, line in enumerate(lines):
        bare = line.strip()
        if bare == '#[cfg(test)]' and lines[at + 1].endswith('{'):
            outside_tests = False
        if bare.startswith('///'):
            doc.append(bare[3:].strip())
            continue
        if bare.startswith(('#[', '// ')):
            continue
        if line.startswith('impl'):
            inside = line
        elif line.startswith('}'):
            inside = None
        found = ITEM.match(line)
        owner = re.match(r'impl(?:<[^>]*>)? (\w+)', inside)[1] if found and inside else None
        if found and wanted is not None:
            # a public type can have methods in the file of another, which is private
            elsewhere = inside and not is_defined(owner, lines)
            found = found if (owner or found['name']) in wanted or elsewhere else None
        if found and outside_tests:
            items.append(item_of(lines, at, found, owner if found['indent'] else None, first_sentence(doc)))
        if bare:
            doc = []
    return items


def item_of(lines, at, found, owner, sentence):
    """The item of a line."""
    kind, name = found['kind'], found['name']
    signature, conditions = signature_of(lines, at)
    value = signature.partition(' = ')[2] if kind == 'const' else ''
    signature = signature.removesuffix(f' = {value}') if re.search(r'::\w+TYPE$', value) else signature
    # (without the fields or the items of a value)
    signature = re.sub(r': (\w+|\[.*\]) = (?:\1(?: \{.*)?|\[.*)$', r': \1', signature.removeprefix('pub '))
    if owner:
        front, arrow, returned = signature.removeprefix('fn ').partition(' -> ')
        signature = front + arrow + re.sub(rf"\b{owner}\b(<'\w+>)?(?!::)", 'Self', returned)
    if kind == 'struct' and re.match(r'pub struct \w+;$', lines[at]):
        signature += ';'
    members = members_of(lines, at) if kind in ('struct', 'enum') else []
    if kind == 'struct' and members:
        signature += f' {{ {", ".join(member for member, _ in members)} }}'
    said = sentence.startswith('Proves') or owner and not conditions and (name == 'new' or is_said(sentence, name, owner, signature))
    if said or kind == 'const' and (re.match(NUMBERS, sentence) or owner and re.search(r'\d\)?$', value)):
        text = entry(signature.removeprefix('const '), '', conditions)
    elif kind == 'struct' and are_numbers_of_kind(name):
        text = entry(signature, '')
    elif kind == 'struct' and (section := re.fullmatch(KIND, sentence)) and KINDS.search(name):
        text = f'`{signature}` {section[1]}.'
    else:
        text = entry(signature, shortened(sentence, conditions) if 'fn' in kind else sentence, conditions)
    if kind == 'enum':
        if name in ELSEWHERE:
            text, members = f'{text} {ELSEWHERE[name]}', [(variant, '') for variant, _ in members]
        text += variants_in_words(members)
    if kind in ('struct', 'enum'):
        traits = traits_of(lines, at, name) if not are_numbers_of_kind(name) else []
        text += f' Has `{", ".join(traits)}`.' if traits and traits != ['Display', 'SerializableTlv'] else ''
    if kind == 'trait':
        text += ''.join(f' {method}' for method in methods_of(lines, at))
    return Item(kind, name, owner, text, sentence, value)


def shortened(sentence, conditions):
    """The sentence of a function without the sections of RFCs, which its type has, and its conditions; a long one up to a colon."""
    sentence = re.sub(r', which ha(s|ve) (to be|at least) .*', '.', sentence) if conditions else sentence
    sentence = re.sub(r' \((RFC|sections?) [^)]*\)', '', sentence)
    return re.sub(r'(.{45}[^:;]*)[:;] .*', r'\1.', sentence) if len(sentence) > 105 else sentence


def variants_in_words(members):
    """The variants of an enum: those whose name says what they are, and then the others, each with its sentence."""
    members = [(variant, re.sub(REGISTERED, '', about)) for variant, about in members]
    said = [variant for variant, about in members if not about or KINDS.search(variant.rstrip(')')) or is_said(about, variant)]
    others = [f' {entry(variant, about)}' for variant, about in members if variant not in said]
    return (f' {", ".join(f"`{it}`" for it in said)}.' if said else '') + ''.join(others)


def methods_of(lines, at):
    """The methods of a trait."""
    found, doc = [], []
    for number in range(at + 1, len(lines)):
        line = lines[number]
        if line.startswith('}'):
            break
        if line.strip().startswith('///'):
            doc.append(line.strip()[3:].strip())
        elif METHOD.match(line):
            signature, conditions = signature_of(lines, number)
            found.append(entry(signature, first_sentence(doc), conditions))
            doc = []
        elif line.strip():
            doc = []
    return found


def module_doc(path):
    doc = []
    for line in lines_of(path):
        if not line.startswith('//!'):
            break
        doc.append(line[3:].strip())
    return first_sentence(doc)


def all_modules():
    """What a program finds at each path: the module's first sentence and its items."""
    paths, modules = paths_of(), {}
    for crate in LIBRARIES:
        places = modules_of(crate)
        public = {name for name, _ in places}
        for name, path in places:
            where = path_in_program(name, paths)
            for item in items_of(path) + passed_on(crate, name, path, public):
                own = where or path_in_program(f'{name}::{item.owner or item.name}', paths).rpartition('::')[0]
                if own and item.is_law() and 'laws' not in own.split('::'):
                    own = 'dcsctp_wire::laws'
                if not own or item.is_internal():
                    continue
                about = module_doc(path) if own == where or own == 'dcsctp_wire::laws' else ''
                modules.setdefault(own, (about, []))[1].append(item)
    return modules


def anchor(heading):
    return '#' + re.sub(r'[^\w -]', '', heading.lower()).replace(' ', '-')


def number_of(module):
    """The place of a module in its section: that of a kind is its number; unknown and raw ones, and checks, come last."""
    name, (_, items) = module
    numbers = [int(it.value, 0) for it in items if it.is_number_of_kind()]
    return (1, numbers[0], name) if numbers else (2 if re.search('raw_|_check|validators|unknown', name) else 0, 0, name)


def module_lines(name, about, items):
    """A module's path, and its items: numbers of kinds and what needs no sentence beside the path, methods behind their type."""
    numbers = [f'`{it.name}` {it.value};' for it in items if it.is_number_of_kind()]
    items = [it for it in items if not it.is_number_of_kind() and not it.is_explained()]
    bare = [it for it in items if not it.owner and it.is_bare() and (it.kind in ('const', 'fn') or are_numbers_of_kind(it.name))]
    own = [it for it in items if it.owner is None and it not in bare]
    said = f'{", ".join(it.text for it in bare)}.' if bare else ''
    if numbers or len(own) == 1:
        about = ''  # the item says it
    head = ' '.join(it for it in (f'**`{name.removeprefix("dcsctp_wire::")}`**:', about, *numbers, said) if it)
    if len(own) == 1:
        return item_lines(0, f'{head} {own[0].text}', [it for it in items if it.owner])
    lines = wrapped(0, re.sub(';$', '.', head.removesuffix(':')))
    for item in own:
        lines += item_lines(1, item.text, [it for it in items if it.owner == item.name])
    names = [it.name for it in own]
    return lines + [line for it in items if it.owner and it.owner not in names for line in wrapped(1, f'of `{it.owner}`: {it.text}')]


def item_lines(depth, text, behind):
    """An item, and what is behind it: what needs few words beside it, and each of the others below it."""
    said = [it.text.rstrip('.') for it in behind if it.is_short()]
    lines = wrapped(depth, f'{text} {"; ".join(said)}.' if said else text)
    return lines + [line for it in behind if not it.is_short() for line in wrapped(depth + 1, it.text)]


def page():
    modules = all_modules()
    parts = {}
    for name in modules:
        title = next(title for title, pattern in SECTIONS if re.match(pattern, name))
        parts.setdefault(title, []).append(name)
    titles = [title for title, _ in SECTIONS[1:]] + ['Laws']
    body = textwrap.wrap('; '.join(f'[{it}]({anchor(it)})' for it in titles) + '.', WIDTH, break_on_hyphens=False)
    for title in titles:
        body += ['', f'## {title}', '']
        for name, _ in sorted(((it, modules[it]) for it in parts[title]), key=number_of):
            body += module_lines(name, *modules[name])
    return HEAD + '\n' + '\n'.join(body) + '\n'


def broken_comments():
    """The doc comments that break the house's rules, each with its file and line."""
    found = []
    for place, _, files in sorted(os.walk(os.path.join(ROOT, 'crates'))):
        for file in sorted(files):
            path = os.path.join(place, file)
            if file.endswith('.rt') and '/src' in place:
                found += [f'{os.path.relpath(path, ROOT)}:{line}: {fault}' for line, fault in comment_faults(lines_of(path))]
    return found


def comment_faults(lines):
    """The lines of a file whose doc comments break a rule, and which."""
    first, in_trait = None, False
    for number, line in enumerate(lines, 1):
        bare = line.strip()
        if bare.startswith('///'):
            if first is None:
                first = number, bare[3:].strip()
                if re.match(r'(The|\w+ the) same\b', first[1]):
                    yield number, 'begins with "The same" or, say, "Returns the same", but a doc comment is read alone'
            continue
        if not bare or bare.startswith(('#[', '// ')):
            continue
        if not line.startswith((' ', '}', ')', '{')):
            in_trait = line.startswith('pub trait ')
        function = re.match(r'(pub(?:\(\w+\))? )?(?:final |const |unsafe |extern "C" )*fn (\w+)', bare)
        if function and (function[1] or in_trait) and first:
            word = first[1].partition(' ')[0].rstrip('.')
            if word not in VERBS:
                yield first[0], f'the comment of {function[2]} begins with "{word}", no verb of VERBS in tools/api.py'
        first = None


def main(words):
    if words == ['--write']:
        with open(PAGE, 'w', encoding='utf-8') as file:
            file.write(page())
    elif words == ['--compare']:
        if broken := broken_comments():
            sys.exit('\n'.join(broken))
        with open(PAGE, encoding='utf-8') as file:
            if file.read() != page():
                sys.exit("docs/API.md isn't what the sources give: tools/api.py --write makes it anew")
    elif words == ['--help']:
        print(__doc__.strip())
    else:
        sys.exit(__doc__.strip().splitlines()[0])


main(sys.argv[1:])
