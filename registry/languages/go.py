# SPDX-License-Identifier: Apache-2.0
"""What registry/make.py writes of the table in Go: registry.go has its numbers, names and words, and kinds.go its kinds."""
from languages.go_kinds import kinds
from languages.go_tests import tests
from languages.go_words import HEAD, NUMBERS, article, camel, comment, constant, lower
from languages.words import LISTS, digits, reference, registered, rule_name, rule_standard, wrapped
from layouts import registered_of

PREFIXES = {'result': 'Err', 'tag_verdict': 'Tag', 'init_fault': 'Init'}
"""Of what calls return how a constant begins, where it isn't the enum's name."""
ITEMS = {
    'parameter': dict(
        own='Parameter', a='a parameter', Type='Type', Number='ParameterType', bits='parameterType', where='of a chunk (section 3.2.1)',
        holds='a State Cookie the cookie, a Heartbeat Info the info, Supported Extensions a ChunkType in each byte',
        goes='ABORT and ERROR, and types that have none, have none', number='the method of Zero Checksum Acceptable (RFC 9653 section 4)',
        is_for='what the parameter Unrecognized Parameter of an INIT ACK holds (section 3.3.3.1.2)', example='State Cookie size=4',
        none='none for ABORT and ERROR, and types that have no list', adds='AddNumber', one='Zero Checksum Acceptable'),
    'cause': dict(
        own='Cause', a='an error cause', Type='Code', Number='CauseCode', bits='code', where='of ABORT or ERROR (section 3.3.10)',
        holds='User-Initiated Abort and Protocol Violation a text, Unrecognized Chunk Type the chunk',
        goes='another type has none', number='the TSN of No User Data (section 3.3.10.9)',
        is_for='what another ERROR may hold', example='Protocol Violation size=3', none='none, unless it is ABORT or ERROR',
        adds='AddCauseNumber', one='No User Data'),
}
"""What is said of the two that come in lists, and how they are called."""
ITEM = '''
#A {own} is {a} {where}, where it lies. Its value is what it holds: {holds}.
type {own} struct {{
	{Type}   {Number}
	Value  []byte // without its header and padding
	Offset int    // where it begins in the packet
	packet Packet
}}

#New{own} returns {a} of this number with a copy of this value, which is read as one of a packet is; its Offset is 0. ErrBadValue where \
it would have more than 65,535 bytes.
func New{own}({bits} {Number}, value []byte) ({own}, error) {{
	packet, err := newItem(uint16({bits}), value)
	if err != nil {{
		return {own}{{}}, err
	}}
	return {own}{{{bits}, packet[4:], 0, packet}}, nil
}}

#Bytes returns the whole of it, its header and its value, without padding, where it lies in the packet: {is_for}.
func (it {own}) Bytes() []byte {{ return it.packet.part(it.Offset, len(it.Value)+4) }}

#MarshalBinary returns a copy of Bytes, as encoding/gob asks for one. ErrBadValue for the zero value.
func (it {own}) MarshalBinary() ([]byte, error) {{ return copied(it.Bytes()) }}

#UnmarshalBinary reads {a} from a copy of the bytes that it is, with or without its padding; its Offset is 0. The error is an *Error with ErrLength: where it begins, or where it ends if something follows it.
func (it *{own}) UnmarshalBinary(bytes []byte) error {{
	packet, err := itemIn(bytes)
	if err == nil {{
		*it = {own}{{{Number}(shortAt(packet, 0)), packet[4:], 0, packet}}
	}}
	return err
}}

#String returns what it is and the size of its value, as in "{example}".
func (it {own}) String() string {{ return fmt.Sprintf("%v size=%d", it.{Type}, len(it.Value)) }}

#Number reads a value that is one number of four bytes, whatever {a} it is: {number}. False where the value has another size.
func (it {own}) Number() (uint32, bool) {{
	if len(it.Value) != 4 {{
		return 0, false
	}}
	return numberAt(it.Value, 0), true
}}

#Registered reads {a} of the registry that has no method of its own here.
func (it {own}) Registered() (Registered, bool) {{
	return registered({level}Level, uint16(it.{Type}), 0, it.Value, it.packet, it.Offset+4)
}}

#{own}s goes over the {own}s; {goes}.
func (chunk Chunk) {own}s() *Iterator[{own}] {{
	it := chunk.{level}s()
	return &it
}}

func (chunk Chunk) {level}s() Iterator[{own}] {{
	list, base := chunk.list()
	if !chunk.Type.has{own}s() {{
		list = nil
	}}
	return {level}sOf(chunk.packet(), list, base)
}}

#{level}sOf goes over those of a list that begins at an offset in a packet.
func {level}sOf(packet Packet, list []byte, base int) Iterator[{own}] {{
	return Iterator[{own}]{{packet: packet, list: list, base: base, read: {level}Of}}
}}

func {level}Of(packet Packet, number uint16, value []byte, offset int) {own} {{
	return {own}{{{Number}(number), value, offset, packet}}
}}

#{own}Count returns how many {own}s a chunk has: {none}.
func (parsed *Parsed) {own}Count(i int) int {{ return len(parsed.{level}s(i)) }}

#{own} returns {a} of a chunk, by both indices; it panics where there is none.
func (parsed *Parsed) {own}(i, index int) {own} {{
	it := parsed.{level}s(i)[index]
	return {own}{{{Number}(shortAt(parsed.packet, int(it.offset))), it.value(parsed.packet), int(it.offset), parsed.packet}}
}}

func (parsed *Parsed) {level}s(i int) []place {{
	if row := &parsed.rows[i]; row.chunkType.has{own}s() {{
		return parsed.items[row.lists[0].first:row.lists[0].end]
	}}
	return nil
}}

#Add{own} adds {a} to the last chunk.
func (b *Builder) Add{own}({bits} {Number}, value []byte) error {{
	return b.addItem(uint16({bits}), value)
}}

#{adds} adds {a} whose value is a number of four bytes: {one}.
func (b *Builder) {adds}({bits} {Number}, number uint32) error {{
	return b.addNumber(uint16({bits}), number)
}}

#AddRegistered{own} adds {a} that Registered reads to the last chunk.
func (b *Builder) AddRegistered{own}({bits} {Number}, it Registered) error {{
	return b.addRegistered({level}Level, uint16({bits}), it)
}}
'''
"""What Go has of each; a line with # is a comment."""


def numbered(level, rows):
    """The type of what is numbered, its constants, and its names."""
    name, it, prefix, uint, about, what, word, hexadecimal = NUMBERS[level]
    constants = [constant(row) for row in rows]
    width = max(map(len, constants))
    other = 'a response with another number is no packet' if level == 'result' else 'it may be another number than those of the constants'
    as_bytes = '' if level == 'result' else f' What is read by no method of a {prefix} is bytes here: its Value.'
    example, form = ('99', '%d') if not hexadecimal else ('99 (0x%0*x)' % (hexadecimal, 99), f'%d (%#0{hexadecimal}x)')
    yield from ['', *comment(f'{article(name)} {name} is {about}; {other}.'), f'type {name} {uint}', '', *comment(f'{what}.{as_bytes}'),
                'const (']
    yield from (f'\t{own:{width}} {name} = {digits(row)}' for own, row in zip(constants, rows))
    yield ')'
    if hexadecimal:
        yield from ['', *comment(f'IsKnown returns whether the {word.split()[-1]} has a constant here, and so a name: not whether your '
                                 'association handles it.'), f'func ({it} {name}) IsKnown() bool {{ return {it}.name() != "" }}']
    numbers = ', '.join([f'uint32({it})'] * (2 if hexadecimal else 1))
    yield from ['', *comment(f'String returns the name that the standards have; for another number that, as in "{word} {example}".'),
                f'func ({it} {name}) String() string {{', f'\tif name := {it}.name(); name != "" {{', '\t\treturn name', '\t}',
                f'\treturn fmt.Sprintf("{word} {form}", {numbers})', '}', '', f'func ({it} {name}) name() string {{', f'\tswitch {it} {{']
    yield from (f'\tcase {own}:\n\t\treturn "{row.name}"' for own, row in zip(constants, rows))
    yield from ['\t}', '\treturn ""', '}']


def returned(row, rows):
    """What a call returns: its type, its constants, and their words."""
    name, word = camel(row.name), row.name.split('_')[-1]
    prefix = PREFIXES.get(row.name, name)
    yield from ['', *comment(f'{article(name)} {name} is {lower(row.about)}.'), f'type {name} uint32', '',
                *comment(f'What {article(name).lower()} {name} is.'), 'const (']
    for it in rows:
        own = prefix + camel(it.identifier)
        yield from [*comment(f'{own}: {lower(it.about)}.', '\t'), f'\t{own} {name} = {it.number}']
    yield from [')', '', *comment(f'String returns it in a few words; for a number that has none "{word} {len(rows)}".'),
                f'func (it {name}) String() string {{']
    words = wrapped(f'return worded(uint32(it), "{word}", ', [f'"{it.text}"' for it in rows], ')', '\t', '\t\t')
    yield from [*words.split('\n'), '}']


def codes(rows):
    """The errors: their constants, their names and their texts."""
    names = [(it, it.identifier.removeprefix('FAULT_')) for it in rows if it.number]
    yield from ['', *comment('The codes: the faults of bytes that are no packet, and why nothing was written.'), 'const (']
    for it, name in names:
        yield from [*comment(f'Err{camel(name)}: {lower(it.about)}.', '\t'), f'\tErr{camel(name)} Code = {it.number}']
    yield from [')', '', *comment('codes has the name and the text of each code.'), 'var codes = [...]words{']
    yield f'\t{{"unknown", "{rows[0].text}"}},'
    yield from (f'\t{{"{name.lower().replace("_", "-")}", "{it.text}"}},' for it, name in names)
    yield '}'


def rules(rows):
    yield from ['', *comment('The rules: what breaks each, and the section that gives it.'), 'const (']
    for row in rows:
        own = f'Rule{camel(row.identifier)}'
        yield from [*comment(f'{own}: {row.text} ({rule_standard(row)}).', '\t'), f'\t{own} Rules = {row.number:#x}']
    yield from [')', '', *comment('rules has the name and the text of each rule, in the order of their bits.'),
                'var rules = [...]words{']
    yield from (f'\t{{"{rule_name(row)}", "{row.text}"}},' for row in rows)
    yield '}'


def registered_layouts(table, level):
    """The types of a level that Registered reads, and the fields of each."""
    yield from ['', *comment(f'The fields of each {level} that Registered reads, in the order of its value.'),
                f'var registered{level.capitalize()}s = layouts{{']
    for row, fields in registered(table, level):
        parts = [f'{{"{name}", of{form.title().replace(" ", "")}}}' for name, form in fields]
        yield wrapped(f'{{uint16({constant(row)}), []field{{', parts, '}},', '\t', '\t\t')
    yield '}'


def flags(row):
    """The flags of a chunk that Registered reads."""
    yield from ['', *comment(f'The flags of {row.name} ({reference(row)}).'), 'const (']
    for it in row.flags:
        own = camel(f'{row.identifier} {it.flag.identifier}')
        yield from [*comment(f'{own} is {lower(it.about)}', '\t'), f'\t{own} = {it.flag.number:#04x}']
    yield ')'


def item(level):
    """What comes in lists: its type, and what reads and writes it."""
    for line in ITEM.replace('\\\n', '').format(level=level, **ITEMS[level]).rstrip().split('\n'):
        yield from comment(line[1:]) if line.startswith('#') else [line]


def registry(table):
    lines = ['', 'import "fmt"']
    for level in NUMBERS:
        lines += numbered(level, table[level])
    for row in table['enum']:
        rows = [it for it in table['constant'] if it.of == row.name]
        lines += codes(rows) if row.name == 'result' else returned(row, rows) if row.name != 'cookie_state' else []
    lines += rules(table['rule'])
    for level in ITEMS:
        lines += item(level)
    for level in LISTS:
        lines += registered_layouts(table, level)
    for row in (row for row in registered_of(table, 'chunk') if row.flags):
        lines += flags(row)
    return HEAD + '\n'.join(lines) + '\n'


FILES = {'bindings/go/registry.go': registry, 'bindings/go/kinds.go': kinds, 'bindings/go/kinds_gen_test.go': tests}
MARKED = {}
