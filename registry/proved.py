# SPDX-License-Identifier: Apache-2.0
"""For registry/make.py --compare: finds what the proved crates and their definitions, which are written by hand, have of the
table: the numbers, the least sizes and the order of the fields."""
import glob
import os
import re

NUMBER = r'(0x[\dA-Fa-f]+|\d+)'
LEVELS = {'CHUNK_TYPE': 'chunk', 'PARAMETER_TYPE': 'parameter', 'CAUSE_CODE': 'cause'}
# Whose kinds the definitions of a crate are.
CRATES = {'dcsctp_chunk': 'chunk', 'dcsctp_wire': 'chunk', 'dcsctp_tlv': 'parameter', 'dcsctp_cause': 'cause'}
LAWS = 'crates/dcsctp_wire/src/laws.rt'
CHUNK_TYPES = 'crates/dcsctp_receive/src/chunk_type.rt'

# What the name of a file or of a definition says in other words than the table.
RENAMED = {'cookie': 'cookie_echo', 'info': 'heartbeat_info', 'missing': 'missing_mandatory_parameter', 'forward': 'forward_tsn',
           'iforward': 'i_forward_tsn'}
# What such a name says besides.
ENDS = ['', '_(chunk|parameter|error_cause|ref|fields)$', '_request(_chunk|_parameter)?$']
# What the definitions of several kinds have in common.
SHARED = r'\b(AddStreamsRequest|InitFields|ParameterList|SkippedStreams)\b'
# How a definition reads a value, and the sizes that it takes so, as the table has them.
LEASTS = [
    (r'^read value = Ok |λ value\. true\) 0 ', '0+1'),
    (r'nat_lt 0 \(length value\)\) 0 ', '4+1'),  # a cause at least, of a header at least
    (r'length value == 0 then Err Length', '1+1'),
    (r'nat_lt \(length value\) (\d+) then Err Length|nat_le (\d+) \(length value\)\) \2 ', '{}+1'),
    (r'length value == (\d+) then Ok .* else Err Length', '{}'),
    (r'length value == 8 then .* if length value == 16 then .* else Err Length', '8+8'),
    (r'length value == (\d+) \+ (\d+) \* stream_count value', '{}+{}'),
    (r'read_of stream_at (\d+) value .*length value == (\d+) \+ size \*', '{1}+{0}'),
    (r'length value == (\d+) \+ \d \* number32 value|size_of_value n = (\d+) \+', '{}+?'),
]
# The names of fields in the code, for which the table has other words.
FIELDS = {
    'a_rwnd': 'a_rwnd', 'stream_id': 'stream', 'nbr_outbound_streams': 'outbound streams',
    'nbr_inbound_streams': 'inbound streams', 'gap_ack_block_count': 'count of blocks', 'duplicate_tsn_count': 'count of duplicates',
    'request_seq_nbr': 'request number', 'response_seq_nbr': 'response number', 'sender_last_assigned_tsn': 'last TSN',
    'nbr_new_streams': 'new streams', 'sender_next_tsn': 'sender', 'receiver_next_tsn': 'receiver'}
BYTES = {'u16': 2, 'StreamId': 2, 'Ssn': 2}
"""The bytes of a field's type, where these aren't four."""
FLAGS = {'is_end': 'END', 'is_beginning': 'BEGINNING', 'stream_key': 'UNORDERED', 'immediate_ack': 'IMMEDIATE_ACK',
         'tag_reflected': 'TAG_REFLECTED'}


class Comparison:
    """A table by the names that the crates have for its rows, what was found of it, and what is wrong."""

    def __init__(self, root, table):
        self.root, self.table, self.wrong, self.found = root, table, [], set()
        self.rows = {(level, row.identifier.lower().replace('_', '')): row
                     for level in ('chunk', 'parameter', 'cause', 'port') for row in table[level]}
        self.rows |= {('result', re.sub('[^a-z]', '', row.name.lower())): row for row in table['result']}
        kinds = (row for row in table['chunk'] if row.read == 'kind')
        self.rows |= {('flag', row.number, it.flag.identifier): it.flag for row in kinds for it in row.flags}

    def key(self, level, name):
        """The key of the row that a name is for, as `heartbeat_request_chunk` is for HEARTBEAT."""
        name = re.sub(r'(?<=[a-z])(?=[A-Z])', '_', name).lower()
        name = RENAMED.get(name, name)
        keys = [(level, re.sub(end, '', name).replace('_', '')) for end in ENDS]
        return next((key for key in keys if key in self.rows), keys[0])

    def places(self, paths, regex):
        """Each match in these files: the path and the line, the file's name, and the match."""
        for path in sorted(glob.glob(paths, root_dir=self.root, recursive=True)):
            with open(os.path.join(self.root, path), encoding='utf-8') as file:
                text = file.read()
            for match in re.finditer(regex, text, flags=re.M):
                line = text.count('\n', 0, match.start(match.lastindex or 0)) + 1
                yield f'{path}:{line}', os.path.splitext(os.path.basename(path))[0], match

    def number(self, place, key, number):
        """Compares the number of a row."""
        self.found.add(key)
        text = ' '.join(map(str, key))
        if key not in self.rows:
            self.wrong.append(f'{place}: {text}, which the table has not')
        elif int(number, 0) != self.rows[key].number:
            self.wrong.append(f'{place}: {text} is {number}, but {self.rows[key].number} in the table')

    def least(self, place, key, text):
        """Compares the sizes of a row's value with those that a definition reads."""
        read = ' '.join(' '.join(re.findall(r'^(?:read|read_of|row|size_of_value) [^:]*?=.*?(?=\n\n)', text, re.M | re.S)).split())
        found = ((re.search(regex, read), form) for regex, form in LEASTS)
        least = next((form.format(*filter(None, match.groups())) for match, form in found if match), 'not found')
        if key in self.rows and self.rows[key].least != least:
            self.wrong.append(f'{place}: the sizes of {" ".join(key)} are {least}, but {self.rows[key].least} in the table')

    def layout(self, place, row, numbers, text):
        """Compares the numbers of a row's value with those that its code reads: the fields, their places, and their sizes."""
        table = [(it.at, named(it), int(it.form[1:]) // 8) for it in row.layout.numbers if it.what != 'reserved']
        sizes, optional = {row.layout.size}, row.layout.optional
        if optional:
            record = self.table['records'][optional.form].layout
            sizes.add(row.layout.size + record.size)
            table += [(row.layout.size + it.at, it.name, int(it.form[1:]) // 8) for it in record.numbers]
        if numbers:
            (fields, places, read_sizes), = numbers
            types = dict(fields)
            read = sorted((at, FIELDS.get(name, name.replace('_', ' ')), BYTES.get(types.get(name), 4)) for name, at in places.items())
        else:
            fields = re.findall(r'^    pub (\w+): (?!Vec)(\w+),', re.search(r'^pub struct \w+ \{\n(?:.+\n)*?\}', text, re.M)[0], re.M)
            read, read_sizes = [(0, FIELDS.get(name, name.replace('_', ' ')), BYTES.get(of, 4)) for name, of in fields], {4}
        if row.layout.lists and not fields:
            read = [(0, f'count of {row.layout.lists[0].name}', 4)]
        if [(at, name.lower(), width) for at, name, width in read] != [(at, name.lower(), width) for at, name, width in table] or read_sizes != sizes:
            self.wrong.append(f'{place}: {row.name} has {read} in {sorted(read_sizes)} bytes, but {table} in {sorted(sizes)} in the table')

    def fields(self, place, key, text):
        """Compares the names and the places of the numbers that a row's value begins with with those that a definition reads."""
        field = r'\b(\w+) = (?:record \{ 0 = )?number(16|32) (?:value\b|\(drop (\d+) value\))'
        read = {(int(at or 0), int(bits)): name for name, bits, at in re.findall(field, text)}
        numbers = [it for it in self.rows[key].layout.numbers if it.what != 'reserved'] if key in self.rows else []
        for it in numbers:
            name, at = named(it), it.at
            of = read.get((at, int(it.form[1:])), '' if len(numbers) > 1 else name)
            if not {of, *of.lower().split('_')} & {name, *name.lower().split()}:
                self.wrong.append(f'{place}: {" ".join(key)} has {of or "no number"} at {at}, but {name} in the table')


def named(it):
    """The name of a field, in one way for all."""
    return f'count of {it.name}' if it.what == 'count' else f'{it.name} or {it.other}' if it.what == 'either' else it.name


def constants(them):
    """The constants of the kinds; their laws; and the names that they are imported by."""
    own = rf'^pub const (CHUNK_TYPE|PARAMETER_TYPE|CAUSE_CODE): u\d+ = {NUMBER};'
    for place, name, match in them.places('crates/dcsctp_*/src/**/*.rt', own):
        them.number(place, them.key(LEVELS[match[1]], name), match[2])
    for level in LEVELS.values():
        for row in them.table[level]:
            if (them.key(level, row.identifier) in them.found) != (row.read == 'kind'):
                them.wrong.append(f'{level} {row.identifier}: {row.read} in the table, but not so in the proved crates')
    constant = r'((?:CHUNK|PARAMETER)_TYPE|CAUSE_CODE)'
    levels = {match[2]: LEVELS[match[1]] for _, _, match in them.places(LAWS, rf'\b{constant}(?:_\w+)? as (\w+)')}
    for place, _, match in them.places(LAWS, rf'ensures \w+ \{{ (\w+) ≡ {NUMBER} \}}'):
        if match[1] in levels:
            them.number(place, them.key(levels[match[1]], match[1]), match[2])
    for paths in (LAWS, CHUNK_TYPES):
        for place, _, match in them.places(paths, rf'\b(\w+)::(?:\{{\s*)?{constant} as (\w+)'):
            if them.key(LEVELS[match[2]], match[1]) != them.key(LEVELS[match[2]], match[3]):
                them.wrong.append(f'{place}: {match[1]} as {match[3]}')
    for place, _, match in them.places(CHUNK_TYPES, rf'^pub const (\w+): u8 = {NUMBER};'):
        key = them.key('chunk', match[1])
        them.number(place, key, match[2])
        if key in them.rows and them.rows[key].read == 'kind':
            them.wrong.append(f'{place}: {match[1]} is a kind: `pub use` its constant')


def layouts(them):
    """The order, the names and the widths of the numbers of each kind's code, and their bytes together: those of its struct ..Numbers;
    or of its own struct, where the value is one number."""
    structs, sizes, consts = {}, {}, {}
    for place, _, match in them.places('crates/dcsctp_*/src/**/*.rt', r'^pub struct (\w+Numbers) \{\n((?:.+\n)*?)\}'):
        structs[match[1]] = place, re.findall(r'^    pub (\w+): (\w+),', match[2], re.M)
    for _, _, match in them.places('crates/dcsctp_*/src/**/*.rt', r'^impl (\w+Numbers) \{\n((?:.*\n)*?)\}'):
        places = re.findall(r'^    pub const (\w+): usize = (\d+);', match[2], re.M)
        sizes[match[1]] = {int(at) for name, at in places if name.startswith('SIZE')}
        consts[match[1]] = {name.lower(): int(at) for name, at in places if not name.startswith('SIZE')}
    own = rf'^pub const (CHUNK_TYPE|PARAMETER_TYPE|CAUSE_CODE): u\d+ = {NUMBER};(?:.*\n)*'
    for place, name, match in them.places('crates/dcsctp_*/src/**/*.rt', own):
        row = them.rows.get(them.key(LEVELS[match[1]], name))
        if row and row.layout.size:
            used = set(re.findall(r'\b(\w+Numbers)::SIZE\b', match[0])) or ({'InitNumbers'} if 'InitNumbers' in match[0] else set())
            them.layout(place, row, [(structs[it][1], consts[it], sizes[it]) for it in used if it in structs], match[0])
    field = r'\b(StreamId|Ssn|Mid)\(read_u\d+_be\((?:bytes|&bytes\[(\d+)\.\.\])\)\)'
    for place, _, match in them.places('crates/dcsctp_chunk/src/*.rt', r'^pub struct (Ssn|Mid)StreamField;(?:.*\n)*?\}\n\n(?:.*\n)*'):
        record = them.table['records'][{'Ssn': 'SkippedStream', 'Mid': 'SkippedIStream'}[match[1]]]
        read = [(int(at or 0), {'StreamId': 'stream'}.get(name, name.upper())) for name, at in re.findall(field, match[0])]
        numbers = [(it.at, it.name) for it in record.layout.numbers if it.what == 'number']
        size = int(re.search(r'const SIZE: usize = (\d+);', match[0])[1])
        if read != numbers or size != record.layout.size:
            them.wrong.append(f'{place}: {record.name} has {read} in {size} bytes, but {numbers} in {record.layout.size} in the table')


def definitions(them):
    """The numbers, the sizes and the fields of the definitions in specs/."""
    kind = rf'^kind = (?:plain_kind|kept_kind|list\.kind_of|fields\.kind_of) {NUMBER}|list\.format {NUMBER}|^  typ = {NUMBER};'
    for crate, level in CRATES.items():
        specs = f'crates/{crate}/specs/*.antt'
        for place, name, match in them.places(specs, kind):
            them.number(place, them.key(level, name), match[match.lastindex])
        for place, name, match in them.places(specs, rf'tlv = (?:sized|flagged)_tlv {NUMBER}'):
            them.number(place, them.key(level, name), match[1])
        texts = {name: match[0] for _, name, match in them.places(specs, r'\A(?:.*\n)*')}
        for place, name, _ in them.places(specs, r'^kind = '):
            text = texts[name] + '\n'.join(texts[other] for other in re.findall(SHARED, texts[name]))
            them.least(place, them.key(level, name), text)
            them.fields(place, them.key(level, name), text)
    read = rf'\b(typ|code) == {NUMBER} then\s+(?:result_ok \((\w+)_kind\.|option_map (\w+))'
    for place, _, match in them.places('crates/dcsctp_borrowed/specs/*.antt', read):
        level = 'cause' if match[1] == 'code' else 'parameter' if match[4] or match[3] == 'info' else 'chunk'
        them.number(place, them.key(level, match[3] or match[4]), match[2])
    written = rf'\bc\.typ == {NUMBER} then (?:Some|option_map) \((?:λ \w+\. )?(\w+)'
    for place, _, match in them.places('crates/dcsctp_c/specs/Writing.antt', written):
        them.number(place, them.key('parameter', match[2]), match[1])


def others(them):
    """The results, the flags, and the port."""
    response = 'reconfiguration_response_parameter'
    for place, _, match in them.places(f'crates/dcsctp_tlv/src/parameter/{response}.rt', rf'^    (\w+) = {NUMBER},'):
        them.number(place, ('result', match[1].lower()), match[2])
    numbered = rf'^result_number (\w+) = {NUMBER}'
    for place, _, match in them.places('crates/dcsctp_tlv/specs/ReconfigurationResponse.antt', numbered):
        them.number(place, ('result', match[1].lower()), match[2])
    flag = r'\b(\w+)(?:: | = )(?:StreamKey::new\()?is_set\(flags, (\d)\)'
    for place, name, match in them.places('crates/dcsctp_*/src/**/*_chunk.rt', flag):
        chunk = them.rows[them.key('chunk', name)].number
        them.number(place, ('flag', chunk, FLAGS[match[1]]), str(1 << int(match[2])))
    for place, _, match in them.places('crates/dump_capture/src/frame.rt', rf'^pub const (UDP)_PORT: u16 = {NUMBER};'):
        them.number(place, ('port', 'udp'), match[2])
    # (else an expression that finds nothing would compare nothing)
    for key in them.rows:
        if key[0] in ('result', 'flag', 'port') and key not in them.found:
            them.wrong.append(f'crates: {" ".join(map(str, key))}: not found')


def differences(root, table):
    """A line for each difference, with the file and the line."""
    them = Comparison(root, table)
    constants(them)
    layouts(them)
    definitions(them)
    others(them)
    return them.wrong
