#!/usr/bin/env python3
# SPDX-License-Identifier: Apache-2.0
"""usage: registry/vectors/vectors.py --compare [FOLDER] | --random N SEED | --help

Asks the proved calls, by answers.c, which $CC builds, or else cc.

  --compare  asks for each line of kinds.jsonl, registered.jsonl and calls.jsonl of the folder, or else of this one: names each
             line that says something else, and fails if there is one
  --random   prints N lines as of kinds.jsonl: random fields by registry/sctp.txt, some of whose bytes are changed, as the
             calls answer. The same for the same seed, a number
  --help     prints this
"""
import json
import os
import platform
import random
import subprocess
import sys
import tempfile

sys.dont_write_bytecode = True
HERE = os.path.dirname(os.path.abspath(__file__))
ROOT = os.path.dirname(os.path.dirname(HERE))
sys.path.insert(0, os.path.join(ROOT, 'registry'))
import layouts
import make
from languages import words

TABLE = make.table_of(make.rows_of(make.read(make.TABLE)))
LEVELS = ('chunk', 'parameter', 'cause')
ROWS = {level: {row.number: row for row in layouts.kinds_of(TABLE, level)} for level in LEVELS}
KINDS = {level: {row.identifier: row for row in rows.values()} for level, rows in ROWS.items()}
REGISTERED = {(level, row.number): fields for level in LEVELS for row, fields in words.kinds(TABLE, level)}
CONSTANTS = {it.name: {row.number: row.identifier for row in TABLE['constant'] if row.of == it.name} for it in TABLE['enum']}
FAULTS = {number: name.removeprefix('FAULT_').lower() for number, name in CONSTANTS['result'].items()}
HEADER = '138813890102030401010101'
ITEMS = {'parameters': 'parameter', 'causes': 'cause'}
"""The level of what is in a list, by the list's form."""
NUMBERED = {'chunk': 'type', 'parameter': 'type', 'cause': 'code'}
"""The key of the number of what is no kind."""
BROKEN = AttributeError, KeyError, OverflowError, TypeError, ValueError
"""What is raised for a line that nothing can be asked of."""


class Answers:
    """The program, and what it answers."""

    def __init__(self, folder, source=os.path.join(HERE, 'answers.c')):
        machine = {'AMD64': 'x86_64', 'arm64': 'aarch64'}.get(platform.machine(), platform.machine())
        library = f'dist/dcsctp-{machine}-{"macho" if sys.platform == "darwin" else "elf"}.s'
        self.path = os.path.join(folder, 'answers')
        subprocess.run([*os.environ.get('CC', 'cc').split(), '-O1', '-o', self.path, source, os.path.join(ROOT, library),
                        f'-I{os.path.join(ROOT, "dist")}', f'-I{HERE}'], check=True)

    def ask(self, request_of, lines):
        """The answers to the requests that are made of these lines; {} for one of which none can be made."""
        requests = []
        for line in lines:
            try:
                requests.append(' '.join(request_of(line)))
            except BROKEN:
                requests.append('nothing')
        found = subprocess.run([self.path], input='\n'.join(requests), capture_output=True, text=True, check=True)
        return [json.loads(line) for line in found.stdout.splitlines()]


def said(name, value):
    """An argument of the program: a truth value and a number as a number, bytes as they are, a list with commas."""
    if isinstance(value, list):
        value = ','.join(str(int(it)) for it in value)
    return f'{name}={int(value) if isinstance(value, bool) else value}'


# ---- kinds

def named(name):
    return name.lower().replace(' ', '_')


def fields_of(record):
    return [(named(it.name), it.what == 'bit') for it in TABLE['records'][record].layout.fields if it.name]


def in_list(form, it):
    """One of a list, of what the program says: a number, or a record."""
    return it if form in layouts.WIDTHS else {name: bool(it[name]) if is_bit else it[name] for name, is_bit in fields_of(form)}


def numbers_of(form, it):
    return [it] if form in layouts.WIDTHS else [it[name] for name, _ in fields_of(form)]


def read_part(level, it):
    """A chunk or an item as a vector has it, of what the program says: a field that it doesn't name is the value itself."""
    row = ROWS[level].get(it['type'])
    if not row:
        return {NUMBERED[level]: it['type'], **({'flags': it['flags']} if level == 'chunk' else {}), 'value': it['value']}
    part = {'kind': row.identifier} | {named(flag.name): bool(it[named(flag.name)]) for flag in row.flags}
    for field in row.layout.fields:
        name = named(field.name)
        if field.what == 'either':
            part |= {name: it[name], named(field.other): it[named(field.other)]}
        elif field.what == 'list':
            part[name] = [in_list(field.form, one) for one in it[name]]
        elif field.what == 'optional':
            part[name] = it.get(name) and in_list(field.form, it[name])
        elif field.what == 'rest':
            is_list = field.form in ITEMS
            part[name] = [read_part(ITEMS[field.form], one) for one in it['items']] if is_list else it.get(name, it['value'])
        elif field.what == 'number':
            part[name] = it[name] if name in it else it['number']
    return part


def written_fields(row, it):
    """The program's arguments for the fields of a kind, and the parts that its list has."""
    arguments, parts = [said(named(flag.name), it[named(flag.name)]) for flag in row.flags], []
    for field in row.layout.fields:
        value = it[named(field.name)] if field.what not in ('count', 'reserved') else None
        if field.what == 'either':
            arguments += [said(named(name), it[named(name)]) for name in (field.name, field.other)]
        elif field.what == 'list':
            arguments.append(said(named(field.name), [number for one in value for number in numbers_of(field.form, one)]))
        elif field.what == 'optional' and value:
            arguments.append(said(named(field.name), numbers_of(field.form, value)))
        elif field.what == 'rest' and field.form in ITEMS:
            parts = [word for one in value for word in written_part(ITEMS[field.form], one)]
        elif field.what in ('rest', 'number'):
            arguments.append(said(named(field.name), value))
    return arguments, parts


def written_part(level, it):
    """The words by which the program writes a chunk or an item: by the call of its kind, if it has one."""
    if 'kind' not in it:
        part = 'chunk' if level == 'chunk' else 'item'
        return [part, said('type', it[NUMBERED[level]]), said('flags', it.get('flags', 0)), said('value', it['value'])]
    row = KINDS[level][it['kind']]
    (arguments, parts), layout, kind = written_fields(row, it), row.layout, said('type', row.number)
    if level == 'chunk' and (layout.numbers or not layout.items):
        return [named(row.identifier), *arguments, *parts]
    if level == 'chunk':
        return ['chunk', kind, said('flags', sum(it[named(flag.name)] * flag.flag.number for flag in row.flags)), *parts]
    if level == 'parameter' and row.struct != '-':
        return [row.struct, kind, *arguments]
    if layout.lists:
        return ['missing', kind, *arguments]
    if layout.numbers:
        return ['number', kind, said('number', it[named(layout.numbers[0].name)])]
    return ['item', kind, said('value', it[named(layout.rest.name)] if layout.rest else '')]


def kinds_answered(answers, all_bytes):
    """The lines of kinds.jsonl that chunks have, without how they are written."""
    lines = [{'bytes': it} for it in all_bytes]
    for line, found in zip(lines, answers.ask(lambda it: ['read', f'packet={HEADER}{bytes.fromhex(it).hex()}'], all_bytes)):
        for key, it in found.items():
            line[key] = [read_part('chunk', chunk) for chunk in it] if key == 'chunks' else [FAULTS[it[0]], it[1]]
    return lines


def kinds_written(answers, lines):
    """How each line's chunks are written by their fields: bytes, or why they aren't."""
    found = answers.ask(lambda it: ['write', *(word for chunk in it['chunks'] for word in written_part('chunk', chunk))], lines)
    return [it.get('code') or it['bytes'] if it else 'no fields' for it in found]


def whole(answers, found, lines):
    """What is found, and how the chunks of the lines are written, in the order of the keys."""
    accepted = [(it, line) for it, line in zip(found, lines) if 'chunks' in line]
    for (it, _), written in zip(accepted, kinds_written(answers, [line for _, line in accepted])):
        if written != it['bytes']:
            it['written'] = written
    return [{key: it[key] for key in ('bytes', 'fault', 'chunks', 'written', 'strict') if key in it} for it in found]


def compare_kinds(answers, lines):
    return whole(answers, kinds_answered(answers, [line['bytes'] for line in lines]), lines)


# ---- what is kept as bytes

def items_bytes(key, items):
    """A list of parameters or causes: each with its padding, but the last."""
    data = bytearray()
    for it in items:
        value = bytes.fromhex(it['value'])
        data += bytes(-len(data) % 4) + it[key].to_bytes(2, 'big') + (4 + len(value)).to_bytes(2, 'big') + value
    return data.hex()


def written_registered(line):
    yield from ('write_registered', said('level', line['level']), said('type', line['type']))
    for name, form in REGISTERED[line['level'], line['type']]:
        value = line['fields'][name]
        if form in ITEMS:
            yield said(name, items_bytes(NUMBERED[ITEMS[form]], value))
        elif form == 'short_numbers':
            yield said(name, ''.join(f'{number:04x}' for number in value))
        else:
            yield said(name, value)


def compare_registered(answers, lines):
    keys = 'level', 'type', 'value'
    found = [{key: line[key] for key in keys if key in line} for line in lines]
    read = answers.ask(lambda it: ['read_registered', *(said(key, it[key]) for key in keys)], found)
    for line, it, own, written in zip(lines, found, read, answers.ask(written_registered, lines)):
        if 'value' not in line:
            it |= {'fields': line['fields']} | ({'refused': True} if written.get('code') else {})
            continue
        it['fields'] = own.get('fields')
        if line['fields'] is not None and written.get('value') != line['value']:
            it['written'] = written.get('value', 'refused')
    return found


# ---- what is asked of whoever receives a packet

RETURNS = {'unrecognized_chunk': 'action', 'unrecognized_parameter': 'action', 'verify_tag': 'tag_verdict',
           'out_of_the_blue': 'answer', 'init_fault': 'init_fault', 'init_refusal': 'refusal'}
GIVEN = {'answer': 'answer', 'fault': 'init_fault'}
"""The enums of what calls return, and of arguments."""


def asked(line):
    yield 'call'
    for name, value in {**line, **line.get('header', {})}.items():
        if name in GIVEN:
            value = {identifier: number for number, identifier in CONSTANTS[GIVEN[name]].items()}[value]
        if name not in ('header', 'returns', 'end') and value is not None:
            yield said('types' if isinstance(value, list) else name, value)


def compare_calls(answers, lines):
    found = []
    for line, it in zip(lines, answers.ask(asked, lines)):
        returns, call = it.get('returns'), line['call']
        if call in RETURNS:
            returns = CONSTANTS[RETURNS[call]].get(returns)
        elif call == 'broken_rules':
            returns = [row.identifier for row in TABLE['rule'] if returns & row.number]
        elif call == 'adds_addresses':
            returns = returns == 1
        stops = {'end': it.get('end')} if call.startswith('add_unrecognized') else {}
        found.append({**{key: it for key, it in line.items() if key not in ('returns', 'end')}, 'returns': returns, **stops})
    return found


def text_of(line):
    return json.dumps(line, separators=(',', ':'))


FILES = {'kinds.jsonl': compare_kinds, 'registered.jsonl': compare_registered, 'calls.jsonl': compare_calls}


def compare(answers, folder):
    """Whether a line says something else than the calls."""
    wrong = False
    for name, answered in FILES.items():
        with open(os.path.join(folder, name), encoding='ascii') as file:
            texts = file.read().splitlines()
        for at, (text, it) in enumerate(zip(texts, answered(answers, [json.loads(text) for text in texts])), 1):
            if text != text_of(it):
                wrong, line = True, json.loads(text)
                keys = [key for key in {**line, **it} if line.get(key, ...) != it.get(key, ...)] or ['blanks or the order']
                print(f'{name}:{at}: {", ".join(keys)}: the calls say {text_of(it)}')
    return wrong


# ---- random lines

class Random(random.Random):
    """What is random: values, and the changes of bytes."""

    def number(self, form):
        most = (1 << 8 * layouts.WIDTHS[form]) - 1
        return self.choice((self.randint(0, most), self.randint(0, most), self.getrandbits(3), most - self.getrandbits(2)))

    def count(self, most):
        """How many of a list: mostly few, sometimes more than a byte says."""
        return self.choice((0, 1, 2, self.randrange(most))) if self.random() < 0.99 else self.randrange(256, 300)

    def some(self, least=0):
        return self.randbytes(max(least, self.count(12))).hex()

    def one_of(self, form):
        if form in layouts.WIDTHS:
            return self.number(form)
        fields = TABLE['records'][form].layout.fields
        return {named(it.name): self.random() < 0.5 if it.what == 'bit' else self.number(it.form) for it in fields}

    def kind(self, row):
        part = {'kind': row.identifier} | {named(flag.name): self.random() < 0.5 for flag in row.flags}
        for field in row.layout.fields:
            name = named(field.name)
            if field.what == 'either':
                part |= {name: self.number(field.form), named(field.other): self.number(field.form)}
            elif field.what == 'list':
                part[name] = [self.one_of(field.form) for _ in range(self.count(9))]
            elif field.what == 'optional':
                part[name] = self.choice((None, self.one_of(field.form)))
            elif field.what == 'rest' and field.form in ITEMS:
                count = max(field.least // 4, self.choice((1, self.randrange(5))))
                part[name] = [self.part(ITEMS[field.form]) for _ in range(count)]
            elif field.what == 'rest':
                part[name] = self.some(field.least)
            elif field.what == 'number':
                part[name] = self.choice(TABLE['result']).number if field.of else self.number(field.form)
        return part

    def part(self, level):
        """A chunk or an item: of a kind, or of a type that is none."""
        if self.random() < 0.85:
            return self.kind(self.choice(layouts.kinds_of(TABLE, level)))
        number = self.choice([self.number('u8' if level == 'chunk' else 'u16'), self.choice(TABLE[level]).number])
        if number in ROWS[level]:
            return self.part(level)
        return {NUMBERED[level]: number, 'flags': self.getrandbits(8), 'value': self.some()}

    def changed(self, data):
        """Bytes of which some may be changed: bits, bytes, lengths and counts; words more or less; the end; the order."""
        data = bytearray(data)
        for _ in range(self.choice((0, 0, 1, 1, 2)) if data else 0):
            at = self.randrange(len(data) or 1)
            word = at // 4 * 4
            match self.randrange(10) if data else 4:
                case 0:
                    data[at] ^= 1 << self.randrange(8)
                case 1:
                    data[at] = self.choice((0, 1, 4, 255, self.getrandbits(8)))
                case 2 | 3:
                    place = min(word + 3, len(data) - 1)
                    data[place] = (data[place] + self.choice((-4, -2, -1, 1, 2, 4))) & 255
                case 4:
                    data += self.randbytes(self.randrange(1, 6))
                case 5:
                    del data[at:]
                case 6:
                    data[word:word] = data[word:word + 4] if self.random() < 0.5 else self.randbytes(4)
                case 7:
                    del data[word:word + 4]
                case 8:
                    data[:] = data[word:] + data[:word]
                case 9:  # (the last padding, if there is one)
                    data[-self.randrange(1, 4):] = self.randbytes(self.randrange(4))
        return data.hex()


def print_random(answers, count, seed):
    it = Random(seed)
    made = [{'chunks': [it.part('chunk') for _ in range(it.choice((1, 1, 1, it.randrange(1, 5))))]} for _ in range(count)]
    lines = kinds_answered(answers, [it.changed(bytes.fromhex(one)) for one in kinds_written(answers, made)])
    print(*map(text_of, whole(answers, lines, lines)), sep='\n')


def main(given):
    if given == ['--help']:
        print(__doc__.strip())
        return 0
    if given[:1] not in (['--compare'], ['--random']) or len(given) not in ((1, 2) if given[0] == '--compare' else (3,)):
        print(__doc__.split('\n')[0], file=sys.stderr)
        return 2
    with tempfile.TemporaryDirectory() as folder:
        answers = Answers(folder)
        if given[0] == '--random':
            print_random(answers, int(given[1]), int(given[2]))
            return 0
        return 1 if compare(answers, given[1] if given[1:] else HERE) else 0


if __name__ == '__main__':
    sys.exit(main(sys.argv[1:]))
