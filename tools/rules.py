#!/usr/bin/env python3
# SPDX-License-Identifier: Apache-2.0
"""usage: tools/rules.py --compare | --try PROGRAM | --help

Compares the table of rules in docs/DUMP.md with the code, crates/dcsctp_receive/src/rule.rt: the names in the
order of `Rule::ALL`, the requirement, the section and the sentence of each; the names in examples/rules.txt; and the rows of
registry/sctp.txt, of which the constants and the texts of all languages are made, bit i for the i-th rule.

  --compare      prints a line for each difference, with status 1, or one line that there is none, with status 0
  --try PROGRAM  the same of what sctp_dump --check prints of each row of examples/rules.txt, in its three forms: the
                 rules that are broken in the order of the table, each with its sentence and section, and the counts
  --help         prints this
"""
import collections
import json
import os
import re
import subprocess
import sys

ROOT = os.path.dirname(os.path.dirname(os.path.abspath(__file__)))
sys.path.insert(0, os.path.join(ROOT, 'registry'))
sys.dont_write_bytecode = True
import make
from languages import words

CODE = os.path.join(ROOT, 'crates', 'dcsctp_receive', 'src', 'rule.rt')
PAGE = os.path.join(ROOT, 'docs', 'DUMP.md')
ROWS = os.path.join(ROOT, 'examples', 'rules.txt')
COLUMNS = ['name', 'requirement', 'section', 'sentence']


def read(path):
    with open(path, encoding='utf-8') as file:
        return file.read()


def texts(code, function):
    """The text that the function returns of each variant."""
    body = code.split(f'pub fn {function}(self)', 1)[1].split('\n    }\n', 1)[0]
    of_variant = {}
    for variants, text in re.findall(r'((?:\s*\|?\s*Rule::\w+)+)\s*=>\s*"([^"]*)"', body):
        for variant in re.findall(r'Rule::(\w+)', variants):
            of_variant[variant] = text
    return of_variant


def rules_of_code():
    code = read(CODE)
    variants = re.findall(r'Rule::(\w+)', code.split('pub const ALL', 1)[1].split(';\n', 1)[0].split('= [', 1)[1])
    columns = [texts(code, name) for name in COLUMNS]
    return [[column.get(variant, '') for column in columns] for variant in variants]


def rules_of_page():
    section = read(PAGE).split('\n## Rules\n', 1)[1].split('\n## ', 1)[0]
    rows = [line.strip('|').split('|') for line in section.split('\n') if line.startswith('| `')]
    return [[cell.strip().strip('`') for cell in row[:len(COLUMNS)]] for row in rows]


def differences_of_table(code):
    table = make.table_of(make.rows_of(make.read(make.TABLE)))['rule']
    have = [(row.number, words.rule_name(row), words.rule_standard(row), row.text) for row in table]
    wanted = [(1 << bit, name, section, sentence) for bit, (name, _, section, sentence) in enumerate(code)]
    for it in [it for it in have if it not in wanted]:
        yield f'registry/sctp.txt has {it}, and the code not so'
    for it in [it for it in wanted if it not in have]:
        yield f'the code has {it}, and registry/sctp.txt not so'


def rows():
    """Of each row its packets, and the names of the rules that one of them breaks."""
    for line in read(ROWS).split('\n'):
        if line and not line.startswith('#'):
            packets, names = line.split(' = ', 1)
            yield packets.split(' / '), set(names.split()) - {'-'}


def names_of_rows():
    return set().union(*(names for _, names in rows()))


def differences():
    code, page = rules_of_code(), rules_of_page()
    names = [rule[0] for rule in code]
    if [rule[0] for rule in page] != names:
        yield f'the names of docs/DUMP.md aren\'t, in this order, {" ".join(names)}'
        return
    for rule, shown in zip(code, page):
        for column, text, cell in zip(COLUMNS, rule, shown):
            if text != cell or not text:
                yield f'{rule[0]}: {column}: docs/DUMP.md has {cell!r}, and the code {text!r}'
    for name in sorted(set(names) ^ names_of_rows()):
        yield f'{name}: is in one alone of examples/rules.txt and the code'
    yield from differences_of_table(code)


def run(program, packets, *words):
    done = subprocess.run([program, '--check', *words], input='\n'.join(packets), capture_output=True, text=True)
    return done.stdout, done.returncode


def differences_of_row(program, packets, names):
    rules = {name: (section, sentence) for name, _, section, sentence in rules_of_page()}
    brief, status = run(program, packets, '--brief')
    lines = [re.findall(r' \? (\S+)', line) for line in brief.split('\n')[:len(packets)]]
    if set().union(*lines) != names or any(line != [name for name in rules if name in line] for line in lines):
        yield f'breaks {lines}'
    if status != (3 if names else 0):
        yield f'status {status}'
    counted = collections.Counter(sum(lines, []))
    counts = [f'warning {name}: {counted[name]}' for name in rules if name in counted]
    if [line for line in brief.split('\n') if line.startswith('warning ')] != counts:
        yield f'counts in {brief!r}'
    *blocks, last = run(program, packets)[0].split('\n\n')
    *objects, total = map(json.loads, run(program, packets, '--json')[0].splitlines())
    for line, block, value in zip(lines, blocks, objects, strict=True):
        said = [f'warning {name}: {rules[name][1]} ({rules[name][0]})' for name in line]
        if [text for text in block.split('\n') if text.startswith('warning ')] != said:
            yield f'block {block!r}'
        if value.get('warnings', []) != [{'rule': name, 'section': rules[name][0], 'sentence': rules[name][1]} for name in line]:
            yield f'object {value}'
    if last.split('\n')[:-2] != counts or total['warnings'] != sum(counted.values()):
        yield f'counts in {last!r} and {total}'


def differences_of_rows(program):
    for packets, names in rows():
        for text in differences_of_row(program, packets, names):
            yield f'{" / ".join(packets)} = {" ".join(sorted(names)) or "-"}: {text}'


def report(found, where):
    for line in found:
        print(f'rules: {line}')
    if found:
        sys.exit(1)
    print(f'rules: {len(rules_of_code())} rules, as in {where}')


def main():
    words = sys.argv[1:]
    if words == ['--compare']:
        report(list(differences()), 'docs/DUMP.md and include/dcsctp.h')
    elif words[:1] == ['--try'] and len(words) == 2:
        report(list(differences_of_rows(words[1])), 'examples/rules.txt')
    elif words in ([], ['--help']):
        print(__doc__, end='')
    else:
        print(__doc__, end='', file=sys.stderr)
        sys.exit(2)


main()
