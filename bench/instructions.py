#!/usr/bin/env python3
# SPDX-License-Identifier: Apache-2.0
"""Compares what bench/instructions.sh counted with the recorded figures, and prints it as Markdown.

usage: instructions.py FOLDER RECORD [--record]

FOLDER holds functions.txt, the names of the library's functions, and for each call and file FILE.CALL.packets, the
number of packets, and FILE.CALL.callgrind. RECORD is the table of recorded figures. With --record writes RECORD;
without it exits 1 where a count is more than 1 % above its record."""
import os
import re
import sys

from report import rows, table
from traffic import FILES

CALLS = ('check', 'check_lenient', 'check_strict', 'borrowed', 'refill', 'read', 'read_and_write', 'write_over', 'write_in_place',
         'build')
# How much of its record a count may be.
MOST = 1.01


def instructions(file, functions):
    """The instructions of these functions, and those of the C library, which is a program file of its own."""
    inside = outside = 0
    program, holder, function, called = '', '', '', False
    with open(file, encoding='utf-8') as lines:
        for line in lines:
            name, is_name, value = line.rstrip('\n').partition('=')
            if name == 'ob':
                holder = value
            elif name == 'fn':
                function = value
            elif name == 'calls':
                called = True
            elif line.startswith('cmd:'):
                program = os.path.realpath(line.split()[1])
            elif re.match(r'[0-9]', line) and not is_name:
                # the line after `calls=` repeats what the called function took
                if not called:
                    if os.path.realpath(holder) != program:
                        outside += int(line.split()[1])
                    elif function in functions:
                        inside += int(line.split()[1])
                called = False
    return inside, outside


def counted(folder):
    """For each file and call: the library's instructions a packet, and the C library's."""
    with open(os.path.join(folder, 'functions.txt'), encoding='utf-8') as file:
        functions = set(file.read().splitlines())
    found = {}
    for entry in os.listdir(folder):
        if entry.endswith('.callgrind'):
            name, call, _ = entry.split('.')
            with open(os.path.join(folder, '%s.%s.packets' % (name, call)), encoding='utf-8') as file:
                packets = int(file.read())
            counts = instructions(os.path.join(folder, entry), functions)
            if not counts[0]:
                sys.exit('instructions.py: %s: none of the library\'s functions ran' % entry)
            found[name, call] = [count / packets for count in counts]
    return found


def figure(value):
    return '{:,.1f}'.format(value)


def recorded(file):
    return {(row['file'], row['call']): float(row['instructions']) for row in rows(file)} if os.path.exists(file) else {}


def write_record(found, file):
    with open(file, 'w', encoding='utf-8') as out:
        out.write('file\tcall\tinstructions\n')
        for name, call in ordered(found):
            out.write('%s\t%s\t%.1f\n' % (name, call, found[name, call][0]))


def ordered(found):
    """Files and calls in the order in which the benchmark has them."""
    files = [name for name, _, _, _ in FILES]
    return sorted(found, key=lambda key: (files.index(key[0]), CALLS.index(key[1])))


def compared(found, known):
    """The table of all figures, and the calls that take more than is recorded, or have no record."""
    lines, above = [], []
    for key in ordered(found):
        own, others = found[key]
        # as a record has it
        own = round(own, 1)
        was = known.get(key)
        if was is None or own > MOST * was:
            above.append('%s of %s' % (key[1], key[0]))
        lines.append([key[0], '`%s`' % key[1], '-' if was is None else figure(was), figure(own),
                      '-' if was is None else '%+.1f %%' % (100 * (own / was - 1)), figure(others)])
    return table(['file', 'call', 'recorded', 'counted', 'change', 'C library'], lines), above


def main():
    if len(sys.argv) not in (3, 4) or sys.argv[3:] not in ([], ['--record']):
        sys.exit('usage: instructions.py FOLDER RECORD [--record]')
    folder, record = sys.argv[1:3]
    found = counted(folder)
    lines, above = compared(found, recorded(record))
    print('\n'.join(lines))
    if len(sys.argv) == 4:
        write_record(found, record)
    elif above:
        sys.exit('instructions.py: more than 1 % above the record, or without one:\n  ' + '\n  '.join(above))


if __name__ == '__main__':
    main()
