#!/usr/bin/env python3
# SPDX-License-Identifier: Apache-2.0
"""Refuses each request for memory in turn, of the programs test_rows and sctp_show.

usage: tests/refusals/refuse.py LIBRARY

LIBRARY is refuse.c, compiled. Without a refusal a program has to give the right answers. Then it runs once for each of its
requests, and that one is refused, which has to be seen, and nothing else. Either the program ends and says that memory ran
out; or one row of its table is answered otherwise. `OutOfMemory` is in that answer in place of what a reader or a call returns,
and each row of rows.txt has to say so in some run. An answer that ends in `no memory` was given up, since the program's own
request was refused, or that of a call which says no more than this. In faults.txt no row says `OutOfMemory`: each request
was the program's own, and so a fault takes no memory.

Last, nothing is refused, and the sizes that sctp_show asks for are compared with those of sizes.txt."""

import concurrent.futures
import difflib
import os
import re
import subprocess
import sys

FOLDER = os.path.dirname(os.path.abspath(__file__))
# What the programs say where they say nothing else: their status, output and errors.
ROWS_ENDED = (1, '', 'Error: Kind(OutOfMemory)\n')
SHOW_ENDED = (1, 'error: out of memory\n', '')


def give_up(*lines):
    sys.exit('\n  '.join(('refusals: ' + lines[0], *lines[1:])))


def read(name):
    with open(os.path.join(FOLDER, name), encoding='utf-8') as file:
        return file.read()


def rows_of(table):
    """The rows, and the facts of each answer. How a row reads says crates/test_rows/README.md."""
    rows = []
    for line in table.splitlines():
        if line.startswith('    ') and rows:
            rows[-1][1][-1] += line[3:]
        elif line.startswith('  ') and rows:
            rows[-1][1].append(line[2:])
        elif line and line[0] != '#':
            call, is_short, answer = line.partition(' = ')
            rows.append((call, [answer] if is_short else []))
    return rows


def run(program, given, request):
    """The status, the output and the errors with this request refused; with none, the errors are the number of requests."""
    path = os.path.join(FOLDER, f'../../crates/{program}/out/{program}')
    env = {**os.environ, 'LD_PRELOAD': sys.argv[1], 'REFUSE_AT': str(request)}
    ended = subprocess.run([path], input=given, capture_output=True, text=True, env=env, check=False)
    return ended.returncode, ended.stdout, ended.stderr


def refuse_each(program, given, status, wanted):
    """The same with each request refused, if the program gives the right answers without a refusal."""
    found, output, errors = run(program, given, 0)
    if (found, output) != (status, wanted):
        lines = difflib.unified_diff(wanted.split('\n'), output.split('\n'), 'wanted', 'answered', lineterm='', n=1)
        give_up(f'{program} answers otherwise, and no request is refused: status {found}', *lines)
    with concurrent.futures.ThreadPoolExecutor(os.cpu_count()) as pool:
        return list(pool.map(lambda request: run(program, given, request), range(1, int(errors) + 1)))


def how_it_ran_out(wanted, others, answer):
    """What an answer says of memory, if nothing in it is wrong."""
    if answer.endswith('no memory') and wanted.startswith(answer.removesuffix('no memory')):
        return 'no memory'
    form = re.escape(answer.replace('FailedParseChunk(OutOfMemory)', 'OutOfMemory')).replace('OutOfMemory', '.*')
    if answer in others or answer.count('OutOfMemory') == 1 and re.fullmatch(form, wanted):
        return 'OutOfMemory'
    return 'otherwise'


def refuse_rows(name, may_say):
    table = read(name)
    rows, ran_out, own = rows_of(table), set(), 0
    # Further right answers: what comes after `#or` in a line below the row.
    others = [line.removeprefix('#or ') for line in table.splitlines() if line.startswith('#or ')]
    for request, found in enumerate(refuse_each('test_rows', table, 0, table), 1):
        if found == ROWS_ENDED:
            own += 1
            continue
        where, answered = f'{name}, request {request} refused:', rows_of(found[1])
        if (found[0], found[2]) != (0, '') or len(answered) != len(rows):
            give_up(f'{where} test_rows ends otherwise: status {found[0]}', found[1], found[2])
        changed = [(old[0], '; '.join(old[1]), '; '.join(new[1])) for old, new in zip(rows, answered) if old != new]
        said = [how_it_ran_out(old, others, new) for _, old, new in changed]
        if not said:
            give_up(f'{where} no row says so')
        if len(said) > 1 or said[0] not in may_say:
            give_up(where, *(line for it in changed for line in (it[0], f'wanted   {it[1]}', f'answered {it[2]}')))
        if said[0] == 'OutOfMemory':
            ran_out.add(changed[0][0])
        else:
            own += 1
    print(f"refusals: {name}: {request} requests, {own} of them the program's own; {len(ran_out)} of {len(rows)} rows ran out of memory")
    never = [call for call, _ in rows if call not in ran_out]
    if 'OutOfMemory' in may_say and never:
        give_up('rows that never ran out of memory:', *never)


def refuse_show():
    refused = 0
    for digits, lines in rows_of(read('show.txt')):
        answer = '\n'.join(lines) + '\n'
        for found in refuse_each('sctp_show', digits, int(answer.startswith('error')), answer):
            refused += 1
            if found != SHOW_ENDED:
                give_up(f'sctp_show answers otherwise to {digits}: status {found[0]}', *found[1:])
    print(f'refusals: sctp_show: {refused} requests')


def packet_of(text, count):
    """The packet of a row of sizes.txt, with so many of its last part, and the bytes of that."""
    head, _, part = text.replace(' ', '').partition('*')
    digits, size = head + part * count, len(part) // 2
    for at in (found.start() for found in re.finditer(r'\.{4}', head)):
        digits = digits[:at] + f'{(len(digits) - at) // 2 + 2:04x}' + digits[at + 4:]
    return digits, size


def compare_sizes(count=1009):
    page = ' '.join(read('../../SECURITY.md').split())
    rows = [line for line in read('sizes.txt').splitlines() if line and line[0] != '#']
    for part, _, text in (row.partition(' = ') for row in rows):
        digits, written = packet_of(text, count)
        status, output, errors = run('sctp_show', digits, 'sizes')
        size = int(part.split()[-1])
        found = {int(each) for each in errors.split() if int(each) % count == 0}
        if status or found != {size * count}:
            give_up(f'sizes.txt: {part}: status {status}, requests for {count} of them: {found}', output[:200])
        if size != written and not re.search(rf'\b{part}( bytes)?,', page):
            give_up(f'sizes.txt: SECURITY.md does not say: {part}')
    print(f'refusals: {len(rows)} sizes')


refuse_rows('rows.txt', ('OutOfMemory', 'no memory'))
refuse_rows('faults.txt', ('no memory',))
refuse_show()
compare_sizes()
