#!/usr/bin/env python3
# SPDX-License-Identifier: Apache-2.0
"""Puts tables into docs/SPEED.md, as bench/all.sh --record does.

usage: bench/record.py PART..

A PART is run, crc, c, packages or dump. Its table, bench/out/PART.md, goes between the marker line that names it and the next one."""
import os
import sys

ROOT = os.path.dirname(os.path.dirname(os.path.abspath(__file__)))
PAGE = os.path.join(ROOT, 'docs', 'SPEED.md')
BEGIN, END = '<!-- bench/all.sh --record writes this part: %s -->\n', '<!-- end of the part -->\n'


def main(parts):
    if not parts or parts[0].startswith('-'):
        sys.exit(__doc__)
    with open(PAGE, encoding='utf-8') as file:
        page = file.read()
    for part in parts:
        with open(os.path.join(ROOT, 'bench', 'out', part + '.md'), encoding='utf-8') as file:
            table = file.read().strip('\n') + '\n'
        before, began, rest = page.partition(BEGIN % part)
        _, ended, after = rest.partition(END)
        if not began or not ended:
            sys.exit('record.py: docs/SPEED.md lacks the marker lines of %s' % part)
        page = before + began + table + ended + after
    with open(PAGE, 'w', encoding='utf-8') as file:
        file.write(page)


main(sys.argv[1:])
