# SPDX-License-Identifier: Apache-2.0
"""What registry/make.py writes of the table on the pages."""
from languages.words import LISTS, c_registered, digits
from layouts import kinds_of, registered_of


def readme(table):
    kinds = {level: kinds_of(table, level) for level in LISTS}
    standards = sorted({row.standard[:4] for rows in kinds.values() for row in rows})
    rows = [f'| {LISTS[level]} | {", ".join(row.name for row in rows)} |' for level, rows in kinds.items()]
    return ['\n'.join([f'| | with their fields (RFC {", ".join(standards)}) |', '|---|---|', *rows, ''])]


def c_page(table):
    """The types that are bytes to most calls: those of a level whose values are laid out alike share a row."""
    alike = {}
    for row in (row for level in LISTS for row in registered_of(table, level)):
        alike.setdefault((row.level, row.value), []).append(row)
    rows = []
    for (_, value), own in alike.items():
        names = ', '.join(f'`{row.level.upper()}_{row.identifier}` {digits(row)}' for row in own)
        cells = [names, '' if value == '-' else value, ', '.join(f'`{field}`' for field in c_registered(own[0]))]
        rows.append(''.join(f'| {cell} ' if cell else '| ' for cell in cells) + '|')
    return ['\n'.join(['| `DCSCTP_` | value | `dcsctp_registered` |', '|---|---|---|', *rows, ''])]


FILES = {}
MARKED = {'README.md': readme, 'docs/C.md': c_page}
