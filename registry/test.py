#!/usr/bin/env python3
# SPDX-License-Identifier: Apache-2.0
"""usage: registry/test.py [--help]

Tries registry/make.py: broken tables, each of which it has to refuse at the right line; files that were changed, and numbers,
sizes and fields of the proved crates that are others than the table's, each of which it has to name. The last line is: registry:
N passed, M failed.
"""
import contextlib
import io
import os
import re
import shutil
import sys
import tempfile

sys.dont_write_bytecode = True
import layouts
import make
import proved

TEXT = make.read(make.TABLE)
LINES = TEXT.splitlines()
INIT = next(at for at, line in enumerate(LINES) if line.startswith('chunk    1 '))
passed, failed = 0, 0


def check(what, is_right):
    global passed, failed
    if is_right:
        passed += 1
    else:
        failed += 1
        print(f'registry: {what}: failed')


def refusal(lines):
    """What is said of a table that is refused."""
    try:
        make.table_of(make.rows_of('\n'.join(lines)))
    except (make.Broken, layouts.Wrong) as wrong:
        return str(wrong)
    return 'accepted'


# What is changed in the line of INIT, and what is said of it.
BROKEN = [
    ('chunk ', 'chunks ', 'no level is chunks'),
    ('  kind  ', '  ', '9 columns, but chunk has 10'),
    ('  1  ', '  one  ', 'no number is one'),
    ('  1  ', '  256  ', '256 has more than 8 bits'),
    ('  1  ', '  0  ', 'the number of line'),
    ('  1  ', '  200  ', 'not in order'),
    ('  INIT  ', '  init  ', 'no identifier is init'),
    ('  INIT  ', '  DATA  ', 'the identifier of line'),
    ('INIT               9260', 'DATA               9260', 'the name of line'),
    ('INIT               9260', 'iNIT               9260', "iNIT doesn't begin with a capital"),
    ('INIT               9260', '"               9260', 'no name is "'),
    ('9260 3.3.2 ', '9260 3.3. ', 'no standard is 9260 3.3.'),
    ('  kind  ', '  kinds  ', 'no read is kinds'),
    ('  init  ', '  Init  ', 'no struct is Init'),
    ('  setup  ', '  Setup  ', 'no group is Setup'),
    ('Asks for', 'asks for', 'no about is asks for'),
    ('  setup  ', '  -  ', 'INIT is a kind, and has no group'),
]
# What is changed in INIT's value, and what is said of it.
WRONG = [
    ('initiate tag u32', 'initiate tag u31', 'no field is initiate tag u31'),
    ('initiate tag u32', 'initiate tags u32', 'nothing is said of initiate tags'),
    ('initiate tag u32', 'parameters', 'a_rwnd u32 comes after parameters, which is the rest'),
    ('initiate tag u32', 'address', 'a_rwnd u32 comes after a list or an address'),
    ('a_rwnd u32', 'a_rwnd u32?', 'no field is a_rwnd u32?'),
    ('a_rwnd u32', 'count of TSNs u32', 'no list is TSNs'),
    ('parameters', 'streams SkippedStreams*', 'no record is SkippedStreams'),
    ('parameters', 'TSN if B or else MID u32', 'no flag is B'),
    ('parameters', 'address', 'a kind has no address'),
    ('parameters', 'address ipv4*', 'no record is ipv4'),
]
# What is changed in the value of a registered type, and what of it is refused.
LIMITS = [
    ('PKTDROP', 'size u16', 'size u32', 'size u32'),
    ('PKTDROP', 'queued u32, size u16', 'size u16, queued u32', 'size u16'),
    ('PKTDROP', 'size u16, u16', 'u16, size u16', 'u16'),
    ('PKTDROP', 'size u16', 'size u16, key u16, stream u16, SSN u16', 'SSN u16'),
    ('PKTDROP', 'packet bytes', 'packet bytes+', 'packet bytes'),
    ('PKTDROP', 'packet bytes', 'reason text', 'reason text'),
    ('PKTDROP', 'packet bytes', 'streams u32*', 'streams u32'),
    ('PKTDROP', 'packet bytes', 'blocks GapAckBlock*', 'blocks GapAckBlock'),
    ('PKTDROP', 'packet bytes', 'next TSNs NextTsns?', 'next TSNs NextTsns'),
    ('ASCONF', 'sequence number u32', 'sequence number u8', 'sequence number u8'),
    ('ASCONF', 'sequence number u32', 'result u32 of results', 'result u32'),
    ('ASCONF', 'address', 'address, address ipv4', 'address ipv4'),
    ('NR-SACK', 'count of NR blocks u16', 'count of NR blocks u32', 'NR blocks u32'),
    ('NR-SACK', 'count of duplicates u16', 'size u16', 'blocks GapAckBlock'),
    ('NR-SACK', 'duplicates u32*', 'duplicates u16*', 'blocks GapAckBlock'),
    ('NR-SACK', 'duplicates u32*', 'duplicates u32*, packet bytes', 'blocks GapAckBlock'),
    ('NR-SACK', 'blocks GapAckBlock*, NR blocks', 'NR blocks GapAckBlock*, blocks', 'NR blocks GapAckBlock'),
]
# The beginning of a row, what is in its place, and what is said of it.
OWNERS = [
    ('flag     129', 'flag     131', 'no chunk is 131'),
    ('constant  refusal', 'constant  refusals', 'no enum is refusals'),
]


def broken_tables():
    for old, new, why in BROKEN:
        line = LINES[INIT].replace(old, new, 1)
        said = refusal([*LINES[:INIT], line, *LINES[INIT + 1:]])
        at = INIT + 2 if why == 'not in order' else INIT + 1
        check(f'{new.strip()} for {old.strip()}', line != LINES[INIT] and said.startswith(f'{make.TABLE}:{at}: {why}') or
              print(f'{line}\n  {said}'))
    changes = [('INIT', *it) for it in WRONG]
    changes += [(name, old, new, f"a registered type can't have {it} there") for name, old, new, it in LIMITS]
    for name, old, new, why in changes:
        at = next(at for at, line in enumerate(LINES) if f'  {name}  ' in line)
        line = LINES[at].replace(f' {old}', f' {new}', 1)
        said = refusal([*LINES[:at], line, *LINES[at + 1:]])
        check(f'{new} for {old}', line != LINES[at] and said == f'{name}: {why}' or print(f'{line}\n  {said}'))
    for old, new, why in OWNERS:
        at = next(at for at, line in enumerate(LINES) if line.startswith(old))
        said = refusal([*LINES[:at], LINES[at].replace(old, new), *LINES[at + 1:]])
        check(f'{new} for {old}', said == f'{make.TABLE}:{at + 1}: {why}')
    for at, line in enumerate(LINES):
        if line and line[0] != '#':
            said = refusal([*LINES[:at + 1], line, *LINES[at + 1:]])
            what = 'nothing is said of' if line[0] == ' ' else rf'the (number|name) of line {at + 1} again'
            check(f'line {at + 1} twice', re.match(rf'{make.TABLE}:{at + 2}: {what}', said))


def changed_files():
    """Each place between marks, and each whole file, is compared."""
    table = make.table_of(make.rows_of(TEXT))
    check('the files are as the table gives them', not make.stale_files(table))
    root = make.ROOT
    with tempfile.TemporaryDirectory() as work:
        files = make.files_of(table)
        for path in (*files, make.TABLE):
            os.makedirs(os.path.dirname(os.path.join(work, path)), exist_ok=True)
            shutil.copyfile(os.path.join(root, path), os.path.join(work, path))
        make.ROOT = work
        try:
            for path, text in files.items():
                starts = [text.index(it) for it in text.split(make.MARK)[1:]] if path in make.MARKED else [len(text) // 2]
                for start in starts:
                    at = text.index('\n', start) + 1
                    changed = f'{text[:at]}// x\n{text[at:]}'
                    with open(os.path.join(work, path), 'w', encoding='utf-8') as file:
                        file.write(changed)
                    with contextlib.redirect_stdout(io.StringIO()) as printed:
                        status = make.main(['--compare'])
                    named = [line for line in printed.getvalue().splitlines() if 'not what' in line]
                    wanted = [f'{path}: not what {make.TABLE} gives; registry/make.py writes it']
                    check(f'a line more in {path}', status == 1 and named == wanted and make.read(path) == changed)
                make.main([])
                check(f'{path}, made anew', make.read(path) == text)
        finally:
            make.ROOT = root


FLAGS = {line.split('  ')[-1].strip().removesuffix(' = 1') for line in LINES if line.startswith('flag ')}

# What is changed in a row: the crates have it otherwise.
OTHERS = [
    ('chunk', 'SHUTDOWN', 'read', 'bytes'),
    ('chunk', 'DATA', 'value', 'TSN u32, SSN u16, stream u16, PPID u32, payload bytes'),
    ('chunk', 'DATA', 'value', 'TSN u32, stream u32, SSN u16, PPID u16, payload bytes'),
    ('chunk', 'INIT', 'value', 'initial TSN u32, a_rwnd u32, outbound streams u16, inbound streams u16, initiate tag u32, parameters'),
    ('chunk', 'INIT_ACK', 'value', 'initiate tag u32, a_rwnd u32, inbound streams u16, outbound streams u16, initial TSN u32, parameters'),
    ('chunk', 'SACK', 'value', 'cumulative TSN ack u32, a_rwnd u32, count of duplicates u16, count of blocks u16, blocks GapAckBlock*, duplicates u32*'),
    ('chunk', 'SHUTDOWN', 'value', 'new cumulative TSN u32'),
    ('chunk', 'ERROR', 'value', 'causes'),
    ('chunk', 'COOKIE_ECHO', 'value', 'cookie bytes'),
    ('chunk', 'I_DATA', 'value', 'TSN u32, stream u16, u16, MID u32, FSN if B or else PPID u32, payload bytes'),
    ('chunk', 'I_DATA', 'value', 'TSN u32, u16, stream u16, MID u32, PPID if B or else FSN u32, payload bytes'),
    ('chunk', 'FORWARD_TSN', 'value', 'new cumulative TSN u32, streams SkippedIStream*'),
    ('record', 'SkippedStream', 'value', 'SSN u16, stream u16'),
    ('record', 'SkippedIStream', 'value', 'stream u16, MID u32, is unordered bit u16'),
    ('record', 'NextTsns', 'value', 'receiver u32, sender u32'),
    ('parameter', 'OUTGOING_SSN_RESET', 'value', 'response number u32, request number u32, last TSN u32, streams u16*'),
    ('parameter', 'INCOMING_SSN_RESET', 'value', 'request number u32, streams u32*'),
    ('parameter', 'RECONFIGURATION_RESPONSE', 'value', 'response number u32, result u32 of results'),
    ('parameter', 'ADD_INCOMING_STREAMS', 'value', 'request number u32, u16, new streams u16'),
    ('parameter', 'ZERO_CHECKSUM_ACCEPTABLE', 'value', 'method u16, u16'),
    ('cause', 'MISSING_MANDATORY_PARAMETER', 'value', 'count of types u16, types u16*'),
    ('cause', 'NO_USER_DATA', 'value', 'method u32'),
]


def proved_numbers():
    """Each number of a kind, of a result and of a flag, and each kind's sizes are compared; and the order of fields."""
    check('the proved numbers are those of the table', not proved.differences(make.ROOT, make.table_of(make.rows_of(TEXT))))
    # (a flag is that of a chunk's number)
    for levels in (('chunk', 'parameter', 'cause', 'result', 'port'), ('flag',)):
        table = make.table_of(make.rows_of(TEXT))
        rows = [row for level in levels for row in table[level]]
        kinds = {row.number for row in table['chunk'] if row.read == 'kind'}
        for i, row in enumerate(rows):
            row.number = 1000 + i
        said = proved.differences(make.ROOT, table)
        for row in rows:
            if row.chunk in kinds if row.level == 'flag' else getattr(row, 'read', 'kind') == 'kind':
                check(f'another number of {row.level} {row.identifier}',
                      any(re.match(rf'crates/\S+:\d+: .*, but {row.number} in the table', line) for line in said))
    table = make.table_of(make.rows_of(TEXT))
    kinds = [row for level in ('chunk', 'parameter', 'cause') for row in table[level] if row.read == 'kind']
    for row in kinds:
        row.least = '99'
    said = [line for line in proved.differences(make.ROOT, table) if re.search('the sizes of .*, but 99 in the table', line)]
    check('other sizes of each kind', len(said) == len(kinds))
    for level, identifier, column, value in OTHERS:
        rows = make.rows_of(TEXT)
        row = next(row for row in rows if row.level == level and identifier in (row.name, getattr(row, 'identifier', '')))
        check(f'the {column} of {identifier} is of the table', getattr(row, column) != value)
        setattr(row, column, value)
        row.notes = {name: about for name, about in row.notes.items() if name in value}
        # (what no kind has any more would be refused before)
        rows = [row for row in rows if row.level != 'field' or row.name in f'{[row.value for row in rows if hasattr(row, "value")]}' or row.name in FLAGS]
        check(f'{value} as the {column} of {identifier}', proved.differences(make.ROOT, make.table_of(rows)))
    table = make.table_of(make.rows_of(TEXT))
    for row in table['chunk']:
        row.read = 'kind'
    check('a kind whose type is written again', any('is a kind: `pub use`' in line for line in proved.differences(make.ROOT, table)))


if sys.argv[1:]:
    print(__doc__.strip(), file=sys.stdout if sys.argv[1:] == ['--help'] else sys.stderr)
    sys.exit(sys.argv[1:] != ['--help'] and 2)
broken_tables()
changed_files()
proved_numbers()
print(f'registry: {passed} passed, {failed} failed')
sys.exit(failed > 0)
