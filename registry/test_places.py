#!/usr/bin/env python3
# SPDX-License-Identifier: Apache-2.0
"""usage: registry/test_places.py

Tries registry/places.py: a line that is taken away has to be named, with its file and its kind; of a kind that is added to the
table, and not written, each file. Looks whether the files have the lines of the example in docs/ADDING.md. Prints what fails.
"""
import os
import re
import shutil
import subprocess
import sys
import tempfile

sys.dont_write_bytecode = True
import make
import places

# Lines of the files, typed here: the file, the kind, and what is taken away. The files have it once.
LINES = '''
crates/dcsctp_tlv/specs/Parameter.antt = Supported Extensions = IsTight (variant.SupportedExtensions p) = IsTightList p.chunk_types
crates/dcsctp_tlv/specs/Parameter.antt = SSN/TSN Reset Request = member kind.SsnTsnResetRequest.kind SsnTsnResetRequest ∷
crates/dcsctp_cause/specs/Cause.antt = Protocol Violation = HasOwnText (ProtocolViolation information)
crates/dcsctp_cause/specs/Cause.antt = User-Initiated Abort = IsTight (variant.UserInitiatedAbort c) =
crates/dcsctp_chunk/specs/PlainKinds.antt = SHUTDOWN ACK = shutdown_ack.kind ∷
crates/dcsctp_chunk/specs/Shutdown.antt = SHUTDOWN = 7 Fixed
crates/dcsctp_wire/specs/Chunk.antt = COOKIE ECHO = IsTight (variant.CookieEcho c) = IsTightList c.cookie
crates/dcsctp_wire/specs/Chunk.antt = I-FORWARD-TSN = IsPlaced (IForwardTsn f) =
crates/dcsctp_wire/specs/Chunk.antt = COOKIE ACK = (λ _. CookieAck) ∷
crates/dcsctp_wire/specs/Caller.antt = SACK = pub use Rattle.dcsctp_chunk.specs.Sack.{view as sack_view}
crates/dcsctp_wire/specs/Caller.antt = I-DATA = user_data_of (IData c) = Some c.user_data
crates/dcsctp_wire/src/packet.rt = Heartbeat Info = heartbeat_info_parameter,
crates/dcsctp_wire/src/packet.rt = SHUTDOWN COMPLETE = shutdown_complete_chunk,
crates/dcsctp_wire/src/packet.rt = No User Data = no_user_data_error_cause,
crates/dcsctp_wire/src/laws.rt = RE-CONFIG = ensures re_config { RE_CONFIG ≡ 130 }
crates/dcsctp_wire/proofs/ChunkRows.antt = COOKIE ECHO = plain_satisfies 10 _ kind.cookie_echo_laws &
crates/dcsctp_borrowed/specs/RawParameters.antt = RE-CONFIG = parameters_of (ReConfig ps) = Some ps
crates/dcsctp_borrowed/specs/RawParameters.antt = HEARTBEAT ACK = || typ == 5
crates/dcsctp_borrowed/src/raw_causes.rt = ERROR = error_chunk::CHUNK_TYPE =>
crates/dcsctp_borrowed/proofs/ParametersRewritten.antt = State Cookie = use Rattle.dcsctp_tlv.specs.StateCookie as cookie
crates/dcsctp_borrowed/proofs/CausesRewritten.antt = Protocol Violation = use Rattle.dcsctp_cause.specs.ProtocolViolation as violation
crates/dcsctp_buffer/specs/Item.antt = INIT ACK = with_parameter (InitAck i) p =
crates/dcsctp_c/src/parameters.rt = HEARTBEAT = heartbeat_request_chunk::CHUNK_TYPE
crates/dcsctp_c/specs/Parameter.antt = SSN/TSN Reset Request = number_of (SsnTsnResetRequest number) = Some number
crates/dcsctp_c/specs/Parameter.antt = No User Data = cause_number_of (NoUserData tsn) = Some tsn
crates/dcsctp_report/src/chunks.rt = SHUTDOWN COMPLETE = shutdown_complete_chunk::CHUNK_TYPE if value.size == 0 =>
crates/dcsctp_report/src/chunks.rt = SHUTDOWN ACK = shutdown_ack_chunk::CHUNK_TYPE |
crates/dcsctp_report/src/parameters.rt = Forward-TSN-Supported = forward_tsn_supported_parameter::PARAMETER_TYPE if value.is_empty() =>
crates/dcsctp_report/src/causes.rt = Protocol Violation = | protocol_violation_error_cause::CAUSE_CODE
crates/dcsctp_report/src/fault.rt = RE-CONFIG = | re_config_chunk::CHUNK_TYPE
crates/dcsctp_receive/src/chunk_test.rt = RE-CONFIG = 130 |
crates/test_callers/src/tests/facade.rt = INIT = (init_chunk::CHUNK_TYPE, 1),
crates/test_rows/src/kinds.rt = State Cookie = 7 => write_read(bytes, StateCookie::try_from(alloc, raw), out),
crates/test_rows/src/in_place.rt = COOKIE ACK = Chunk::CookieAck(_) |
crates/test_rows/src/buffers.rt = I-DATA = Chunk::IData(c) =>
tests/c/assertions.c = FORWARD-TSN = VALUE(CHUNK_FORWARD_TSN, 192);
tests/dump/names.txt = Supported Extensions = parameter 32776 Supported Extensions
docs/PROVED.md = RE-CONFIG = RE-CONFIG, as
tests/c/plain_reader.h = SACK = [PLAIN_SACK] = {0, 12, PLAIN_BYTES},
tests/c/fuzz.c = Zero Checksum Acceptable = case 0x8001: /* RFC 9653 section 4 */
crates/dcsctp_c/specs/Parameter.antt = SSN/TSN Reset Request = the request number of an SSN/TSN Reset Request
crates/dcsctp_c/src/parameters.rt = No User Data = the TSN of the cause No User Data
include/dcsctp.h = Zero Checksum Acceptable = Zero Checksum Acceptable, the cause
'''

# Files of tests, which have a line of a place as often as they like.
TESTS = {'crates/test_rows/stdin', 'tests/refusals/rows.txt', 'tests/dump/refused.txt'}

# Rows that the table doesn't have, of types and codes that no standard will have, and files that their kinds need.
MADE = '''
chunk  191  MADE_BYTES  MADE BYTES  9999 1  kind  -  data  bytes  Made
    crates/dcsctp_chunk/specs/MadeBytes.antt crates/dcsctp_chunk/specs/Lib.antt crates/dcsctp_chunk/specs/PlainKinds.antt
    crates/dcsctp_chunk/src/made_bytes_chunk.rt crates/dcsctp_chunk/src/lib.rt crates/dcsctp_chunk/src/plain_check.rt
    crates/dcsctp_wire/specs/Chunk.antt crates/dcsctp_wire/proofs/ChunkRows.antt crates/dcsctp_wire/src/packet/chunk.rt
    crates/dcsctp_wire/src/packet.rt crates/dcsctp_wire/src/laws.rt
    crates/test_rows/src/in_place.rt crates/test_rows/src/kinds.rt crates/test_rows/stdin crates/test_callers/src/tests/facade.rt
    tests/refusals/rows.txt tests/c/assertions.c tests/c/plain_reader.h docs/C.md
    docs/ARCHITECTURE.md CHANGELOG.md
chunk  191  MADE_LIST  MADE LIST  9999 1  kind  -  data  initial TSN u32, parameters  Made
    crates/dcsctp_wire/specs/MadeList.antt crates/dcsctp_wire/specs/Lib.antt crates/dcsctp_wire/specs/Chunk.antt
    crates/dcsctp_wire/specs/Caller.antt crates/dcsctp_wire/src/packet/made_list_chunk.rt crates/dcsctp_wire/src/packet/chunk.rt
    crates/dcsctp_borrowed/specs/RawParameters.antt crates/dcsctp_borrowed/src/raw_parameters.rt crates/dcsctp_buffer/specs/Item.antt
    crates/dcsctp_buffer/proofs/Longer.antt crates/dcsctp_c/src/parameters.rt crates/dcsctp_report/src/chunks.rt
    crates/dcsctp_report/src/fault.rt tests/dump/refused.txt tests/c/fuzz.c docs/PROVED.md
parameter  0xffff  MADE_VALUE  Made Value  9999 1  kind  -  parameters+  Made
    crates/dcsctp_tlv/specs/MadeValue.antt crates/dcsctp_tlv/specs/Parameter.antt tests/refusals/rows.txt
parameter  0xffff  MADE_NUMBER  Made Number  9999 1  kind  -  method u32  Made
    crates/dcsctp_tlv/specs/MadeNumber.antt crates/dcsctp_tlv/specs/Lib.antt
    crates/dcsctp_tlv/specs/Parameter.antt crates/dcsctp_tlv/src/parameter/made_number_parameter.rt
    crates/dcsctp_tlv/src/parameter.rt crates/dcsctp_tlv/proofs/ParameterLaws.antt crates/dcsctp_wire/src/packet.rt
    crates/dcsctp_wire/src/laws.rt crates/dcsctp_c/specs/Parameter.antt crates/dcsctp_c/proofs/NumberRows.antt
    crates/test_rows/src/kinds.rt crates/test_rows/stdin crates/test_callers/src/tests/facade.rt tests/c/assertions.c tests/c/fuzz.c
    tests/dump/refused.txt include/dcsctp.h
    docs/C.md CHANGELOG.md
cause  0xffff  MADE_NUMBER  Made Number  9999 1  kind  TSN u32  Made
    crates/dcsctp_cause/specs/MadeNumber.antt crates/dcsctp_cause/specs/Cause.antt crates/dcsctp_cause/src/lib.rt
    crates/dcsctp_cause/src/error_causes.rt crates/dcsctp_cause/proofs/CauseLaws.antt crates/dcsctp_c/specs/Parameter.antt
    crates/dcsctp_report/src/causes.rt include/dcsctp.h
'''

failures = []


def expect(holds, *words):
    if not holds:
        failures.append(': '.join(words))


def without(text, start, end):
    """The text without a part, and without its line, if nothing else is there."""
    line_start, line_end = text.rfind('\n', 0, start) + 1, text.find('\n', end) + 1
    if not (text[line_start:start] + text[end:line_end]).strip():
        start, end = line_start, line_end
    return text[:start] + text[end:]


def named(needs, path, text):
    """The kinds whose line a file with this text lacks."""
    return {kind.row.name for kind, place, wanted in needs if place == path and not places.found(text, wanted, kind.row.number)}


def try_words(kinds):
    for line in places.read(places.PLACES).splitlines():
        if line.startswith('['):
            expect(any(places.is_for(line, kind) for kind in kinds), places.PLACES, 'for no kind', line)


def try_all(needs):
    """Takes what stands for a kind out of each place."""
    for kind, path, wanted in needs:
        text, number = places.read(path), kind.row.number
        span = places.found(text, wanted, number)
        if span and path in TESTS:
            left = places.pattern_of(wanted, number).sub('', text)
        else:
            left = span and without(text, *span)
        expect(span and not places.found(left, wanted, number), path, kind.row.name, 'isn\'t missed', repr(wanted))


def try_lines(needs):
    """Takes lines away that were chosen by hand."""
    for line in LINES.strip().splitlines():
        path, name, words = line.split(' = ', 2)
        text = places.read(path)
        if text.count(words) != 1:
            expect(False, f'{path} has not once what LINES of test_places.py has of it; type it anew', words)
            continue
        start = text.find(words)
        left = without(text, start, start + len(words))
        lacking = named(needs, path, left)
        expect(lacking == {name}, path, name, words, 'named are', *sorted(lacking))


def try_made():
    """Adds each made row to the table."""
    rows = make.rows_of(make.read(make.TABLE))
    about = make.row_of(0, 'field  bytes  Any bytes.')
    for made in re.split(r'\n(?! )', MADE.strip()):
        line, _, files = made.partition('\n')
        row = make.row_of(0, line)
        kinds = places.kinds_of(make.table_of([*rows, row, *([about] if row.value == 'bytes' else [])]))
        own = next(kind for kind in kinds if kind.row is row)
        lacking = {path for path, _ in places.missing(own)}
        expect(lacking >= set(files.split()), row.name, 'not named', *sorted(set(files.split()) - lacking))
        # (of the first kind the counts alone are wrong)
        unnamed = [line for line in places.lines_of([kinds[0], own]) if f', {row.name}: no ' not in line]
        expect(not unnamed, row.name, 'not in', *unnamed)


def try_counts(kinds):
    """Counts another number of kinds, where no other line is missing: this is said once."""
    for kind in kinds[:2]:
        kind.names |= dict(cause_kinds=99)
    lines = places.lines_of(kinds[:2])
    expect(len(lines) == 1 and re.fullmatch(r'[\w./]+: no ".* 99 of error cause".*', lines[0]),
           'wrong counts', *lines)


def try_example(needs):
    """Takes the lines of the page's example away, as far as they are in files that have places."""
    for line in re.search(r'```diff\n(.*?)```', make.read('docs/ADDING.md'), re.S)[1].splitlines():
        mark, line = line[0], line[1:]
        if mark == ' ':
            path = re.match(r'[\w./]+', line)[0]
            text, has_places = places.read(path), path in {place for _, place, _ in needs}
            expect(text, path, 'in the example, and not there')
            continue
        start = f'\n{text}'.find(f'\n{line}\n')
        expect(start >= 0, path, 'in the example, and not there', line)
        if has_places and '///' not in line:
            expect('Zero Checksum Acceptable' in named(needs, path, without(text, start, start + len(line))), path, line)


def try_program(kinds):
    """Runs the program where a file is missing, and where a kind of the table has no group."""
    with tempfile.TemporaryDirectory() as folder:
        paths = {path for kind in kinds for path, _ in places.places_of(kind)}
        folders = {f'crates/{crate}/{source}' for crates in places.CRATES.values() for crate, *sources in crates
                   for source in ['specs', *sources[:1]]} | {'crates/dcsctp_buffer/src', 'registry', 'registry/languages'}
        paths |= {f'{path}/{name}' for path in folders for name in os.listdir(os.path.join(make.ROOT, path)) if '.' in name}
        for path in {*paths, 'crates/dcsctp_borrowed/src/checked_chunks.rt'}:
            os.makedirs(os.path.dirname(os.path.join(folder, path)), exist_ok=True)
            shutil.copy(os.path.join(make.ROOT, path), os.path.join(folder, path))

        def run():
            return subprocess.run([os.path.join(folder, 'registry/places.py'), '--compare'], capture_output=True, text=True)

        answer = run()
        expect((answer.returncode, answer.stdout, answer.stderr) == (0, '', ''), 'the program', answer.stdout + answer.stderr)
        os.remove(os.path.join(folder, 'tests/c/assertions.c'))
        answer = run()
        expect(answer.returncode == 1 and 'tests/c/assertions.c: chunk 7, SHUTDOWN: no "VALUE(CHUNK_SHUTDOWN, 7);"\n' in answer.stdout,
               'the program without tests/c/assertions.c', answer.stdout + answer.stderr)
        with open(os.path.join(folder, make.TABLE), 'r+', encoding='utf-8') as file:
            text = re.sub(r'  bytes  ', '  kind  ', file.read(), count=1)
            file.seek(0)
            file.write(text)
            file.truncate()
        answer = run()
        expect(answer.returncode == 1 and re.fullmatch(r'registry/sctp.txt:\d+: ECNE is a kind, and has no group\n', answer.stderr),
               'the program without a group', answer.stdout + answer.stderr)


def main():
    kinds = places.kinds_of(make.table_of(make.rows_of(make.read(make.TABLE))))
    needs = [(kind, *place) for kind in kinds for place in places.places_of(kind)]
    if places.lines_of(kinds):
        print('registry/places.py: it prints lines that are missing; it is tried where none is')
        return 1
    try_words(kinds)
    try_all(needs)
    try_lines(needs)
    try_made()
    try_example(needs)
    try_program(kinds)
    try_counts(kinds)
    for failure in failures:
        print(f'registry/places.py: {failure}')
    return 1 if failures else 0


if __name__ == '__main__':
    sys.exit(main())
