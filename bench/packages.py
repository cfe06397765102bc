#!/usr/bin/env python3
# SPDX-License-Identifier: Apache-2.0
"""Times the packages for C, Rust, Python, Go and JavaScript, each beside what its users have (docs/SPEED.md).

usage: packages.py [--turns 3] [--rounds 6] [--millis 3]

A program for each language reads packets both ways: hand.c, plain.rs, beside_aiortc.py, pion_test.go, plain.mjs. It checks a packet
as a whole, its checksum too where the peer's parser compares that, in JavaScript once with it and once without, and then adds up what the
packet holds:

  1, and for each chunk its type and, of
  DATA, I-DATA                          every number, the flags U, B, E and I, the payload's size and its first byte
  INIT, INIT ACK                        every number, and its list
  SACK                                  every number, gap ack block and duplicate TSN
  FORWARD-TSN, I-FORWARD-TSN, SHUTDOWN  every number and stream
  others                                its list, or else the value's size and its first byte

where of a list's parameters or error causes the type, the value's size and its first byte count. All programs have to get the same
sums. To write is to make a packet's bytes, with their CRC32c, of the values that were read of it: the same bytes. A file has 100
packets that traffic.py makes, or one where they are as large as can be. A peer that doesn't read a
file's packets has no call for it. Packets of random chunks are read too, and not timed: the
packages and the plain loops have to accept the same ones.

A program is called with ROUNDS MILLIS FILE.. A file has packets, each after its size in four bytes, most significant first. In each
round a program goes over the file by each of its calls in turn, again and again for MILLIS milliseconds of processor time; it prints
for each file and call their names, the sum, and the nanoseconds a packet of the best round, tab separated. The programs take turns, and
of these too the best counts. With 0 rounds, as in the gate, nothing is timed, and the peers' parsers, which check less, aren't called.

The packages are built of dist/ and bindings/. Needed are gcc, and cargo, python3 with aiortc (PYTHON names another than the one that
runs this), go with pion/sctp (PION is the GOPATH that has it, if it isn't /usr/share/gocode, where Debian's package
golang-github-pion-sctp-dev puts it), and node: what isn't there is left out, and said. It takes a minute, with 0 rounds a half; what
it makes goes to bench/out/packages/."""
import argparse
import glob
import os
import platform
import re
import shutil
import subprocess
import sys
import time
import zipfile

from report import duration, filled, ratio, table
from traffic import FILES, HOSTILE_PACKETS, Draw, Peer, chunk, in_list, parameter, u16, u32

ROOT = os.path.dirname(os.path.dirname(os.path.abspath(__file__)))
BENCH = os.path.join(ROOT, 'bench')
OUT = os.path.join(BENCH, 'out', 'packages')
GO_PATH = os.path.realpath(os.environ.get('PION', '/usr/share/gocode'))
# How many packets a file has, one of those that are as large as can be, and that of random ones.
PACKETS, HOSTILE, RANDOM = 100, 1, 6000
TIMED = ('data1200', 'data_small', 'data_bundle', 'sack20', 'init', 're_config', 'abort', 'error', 'forward_tsn', 'hostile_acks',
         'clean_falling')
# The rows of the tables: a language, the call that the others are compared with, and those.
READ = (
    ('C', 'by hand', 'by hand, one pass', 'davgyuti', 'davgyuti, inline', 'davgyuti, rows'),
    ('C by clang', 'by hand', 'by hand, one pass', 'davgyuti', 'davgyuti, inline', 'davgyuti, rows'),
    ('C with LTO', 'by hand', 'davgyuti'),
    ('Rust', 'plain loop', 'plain loop, one pass', 'davgyuti'),
    ('Python', 'aiortc', 'davgyuti', "davgyuti, processor's CRC32c", 'davgyuti, iterated'),
    ('Go', 'pion', 'davgyuti', "davgyuti, processor's CRC32c"),
    ('JavaScript', 'DataView', 'DataView, one pass', 'davgyuti'),
    ('JavaScript', 'DataView, no CRC32c', 'DataView, one pass, no CRC32c', 'davgyuti, no CRC32c'),
)
VERIFIED = tuple((it, 'davgyuti, proved CRC32c', "davgyuti, processor's CRC32c") for it in ('C', 'Rust'))
WRITTEN = (('Python', 'aiortc writes', 'davgyuti writes', 'davgyuti, methods writes'), ('Go', 'pion writes', 'davgyuti writes'))


class Missing(Exception):
    """What isn't there, so that a language is left out."""


def crc_table():
    for byte in range(256):
        for _ in range(8):
            byte = byte >> 1 ^ 0x82F63B78 * (byte & 1)
        yield byte


TABLE = list(crc_table())


def sealed(packet):
    """The packet with its CRC32c (RFC 9260 appendix A)."""
    crc = 0xFFFFFFFF
    for byte in packet[:8] + bytes(4) + packet[12:]:
        crc = crc >> 8 ^ TABLE[(crc ^ byte) & 255]
    return packet[:8] + (crc ^ 0xFFFFFFFF).to_bytes(4, 'little') + packet[12:]


def run(*words, **options):
    """What a command prints; it says what failed, and where its output is."""
    ran = subprocess.run(words, stdout=subprocess.PIPE, stderr=subprocess.PIPE, text=True, check=False, **options)
    if ran.returncode:
        sys.exit('packages.py: %s failed:\n%s' % (' '.join(words[:3]), (ran.stderr + ran.stdout)[-3000:]))
    return ran.stdout


def needed(tool, least=(0,)):
    """The path of a tool, which is at least of this version."""
    found = shutil.which(tool)
    if not found:
        raise Missing('%s is not there' % tool)
    if any(least):
        said = run(found, '--version' if tool == 'node' else 'version')
        if tuple(map(int, re.search(r'(\d+)\.(\d+)', said).groups())) < least:
            raise Missing('%s is older than %s' % (said.strip(), '.'.join(map(str, least))))
    return found


# ---- the files


CHUNK_TYPES = (0, 1, 2, 3, 4, 5, 6, 7, 8, 9, 10, 11, 14, 64, 99, 130, 192, 194)
ITEM_TYPES = (1, 2, 2, 7, 9, 10, 13, 14, 15, 16, 16, 17, 18, 0x8001, 0x8008, 0xC000)


def random_item(draw):
    """A parameter or an error cause whose size is that of its type, or isn't."""
    typ, value = draw.one_of(ITEM_TYPES), draw.bytes(draw.one_of((0, 1, 4, 4, 5, 7, 8, 8, 12, 13, 14, 16, 20)))
    if typ == 2:
        value = u32(len(value) // 2 - draw.below(4)) + value[4:] if len(value) >= 8 else value
    if typ == 16:
        value = value[:4] + u32(draw.below(9)) + value[8:]
    return parameter(typ, value)


def random_chunk(draw):
    typ = draw.one_of(CHUNK_TYPES)
    if typ in (1, 2, 4, 5, 6, 9, 130):
        numbers = draw.bytes(draw.between(15, 17) if draw.below(10) == 0 else 16) if typ in (1, 2) else b''
        value = numbers + in_list([random_item(draw) for _ in range(draw.between(1, 3))])
    elif typ == 3:
        value = draw.bytes(8) + u16(draw.below(3)) + u16(draw.below(3)) + draw.bytes(draw.one_of((0, 4, 4, 8, 8, 12, 3)))
    else:
        value = draw.bytes(draw.one_of((0, 0, 3, 4, 4, 5, 8, 11, 12, 12, 13, 15, 16, 17, 20, 28)))
    return chunk(typ, draw.below(256), value)


def random_packets():
    """Packets of one or two chunks, most of which are none: something in them has a wrong length."""
    draw = Draw(1, 'random')
    for _ in range(RANDOM):
        packet = bytearray(Peer(draw).packet(*[random_chunk(draw) for _ in range(draw.between(1, 2))]))
        change = draw.below(12)
        if change == 0:
            del packet[-draw.between(1, 8):]
        elif change == 1:
            packet[15] = draw.below(24)
        yield sealed(bytes(packet))
    # (the least size and the greatest, and those beside them)
    for size in (12, 15, 16):
        yield sealed((bytes(12) + chunk(11, 0, b''))[:size])
    for size in (65535, 65536):
        yield sealed((bytes(12) + chunk(99, 0, bytes(65519)) + b'\0')[:size])
    # (a length that leaves no place for itself)
    yield sealed(bytes(12) + b'\x63\0\0\3')


def write_files():
    """The files, by name."""
    packets = {'random': random_packets()}
    for name, _, count, make in FILES:
        if name in TIMED:
            peer = Peer(Draw(1, name))
            packets[name] = [sealed(make(peer)) for _ in range(HOSTILE if count == HOSTILE_PACKETS else PACKETS)]
    for name, found in packets.items():
        with open(os.path.join(OUT, name), 'wb') as file:
            for packet in found:
                file.write(u32(len(packet)) + packet)
    return {name: os.path.join(OUT, name) for name in packets}


# ---- the programs: each is built, and is a command with its environment, and what it was built with


def c_program(compiler='gcc'):
    program = os.path.join(OUT, 'hand_' + compiler)
    text = os.path.join(ROOT, 'dist', 'dcsctp-%s-elf.s' % platform.machine())
    path, headers = needed(compiler), os.path.join(ROOT, 'dist')
    flag = '-mbranches-within-32B-boundaries' if compiler == 'clang' else '-Wa,-mbranches-within-32B-boundaries'
    aligned = [flag] if platform.machine() == 'x86_64' else []
    run(path, '-O2', '-Wall', '-Wextra', '-I' + headers, '-o', program, os.path.join(BENCH, 'hand.c'), text, *aligned)
    return [program], {}, compiler + ' ' + run(path, '-dumpfullversion' if compiler == 'gcc' else '-dumpversion').strip()


def lto_program():
    """The same program and the library's LLVM module, which clang makes one of: by clang 22, or the toolchain's. It has one way
    alone to read by the library, as a program of a user's has: what is called at more than one place is less likely inlined."""
    if platform.machine() != 'x86_64':
        raise Missing('its options are those of x86-64')
    gcc, clang = needed('gcc'), shutil.which('clang-22')
    if clang is None:
        clang = os.path.join(os.path.dirname(run(needed('rt'), 'doc').strip()), 'toolchain', 'bin', 'clang')
    program, dist = os.path.join(OUT, 'hand_lto'), os.path.join(ROOT, 'dist')
    run(clang, '--target=x86_64-linux-gnu', '--no-default-config', '-Wno-override-module', '-O2', '-march=x86-64-v2', '-flto',
        '-fuse-ld=lld', '-B' + os.path.dirname(clang), '-isystem', run(gcc, '-print-file-name=include').strip(), '-I' + dist,
        '-DCALLS_ALONE', '-o', program, os.path.join(BENCH, 'hand.c'), os.path.join(dist, 'dcsctp.ll'), os.path.join(dist, 'heap.ll'))
    return [program], {}, 'clang ' + run(clang, '-dumpversion').strip()


CARGO = """[package]
name = "plain"
version = "0.0.0"
edition = "2024"

[[bin]]
name = "plain"
path = "%s"

[dependencies]
davgyuti = { path = "%s", features = ["processor-crc32c"] }

[workspace]
"""


def rust_program():
    folder = os.path.join(OUT, 'rust')
    cargo = needed('cargo', (1, 85))
    os.makedirs(folder, exist_ok=True)
    with open(os.path.join(folder, 'Cargo.toml'), 'w', encoding='utf-8') as file:
        file.write(CARGO % (os.path.join(BENCH, 'plain.rs'), os.path.join(ROOT, 'bindings/rust')))
    target = os.path.join(folder, 'target')
    run(cargo, 'build', '--release', '--offline', '--quiet', cwd=folder, env={**os.environ, 'CARGO_TARGET_DIR': target})
    return [os.path.join(target, 'release', 'plain')], {}, 'rustc ' + run('rustc', '--version').split()[1]


def python_program():
    versions = 'import platform, aiortc; print("Python %s with aiortc %s" % (platform.python_version(), aiortc.__version__))'
    needed('cc')
    # (Debian's aiortc is for Debian's Python)
    for python in [os.environ['PYTHON']] if 'PYTHON' in os.environ else [sys.executable, '/usr/bin/python3']:
        try:
            version = subprocess.run([python, '-c', versions], capture_output=True, text=True, check=True).stdout.strip()
            break
        except (OSError, subprocess.CalledProcessError):
            pass
    else:
        raise Missing('aiortc is not there')
    folder = os.path.join(OUT, 'python')
    os.makedirs(folder)
    run(python, '-c', 'import backend, sys; backend.build_wheel(sys.argv[1])', folder, cwd=os.path.join(ROOT, 'bindings', 'python'))
    with zipfile.ZipFile(glob.glob(os.path.join(folder, '*.whl'))[0]) as wheel:
        wheel.extractall(folder)
    return [python, os.path.join(BENCH, 'beside_aiortc.py')], {'PYTHONPATH': folder}, version


def go_program():
    needed('gcc')
    go, pion = needed('go', (1, 19)), os.path.join(GO_PATH, 'src', 'github.com', 'pion', 'sctp')
    if not os.path.isdir(pion):
        raise Missing('pion/sctp is not there')
    # A GOPATH with a copy of pion among whose files ours is, and the package.
    path, program = os.path.join(OUT, 'go'), os.path.join(OUT, 'pion.test')
    copy = os.path.join(path, 'src', 'github.com', 'pion', 'sctp')
    shutil.copytree(pion, copy, ignore=shutil.ignore_patterns('*_test.go'))
    shutil.copy(os.path.join(BENCH, 'pion_test.go'), copy)
    shutil.copytree(os.path.join(ROOT, 'bindings', 'go'), os.path.join(path, 'src', 'davgyuti.example', 'davgyuti'))
    run(go, 'test', '-c', '-o', program, cwd=copy, env={**os.environ, 'GO111MODULE': 'off', 'GOPATH': path + ':' + GO_PATH})
    return [program], {}, run(go, 'version').split()[2]


def javascript_program():
    node = needed('node', (18,))
    return [node, os.path.join(BENCH, 'plain.mjs')], {}, 'node ' + run(node, '--version').strip()


BUILDERS = {
    'C': c_program, 'C by clang': lambda: c_program('clang'), 'C with LTO': lto_program, 'Rust': rust_program, 'Python': python_program, 'Go': go_program, 'JavaScript': javascript_program,
}


# ---- running them


def figures(command, variables, rounds, millis, paths):
    """What a program prints: for each file and call the sum and the nanoseconds."""
    printed = run(*command, str(rounds), str(millis), *paths, env={**os.environ, **variables})
    rows = (line.split('\t') for line in printed.splitlines())
    return {(os.path.basename(path), call): (int(total), float(took)) for path, call, total, took in rows}


def compare(language, found, totals):
    """Compares sums with those that the programs before had; those of writing are sizes."""
    for (name, call), (total, _) in found.items():
        key = name, call.endswith('writes')
        if totals.setdefault(key, total) != total:
            sys.exit('packages.py: %s: %s: %s gets another sum than the programs before it' % (name, language, call))


def cells(best, language, call, first):
    for name in TIMED:
        took, its = best.get((language, name, call)), best.get((language, name, first))
        yield '-' if took is None else duration(1e9 / took) + ('' if call == first or its is None else ' (%s)' % ratio(its / took))


def printed(best, rows, head):
    lines = [['%s: %s' % (language, call.replace(' writes', '')), *cells(best, language, call, first)]
             for language, first, *others in rows for call in (first, *others) if (language, TIMED[0], call) in best]
    return '\n'.join(table([head] + ['`%s`' % name for name in TIMED], lines)) if lines else ''


def main():
    words = argparse.ArgumentParser(description=__doc__, formatter_class=argparse.RawDescriptionHelpFormatter, usage=argparse.SUPPRESS)
    words.add_argument('--turns', type=int, default=3, help='how often each program has its turn')
    words.add_argument('--rounds', type=int, default=6, help='how many rounds it then has')
    words.add_argument('--millis', type=int, default=3, help='how long a round is at least')
    asked = words.parse_args()
    begin = time.monotonic()
    shutil.rmtree(OUT, ignore_errors=True)
    os.makedirs(OUT)
    paths = write_files()
    programs, versions, left_out = {}, [], []
    for language, build in BUILDERS.items():
        try:
            *programs[language], version = build()
            versions += [version] if version not in versions else []
        except Missing as missing:
            left_out.append('%s, since %s' % (language, missing))
    print('packages.py: built in %.0f s' % (time.monotonic() - begin), file=sys.stderr)
    totals, best, sums = {}, {}, 0
    for language, program in programs.items():
        found = figures(*program, 0, 0, [paths['random']])
        compare(language, found, totals)
        sums += len(found)
    for _ in range(asked.turns):
        for language, program in programs.items():
            found = figures(*program, asked.rounds, asked.millis, [paths[name] for name in TIMED])
            compare(language, found, totals)
            sums += len(found)
            for (name, call), (_, took) in found.items():
                key = language, name, call
                best[key] = min(took, best.get(key, took))
    if not asked.rounds:
        for it in left_out:
            print('packages: %s' % it.replace(', since', ': left out, since'))
        print('packages: %d sums by %s: passed' % (sums, ', '.join(programs)))
        return
    said = '%s, %s, the best of %d turns of %d rounds of %d ms.' % (
        time.strftime('%Y-%m-%d %H:%M UTC', time.gmtime()), ', '.join(versions), asked.turns, asked.rounds, asked.millis)
    said += (' Nanoseconds of processor time a packet where no other unit is said; in brackets how many times as long the first of its '
             'language takes.')
    print(filled(said + ''.join(' Left out: %s.' % it for it in left_out)) + '\n')
    tables = (READ, 'read by'), (VERIFIED, 'verified and read by'), (WRITTEN, 'written by')
    print('\n\n'.join(filter(None, (printed(best, *it) for it in tables))))
    print('packages.py: %.0f seconds' % (time.monotonic() - begin), file=sys.stderr)


if __name__ == '__main__':
    main()
