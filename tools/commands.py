#!/usr/bin/env python3
# SPDX-License-Identifier: Apache-2.0
"""usage: tools/commands.py [FOLDER] | --help

Runs the commands of the pages as a reader does, compiles the C of docs/C.md that is part of no program, and tries the Rust and
the Python of README.md.

They run one after the other, in a copy of FOLDER, an unpacked release, or else of what dist/release.sh packs of this checkout, or of
this folder itself, if it is no checkout. The Python package is installed, and no toolchain is on PATH. What they install goes below
that copy; `FILE` and the like are captures. Below a line that begins with `$ ` is what it prints, which is compared. A command of
sctp_dump may end with 0, 1 or 3, any other with 0. What can't run here is left out, and named. The last line is: pages: N passed,
M failed, K left out.
"""
import importlib.util
import os
import re
import shutil
import subprocess
import sys
import tempfile

ROOT = os.path.dirname(os.path.dirname(os.path.abspath(__file__)))
PAGES = ['README.md', 'docs/INSTALL.md', 'docs/C.md', 'docs/DUMP.md', 'dist/README.md']
COMMAND = re.compile(r'(\$ )?((?:cc|clang-22|echo|export|python|pip|cmake|(?:\./)?sctp_dump|xxd|tools/build\.sh|tcpdump|cargo|npm|\(cd) .*)')

# What can't run here, and why.
LEFT_OUT = [
    (r'tools/build\.sh', 'it proves the library, and tests/c/test.sh tries what it builds'),
    (r'tcpdump', 'it needs a network'),
    (r'clang-22', 'dist/test.sh tries it'),
    (r'sctp_dump \[', 'it is a pattern'),
    (r'crates/NAME', 'it is a pattern'),
    (r'cargo add|npm install|VERSION', 'dist/test.sh tries the package'),
    (r'cmake -S dist -B build &&', 'it writes to /usr/local, and dist/test.sh tries it elsewhere'),
]

# Tools that a system may lack, and the commands that need them.
TOOLS = {'python3-venv': r'^(?:python|pip)', 'cmake': r'cmake|\$P\b|pkg-config', 'pkg-config': r'pkg-config', 'jq': r'\| jq', 'xxd': r'^xxd'}

# What the pages call the reader's own.
OWN = [(r'\bFILE\b|capture\.pcap', 'tests/dump/data/usrsctp.pcap'), (r'chrome_debug\.log', 'tests/dump/data/chromium.log')]

# What the C of docs/C.md takes as given.
GIVEN = '''#include <dcsctp_registered.h>
#include <stdio.h>
#include <stdlib.h>
#define TO packet, sizeof packet, &size
void receive(uint16_t, uint32_t, const uint8_t *, size_t), acknowledge(uint32_t, uint32_t), transmit(const uint8_t *, size_t);
void receive_chunk(const uint8_t *, const struct dcsctp_row *), add_address(uint32_t, const uint8_t *, size_t);
void establish(const struct dcsctp_cookie *), report(const struct dcsctp_cookie *, uint64_t);
extern uint8_t bytes[1500], packet[1500], reply[28], value[100], block[64 * 2048];
extern const uint8_t payload[8], text[8], own[16], octets[16], extra[28], key[32];
extern size_t length, size, payload_size, block_count, text_size, count, sizes[64], own_size, octets_size, extra_size, at;
extern uint16_t source_port, destination_port, own_port, peer_port, key_number;
extern uint32_t word, tag, tsn, a_rwnd, own_tag, own_tsn, peer_tag, sequence, correlation_id;
extern uint64_t now;
extern bool is_known, is_unicast, has_peer_tag, awaits_cookie;
extern struct dcsctp_policy policy;
extern struct dcsctp_writer writer;
extern struct dcsctp_header header;
extern struct dcsctp_chunk chunk;
extern struct dcsctp_parameter item;
extern struct dcsctp_init peer;
extern struct dcsctp_data data;
extern const struct dcsctp_gap_ack_block blocks[4];
'''


def blocks_of(text):
    """The indented blocks of a page that aren't in a fence, each as its lines."""
    outside = re.sub(r'^```.*?^```$', '', text, flags=re.M | re.S)
    return [re.sub(r'^    ', '', block, flags=re.M).splitlines() for block in re.findall(r'(?:^    .*\n)+', outside, re.M)]


def commands_of(page, text):
    """The commands of a page, each with what it is said to print, or None."""
    found = []
    for lines in blocks_of(text):
        for at, line in enumerate(lines):
            command = COMMAND.fullmatch(line)
            if command:
                found.append((command[2], '\n'.join(lines[at + 1:]) + '\n' if command[1] else None))
    if page == 'docs/INSTALL.md':
        found += [(command, None) for command in re.findall(r'^\|[^|]*\|[^|`]*`([^`]*)`', text, re.M) if COMMAND.fullmatch(command)]
    return found


def environment(work):
    """The variables of a user without the toolchain, who has installed the Python package."""
    folders = [it for it in os.environ['PATH'].split(':') if not any(os.path.exists(os.path.join(it, tool)) for tool in ('rt', 'rattle'))]
    made = dict(os.environ, PATH=':'.join([os.path.join(work, 'venv', 'bin'), *folders, '.']), PYTHONDONTWRITEBYTECODE='1', HOME=work)
    made['P'] = os.path.join(work, 'dcsctp')
    made = {name.upper() + '_HOME': os.path.expanduser(f'~/.{name}') for name in ('cargo', 'rustup')} | made
    if has('python3-venv'):
        subprocess.run(['python3', '-m', 'venv', os.path.join(work, 'venv')], check=True)
        subprocess.run(['pip', 'install', '--quiet', '--no-index', './bindings/python'], cwd=work, env=made, check=True)
    return made


def has(tool):
    if tool == 'cargo-1.85':
        return bool(shutil.which('cargo')) and not subprocess.run(['cargo', 'read-manifest'], cwd=os.path.join(ROOT, 'bindings', 'rust'), capture_output=True).returncode
    return bool(importlib.util.find_spec('ensurepip') if tool == 'python3-venv' else shutil.which(tool))


def why_not(command):
    """Why a command can't run here, or nothing."""
    missing = [tool for tool, pattern in TOOLS.items() if re.search(pattern, command) and not has(tool)]
    return next((why for pattern, why in LEFT_OUT if re.search(pattern, command)), missing and f'there is no {missing[0]}' or '')


def run(command, wanted, work, variables):
    """What is wrong with a command; nothing where it does what the page says."""
    if command.startswith('export '):
        variables.update(re.findall(r'(\w+)=(\S+)', command.replace('$P', variables['P'])))
        return ''
    for pattern, instead in OWN:
        command = re.sub(pattern, instead, command)
    done = subprocess.run(['bash', '-c', command], cwd=work, env=variables, capture_output=True, text=True, timeout=1200)
    if done.returncode not in ((0, 1, 3) if 'sctp_dump ' in command else (0,)):
        return done.stderr or f'status {done.returncode}'
    return '' if wanted in (None, done.stdout) else f'printed {done.stdout}'


def compiled(lines, work, variables):
    """What is wrong with a block of C."""
    head = '\n'.join(line for line in lines if line.startswith('#')) + '\n' + GIVEN
    body = '\n'.join(line for line in lines if not line.startswith('#'))
    words = ['cc', '-std=c11', '-Wall', '-Werror', '-Wno-unused', '-fsyntax-only', '-I', 'dist', '-x', 'c', '-']
    program = f'{head}void f(void)\n{{\n{body}\n}}\n'
    return subprocess.run(words, input=program, cwd=work, env=variables, capture_output=True, text=True).stderr


def rust(lines, work, variables):
    """What is wrong with the Rust of README.md."""
    folder = os.path.join(work, 'user', 'src')
    os.makedirs(folder)
    with open(os.path.join(work, 'user', 'Cargo.toml'), 'w', encoding='utf-8') as file:
        file.write('[package]\nname = "user"\nversion = "0.1.0"\nedition = "2024"\n[dependencies]\ndavgyuti = { path = "../bindings/rust" }\n')
    with open(os.path.join(folder, 'main.rs'), 'w', encoding='utf-8') as file:
        file.write('fn run(bytes: &[u8]) -> Result<(), davgyuti::Fault> {\n%s\nOk(())\n}\n' % '\n'.join(lines))
        file.write('fn main() {\nassert_eq!(run(&[0; 16]).unwrap_err().offset, 8);\n}\n')
    return run('cd user && cargo run --quiet --offline', '', work, variables)


def python(lines, work, variables):
    """What is wrong with the Python of README.md, up to its command."""
    code = f"import davgyuti\ndata = bytes.fromhex('138813884d2df52d67db78b50b000004')\n{lines[0]}"
    done = subprocess.run(['python', '-c', code], cwd=work, env=variables, capture_output=True, text=True)
    return done.stderr or ('' if 'CookieAck' in done.stdout else f'printed {done.stdout}')


# The code of README.md, by how its block begins.
README = {'let packet = davgyuti': rust, 'for chunk in davgyuti': python}


def main(folder):
    counts = {'passed': 0, 'failed': 0, 'left out': 0}

    def report(name, outcome, why=''):
        counts[outcome] += 1
        if outcome != 'passed':
            print(f'pages: {name}: {outcome}' + (f', since {why}' if outcome == 'left out' else f'\n{why}'), flush=True)

    with tempfile.TemporaryDirectory() as made:
        is_checkout = subprocess.run(['git', '-C', ROOT, 'rev-parse'], capture_output=True).returncode == 0 if shutil.which('git') else False
        if not folder and not is_checkout:
            folder = ROOT
        elif not folder:
            subprocess.run([os.path.join(ROOT, 'dist', 'release.sh'), '--archive', made], check=True)
            subprocess.run('tar -xzf *.tar.gz && rm *.tar.gz', cwd=made, shell=True, check=True)
            folder = os.path.join(made, os.listdir(made)[0])
        work = os.path.join(made, 'work')
        shutil.copytree(folder, work)
        with open(os.path.join(work, 'packet.bin'), 'wb') as file:
            file.write(bytes.fromhex('1388138801020304000000000b000004'))
        variables = environment(work)
        for page in PAGES:
            with open(os.path.join(work, page), encoding='utf-8') as file:
                text = file.read()
            for command, wanted in commands_of(page, text):
                why = why_not(command)
                fault = '' if why else run(command, wanted, work, variables)
                report(f'{page}: {command}', 'left out' if why else 'failed' if fault else 'passed', why or fault)
            for begin, tried in README.items() if page == 'README.md' else ():
                lines = next(lines for lines in blocks_of(text) if lines[0].startswith(begin))
                tool = 'cargo-1.85' if tried is rust else 'python3-venv'
                fault = has(tool) and tried(lines, work, variables)
                outcome = 'left out' if not has(tool) else 'failed' if fault else 'passed'
                report(f'{page}: {lines[0]}', outcome, fault or f'there is no {tool}')
            for lines in blocks_of(text) if page == 'docs/C.md' else ():
                if not any(COMMAND.fullmatch(line) for line in lines):
                    fault = compiled(lines, work, variables)
                    report(f'{page}: {lines[0]}', 'failed' if fault else 'passed', fault)
    print('pages: ' + ', '.join(f'{count} {name}' for name, count in counts.items()))
    sys.exit(counts['failed'] > 0)


if sys.argv[1:] == ['--help']:
    print(__doc__)
elif len(sys.argv) > 2 or sys.argv[1:] and sys.argv[1].startswith('-'):
    sys.exit(__doc__)
else:
    main(sys.argv[1] if sys.argv[1:] else None)
