#!/usr/bin/env python3
# SPDX-License-Identifier: Apache-2.0
"""usage: tools/examples.py --write | --compare | --try | --paste DIR [NAME ..] | --help

The programs of docs/CALLING.md are files of crates/test_callers/src, which the gate proves. The program of docs/C.md
is a file of examples/c, which tests/c/test.sh runs.

  --write      puts each file into its page, after the line `<!-- NAME.rt -->` or `<!-- NAME.c -->`
  --compare    fails if a program of a page isn't its file, or its lines of crates.txt aren't in it
  --try        compiles the indented code of docs/CALLING.md, unproved, in a repository as a new user would have it, and runs
               its whole program
  --paste DIR  makes a repository in DIR as a new user would: the libraries, with what is proved of them, their licence and
               their version, and a crate `your_crate` with the programs of crates/test_callers, or the named ones alone and
               what they call, and with the files of proofs/ and specs/ that they need
  --help       prints this
"""
import os
import re
import shutil
import subprocess
import sys
import tempfile

ROOT = os.path.dirname(os.path.dirname(os.path.abspath(__file__)))
USES = os.path.join(ROOT, 'crates', 'test_callers')
# A page, the folder of its programs, and what they are written in: the ending of their names, and markdown's word.
PAGES = [
    ('docs/CALLING.md', 'crates/test_callers/src', 'rt', 'rust'),
    ('docs/C.md', 'examples/c', 'c', 'c'),
]
LIBRARIES = [
    'dcsctp_types', 'dcsctp_tlv', 'dcsctp_cause', 'dcsctp_chunk', 'dcsctp_wire', 'dcsctp_borrowed', 'dcsctp_crc32c', 'dcsctp_buffer',
]

# The indented code of docs/CALLING.md that isn't a program: its first line, and what comes before and after it.
FRAGMENTS = [
    ('for raw in packet.chunks {', "pub fn size_of(packet: SctpPacketRef<'_>) -> usize {\nlet mut size: usize = 0;", 'size\n}'),
    ('let mut held = PacketBuf::from_slice(alloc, bytes, word, &policy)?;',
     'pub fn kept(alloc: Global, bytes: &[u8], word: u32, next: &[u8], word_of_next: u32) -> Result<(Vec<u8>, Vec<u8>), PacketParseError> {\n'
     'let policy = ChecksumPolicy::default();',
     'Ok((types, bytes))\n}'),
    ('let size = write_canonical(&packet, output)?;',
     "pub fn normal(packet: SctpPacketRef<'_>, output: &mut [u8]) -> Result<usize, CanonicalError> {", 'Ok(canonical.len())\n}'),
    ('if means_same(&packet, &other) {',
     "pub fn newer<'a>(packet: SctpPacketRef<'a>, other: SctpPacketRef<'a>) -> Option<SctpPacketRef<'a>> {", 'Some(packet)\n}'),
    ('set_verification_tag(packet, tag);', 'pub fn retag(packet: &mut [u8], tag: u32) {', '}'),
    ('let mut parameters = Vec::new(alloc);', 'pub fn parameters(alloc: Global) -> Result<Vec<Parameter>, AllocError> {',
     'Ok(parameters)\n}'),
    ('use dcsctp_buffer::{add, begin, seal};',
     "pub fn sent(buffer: &mut [u8], data: BorrowedData<'_>, peer_tag: u32) -> anyhow::Result<()> {",
     'Ok(())\n}\n\nfn send(_packet: &[u8]) -> anyhow::Result<()> {\nOk(())\n}'),
]
FRAGMENTS_USE = '''use dcsctp_borrowed::canonical::{CanonicalError, write_canonical};
use dcsctp_borrowed::in_place::{set_checksum_word, set_verification_tag};
use dcsctp_borrowed::meaning::means_same;
use dcsctp_borrowed::packet_buf::PacketBuf;
use dcsctp_borrowed::packet_ref::SctpPacketRef;
use dcsctp_borrowed::user_data::UserData;
use dcsctp_buffer::data::BorrowedData;
use dcsctp_crc32c::packet_word;
use dcsctp_wire::packet::parameter::Parameter;
use dcsctp_wire::packet::sctp_packet::{ChecksumPolicy, PacketParseError};
use dcsctp_wire::packet::state_cookie_parameter::StateCookieParameter;
use std::alloc::{AllocError, Global};
'''

# What the whole program reads, packets of docs/CAPTURES.md, and prints.
TRIED_INPUT = '138813884d2df52d67db78b50b000004\n138813884d2df52d67db78b50b000003\n'
TRIED_OUTPUT = '''source=5000 destination=5000 tag=1294857517 checksum=1742436533
COOKIE-ACK
InvalidChecksum at byte 8
'''


def read(path):
    with open(os.path.join(ROOT, path), encoding='utf-8') as file:
        return file.read()


def marker(ending, word):
    return re.compile(rf'<!-- (\w+)\.{ending} -->\n```{word}\n(.*?)```\n', re.S)


def examples(page, _, ending, word):
    """The name and the text of each program of the page."""
    found = marker(ending, word).findall(read(page))
    if not found:
        sys.exit(f'{page} has no programs')
    return found


def all_programs():
    """The name and the text of each program of crates/test_callers, which has tests and a benchmark's calls too."""
    return [(path[4:-3], text) for path, text in sorted(text_files('src').items())
            if not re.match(r'src/(lib|tests|probes)\b', path)]


def version():
    """What was copied: the newest heading of CHANGELOG.md, and the commit, if this is a clone."""
    heading = re.search(r'^## (.*)$', read('CHANGELOG.md'), re.M)[1]
    commit = subprocess.run(['git', 'rev-parse', 'HEAD'], cwd=ROOT, capture_output=True, text=True).stdout.strip()
    return f'davgyuti {heading}\n' + (f'commit {commit}\n' if commit else '')


def write():
    for page, folder, ending, word in PAGES:
        text = marker(ending, word).sub(
            lambda m: f'<!-- {m[1]}.{ending} -->\n```{word}\n{read(f"{folder}/{m[1]}.{ending}")}```\n', read(page))
        with open(os.path.join(ROOT, page), 'w', encoding='utf-8') as file:
            file.write(text)


def compare():
    for page, folder, ending, word in PAGES:
        stale = [name for name, text in examples(page, folder, ending, word) if text != read(f'{folder}/{name}.{ending}')]
        if stale:
            sys.exit(f'{page}: not as in {folder}: {", ".join(stale)}')
    lines = [line for line in blocks()['dcsctp_types:'] if not line.startswith('your_crate')]
    if not set(lines) <= set(read('crates.txt').splitlines()):
        sys.exit('docs/CALLING.md: its lines of crates.txt are others')


def blocks():
    """The indented blocks of docs/CALLING.md, by their first line: their lines."""
    outside = re.sub(r'^```.*?^```$', '', read('docs/CALLING.md'), flags=re.M | re.S)
    found = [re.sub(r'^    ', '', it, flags=re.M).strip('\n').splitlines() for it in re.findall(r'(?:^    .*\n+)+', outside, re.M)]
    return {lines[0]: lines for lines in found}


def tried():
    """Compiles the indented code, and runs the program in it."""
    code = blocks()
    fragments, use = [], FRAGMENTS_USE
    for first, before, after in FRAGMENTS:
        lines = code.pop(first)
        use += ''.join(f'{line}\n' for line in lines if line.startswith('use '))
        fragments += [before, *(line for line in lines if not line.startswith('use ')), after, '']
    program = '\n'.join(code.pop('#![tactic(auto)]')).replace('#![tactic(auto)]\n', '#![tactic(auto)]\n\nmod fragments;\n', 1)
    code.pop('dcsctp_types:')
    if code:
        sys.exit(f'docs/CALLING.md: not tried: {", ".join(code)}')
    with tempfile.TemporaryDirectory() as directory:
        source = os.path.join(directory, 'crates', 'your_crate', 'src')
        os.makedirs(source)
        shutil.copy(os.path.join(ROOT, 'HANDLES'), directory)
        for library in LIBRARIES:
            shutil.copytree(os.path.join(ROOT, 'crates', library), os.path.join(directory, 'crates', library),
                            ignore=shutil.ignore_patterns('out', 'must-fail'))
        lines = [line for line in read('crates.txt').splitlines() if line.split(':')[0] in LIBRARIES]
        lines.append('your_crate: dcsctp_wire dcsctp_borrowed dcsctp_crc32c dcsctp_buffer hex anyhow')
        for path, text in ((os.path.join(directory, 'crates.txt'), '\n'.join(lines)), (os.path.join(source, 'main.rt'), program),
                           (os.path.join(source, 'fragments.rt'), '\n'.join([use, *fragments]))):
            with open(path, 'w', encoding='utf-8') as file:
                file.write(text + '\n')
        done = subprocess.run(['rt', 'try'], cwd=os.path.dirname(source), input=TRIED_INPUT, capture_output=True, text=True)
    if done.returncode != 0 or done.stdout != TRIED_OUTPUT:
        sys.exit(f'docs/CALLING.md: its code prints:\n{done.stdout}\n{done.stderr}')


def text_files(folder):
    """The files below crates/test_callers/FOLDER, by their paths there, and their texts."""
    found = {}
    for place, _, files in os.walk(os.path.join(USES, folder)):
        for name in sorted(files):
            path = os.path.relpath(os.path.join(place, name), USES)
            found[path] = read(f'crates/test_callers/{path}')
    return found


def needed(programs, wanted):
    """The files of the wanted programs: their sources, the programs they call, and the definitions and proofs that these name."""
    sources = {f'src/{name}.rt': text for name, text in programs}
    files = {**sources, **text_files('specs'), **text_files('proofs')}
    taken, left = {}, [f'src/{name}.rt' for name in wanted]
    while left:
        path = left.pop()
        if path in taken or path not in files:
            continue
        taken[path] = files[path]
        name = path.split('/')[1].removesuffix('.rt')
        if path in sources:
            left += [it for it in files if it.startswith(f'proofs/{name}/')]
            left += [f'src/{it}.rt' for it in re.findall(r'\bcrate::(\w+)', files[path])]
        left += [f'{folder}/{it}.antt' for folder, it in
                 re.findall(r'\bRattle\.test_callers\.(specs|proofs)\.(\w+)', files[path])]
    for folder in ('specs', 'proofs'):
        lines = [line for line in files[f'{folder}/Lib.antt'].splitlines() if f'{folder}/{line.split()[-1]}.antt' in taken]
        taken[f'{folder}/Lib.antt'] = ''.join(f'{line}\n' for line in lines)
    modules = ''.join(sorted(f'pub mod {path[4:-3]};\n' for path in taken if path in sources))
    taken['src/lib.rt'] = f'//! Programs of the page.\n#![tactic(auto)]\n\n{modules}'
    return taken


def paste(directory, wanted):
    programs = all_programs()
    lacking = [name for name in wanted if name not in [it for it, _ in programs]]
    if lacking:
        sys.exit(f'crates/test_callers has no program {lacking[0]}')
    os.makedirs(os.path.join(directory, 'crates'))
    shutil.copy(os.path.join(ROOT, 'HANDLES'), directory)
    for name in ('LICENSE', 'NOTICE'):
        shutil.copy(os.path.join(ROOT, name), os.path.join(directory, f'{name}-dcsctp'))
    for name, text in (('VERSION-dcsctp', version()), ('.gitignore', 'out/\n')):
        with open(os.path.join(directory, name), 'w', encoding='utf-8') as file:
            file.write(text)
    for library in LIBRARIES:
        shutil.copytree(os.path.join(ROOT, 'crates', library), os.path.join(directory, 'crates', library))
    with open(os.path.join(ROOT, 'crates.txt'), encoding='utf-8') as file:
        lines = [line for line in file.read().splitlines() if line.split(':')[0] in LIBRARIES]
    files = needed(programs, wanted or [name for name, _ in programs])
    used = [it for it in ('dcsctp_wire', 'dcsctp_borrowed', 'dcsctp_crc32c', 'dcsctp_buffer') if any(it in text for text in files.values())]
    with open(os.path.join(directory, 'crates.txt'), 'w', encoding='utf-8') as file:
        file.write('\n'.join(lines + [f"your_crate: {' '.join(used)}"]) + '\n')
    for path, text in files.items():
        path = os.path.join(directory, 'crates', 'your_crate', path)
        os.makedirs(os.path.dirname(path), exist_ok=True)
        with open(path, 'w', encoding='utf-8') as file:
            file.write(text.replace('Rattle.test_callers.', 'Rattle.your_crate.'))


def main():
    words = sys.argv[1:]
    if words == ['--compare']:
        compare()
    elif words == ['--write']:
        write()
    elif words == ['--try']:
        tried()
    elif len(words) > 1 and words[0] == '--paste':
        paste(words[1], words[2:])
    elif words in ([], ['--help']):
        print(__doc__, end='')
    else:
        print(__doc__, end='', file=sys.stderr)
        sys.exit(2)


main()
