#!/usr/bin/env python3
# SPDX-License-Identifier: Apache-2.0
"""usage: tests/dump/files.py PROGRAM

Has sctp_dump write the messages of captures and logs to files by --write-messages: their names and bytes have to be those of the
objects that --json --messages --payload prints (messages.py compares these with tshark's), with a filter and of captures whose
frames are cut too; of a message whose bytes aren't known there is no file, and how many there are is said. A file that is there
already, or a folder that isn't, ends the run with status 2, after what was printed before it. On a terminal, and there alone,
sctp_dump says how much it has read, while standard output is none. Prints what differs; status 0 if nothing does."""
import glob
import json
import os
import pty
import resource
import shutil
import signal
import struct
import subprocess
import sys
import tempfile

ROOT = os.path.dirname(os.path.dirname(os.path.dirname(os.path.abspath(__file__))))
FILES = [f'{ROOT}/page/sample.pcap', *(it for kind in ('pcap', 'log') for it in sorted(glob.glob(f'{ROOT}/tests/dump/data/*.{kind}')))]
FILTERS = [], ['--stream', '1'], ['--not', '--stream', '1']
MEBIBYTE = 2 ** 20


def run(program, *words, **more):
    return subprocess.run([program, *words], stdin=subprocess.DEVNULL, capture_output=True, text=True, check=False, **more)


def allow_ten_bytes():
    """Lets no file get longer."""
    signal.signal(signal.SIGXFSZ, signal.SIG_IGN)
    resource.setrlimit(resource.RLIMIT_FSIZE, (10, 10))


def cut(path, size):
    """A capture without all but the first bytes of its frames."""
    with open(path, 'rb') as file:
        old = file.read()
    new, at = old[:24], 24
    while at < len(old):
        captured, = struct.unpack_from('<I', old, at + 8)
        kept = min(captured, size)
        new += old[at:at + 8] + struct.pack('<I', kept) + old[at + 12:at + 16 + kept]
        at += 16 + captured
    return new


def written(folder):
    return {name: open(f'{folder}/{name}', 'rb').read() for name in os.listdir(folder)}


def compare(program, path, words, work):
    """The messages of a file, in files and in JSON."""
    with tempfile.TemporaryDirectory(dir=work) as folder:
        ran = run(program, '--messages', '--write-messages', folder, *words, path)
        lines = run(program, '--json', '--messages', '--payload', *words, path).stdout.splitlines()
        messages = [it for it in map(json.loads, lines) if 'message_of' in it]
        wanted = {
            f'message{number}-association{it["message_of"]}-end{it["end"]}-stream{it["stream"]}-tsn{it["first_tsn"]}':
            bytes.fromhex(it['payload']) for number, it in enumerate(messages, 1) if 'payload' in it}
        unknown = len(messages) - len(wanted)
        said = f"sctp_dump: messages without a file {unknown}, whose user data isn't known\n" if unknown else ''
        if written(folder) != wanted:
            yield f'{path} {words}: {sorted(written(folder))}, and not {sorted(wanted)}'
        if ran.stderr != said:
            yield f'{path} {words}: {ran.stderr!r}, and not {said!r}'


def fail(program, path, work):
    """What is printed where a file can't be written."""
    lines = run(program, '--brief', '--messages', path).stdout.splitlines(True)
    first = next(at for at, it in enumerate(lines) if it.startswith('message'))
    with tempfile.TemporaryDirectory(dir=work) as folder:
        run(program, '--messages', '--write-messages', folder, path)
        third = next(it for it in os.listdir(folder) if it.startswith('message3-'))
        for name in os.listdir(folder):
            os.rename(f'{folder}/{name}', f'{folder}/{name}' if name == third else f'{folder}/other-{name}')
        before = written(folder)
        ran = run(program, '--brief', '--messages', '--write-messages', folder, path)
        said = f"sctp_dump: {folder}/{third}: File exists (os error 17)\n"
        after = written(folder)
        if ran.returncode != 2 or ran.stderr != said or after[third] != before[third]:
            yield f'a file that is there: status {ran.returncode}, {ran.stderr!r}, and not {said!r}'
        if sum(it.startswith('message') for it in after) != 3:
            yield f'a file that is there: {sorted(after)}'
        # Two messages are over by the packet of the third one.
        if not ''.join(lines).startswith(ran.stdout) or ran.stdout.count('\nmessage') != 4:
            yield f'a file that is there: {ran.stdout!r} is printed'
    ran = run(program, '--brief', '--messages', '--write-messages', f'{work}/none', path)
    if ran.returncode != 2 or ran.stdout != ''.join(lines[:first + 1]):
        yield f'no folder: status {ran.returncode}, {ran.stdout!r} is printed'
    if not ran.stderr.endswith(': No such file or directory (os error 2)\n'):
        yield f'no folder: {ran.stderr!r}'
    with tempfile.TemporaryDirectory(dir=work) as folder:
        ran = run(program, '--messages', '--write-messages', folder, path, preexec_fn=allow_ten_bytes)
        if ran.returncode != 2 or not ran.stderr.endswith(': File too large (os error 27)\n') or max(map(len, written(folder).values()), default=0) > 10:
            yield f'no room: status {ran.returncode}, {ran.stderr!r}, {written(folder)}'


def name(program, path, work):
    """How the name of a file is printed."""
    named = f'{work}/\x1b[31m\u202e\u00e9\nfile b'
    shutil.copy(path, named)
    shown = f'{work}/\\x1b[31m\\xe2\\x80\\xae\u00e9\\x0afile b'
    ran = run(program, '--summary', '--associations', named, f'{named} none')
    if f' of {shown}, ' not in ran.stdout or any(it in ran.stdout + ran.stderr for it in '\x1b\u202e'):
        yield f'a name: {ran.stdout!r}'
    if ran.stderr != f"sctp_dump: {shown} none: can't be opened: No such file or directory (os error 2)\n":
        yield f'a name: {ran.stderr!r}'
    lines = run(program, '--brief', named, named).stdout.splitlines()
    if [it for it in lines if it.startswith('file')] != [f'file {shown}'] * 2:
        yield f'a name: {lines[0]!r}'


def on_terminal(program, path, *words, both=False):
    """What is written to a terminal as standard error, and as standard output where that is one too."""
    ours, its = pty.openpty()
    with subprocess.Popen([program, *words, path], stdin=subprocess.DEVNULL, stderr=its,
                          stdout=its if both else subprocess.DEVNULL):
        os.close(its)
        text = b''
        try:
            while part := os.read(ours, 4096):
                text += part
        except OSError:  # it has ended
            pass
    os.close(ours)
    return text.decode()


def progress(program, work):
    """Of 17.5 MiB of frames that aren't SCTP."""
    path, frame = f'{work}/large.pcap', bytes(MEBIBYTE // 8)
    with open(path, 'wb') as file:
        file.write(struct.pack('<IHHiIII', 0xa1b2c3d4, 2, 4, 0, 0, 262144, 1))
        for _ in range(35 * 4):
            file.write(struct.pack('<IIII', 0, 0, len(frame), len(frame)) + frame)
    said = 'sctp_dump: 16 MiB of frames read\r' + ' ' * 50 + '\r'
    none = 'sctp_dump: no SCTP packet was found (in UDP, --udp-port says the port)\r\n'
    for words, both, wanted in ([], False, said + none), ([], True, none):
        text = on_terminal(program, path, *words, both=both)
        if not text.endswith(wanted) or text.count('MiB') != wanted.count('MiB'):
            yield f'on a terminal, {both}: {text[-200:]!r}, and not {wanted!r}'
    ran = subprocess.run([program, path, path], stdin=subprocess.DEVNULL, capture_output=True, text=True, check=False)
    if 'MiB' in ran.stderr:
        yield f'on no terminal: {ran.stderr!r}'
    text = on_terminal(program, path, path)
    if [it.split()[1] for it in text.split('\r') if 'MiB' in it] != ['16', '32']:
        yield f'two files on a terminal: {text!r}'


def main(program):
    found = []
    with tempfile.TemporaryDirectory() as work:
        short = f'{work}/short.pcap'
        with open(short, 'wb') as file:
            file.write(cut(f'{ROOT}/tests/dump/data/usrsctp.pcap', 90))
        for path in (*FILES, short):
            for words in FILTERS:
                found += compare(program, path, words, work)
        found += fail(program, FILES[0], work)
        found += name(program, FILES[0], work)
        found += progress(program, work)
    print('\n'.join(found), end='\n' if found else '')
    return bool(found)


if len(sys.argv) != 2 or sys.argv[1].startswith('-'):
    sys.exit(__doc__)
sys.exit(main(sys.argv[1]))
