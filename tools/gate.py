#!/usr/bin/env python3
# SPDX-License-Identifier: Apache-2.0
"""usage: tools/gate.py [COMMAND ..]

Runs the gate, `rt ci` where no command is named, and prints where its processor time went: a line for each crate, with the
seconds of its proof, of its tests' proof, of the proof that its wrong edits begin with, and of all the edits; then the
slowest edits; then what the whole run took, compilers and programs too. Ends with the gate's status.

What an earlier run on this machine has passed isn't done again, so it takes no time here: `rt ci --anew` does everything.
Linux alone: once a second it reads /proc, so a process of less than a second isn't seen."""
import collections
import os
import re
import resource
import signal
import subprocess
import sys
import time

ROOT = os.path.dirname(os.path.dirname(os.path.abspath(__file__)))
TICKS = os.sysconf('SC_CLK_TCK')
PARTS = ('proof', 'tests', 'seed', 'edits')


def provers(session):
    """The prover's processes of the session that no other of them began: a key, the processor seconds so far, the folder that
    it runs in, and its words."""
    found = {}
    for pid in filter(str.isdigit, os.listdir('/proc')):
        try:
            with open(f'/proc/{pid}/stat', encoding='utf-8') as stat:
                fields = stat.read().rpartition(')')[2].split()
            if int(fields[3]) == session:
                with open(f'/proc/{pid}/cmdline', encoding='utf-8', errors='replace') as words:
                    words = words.read().split('\0')
                used = sum(map(int, fields[11:15])) / TICKS
                found[pid] = (fields[1], (pid, fields[19]), used, os.readlink(f'/proc/{pid}/cwd'), words)
        except (OSError, ValueError):
            continue  # it has ended
    found = {pid: it for pid, it in found.items() if os.path.basename(it[4][0]) == 'rattle'}
    return [it[1:] for it in found.values() if it[0] not in found]


def part_of(folder, words):
    """The crate, the part of its work, and the name of the edit, or '' where none is known."""
    after = dict(zip(words, words[1:]))
    crate, kept = after.get('--crate-name', ''), re.search(r'/rt-edits-[^/]*/(seed|\d+)$', after.get('--incremental', ''))
    if kept and kept[1] == 'seed':
        return crate, 'seed', ''
    if kept:
        edits = os.path.join(ROOT, 'crates', crate, 'must-fail')
        return crate, 'edits', sorted(it for it in os.listdir(edits) if it.endswith('.edit'))[int(kept[1])].removesuffix('.edit')
    if '/rt-edit-' in folder:
        return crate, 'edits', ''
    return crate, 'tests' if '--test' in words else 'proof', ''


def main(command):
    if command[:1] == ['--help']:
        sys.exit(__doc__)
    began, seconds, parts = time.monotonic(), {}, {}
    gate = subprocess.Popen(command or ['rt', 'ci'], cwd=ROOT, start_new_session=True)
    try:
        while gate.poll() is None:
            for key, used, folder, words in provers(gate.pid):
                seconds[key] = used
                if key not in parts:
                    parts[key] = part_of(folder, words)
            time.sleep(1)
    finally:
        if gate.poll() is None:
            os.killpg(gate.pid, signal.SIGTERM)
    crates, edits = collections.defaultdict(lambda: dict.fromkeys(PARTS, 0.0)), []
    for key, (crate, part, edit) in parts.items():
        crates[crate][part] += seconds[key]
        if edit:
            edits.append((seconds[key], crate, edit))
    took, children = time.monotonic() - began, resource.getrusage(resource.RUSAGE_CHILDREN)
    print(f'\nSeconds of the processors:\n{"":16}' + ''.join(f'{it:>8}' for it in PARTS))
    total = {part: sum(it[part] for it in crates.values()) for part in PARTS}
    for crate, its in [*sorted(crates.items(), key=lambda it: -sum(it[1].values())), ('all', total)]:
        print(f'{crate:16}' + ''.join(f'{its[part]:8.0f}' for part in PARTS) + f'{sum(its.values()):8.0f}')
    for used, crate, edit in sorted(edits, reverse=True)[:20]:
        print(f'{used:8.0f} {crate} {edit}')
    used, processors = children.ru_utime + children.ru_stime, len(os.sched_getaffinity(0))
    print(f'\n{took:,.0f} seconds, {used:,.0f} processor seconds, {processors} processors')
    sys.exit(gate.returncode)


main(sys.argv[1:])
