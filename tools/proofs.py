#!/usr/bin/env python3
# SPDX-License-Identifier: Apache-2.0
"""usage: tools/proofs.py CRATE [PARTS]

Prints the parts of a crate's proof that took longest, 30 or PARTS of them, in seconds. Prove the crate from nothing first, by
one process (with more, the figures mean nothing):

    rm -rf crates/CRATE/out && (cd crates/CRATE && rt check --jobs 1)

The check writes a file for each part as it ends, so the time between two files is the later one's. A part named `F.Proof` or
`F.Answers` is the proof of the function F, `F.Lts` its steps, `F.Kinds` its values; any other is a file of specs/ or proofs/.
The first one has what is loaded."""

import os
import sys

ROOT = os.path.dirname(os.path.dirname(os.path.abspath(__file__)))


def ends_of(folder):
    """When each part ended, in that order."""
    parts = [os.path.join(at, name) for at, _, names in os.walk(folder) for name in names if name.endswith('.oantt')]
    return sorted((os.stat(it).st_mtime, os.path.basename(it).removesuffix('.oantt')) for it in parts)


def main(words):
    if not 1 <= len(words) <= 2 or words[0] == '--help' or len(words) == 2 and not words[1].isdigit():
        sys.exit(__doc__)
    ends = ends_of(os.path.join(ROOT, 'crates', words[0], 'out', 'incremental'))
    if not ends:
        sys.exit(f'nothing is kept of {words[0]}: check it first')
    took = [(later[0] - before[0], later[1]) for before, later in zip(ends, ends[1:])]
    print(f'{ends[-1][0] - ends[0][0]:8.1f} {len(ends)} parts')
    for seconds, part in sorted(took, reverse=True)[:int(words[1]) if len(words) == 2 else 30]:
        print(f'{seconds:8.1f} {part.removeprefix("Rattle-")}')


main(sys.argv[1:])
