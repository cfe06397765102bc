#!/usr/bin/env python3
# SPDX-License-Identifier: Apache-2.0
"""usage: tests/broken_input.py TEXT PROGRAM [WORD ..]

Runs a program whose standard input gives a text, and then fails: it is a terminal whose other end is closed. Its status is the
program's."""
import os
import subprocess
import sys
import tty

if len(sys.argv) < 3:
    sys.exit(__doc__)
terminal, end = os.openpty()
tty.setraw(end)
os.write(end, sys.argv[1].encode())
os.close(end)
sys.exit(subprocess.run(sys.argv[2:], stdin=terminal).returncode)
