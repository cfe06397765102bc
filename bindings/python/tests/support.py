# SPDX-License-Identifier: Apache-2.0
"""What the tests share."""

import importlib.util
import os
import random
import re
import shutil
import subprocess
import sys
import unittest
from collections.abc import Iterator
from types import ModuleType

import davgyuti

HERE = os.path.dirname(os.path.abspath(__file__))
# Where the package's sources are, if they are beside the tests.
SOURCES = os.path.dirname(HERE) if os.path.exists(os.path.join(HERE, os.pardir, "backend.py")) else ""
# What has the packets: in the archive of sources beside this file, with the vectors.
ROOT = os.path.join(HERE, os.pardir, os.pardir, os.pardir)
EXAMPLES, VECTORS = os.path.join(ROOT, "examples"), os.path.join(ROOT, "registry", "vectors")
if not os.path.exists(os.path.join(EXAMPLES, "packets.txt")):
    EXAMPLES, VECTORS = HERE, os.path.join(HERE, "vectors")
ANY_CHECKSUM = davgyuti.Policy(any_checksum=True)


def module(name: str, *path: str) -> ModuleType:
    """The module or package in a file, under this name."""
    spec = importlib.util.spec_from_file_location(name, os.path.join(*path))
    assert spec and spec.loader
    found = sys.modules[name] = importlib.util.module_from_spec(spec)
    spec.loader.exec_module(found)
    return found


def mypy() -> list[str]:
    """The words that check types strictly. Where there is no mypy, or an older one than 1.0, the test is left out."""
    program = shutil.which("mypy")
    said = subprocess.run([program, "--version"], capture_output=True, text=True).stdout if program else ""
    version = re.match(r"mypy (\d+)\S*", said)
    if not program or not version or int(version[1]) < 1:
        why = f"{version[0]} is older than 1.0" if version else "there is no mypy"
        print(f"\ntypes: left out, since {why}", file=sys.stderr)
        raise unittest.SkipTest(why)
    return [program, "--strict", "--cache-dir", os.devnull]


def of_hex(text: str) -> bytes:
    """The bytes of hexadecimal text with blanks."""
    return bytes.fromhex(text)


def packets() -> list[bytes]:
    """Those of examples/packets.txt."""
    with open(os.path.join(EXAMPLES, "packets.txt"), encoding="ascii") as file:
        return [bytes.fromhex(line) for line in file.read().splitlines() if line and not line.startswith("#")]


def mutated(count: int, seed: int) -> Iterator[bytes]:
    """Packets with bytes changed, cut out and put in, at random; and bytes at random."""
    source = random.Random(seed)
    known = packets()
    for _ in range(count):
        data = bytearray(source.choice(known))
        for _ in range(source.randrange(4)):
            at = source.randrange(len(data) + 1)
            match source.randrange(4):
                case 0:
                    data[at : at + 1] = source.randbytes(1)
                case 1:
                    del data[at : at + source.randrange(1, 9)]
                case 2:
                    data[at:at] = source.randbytes(source.randrange(1, 9))
                case 3:
                    data[at : at + 2] = source.choice((b"\x00\x00", b"\x00\x04", b"\x00\x07", b"\xff\xff"))
        yield bytes(data) if source.randrange(20) else source.randbytes(source.randrange(64))
