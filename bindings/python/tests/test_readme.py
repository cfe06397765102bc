# SPDX-License-Identifier: Apache-2.0
"""That README.md does what it says."""

import contextlib
import importlib.util
import io
import os
import re
import shlex
import shutil
import struct
import subprocess
import sys
import tarfile
import tempfile
import unittest

import davgyuti
from support import ANY_CHECKSUM, HERE, SOURCES, module, mypy, packets
from test_program import environment, run

with open(os.path.join(HERE, "..", "README.md"), encoding="ascii") as file:
    README = file.read()


class Readme(unittest.TestCase):
    def test_python(self) -> None:
        programs = re.findall(r"```python\n(.*?)```", README, re.DOTALL)
        self.assertEqual(len(programs), 6)
        for program in (programs[0], *programs[2:]):
            printed = io.StringIO()
            with contextlib.redirect_stdout(printed):
                exec(program, {})
            # (what is printed stands behind the call, or where it is printed in a loop, at the end)
            wanted = re.findall(r"(?:print\(.*\)  |^)# (.*)", program, re.MULTILINE)
            self.assertEqual(wanted, printed.getvalue().splitlines())

    def test_capture(self) -> None:
        known = packets()
        expected = "".join(f"{davgyuti.first_fault(it, ANY_CHECKSUM) or davgyuti.text(it, ANY_CHECKSUM)}\n" for it in known)
        for order, link, before in (("<", 1, 14), (">", 113, 16), ("<", 276, 20), (">", 101, 0), ("<", 248, None)):
            capture = struct.pack(order + "IHHIIII", 0xA1B2C3D4, 2, 4, 0, 0, 65535, link)
            for data in known:
                ip = struct.pack(">BxHxxxxBBxx8x4x", 0x46, 24 + len(data), 64, 132) + data
                # (a short Ethernet frame ends in padding, which is no part of the packet)
                frame = data if before is None else bytes(before) + ip + bytes(max(0, 46 - len(ip)))
                capture += struct.pack(order + "IIII", 0, 0, len(frame), len(frame)) + frame
            self.assertEqual(self.captured(capture), (expected, "", 0))
        head = struct.pack("<IHHIIII", 0xA1B2C3D4, 2, 4, 0, 0, 65535, 248)
        for capture, sentence in (
            (b"", "this is no pcap file (pcapng neither)"),
            (head[:23], "this is no pcap file (pcapng neither)"),
            (bytes.fromhex("0a0d0d0a") + bytes(24), "this is no pcap file (pcapng neither)"),
            (head[:20] + struct.pack("<I", 105), "link type 105 isn't read here"),
            (head + bytes(15), "the file ends within a record"),
            (head + struct.pack("<IIII", 0, 0, 16, 16) + bytes(15), "the file ends within a record"),
        ):
            self.assertEqual(self.captured(capture), ("", f"{sentence}\n", 1))
        # (too short for a header of IP)
        capture = head[:20] + struct.pack("<IIIII", 1, 0, 0, 15, 15) + bytes(15)
        self.assertEqual(self.captured(capture), ("", "", 0))

    def captured(self, capture: bytes) -> tuple[str, str, int]:
        """What the second program prints of a capture, and its status."""
        program = re.findall(r"```python\n(.*?)```", README, re.DOTALL)[1]
        with tempfile.TemporaryDirectory() as folder:
            path = os.path.join(folder, "capture.pcap")
            with open(path, "wb") as file:
                file.write(capture)
            done = run("-c", program, path)
        return done.stdout, done.stderr, done.returncode

    def test_types(self) -> None:
        words = mypy()
        path = os.path.dirname(os.path.dirname(os.path.abspath(davgyuti.__file__)))
        with tempfile.TemporaryDirectory() as folder:
            for number, program in enumerate(re.findall(r"```python\n(.*?)```", README, re.DOTALL)):
                words.append(os.path.join(folder, f"program_{number}.py"))
                with open(words[-1], "w", encoding="ascii") as file:
                    file.write(program)
            done = subprocess.run(words, capture_output=True, text=True, env={**environment(), "MYPYPATH": path})
        self.assertEqual(done.returncode, 0, done.stdout + done.stderr)

    def test_no_link_leads_out_of_the_package(self) -> None:
        self.assertEqual(re.findall(r"\]\((?!https://|#)[^)]*\)", README), [])

    @unittest.skipUnless(SOURCES and shutil.which("cc"), "there are no sources beside the tests, or no cc")
    @unittest.skipUnless(importlib.util.find_spec("pip"), "there is no pip")
    def test_commands(self) -> None:
        commands = re.findall(r"^    (?:\$ )?((?:pip|python) .*)\n((?:    .*\n)*)", README, re.MULTILINE)
        self.assertEqual(len(commands), 6)
        with tempfile.TemporaryDirectory() as work:
            name = module("backend", SOURCES, "backend.py").build_sdist(work)
            with tarfile.open(os.path.join(work, name)) as archive:
                archive.extractall(work)
            folder, installed = os.path.join(work, name.removesuffix(".tar.gz")), os.path.join(work, "installed")
            # (pip takes the archive of sources here, not one from PyPI; and a few of the tests will do)
            more = {
                "pip install": ["--upgrade", "--no-index", "--find-links", work, "--target", installed],
                "python -m unittest": ["-k", "test_vectors"],
            }
            for command, expected in commands:
                if "aiortc" in command and not importlib.util.find_spec("aiortc"):
                    continue
                # (in the archive the package's folder is this one)
                program, *words = shlex.split(command.replace("./bindings/python", "."))
                words += next((it for start, it in more.items() if command.startswith(start)), [])
                done = subprocess.run(
                    [sys.executable, *(["-m", "pip"] if program == "pip" else []), *words],
                    capture_output=True,
                    text=True,
                    cwd=folder,
                    env={**os.environ, "PYTHONPATH": installed},
                )
                self.assertEqual(done.returncode, 0, f"{command}\n{done.stdout}{done.stderr}")
                if expected:
                    self.assertEqual(done.stdout, re.sub("^    ", "", expected, flags=re.MULTILINE))

    def test_what_is_named_is_there(self) -> None:
        table = re.search(r"^\| to \| use \|\n(.*?)\n\n", README, re.MULTILINE | re.DOTALL)
        assert table
        for name in set(re.findall(r"`(\w+)`", table[1])) - {"header", "add", "reset"}:
            self.assertIn(name, davgyuti.__all__)

    def test_all_has_a_docstring(self) -> None:
        for name in davgyuti.__all__:
            value = getattr(davgyuti, name)
            if callable(value) and type(value).__module__ not in ("types", "typing"):
                self.assertTrue(value.__doc__, name)
                self.assertNotRegex(value.__doc__, rf"^{name}\(", name)


if __name__ == "__main__":
    unittest.main()
