# SPDX-License-Identifier: Apache-2.0
"""What the backend makes: the wheel's names, files and library."""

import os
import platform
import shutil
import subprocess
import sys
import tarfile
import tempfile
import unittest
import zipfile
from email import message_from_bytes
from unittest import mock

import davgyuti
from support import SOURCES, module

SYSTEM = f"cp310-abi3-linux_{platform.machine()}"
# (PEP 600 and 656; the second is the name of the first before PEP 600)
ANY_LINUX = "cp310-abi3-" + ".".join(
    f"{it}_{platform.machine()}" for it in ("manylinux_2_17", "manylinux2014", "musllinux_1_1")
)


@unittest.skipUnless(sys.platform == "linux", "the tags are those of Linux")
@unittest.skipUnless(shutil.which("cc"), "there is no cc")
@unittest.skipUnless(SOURCES, "there are no sources beside the tests")
class Wheel(unittest.TestCase):
    def setUp(self) -> None:
        work = tempfile.TemporaryDirectory()
        self.addCleanup(work.cleanup)
        self.work = work.name

    def built(self, compiler: str = "cc") -> tuple[str, dict[str, bytes]]:
        """The wheel's name, and its files by their names."""
        with mock.patch.dict(os.environ, CC=compiler):
            name: str = module("backend", SOURCES, "backend.py").build_wheel(self.work)
        with zipfile.ZipFile(os.path.join(self.work, name)) as archive:
            return name, {it: archive.read(it) for it in archive.namelist()}

    def test_a_python_without_a_lock(self) -> None:
        version = f"cp{sys.version_info[0]}{sys.version_info[1]}"
        values = {"Py_GIL_DISABLED": 1, "EXT_SUFFIX": f".{version}t.so"}
        with mock.patch("sysconfig.get_config_var", values.get):
            name, files = self.built()
        self.assertIn(f"{version}-{version}t-manylinux", name)
        self.assertIn(f"davgyuti/_fast.{version}t.so", files)

    def test_refused(self) -> None:
        for what, text in (
            (mock.patch("sysconfig.get_path", lambda name: "/nowhere"), "no /nowhere/Python.h; Debian has it in python3-dev"),
            (mock.patch("platform.machine", lambda: "riscv64"), "there is no .*dcsctp-riscv64-elf.s for this system; there are: "),
        ):
            with what, self.assertRaisesRegex(SystemExit, text):
                self.built()
        with self.assertRaisesRegex(SystemExit, "there is no nothing; .CC names another"):
            self.built("nothing")

    def library(self) -> str:
        path = os.path.join(self.work, "_fast.abi3.so")
        with open(path, "wb") as file:
            file.write(self.built()[1]["davgyuti/_fast.abi3.so"])
        return path

    def test_tags(self) -> None:
        for compiler, tags in (("cc", ANY_LINUX), ("cc -Wl,--no-as-needed -l:libc.so.6", SYSTEM)):
            name, files = self.built(compiler)
            version = f"davgyuti-{davgyuti.__version__}"
            self.assertEqual(name, f"{version}-{tags}.whl")
            words = f"Tag: {tags}\n".replace(".", "\nTag: cp310-abi3-")
            self.assertIn(words, files[f"{version}.dist-info/WHEEL"].decode())

    def test_tags_of_others(self) -> None:
        # (PEP 425)
        for system, processor, tag in (
            ("macosx-11.0-universal2", "arm64", "macosx_11_0_arm64"),
            ("macosx-10.13-x86_64", "x86_64", "macosx_10_13_x86_64"),
            ("win-amd64", "AMD64", "win_amd64"),
        ):
            with mock.patch("sysconfig.get_platform", lambda: system), mock.patch("platform.machine", lambda: processor):
                self.assertEqual(module("backend", SOURCES, "backend.py").tags(b""), ("cp310-abi3", [tag]))

    @unittest.skipUnless(shutil.which("aarch64-linux-gnu-gcc"), "there is no aarch64-linux-gnu-gcc")
    def test_arm64(self) -> None:
        with mock.patch("sysconfig.get_platform", lambda: "linux-aarch64"), mock.patch("platform.machine", lambda: "aarch64"):
            name, _ = self.built("aarch64-linux-gnu-gcc")
        tags = ANY_LINUX.replace(platform.machine(), "aarch64")
        self.assertEqual(name, f"davgyuti-{davgyuti.__version__}-{tags}.whl")

    def test_files(self) -> None:
        _, files = self.built()
        info = f"davgyuti-{davgyuti.__version__}.dist-info/"
        metadata = message_from_bytes(files[info + "METADATA"])
        self.assertEqual((metadata["Name"], metadata["License-Expression"]), ("davgyuti", "Apache-2.0"))
        # (PEP 639)
        for it in metadata.get_all("License-File", []):
            self.assertIn(f"{info}licenses/{it}", files)
        for it in ("py.typed", "_fast.abi3.so"):
            self.assertIn(f"davgyuti/{it}", files)
        self.assertFalse([it for it in files if it.endswith((".c", ".h"))])
        record = files[info + "RECORD"].decode().splitlines()
        self.assertEqual([it.split(",")[0] for it in record], list(files))

    @unittest.skipUnless(shutil.which("readelf"), "there is no readelf")
    def test_hardened(self) -> None:
        done = subprocess.run(["readelf", "-dlSW", self.library()], capture_output=True, text=True, check=True)
        # (with symbols: a debugger names the functions)
        for pattern in (r"FLAGS_1.* NOW", "GNU_RELRO", r"GNU_STACK.* RW ", r" \.symtab "):
            self.assertRegex(done.stdout, pattern)
        for pattern in ("NEEDED", "VERNEED", "TEXTREL"):
            self.assertNotRegex(done.stdout, pattern)

    def test_damaged(self) -> None:
        copy = shutil.copytree(os.path.dirname(davgyuti.__file__), os.path.join(self.work, "davgyuti"))
        with open(os.path.join(copy, "_version.py"), "w") as file:
            file.write("VERSION = (9, 8, 7)")
        with self.assertRaisesRegex(ImportError, "_fast.*so isn't of davgyuti 9.8.7: it has to be installed again"):
            module("damaged", copy, "__init__.py")

    def test_sources(self) -> None:
        name = module("backend", SOURCES, "backend.py").build_sdist(self.work)
        with tarfile.open(os.path.join(self.work, name)) as archive:
            for it in ("src/davgyuti/_version.pyi", "src/davgyuti/_kinds.h", "tests/packets.txt", "tests/vectors/kinds.jsonl"):
                self.assertIn(f"davgyuti-{davgyuti.__version__}/{it}", archive.getnames())


if __name__ == "__main__":
    unittest.main()
