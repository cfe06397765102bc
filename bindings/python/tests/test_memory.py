# SPDX-License-Identifier: Apache-2.0
"""Each request of the library for memory is refused in turn: a MemoryError says so, and nothing else is changed."""

import ctypes
import os
import shutil
import sys
import tempfile
import unittest
from types import ModuleType
from unittest import mock

import davgyuti
from support import SOURCES, module

SOURCE = """
#include <stddef.h>

/* How many requests are granted before one is refused. */
size_t granted = -1;
void *__real_malloc(size_t size);
void *__real_realloc(void *block, size_t size);

void *__wrap_malloc(size_t size)
{
    return granted-- == 0 ? NULL : __real_malloc(size);
}

void *__wrap_realloc(void *block, size_t size)
{
    return granted-- == 0 ? NULL : __real_realloc(block, size);
}
"""


@unittest.skipUnless(sys.platform.startswith("linux"), "it takes a linker that knows --wrap")
@unittest.skipUnless(shutil.which("cc"), "there is no cc")
@unittest.skipUnless(SOURCES, "there are no sources beside the tests")
class Memory(unittest.TestCase):
    def test_refused(self) -> None:
        backend = module("backend", SOURCES, "backend.py")
        with tempfile.TemporaryDirectory() as work:
            copy = shutil.copytree(os.path.dirname(davgyuti.__file__), os.path.join(work, "refusing"))
            source = os.path.join(work, "refuse.c")
            with open(source, "w") as file:
                file.write(SOURCE)
            with mock.patch.dict(os.environ, CC=f"cc -fPIC {source} -Wl,--wrap=malloc,--wrap=realloc"):
                library = backend.module()
            # (not over the old one, which this process has mapped)
            os.remove(os.path.join(copy, backend.MODULE))
            with open(os.path.join(copy, backend.MODULE), "wb") as file:
                file.write(library)
            self.refused(module("refusing", copy, "__init__.py"))

    def refused(self, package: ModuleType) -> None:
        granted = ctypes.c_size_t.in_dll(package._library.functions, "granted")
        builder = davgyuti.PacketBuilder(1, 2, 3)
        builder.sack(1, 2, [(2, 3)], [4])
        builder.abort("why")
        data = builder.seal()
        for name in ("text", "canonical", "report"):
            expected = getattr(davgyuti, name)(data)
            refusals = 0
            while True:
                granted.value = refusals
                try:
                    found = getattr(package.Packet(data), name)()
                    break
                except MemoryError:
                    refusals += 1
            self.assertEqual(found, expected)
            # (only text asks for memory)
            self.assertEqual(refusals > 0, name == "text")
            for at in range(refusals):
                granted.value = at
                self.assertRaises(MemoryError, getattr(package, name), data)
                # A fault is found without memory.
                with self.assertRaises(package.Fault):
                    getattr(package, name)(data[:-1] + b"!")


if __name__ == "__main__":
    unittest.main()
