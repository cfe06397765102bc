#!/usr/bin/env python3
# SPDX-License-Identifier: Apache-2.0
"""Has `rt lib` take the libraries that `rt ci` proved. usage: tools/take_libraries.py, at once after `rt ci`.

`rt ci` leaves each library that it proved in crates/NAME/out/rlib. `rt lib` takes what is there if a file `stamp` beside it has the
sum of the sources, and `rt ci` writes no such file: these libraries fit only each other. So this writes the stamps if all libraries
below what is shipped (dcsctp_c, sctp_dump, sctp_show) are there, newer than all their sources, and none has a stamp, as in a fresh
clone. Otherwise, or with another toolchain, it does nothing: then `rt lib` and dist/make.py prove them again, which takes some
minutes. (What `rt ci` has proved before it leaves as it is, so a library can be older than its sources.)
"""

import os
import shutil
import sys

ROOT = os.path.dirname(os.path.dirname(os.path.abspath(__file__)))
SHIPPED = ("dcsctp_c", "sctp_dump", "sctp_show")


def crate_of(library):
    return os.path.dirname(os.path.dirname(os.path.dirname(library.rlib)))


def newest_source(libraries):
    """When a file of a crate's src, specs or proofs was last changed."""
    folders = (os.path.join(crate_of(it), part) for it in libraries for part in ("src", "specs", "proofs"))
    return max(os.path.getmtime(os.path.join(at, name)) for it in folders for at, _, names in os.walk(it) for name in names)


def main():
    rt = shutil.which("rt")
    sys.path.insert(0, os.path.dirname(os.path.realpath(rt)))
    sys.dont_write_bytecode = True
    try:
        import rtlib

        below = (it for crate in rtlib.crates_below(ROOT) if crate.name in SHIPPED for it in crate.below())
        stamps = {f"{os.path.dirname(it.rlib)}/stamp": it for it in below}
        if any(os.path.exists(it) for it in stamps) or not all(os.path.isdir(it.rlib) for it in stamps.values()):
            return
        newest = newest_source(stamps.values())
        if any(os.path.getmtime(it.rlib) < newest for it in stamps.values()):
            return
        for path, library in stamps.items():
            with open(path, "w", encoding="utf-8") as file:
                file.write(library.stamp())
    except (AttributeError, ImportError) as error:
        print(f"tools/take_libraries.py: this toolchain's libraries can't be taken: {error}")


main()
