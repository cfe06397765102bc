#!/usr/bin/env python3
# SPDX-License-Identifier: Apache-2.0
"""usage: dist/wasm.py [--compare]

Makes bindings/js/dcsctp.wasm, the C library as WebAssembly, and dist/sctp_dump.wasm, the program, which the page runs, of the modules
dist/dcsctp.ll and sctp_dump.ll. It takes the toolchain's clang and linker, and wasm-opt of binaryen. MANIFEST gets the sum of the second.

  --compare  makes them in a folder of its own, and fails where one isn't what lies there
  --help     prints this

No verdict is given for WebAssembly: the functions are those of the module for x86-64, compiled for a system whose
pointers and sizes are as wide and whose words have the same order of bytes. What is made has a 64-bit memory, and
wasm-opt lowers it to one of 32 bits, which every browser has. It exports its memory, the functions of the header or the start of the
program, malloc and free. The library imports nothing, and the program what dist/program.c has elsewhere.
"""

import argparse
import os
import re
import shutil
import sys
import tempfile

sys.dont_write_bytecode = True
sys.path.insert(0, os.path.dirname(os.path.abspath(__file__)))
import make  # noqa: E402

SYSTEM = "wasm64-unknown-unknown"
# As rattle itself compiles for this system: 128-bit numbers are divided in place, and what isn't reached traps.
FLAGS = ["-mcpu=lime1", "-mllvm", "-expand-div-rem-bits=64", "-mllvm", "-expand-fp-convert-bits=64", "-mllvm",
         "-trap-unreachable", "-ffunction-sections", "-fdata-sections", "-O3", "-Werror", "-Wno-override-module"]
LOWERING = ["--enable-memory64", "--enable-bulk-memory", "--enable-sign-ext", "--enable-mutable-globals",
            "--enable-nontrapping-float-to-int", "--enable-multivalue", "--memory64-lowering", "-O2", "--strip-producers"]
# Attributes of a function for x86-64.
OF_STACK = re.compile(r' "(?:probe-stack|stack-probe-size)"="[^"]*"|(?<=\{) uwtable')
DEFINED = re.compile(r"define (?!internal |private )[^@]*@(\w+)\(")
DECLARED = re.compile(r"declare [^@]*@(\w+)\(")
# What a WebAssembly module may import, and export, has a byte for its kind.
KINDS = ("function", "table", "memory", "global")


# Of each file its module, what it exports, and what it imports.
FILES = {
    "bindings/js/dcsctp.wasm": ("dcsctp", {*make.header_functions(), "malloc", "free"}, set()),
    "dist/sctp_dump.wasm": ("sctp_dump", {"rattle_main", "malloc"}, make.OF_PROGRAM - {"rattle_main"}),
}


def fail(text):
    sys.exit(f"dist/wasm.py: {text}")


make.fail = fail


def retargeted(text, exported, imported):
    """A module in LLVM's text, of which these functions are exported, and those imported."""
    for line in text.splitlines(True):
        if line.startswith(("target datalayout", "target triple", "@llvm.compiler.used")):
            continue
        found = DECLARED.match(line)
        if found and found[1] in imported:
            line = f'{line.rstrip()} "wasm-import-module"="env" "wasm-import-name"="{found[1]}"\n'
        found = DEFINED.match(line)
        if found and found[1] in exported:
            line, count = re.subn(r"( #\d+)(?=[^#]*\{$)", rf'\1 "wasm-export-name"="{found[1]}"', line.rstrip("\n"))
            if count != 1:
                fail(f"the module defines {found[1]} otherwise than this script takes it")
            line += "\n"
        yield OF_STACK.sub("", line)


def sections(wasm):
    """The sections of a WebAssembly module, by their numbers."""
    at, found = 8, {}
    while at < len(wasm):
        kind = wasm[at]
        size, at = number(wasm, at + 1)
        found[kind] = wasm[at:at + size]
        at += size
    return found


def number(data, at):
    value = shift = 0
    while True:
        byte = data[at]
        value |= (byte & 127) << shift
        at, shift = at + 1, shift + 7
        if byte < 128:
            return value, at


def name(section, at):
    size, at = number(section, at)
    return section[at:at + size].decode(), at + size


def exports(wasm):
    section = sections(wasm).get(7, b"\0")
    count, at = number(section, 0)
    for _ in range(count):
        text, at = name(section, at)
        kind = KINDS[section[at]]
        _, at = number(section, at + 1)
        yield kind, text


def imports(wasm):
    """What is imported, of which only functions are known here."""
    section = sections(wasm).get(2, b"\0")
    count, at = number(section, 0)
    for _ in range(count):
        _, at = name(section, at)
        text, at = name(section, at)
        if KINDS[section[at]] != "function":
            fail(f"{text} is imported, and is no function")
        _, at = number(section, at + 1)
        yield text


def compiled(tools, name, work, exported, imported):
    """A module of dist/ as WebAssembly, linked with a heap, with a 64-bit memory that is lowered. It exports its memory and these
    functions, and imports no others than those."""
    toolchain = os.path.dirname(os.path.dirname(tools.clang))
    link = f"{os.path.dirname(toolchain)}/bin/rattle-link"

    def clang(system, *words):
        return make.output_of([tools.clang, f"--target={system}", "--no-default-config", *words],
                              "the module isn't compiled for WebAssembly", cwd=work)

    text = ["-S", "-emit-llvm", "-o", "-"]
    parts = {
        "module": make.read(f"{make.ROOT}/dist/{name}.ll").decode(),
        "memory": make.read(f"{make.ROOT}/dist/heap.ll").decode(),
        "heap": clang(SYSTEM, *text, *FLAGS, *"-ffreestanding -nostdinc -fno-builtin -fwrapv".split(), f"{make.ROOT}/bindings/js/heap.c"),
    }
    for part, it in parts.items():
        make.write(f"{work}/{part}.ll", "".join(retargeted(it, exported, imported)))
        clang(SYSTEM, *FLAGS, "-c", "-x", "ir", f"{part}.ll", "-o", f"{part}.o")
    tools.tool("llvm-ar", "rcsD", f"{work}/module.a", *(f"{work}/{it}.o" for it in parts))
    make.output_of([link, "--target", SYSTEM, "--toolchain", toolchain, "-o", f"{work}/wide.wasm", f"{work}/module.a"],
                   "the module isn't linked for WebAssembly", cwd=work)
    make.output_of(["wasm-opt", *LOWERING, f"{work}/wide.wasm", "-o", f"{work}/lowered.wasm"], "wasm-opt failed")
    wasm = make.read(f"{work}/lowered.wasm")
    wanted = {("function", it) for it in exported} | {("memory", "memory")}
    found = {it for it in exports(wasm) if it != ("global", "__heap_base")}
    if found != wanted:
        fail(f"what is exported isn't what was wanted: {sorted(found ^ wanted)}")
    if set(imports(wasm)) - set(imported):
        fail(f"the module imports {', '.join(sorted(set(imports(wasm)) - set(imported)))}")
    return wasm


def main():
    parser = argparse.ArgumentParser(usage=__doc__.strip()[7:], add_help=False)
    parser.add_argument("--compare", action="store_true")
    parser.add_argument("--help", action="store_true")
    given = parser.parse_args()
    if given.help:
        print(__doc__.strip())
        return
    if not shutil.which("wasm-opt"):
        fail("wasm-opt isn't on PATH (Debian: binaryen)")
    for file, (name, exported, imported) in FILES.items():
        with tempfile.TemporaryDirectory() as work:
            wasm = compiled(make.Toolchain(work, 1), name, work, exported, imported)
        path = f"{make.ROOT}/{file}"
        if given.compare:
            if not os.path.isfile(path) or make.read(path) != wasm:
                fail(f"{file} isn't what the sources give; run dist/wasm.py")
        else:
            with open(path, "wb") as out:
                out.write(wasm)
        print(f"{file}: {len(wasm):,} bytes; imports {' '.join(sorted(imported)) or 'nothing'}")
    if not given.compare:
        manifest = make.read(f"{make.ROOT}/dist/MANIFEST").decode()
        line = rf"[0-9a-f]{{64}}(?=  {os.path.basename(file)}$)"
        make.write(f"{make.ROOT}/dist/MANIFEST", re.sub(line, make.sum_of(wasm), manifest, flags=re.M))


if __name__ == "__main__":
    main()
