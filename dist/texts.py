#!/usr/bin/env python3
# SPDX-License-Identifier: Apache-2.0
"""usage: dist/texts.py [--clang CLANG] [--into FOLDER] [FILE ..]

Makes the assembly texts of dist/ of the LLVM modules there, which takes Python and clang: what dist/make.py does with the
toolchain of Rattle, for whoever has only a compiler. Clang 22.1 gives the very texts; another version gives other instructions.

  --clang CLANG  the compiler, in place of clang
  --into FOLDER  the folder, in place of dist/
  FILE ..        these texts alone, such as dcsctp-aarch64-elf.s
  --help         prints this

A module is what `rattle build` compiles for Linux on x86-64, in LLVM's text, without what is of that system alone: names that
every assembler takes, and a table for unwinding for each function. For another system with pointers of 64 bits and the least
significant byte first, compile it yourself, with memory by heap.ll: clang --target=riscv64-linux-gnu -O3 -c dist/dcsctp.ll
"""

import argparse
import collections
import os
import re
import subprocess
import sys

DIST = os.path.dirname(os.path.abspath(__file__))

# How rattle calls clang for each module, for a library and for a program.
WORDS = ("-mllvm -no-trap-after-noreturn -ffunction-sections -fdata-sections -mllvm -trap-unreachable -mllvm -no-x86-call-frame-opt "
         "-mllvm -disable-machine-licm -mllvm -disable-postra-machine-licm -mllvm -sink-common-insts=false --no-default-config "
         "-no-canonical-prefixes -fintegrated-cc1 -fno-crash-diagnostics -Werror -O3").split()
LIBRARY, PROGRAM = ["-fPIC"], "-fPIE -Xclang -fmerge-functions -mllvm -mergefunc-use-aliases".split()
# What clang is told beside the triple; what each function has; the module's flags; whether x86-64's marks are written; and whether
# there are tables for unwinding.
System = collections.namedtuple("System", "triple words attributes flags has_cet is_unwound", defaults=((), False, True))
X86, ARM = ("-march=x86-64",), ("-march=armv8-a", "-mllvm", "-aarch64-load-store-renaming=false")
V2, OLDEST = '"target-cpu"="x86-64-v2"', '"target-cpu"="x86-64"'
FRAME = '"frame-pointer"="non-leaf"'
# Marks by which a program that links the text keeps the processor's protection of calls and returns, where it has one: on arm64 by
# clang; on x86-64 they are written into the text, whose other instructions stay as they are. The note that says so speaks of a whole
# object, so it is left out where dcsctp_without_note is defined, as by rustc, which puts its own code beside the text.
PAUTH = ("branch-target-enforcement", "sign-return-address")
SIGNED = f'{FRAME} "branch-target-enforcement" "sign-return-address"="non-leaf" "sign-return-address-key"="a_key"'
CET = """\t.section\t.note.gnu.property,"a",@note
\t.p2align\t3
\t.long\t4, 16, 5
\t.asciz\t"GNU"
\t.long\t0xc0000002, 4, 3, 0
"""
SYSTEMS = {
    "x86_64-elf": System("x86_64-unknown-linux-gnu", X86, V2, has_cet=True),
    # x18 stays as it is, which Android, Fuchsia and shadow call stacks reserve.
    "aarch64-elf": System("aarch64-unknown-linux-gnu", (*ARM, "-ffixed-x18"), SIGNED, PAUTH),
    "x86_64-coff": System("x86_64-w64-windows-gnu", X86, V2),
    "x86_64-macho": System("x86_64-apple-macos11", X86, V2),
    # (vectors as GNU writes them, and not Apple alone)
    "aarch64-macho": System("arm64-apple-macos11", (*ARM, "-mllvm", "-aarch64-neon-syntax=generic"), FRAME),
    # For kernels: the bytes below the stack pointer and the registers for vectors and floating point stay as they are.
    "x86_64-none": System("x86_64-unknown-none-elf", (*X86, "-mno-sse", "-mno-mmx", "-mno-x87", "-msoft-float"), f"{V2} noredzone", has_cet=True),
}
# The text of a system without what is said here alone: as rattle itself compiles for it.
AS_RATTLE = {
    "x86_64-elf": SYSTEMS["x86_64-elf"]._replace(has_cet=False, is_unwound=False),
    "aarch64-elf": SYSTEMS["aarch64-elf"]._replace(words=ARM, attributes=FRAME, flags=(), is_unwound=False),
}
PROGRAMS = ("sctp_dump", "sctp_show")
TEXTS = {f"{module}-{system}.s": (module, system) for module in ("dcsctp", *PROGRAMS) for system in SYSTEMS
         if module == "dcsctp" or system != "x86_64-none"}


def fail(text):
    sys.exit(f"dist/texts.py: {text}")


def read(path):
    with open(path, encoding="utf-8") as file:
        return file.read()


def for_system(module, system):
    """A module with what this system wants of each function, and the module's flags."""
    def more(found):
        # (what runs before a program knows its processor is for the oldest one)
        is_first = system.triple.startswith("x86_64") and '"oldest-processor"' in found[2]
        return f"{found[1]} {system.attributes.replace(V2, OLDEST) if is_first else system.attributes}{found[2]}"

    flags = [f'!{900 + i} = !{{i32 8, !"{it}", i32 1}}\n' for i, it in enumerate(system.flags)]
    if flags:
        flags.append(f"!llvm.module.flags = !{{{', '.join(f'!{900 + i}' for i in range(len(flags)))}}}\n")
    module = re.sub(r"^(attributes #\d+ = \{)( .*\buwtable\b.*)$", more, module, flags=re.M) + "".join(flags)
    if "windows" in system.triple:
        # (which has a function for it)
        module = re.sub(r' "(probe-stack|stack-probe-size)"="[^"]*"', "", module)
    return module if system.is_unwound else module.replace(" uwtable", "")


# A line whose quotes hold no name.
IS_DATA = re.compile(r"\t\.(ascii|asciz|string|ident)\b")
# Marks for a 32-bit linker; the version of macOS, which whoever assembles it says; and what only an assembler from 2025 on knows: what
# is in a note too, and where a function ends on Windows, which is seen by the instructions there.
DROPPED = re.compile(r'\t\.(build_version|file|aeabi_\w+|seh_(?:start|end)epilogue)\b.*\n|\t\.def\t"?@feat\.00"?;(.*\n)+?"?@feat\.00"? = 0\n')


def compiled(clang, module, system, is_program):
    """What clang writes of a module's text for a system."""
    words = WORDS + (PROGRAM if is_program else LIBRARY)
    if "windows" in system.triple:
        # A section's name would have the function's.
        words = [it for it in words if it not in ("-ffunction-sections", "-fdata-sections")]
    words += ["-Wno-override-module", "-fno-verbose-asm", "-fno-addrsig"]
    ran = subprocess.run([clang, f"--target={system.triple}", *words, *system.words, "-S", "-x", "ir", "-", "-o", "-"],
                         input=for_system(module, system), capture_output=True, text=True)
    if ran.returncode:
        fail(f"{clang} doesn't compile the module for {system.triple}: {ran.stderr[:2000]}")
    return "".join(it for it in DROPPED.sub("", ran.stdout).splitlines(True) if it != "\n")


def with_cet(text):
    """A text for ELF on x86-64 with the marks: at the start of each function that others call, and at a jump by a table."""
    names, lines, is_start = set(re.findall(r"^\t\.globl\t(\S+)", text, re.M)), [], False
    for line in text.splitlines(True):
        is_start |= line[:-2] in names
        lines.append(line.replace("\tjmpq\t*", "\tnotrack jmpq\t*"))
        if is_start and line == "\t.cfi_startproc\n":
            lines.append("\tendbr64\n")
            is_start = False
    return "".join(lines) + CET


def with_condition(text):
    """The text whose note can be left out."""
    note = r'^\t\.section\t\.note\.gnu\.property,.*\n(?:(?:\t\.(?:p2align|long|word|asciz)\t|\.L).*\n)*'
    return re.sub(note, lambda it: f"\t.ifndef\tdcsctp_without_note\n{it[0]}\t.endif\n", text, flags=re.M)


def own_labels(text, triple, prefix):
    """The text with a prefix in its local labels, which the code beside it may have too, where rustc assembles both as one."""
    label = r"(L|l(?=CPI))" if "apple" in triple else r"(\.L)"
    label = re.compile(rf"(?<![\w.]){label}(?=[A-Za-z])", re.A)
    return "".join(it if IS_DATA.match(it) else label.sub(rf"\1{prefix}", it) for it in text.splitlines(True))


def heap(clang, system):
    """The functions by which the code gets memory, as local ones."""
    module = read(f"{DIST}/heap.ll").replace("define hidden", "define internal")
    text = own_labels(compiled(clang, module, system._replace(flags=()), False), system.triple, "dcsctp_heap_")
    return re.sub(r"^\t\.section\t.*note\.GNU-stack.*\n|^\.subsections_via_symbols\n", "", text, flags=re.M)


def text_of(clang, module, name, system):
    """The text of a module for a system; `name` is the module's."""
    text = own_labels(compiled(clang, module, system, name in PROGRAMS), system.triple, "dcsctp_")
    if "rattle_alloc" in text:
        text += heap(clang, system)
    return with_condition(with_cet(text) if system.has_cet else text)


def main():
    parser = argparse.ArgumentParser(usage=__doc__.strip()[7:], add_help=False)
    parser.add_argument("--clang", default="clang")
    parser.add_argument("--into", default=DIST)
    parser.add_argument("files", nargs="*")
    parser.add_argument("--help", action="store_true")
    given = parser.parse_args()
    if given.help:
        print(__doc__.strip())
        return
    for file in given.files or TEXTS:
        if file not in TEXTS:
            fail(f"{file} isn't one of {' '.join(TEXTS)}")
        name, system = TEXTS[file]
        text = text_of(given.clang, read(f"{DIST}/{name}.ll"), name, SYSTEMS[system])
        with open(f"{given.into}/{file}", "w", encoding="utf-8", newline="\n") as out:
            out.write(text)


if __name__ == "__main__":
    main()
