#!/usr/bin/env python3
# SPDX-License-Identifier: Apache-2.0
"""usage: dist/stack.py --compare | --write | --help

Finds, in each text of the C library in dist/, the most bytes of stack that a call of each export takes: its frames and those of the
functions that it calls, and what is used below the last one (the red zone), but for those of libc. No function calls
itself, on whatever way, none calls by a pointer (it only jumps by a table of its own), and none takes a number of bytes that isn't in
the text: if one did, this would fail.

  --compare  compares them with dist/stack.txt, and the greatest ones with the pages; status 1 if they differ
  --write    writes dist/stack.txt
  --help     prints this
"""
import os
import re
import sys

ROOT = os.path.dirname(os.path.dirname(os.path.abspath(__file__)))
TEXTS = ("x86_64-elf", "x86_64-none", "x86_64-macho", "x86_64-coff", "aarch64-elf", "aarch64-macho")
FILE = f"{ROOT}/dist/stack.txt"
PAGES = ("docs/C.md", "SECURITY.md")
# What bindings/go calls on the stack of a goroutine, where it has 4 KB: the most that those calls may take. (They may call memmove and
# memset, and nothing else outside.)
DIRECT, DIRECT_MOST = "bindings/go/calls.h", 1024
HEAD = """# The most bytes of stack that a call takes, by dist/stack.py, but for those of libc: the name, and in the text of each system.
"""
# A function, and no place in one.
LABEL = re.compile(r'^"?(?!\.?L|l?tmp|l_|lCPI)([\w.$]+)"?:')
# Instructions by which a function takes stack, and how many bytes; by which it uses bytes below what it took (the red zone), and how
# far; calls, and jumps, which may be calls at the end; calls and jumps by a pointer; and what is just before a jump by a table.
X86 = {
    "push": r"pushq\s()", "take": r"(?:subq\s+\$|addq\s+\$-)(\d+), %rsp()", "unknown": r"(?:sub|and)q\s+[^,]*[%-][^,]*, %rsp",
    "below": r".*[\s,]-(\d+)\(%rsp\)", "call": r"(?:callq?|j\w+)\s+([^*\s]+)", "pointer": r"callq?\s+\*",
    "jump": r"(?:notrack\s+)?jmpq?\s+\*", "table": r"movslq\s+\(%\w+,%\w+,4\)",
}
ARM = {
    "push": r"(?:stp|str)\s+.*\[sp, #-(\d+)\]!", "take": r"sub\s+sp, sp, #(\d+)(?:, lsl #(\d+))?", "unknown": r"sub\s+sp, sp, x\d+",
    "below": r".*\[sp, #-(\d+)\](?!!)", "call": r"(?:bl|b|b\.\w+|cbn?z|tbn?z)\s+(?:.*, )?(\S+)$", "pointer": r"blr\w*\s",
    "jump": r"br\s", "table": r"ldr(?:sw|h|b)\s+\w+, \[",
}


def fail(text):
    sys.exit(f"dist/stack.py: {text}")


def functions(text, is_arm):
    """Of each function its own bytes, what it calls, and the bytes that it uses below its own."""
    words = {key: re.compile(it) for key, it in (ARM if is_arm else X86).items()}
    found, at, before = {}, None, []
    for line in text.splitlines():
        label = LABEL.match(line)
        if label:
            at = found.setdefault(label[1], [0 if is_arm else 8, set(), 0])
        line = line.strip()
        if at is None or line.startswith(".") or line.endswith(":"):
            continue
        if words["unknown"].match(line):
            fail(f"takes a number of bytes that isn't in the text: {line}")
        if push := words["push"].match(line):
            at[0] += int(push[1] or 8)
        if take := words["take"].match(line):
            at[0] += int(take[1]) << int(take[2] or 0)
        if below := words["below"].match(line):
            at[2] = max(at[2], int(below[1]))
        is_by_table = any(words["table"].match(it) for it in before[-12:])
        if words["pointer"].match(line) or words["jump"].match(line) and not is_by_table:
            fail(f"calls by a pointer: {line}, after {before[-12:]}")
        if call := words["call"].match(line):
            at[1].add(call[1])
        before.append(line)
    return found


def most(found, name, way=()):
    if name in way:
        fail(f"{name} calls itself: {' '.join(way)}")
    own, calls, below = found[name]
    return own + max([below, *(most(found, it, (*way, name)) for it in calls if it in found and it != name)])


def outside(found, name):
    """What is called that isn't in the text, but for places in a function."""
    called = {it for it in found[name][1] if it != name and not it.startswith(".L")}
    return set().union(*(outside(found, it) if it in found else {it} for it in called))


def depths(file):
    """The most bytes by export."""
    with open(f"{ROOT}/dist/dcsctp-{file}.s", encoding="utf-8") as opened:
        text = opened.read().replace("@PLT", "")
    found = functions(text, file.startswith("aarch64"))
    by_name = {it.lstrip("_"): most(found, it) for it in re.findall(r'\.globl\t"?(_?dcsctp_\w+)"?', text)}
    with open(f"{ROOT}/{DIRECT}", encoding="utf-8") as opened:
        direct = re.findall(r"\*(\w+)[,;]", re.search(r"struct go_functions \{(.*?)\}", opened.read(), re.S)[1])
    for name in ("begin", *direct) if file.endswith("-elf") else ():
        calls = outside(found, f"dcsctp_{name}") - {"memmove", "memset"}
        if by_name[f"dcsctp_{name}"] > DIRECT_MOST or calls:
            fail(f"{DIRECT} may not call dcsctp_{name} directly: {by_name[f'dcsctp_{name}']} bytes, {calls}")
    return by_name


def written(by_text):
    names = sorted(by_text[TEXTS[0]])
    if any(sorted(it) != names for it in by_text.values()):
        fail("the texts export other names")
    rows = [["call", *TEXTS], *([name, *(str(it[name]) for it in by_text.values())] for name in names)]
    return HEAD + "".join(f"{row[0]:30}" + "".join(f"{it:>15}" for it in row[1:]) + "\n" for row in rows)


def differences(text):
    with open(FILE, encoding="utf-8") as file:
        if file.read() != text:
            yield "dist/stack.txt isn't what the texts say: dist/stack.py --write"
    numbers = [int(it) for it in re.findall(r" (\d+)\b", text)]
    for page in PAGES:
        with open(f"{ROOT}/{page}", encoding="utf-8") as file:
            said = re.search(r"at most ([\d,]+) bytes of stack", file.read().replace("\n", " "))
        if not said or int(said[1].replace(",", "")) != max(numbers):
            yield f"{page} doesn't say: at most {max(numbers):,} bytes of stack"


def main():
    if sys.argv[1:] not in (["--compare"], ["--write"]):
        print(__doc__)
        sys.exit(sys.argv[1:] != ["--help"])
    text = written({file: depths(file) for file in TEXTS})
    if sys.argv[1] == "--write":
        with open(FILE, "w", encoding="utf-8") as file:
            file.write(text)
    found = list(differences(text))
    for it in found:
        print(f"stack: {it}")
    if found:
        sys.exit(1)
    print(f"stack: {len(text.splitlines()) - 2} calls in {len(TEXTS)} texts, as in dist/stack.txt")


main()
