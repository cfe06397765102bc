#!/usr/bin/env python3
# SPDX-License-Identifier: Apache-2.0
"""usage: dist/make.py [--compare] [--copies] [--into FOLDER] [--jobs N] [--log FILE] [NAME ..]

Makes the files of dist/ that take the toolchain: the LLVM modules of the C library and of the programs sctp_dump and sctp_show, and
of these, by texts.py, assembly text for each system; with them copies of the headers, LICENSE and NOTICE, and MANIFEST. Whoever has the
texts needs a C compiler and nothing else (dist/README.md).

  --compare      makes them in a folder of its own, and fails where one isn't what lies in dist/, and names it; where another
                 toolchain of the same logic made dist/, it compares the sums of the sources alone
  --copies       makes the packages' copies of texts and other files alone, for which no toolchain is needed
  --into FOLDER  the folder, in place of dist/
  --jobs N       how many processors a proof may take, and how many texts are made at once; 1 if left out
  --log FILE     what `rt ci` printed as it proved these sources; may be given several times, a later one counts
  NAME ..        the module dcsctp, sctp_dump or sctp_show and its texts alone, without MANIFEST and the copies
  --help         prints this

`rt check` proves each crate first, unless all libraries below it are built. Then `rattle build` proves and compiles the crate, over
what was kept of its proofs: run no other rt in this checkout meanwhile. The module is the very one that `rattle build` gave to clang
for Linux on x86-64, with names that every assembler takes, tables for unwinding, and without the words for that processor. It has to
give, for Linux on x86-64, and of the library on arm64 too, the very instructions that the module for that system gives, which in turn
have to assemble and link to the very bytes that `rattle build` compiled. The texts have more than these: tables for unwinding, the marks
for a processor's protection of calls, and on arm64 they keep x18. For the other systems the same module is compiled for another
target, and only tests say that this is right. No name is visible in a text but those that the header declares, or a program's
rattle_main; nothing of this machine or of this run is in it.

MANIFEST has the toolchain's verdict on each crate in the texts, uncut, and the names of the C functions whose contracts
it takes as they are. Of the crates that are compiled it is what their build says. Of a library below it is what a log
has; else what MANIFEST had, if the library's sources and those below it are what they were; else what `rt check` says.
--compare takes it from MANIFEST, so it proves no library that is built, and passes over words that end in `=trusted`:
they say what was taken from earlier runs.
"""

import argparse
import hashlib
import os
import re
import shutil
import subprocess
import sys
import tempfile
from concurrent.futures import ThreadPoolExecutor

sys.dont_write_bytecode = True
sys.path.insert(0, os.path.dirname(os.path.abspath(__file__)))
import texts  # noqa: E402

ROOT = os.path.dirname(os.path.dirname(os.path.abspath(__file__)))

# What `rt version` has to say. How clang is called, and what rtlib has, isn't promised for another toolchain: see
# there whether it is as this script takes it, and then change this line.
LOGIC = "logic dac8208d650f15bf"
# How the line of MANIFEST begins that says which toolchain made the texts.
TOOLCHAIN = "# toolchain "

# The crate of each module.
CRATES = {"dcsctp": "dcsctp_c", "sctp_dump": "sctp_dump", "sctp_show": "sctp_show"}
# What is compared with what rattle compiles: a module for a system, and rattle's name of it.
LINUX, LINUX_ARM = "x86_64-unknown-linux-gnu", "aarch64-unknown-linux-gnu"
COMPARED = {(name, "x86_64-elf"): LINUX for name in CRATES} | {("dcsctp", "aarch64-elf"): LINUX_ARM}
# What a program takes from its system, by the names that program.c has for it.
OF_SYSTEM = {it: f"rattle_{it}" for it in ("main", "open", "close", "read", "write", "lseek", "isatty", "unlink")}
OF_SYSTEM |= {"__write": "rattle_write", "__sysv_signal": "rattle_signal", "__x86_get_cpuid_feature_leaf": "rattle_cpuid"}
OF_SYSTEM |= {"__xpg_strerror_r": "rattle_strerror_r"}
OF_PROGRAM = {*OF_SYSTEM.values(), "rattle_arg", "rattle_errno", "rattle_set_errno"}
# By which a program on Windows asks for more than a page of stack; compilers for it have it.
ON_WINDOWS = "___chkstk_ms"

# By wasm.py, of these modules.
MADE_ELSEWHERE = ("sctp_dump.wasm",)
COPIES = {"dcsctp.h": "include/dcsctp.h", "LICENSE": "LICENSE", "NOTICE": "NOTICE"}
COPIES |= {f"{it}.h": f"include/{it}.h" for it in ("dcsctp_inline", "dcsctp_registered", "dcsctp_processor", "dcsctp_msan")}

# What a package has to have in its own folder, since it is published alone, and whose it is. (rt ci takes no links.)
PACKAGED = {f"bindings/{package}/{it}": it for package in ("cpp", "go", "js") for it in ("LICENSE", "NOTICE")}
PACKAGED |= {f"bindings/go/dcsctp_{system}.s": f"dist/dcsctp-{text}.s" for system, text in (
    ("darwin_amd64", "x86_64-macho"), ("darwin_arm64", "aarch64-macho"), ("linux_amd64", "x86_64-elf"),
    ("linux_arm64", "aarch64-elf"), ("windows_amd64", "x86_64-coff"))}
PACKAGED |= {f"bindings/go/{it}.h": f"dist/{it}.h" for it in ("dcsctp", "dcsctp_msan", "dcsctp_processor")}

# What a text may take from a C library; the last two on macOS.
LIBC = {"malloc", "realloc", "free", "memcpy", "memmove", "memset", "memcmp", "bcmp", "bzero", "__bzero"}

# What the toolchain says of a crate that MANIFEST has. First the C functions of each library below whose contracts the
# check reached and takes as they stand, with their names; then how many contracts no call can meet; last the verdict.
AXIOMS = re.compile(r"^(axioms \w+: \d+ reached .*)\n((?:  .*\n)*)", re.M)
LOOKED, VERDICT = "empty contracts: ", "logic=proved "

# In the place of clang in a folder of links to the toolchain: keeps the module that rattle has compiled, and the words.
WRAPPER = """#!/bin/sh
for word in "$@"; do
    if [ "$word" = -c ]; then
        printf '%s\\n' "$@" >'{kept}/words'
        cp ./*.bc ./*.ll '{kept}/' 2>'{kept}/log'
    fi
done
exec '{clang}' "$@"
"""


def fail(text):
    sys.exit(f"dist/make.py: {text}")


def read(path):
    with open(path, "rb") as file:
        return file.read()


def write(path, text):
    with open(path, "w", encoding="utf-8", newline="\n") as file:
        file.write(text)


def output_of(words, what, errors=subprocess.PIPE, **how):
    """What a command prints. Where it fails, this ends with its errors, or else with what it said last."""
    ran = subprocess.run(words, stdin=subprocess.DEVNULL, stdout=subprocess.PIPE, stderr=errors, text=True, **how)
    if ran.returncode:
        said = (ran.stdout + (ran.stderr or "")).splitlines()
        said = [it for it in said if re.search(r"error|not proved|^rt:", it)] or said
        fail("\n".join([f"{what}:", *(it[:300] for it in said[-12:])]))
    return ran.stdout


def verdict_in(said):
    """The lines of a check or a build that MANIFEST has; none if the crate isn't proved."""
    axioms = [(line, re.findall(r"^  (\S+) +reached$", names, re.M)) for line, names in AXIOMS.findall(said)]
    looked, verdict = ([it for it in said.splitlines() if it.startswith(word)] for word in (LOOKED, VERDICT))
    if not verdict:
        return []
    counted = re.search(r" axioms=(\d+) ", verdict[0])
    if axioms and sum(len(names) for _, names in axioms) != int(counted[1] if counted else 0):
        fail(f"the names of the C functions aren't as many as the toolchain says: {verdict[0]}")
    return [*(f"{line}: {', '.join(names)}" for line, names in axioms), *looked, *verdict]


def verdicts_in(log):
    """The same of each crate that a log of the gate has."""
    blocks = re.findall(r"^== (\w+)\n((?:(?!== ).*\n)*?)rt: \1 proved$", log, re.M)
    return {name: lines for name, said in blocks if (lines := verdict_in(said))}


class Toolchain:
    def __init__(self, work, jobs, is_said=False):
        self.work, self.jobs, self.built = work, str(jobs), {}
        # (whether a call can meet each contract takes time to look for, and is said in MANIFEST alone)
        self.looks = ["--empty-contracts"] if is_said else []
        for tool in ("rt", "rattle"):
            if not shutil.which(tool):
                fail(f"the toolchain's {tool} isn't on PATH; only making the texts takes the toolchain, and not using them")
        self.version = output_of(["rt", "version"], "`rt version` failed").strip()
        if not self.version.endswith(LOGIC):
            fail(f"the toolchain is `{self.version}`, and this script was tried with `{LOGIC}` alone: see LOGIC in it")
        kit = os.path.dirname(output_of(["rt", "doc"], "`rt doc` failed").strip())
        self.clang = f"{kit}/toolchain/bin/clang"
        # (a crate's folder, its libraries, and the words for its build, as rt itself has them)
        sys.path.insert(0, f"{kit}/bin")
        sys.dont_write_bytecode = True
        try:
            import rtlib

            self.crates = {it.name: it for it in rtlib.crates_below(ROOT)}
            for crate, target in ((self.crates.get(CRATES[name]), target) for (name, _), target in COMPARED.items()):
                _ = crate and (crate.folder, crate.is_program, [it.is_built for it in crate.below()], self.words(crate, target))
        except (AttributeError, ImportError, TypeError) as error:
            fail(f"the toolchain {self.version} doesn't give the words for a build: {error!r}")
        lacking = set(CRATES.values()) - set(self.crates)
        if lacking:
            fail(f"crates.txt has no {', '.join(sorted(lacking))}")
        # One program of the toolchain is all of LLVM's tools, by the name that it is called by.
        self.folder, self.kept = f"{work}/toolchain", f"{work}/kept"
        os.makedirs(f"{self.folder}/bin")
        os.makedirs(self.kept)
        os.symlink(f"{kit}/toolchain/lib", f"{self.folder}/lib")
        for name in os.listdir(f"{kit}/toolchain/bin"):
            if name != "clang":
                os.symlink(os.path.realpath(f"{kit}/toolchain/bin/{name}"), f"{self.folder}/bin/{name}")
        if not os.path.exists(f"{self.folder}/bin/llvm-nm"):
            os.symlink(self.clang, f"{self.folder}/bin/llvm-nm")
        write(f"{self.folder}/bin/clang", WRAPPER.format(kept=self.kept, clang=self.clang))
        os.chmod(f"{self.folder}/bin/clang", 0o755)

    def words(self, crate, target):
        """What `rattle build` is told of a crate."""
        return crate.words(["--jobs", self.jobs, "--target", target], False)

    def tool(self, name, *words):
        return output_of([f"{self.folder}/bin/{name}", *words], f"the toolchain's {name} failed")

    def check(self, name):
        """What the toolchain says of a library, over what was kept of its proofs."""
        print(f"dist/make.py: {name}", file=sys.stderr)
        said = output_of(["rt", "check", "--jobs", self.jobs, *self.looks], f"{name} isn't proved", subprocess.STDOUT,
                         cwd=self.crates[name].folder)
        return verdict_in(said) or fail(f"rt check gave no verdict on {name}")

    def build(self, name, target):
        """Compiles a crate for a target. Returns its module and the words that clang had for it, what rattle made, and what
        the toolchain says of it."""
        if (name, target) in self.built:
            return self.built[name, target]
        crate = self.crates[name]
        print(f"dist/make.py: {name} for {target}", file=sys.stderr)
        if not all(it.is_built() for it in crate.below()):
            output_of(["rt", "check", "--jobs", self.jobs], f"{name} isn't proved", subprocess.STDOUT, cwd=crate.folder)
        shutil.rmtree(self.kept)
        to = f"{self.work}/{name}-{target}"
        os.makedirs(self.kept)
        os.makedirs(to)
        words = [*self.words(crate, target), *self.looks, "--list-axioms"]
        words += ["--backend", "llvm", "--toolchain", self.folder, "--incremental", "out/incremental", "-o", f"{to}/made"]
        said = output_of(["rattle", "build", *words], f"{name} isn't proved and compiled for {target}",
                         subprocess.STDOUT, cwd=crate.folder)
        verdict = verdict_in(said) or fail(f"rattle gave no verdict on {name} for {target}")
        try:
            clang = read(f"{self.kept}/words").decode().splitlines()
            for word in ("-c", "-o", "-Werror"):
                clang.index(word)
            module = shutil.move(f"{self.kept}/{clang[clang.index('ir', clang.index('-x')) + 1]}", to)
        except (OSError, ValueError, IndexError) as error:
            fail(f"the toolchain {self.version} doesn't call clang with -Werror -c -x ir MODULE -o OBJECT: {error!r}")
        self.built[name, target] = module, clang, f"{to}/made", verdict
        return self.built[name, target]

    def assemble(self, text, name, triple):
        """The object that the toolchain's clang makes of a text."""
        path = f"{self.work}/{name}"
        write(f"{path}.s", text)
        march = ["-march=x86-64-v2"] if triple.startswith("x86_64") else []
        output_of([self.clang, f"--target={triple}", "--no-default-config", *march, "-c", "-o", f"{path}.o", f"{path}.s"],
                  f"{name} isn't assembled for {triple}")
        return f"{path}.o"

    def image(self, file):
        """The bytes of code and data that an object or an archive is linked to."""
        out = f"{self.work}/image"
        words = ["-shared", "--build-id=none", "-z", "norelro", "--oformat=binary"]
        self.tool("ld.lld", *words, "-o", out, "--whole-archive", file)
        return read(out)

    def names(self, file, *words):
        """Names of an object's symbols, as C has them."""
        found = self.tool("llvm-nm", "-j", *words, file).split()
        is_macho = read(file)[:4] == b"\xcf\xfa\xed\xfe"
        return {it[1:] if is_macho else it for it in found}


# ---- modules and texts

QUOTED = re.compile(r'(@?)"([^"]*)"')
# Attributes for one processor.
OF_PROCESSOR = re.compile(r' "(target-cpu|target-features|tune-cpu)"="[^"]*"')


def plain_name(name):
    # (types that differ by these; and LLVM adds a number to some, after a dot)
    name = name.replace("()", "unit").replace("*", "pointer")
    return re.sub(r"[^\w.$]+\.?", ".", name, flags=re.A).rstrip(".")


def plain(text):
    """What clang writes of rattle's own module, with the names that the module in dist/ has."""
    def renamed(match):
        # (the flags of a section stay in quotes)
        return match[0] if re.fullmatch(r"[\w.$-]*", match[2], re.A) else plain_name(match[2])

    lines = texts.DROPPED.sub("", text).splitlines(True)
    return "".join(it if texts.IS_DATA.match(it) else QUOTED.sub(renamed, it) for it in lines if it != "\n")


def named(text, name):
    """The same with a program's names of what it takes from its system."""
    if name not in texts.PROGRAMS:
        return text
    found = re.compile(rf"(?<![\w.$])({'|'.join(OF_SYSTEM)})(?![\w.$])")
    lines = text.replace(".text.main,", ".text.rattle_main,").splitlines(True)
    return "".join(it if texts.IS_DATA.match(it) else found.sub(lambda word: OF_SYSTEM[word[1]], it) for it in lines)


def neutral(tools, name):
    """The module of dist/: the one for Linux on x86-64 without what is of that system alone."""
    module = tools.build(CRATES[name], LINUX)[0]
    # (the order of a value's uses, by which a pass may go, is said where reading the text would give another; not of a program, two
    # of whose names become one)
    uses = [] if name in texts.PROGRAMS else ["-Xclang", "-emit-llvm-uselists"]
    words = ["-S", "-emit-llvm", *uses, "-Xclang", "-disable-llvm-passes", "--no-default-config", "-x", "ir", module, "-o", "-"]
    text = output_of([tools.clang, *words], "the module isn't read")
    text = re.sub(r"^(; ModuleID|target ).*\n", "", text, flags=re.M)
    if lacking := [it for it in re.findall(r"^define .*", text, re.M) if not re.search(r" #\d+ ", it)]:
        fail(f"a function without attributes: {lacking[0]}")
    defines, taken = set(re.findall(r"^define .* (#\d+) .*", text, re.M)), {}

    def attributes(found):
        said = OF_PROCESSOR.sub("", found[3].replace(texts.OLDEST, '"oldest-processor"'))
        return f"{found[1]}{' uwtable' if found[2] in defines else ''}{said}"

    def renamed(match):
        if not match[1]:
            return match[0]
        if taken.setdefault(plain_name(match[2]), match[2]) != match[2]:
            fail(f"two functions would be called {plain_name(match[2])}: {match[2]} and {taken[plain_name(match[2])]}")
        return f"@{plain_name(match[2])}"

    text = QUOTED.sub(renamed, re.sub(r"^(attributes (#\d+) = \{)(.*)", attributes, text, flags=re.M))
    if name in texts.PROGRAMS:
        text = re.sub(rf"(?<=@)({'|'.join(OF_SYSTEM)})(?=\()", lambda found: OF_SYSTEM[found[1]], text)
        # (two of them have one name)
        declared = re.findall(r"^declare .*@(\w+)\(.*\n", text, re.M)
        for it in (it for it in set(declared) if declared.count(it) > 1):
            text = re.sub(rf"^declare .*@{it}\(.*\n", "", text, count=1, flags=re.M)
    return text


def compare_with_rattle(tools, name, module, system):
    """Whether the module gives for a system what rattle compiles for it. Returns a sentence, and what the toolchain says."""
    target = COMPARED[name, system]
    own, words, built, verdict = tools.build(CRATES[name], target)
    as_rattle = texts.AS_RATTLE[system]
    words = [it for it in words if not it.startswith(("--target=", "--sysroot="))]
    words[words.index("-c")], words[words.index("-o") + 1], words[words.index("-x") + 2] = "-S", "-", own
    known = {*texts.WORDS, *as_rattle.words, *(texts.PROGRAM if name in texts.PROGRAMS else texts.LIBRARY)}
    # (on arm64 rattle has had LLVM's passes run before)
    if other := (known ^ set(words)) - {"-S", "-o", "-", "-x", "ir", own, "-Xclang", "-disable-llvm-passes"}:
        fail(f"rattle calls clang otherwise than texts.py: {' '.join(sorted(other))}")
    text = plain(output_of([tools.clang, f"--target={target}", *words, "-fno-verbose-asm", "-fno-addrsig"],
                           f"the module isn't compiled for {target}", cwd=tools.work))
    image = tools.image(tools.assemble(text, f"{name}-{system}", target))
    if image != tools.image(built):
        fail(f"the module of {CRATES[name]} doesn't assemble to what rattle built for {target}")
    is_program = name in texts.PROGRAMS
    bare = texts.compiled(tools.clang, module, as_rattle, is_program)
    if bare != named(text, name):
        fail(f"dist/{name}.ll gives other code than rattle built for {target}")
    if system == "x86_64-elf":
        # The tables change nothing else. (on arm64 they do, as x18 does)
        unwound = texts.compiled(tools.clang, module, as_rattle._replace(is_unwound=True), is_program)
        if re.sub(r"^\t\.cfi_.*\n", "", unwound, flags=re.M) != bare:
            fail(f"{name}-{system}.s: the tables for unwinding changed the code")
    return f"its {len(image):,} bytes of code and data are those that rattle built", verdict


def header_functions():
    """The names that the header declares, but those that it defines itself."""
    header = re.sub(r"/\*.*?\*/", "", read(f"{ROOT}/include/dcsctp.h").decode(), flags=re.S)
    of_header = re.findall(r"static inline[^;{]*?\b(dcsctp_\w+)\(", header)
    return set(re.findall(r"\b(dcsctp_\w+)\(", header)) - set(of_header)


def made(tools, name, module, system):
    """The text of a module for a system, and a line that says what it has."""
    file = f"{name}-{system}.s"
    text = texts.text_of(tools.clang, module, name, texts.SYSTEMS[system])
    object_file = tools.assemble(text, file, texts.SYSTEMS[system].triple)
    is_program = name in texts.PROGRAMS
    visible, wanted = tools.names(object_file, "-g", "--defined-only"), {"rattle_main"} if is_program else header_functions()
    if visible != wanted:
        fail(f"{file}: what is visible isn't what it has to be: {' '.join(sorted(visible ^ wanted))}")
    needed = tools.names(object_file, "-u") - {"_GLOBAL_OFFSET_TABLE_"}
    if more := needed - LIBC - ({*OF_PROGRAM, ON_WINDOWS} if is_program else set()):
        fail(f"{file} needs {' '.join(sorted(more))}, and dist/README.md says that it doesn't")
    if tools.work in text or ROOT in text:
        fail(f"{file} has a path of this machine in it")
    return text, f"{file}: {len(text):,} bytes, {text.count(chr(10)):,} lines; needs {' '.join(sorted(needed))}"


# ---- the manifest

def sum_of(data):
    return hashlib.sha256(data).hexdigest()


def source_sum(folder):
    """What dist/README.md has a shell say of a crate's sources: the sum of the sums of its files."""
    walked = (it for part in ("src", "specs") for it in os.walk(f"{folder}/{part}"))
    files = (os.path.relpath(os.path.join(at, name), folder) for at, _, names in walked for name in names)
    lines = (f"{sum_of(read(os.path.join(folder, it)))}  {it}\n" for it in sorted(files, key=os.fsencode))
    return sum_of("".join(lines).encode())


def manifest_head(tools):
    """What the texts are made from: the version, the toolchain, and the sources of each crate in them."""
    version = re.search(r'^#define DCSCTP_VERSION "(.*)"$', read(f"{ROOT}/include/dcsctp.h").decode(), re.M)[1]
    crates = {it.name: it.folder for name in CRATES.values() for it in (*tools.crates[name].below(), tools.crates[name])}
    head = f"# dcsctp {version}; dist/README.md says how to check this\n{TOOLCHAIN}{tools.version}\n"
    return head + "".join(f"# source {source_sum(crates[it])} {it}\n" for it in sorted(crates))


def verdicts_of(manifest, name):
    """The lines of a MANIFEST's text that say what the toolchain says of a crate, without its name."""
    return re.findall(rf"^# proved {name}: (.*)$", manifest, re.M)


def said_before(given):
    """The text of the MANIFEST that was made before, if there is one."""
    path = next((it for it in (f"{given.into}/MANIFEST", f"{ROOT}/dist/MANIFEST") if os.path.isfile(it)), os.devnull)
    return read(path).decode()


def on_library(tools, name, old, logs, is_compared):
    """What the toolchain says of a library: see the help above."""
    if name in logs:
        return logs[name]
    crate = tools.crates[name]
    sources = [f"# source {source_sum(it.folder)} {it.name}" for it in (*crate.below(), crate)]
    kept, lines = verdicts_of(old, name), old.splitlines()
    if kept and all(it in lines for it in (f"{TOOLCHAIN}{tools.version}", *sources)):
        return kept
    return fail(f"MANIFEST has no verdict on {name}; run dist/make.py") if is_compared else tools.check(name)


def on_libraries(tools, given):
    """What the toolchain says of each library in the texts, the lowest first."""
    old, logs = said_before(given), {}
    for log in given.log:
        logs |= verdicts_in(read(log).decode(errors="replace"))
    libraries = dict.fromkeys(it.name for name in CRATES.values() for it in tools.crates[name].below())
    return {it: on_library(tools, it, old, logs, given.compare) for it in libraries}


def on_built(built, given):
    """What the toolchain says of the crates that were compiled; whether a call can meet each contract is looked for only where
    MANIFEST is made, and is taken from it where that is compared."""
    old = said_before(given) if given.compare else ""
    for name, lines in built.items():
        at = next(i for i, it in enumerate(lines) if it.startswith(VERDICT))
        lines[at:at] = (it for it in verdicts_of(old, name) if it.startswith(LOOKED))
    return built


def comparable(name, data):
    """The lines of a file, those of MANIFEST without the words for what was taken from earlier runs."""
    lines = data.decode().splitlines()
    is_said = re.compile(r"# proved " if name == "MANIFEST" else r"(?!)")
    return [re.sub(r" \S+=trusted", "", it) if is_said.match(it) else it for it in lines]


def differing(fresh, folder, names):
    """Says which files of a folder aren't what they would be made, and the first line that differs."""
    found = []
    for name in names:
        if not os.path.isfile(f"{folder}/{name}"):
            found.append(f"{name} is missing")
            continue
        new, old = (comparable(name, read(f"{it}/{name}")) for it in (fresh, folder))
        if new != old:
            line = next((i for i, (a, b) in enumerate(zip(new, old)) if a != b), min(len(new), len(old)))
            found.append(f"{name} isn't what the sources give, from line {line + 1} on")
    return found


def main():
    parser = argparse.ArgumentParser(usage=__doc__.strip()[7:], add_help=False)
    parser.add_argument("--compare", action="store_true")
    parser.add_argument("--copies", action="store_true")
    parser.add_argument("--into", default=f"{ROOT}/dist")
    parser.add_argument("--jobs", type=int, default=1)
    parser.add_argument("--log", action="append", default=[])
    parser.add_argument("names", nargs="*")
    parser.add_argument("--help", action="store_true")
    given = parser.parse_args()
    if given.help:
        print(__doc__.strip())
        return
    for it in given.names:
        if it not in CRATES:
            fail(f"{it} isn't one of {' '.join(CRATES)}")
    if not given.copies:
        with tempfile.TemporaryDirectory() as work:
            make(Toolchain(work, given.jobs, not given.compare and not given.names), given, f"{work}/fresh")
    if given.copies or (given.into == f"{ROOT}/dist" and not given.names):
        package(given.compare)


def package(is_compared):
    """Makes the packages' copies, or compares them."""
    if is_compared:
        found = [it for it, source in PACKAGED.items()
                 if not os.path.isfile(f"{ROOT}/{it}") or read(f"{ROOT}/{it}") != read(f"{ROOT}/{source}")]
        if found:
            fail(f"{', '.join(found)}: not the copies that they have to be; run dist/make.py --copies")
        return
    for it, source in PACKAGED.items():
        if os.path.islink(f"{ROOT}/{it}"):
            os.remove(f"{ROOT}/{it}")
        shutil.copyfile(f"{ROOT}/{source}", f"{ROOT}/{it}")


def make(tools, given, fresh):
    os.makedirs(fresh)
    head = manifest_head(tools)
    if given.compare and os.path.isfile(f"{given.into}/MANIFEST"):
        # What needs no build comes first.
        old = read(f"{given.into}/MANIFEST").decode().splitlines()
        kit = next((it[len(TOOLCHAIN):] for it in old if it.startswith(TOOLCHAIN)), None)
        changed = [it.split()[-1] if it.startswith("# source") else it[2:] for it in head.splitlines()
                   if it not in old and not it.startswith(TOOLCHAIN)]
        if changed and not given.names:
            fail(f"changed since dist/ was made: {', '.join(changed)}; run dist/make.py")
        if kit != tools.version:
            # (another kit of the same logic proves the same, and may compile otherwise)
            print(f"dist/make.py: the texts: left out, since they were made by {kit}, and this is {tools.version}")
            return
    said, built = {} if given.names else on_libraries(tools, given), {}
    modules = {name: neutral(tools, name) for name in given.names or CRATES}
    for name, module in modules.items():
        write(f"{fresh}/{name}.ll", module)
        for system in (it for known, it in COMPARED if known == name):
            sentence, verdict = compare_with_rattle(tools, name, module, system)
            print(f"{name} for {system}: {sentence}")
            # (several builds of a crate say some lines alike)
            lines = built.setdefault(CRATES[name], [])
            lines += [it for it in verdict if it not in lines]
    wanted = [(file, name, system) for file, (name, system) in texts.TEXTS.items() if name in modules]
    with ThreadPoolExecutor(given.jobs) as pool:
        ran = [(file, pool.submit(made, tools, name, modules[name], system)) for file, name, system in wanted]
        for file, it in ran:
            text, line = it.result()
            write(f"{fresh}/{file}", text)
            print(line)
    if not given.names:
        for name, source in COPIES.items():
            shutil.copyfile(f"{ROOT}/{source}", f"{fresh}/{name}")
        # (as sha256sum takes it, for which a line with # says nothing)
        files = {it: f"{fresh}/{it}" for it in os.listdir(fresh)} | {it: f"{ROOT}/dist/{it}" for it in MADE_ELSEWHERE}
        sums = "".join(f"{sum_of(read(path))}  {it}\n" for it, path in sorted(files.items()))
        said |= on_built(built, given)
        verdicts = "".join(f"# proved {name}: {it}\n" for name in sorted(said) for it in said[name])
        write(f"{fresh}/MANIFEST", head + verdicts + sums)
    names = sorted(os.listdir(fresh))
    if not given.compare:
        os.makedirs(given.into, exist_ok=True)
        for it in names:
            shutil.copyfile(f"{fresh}/{it}", f"{given.into}/{it}")
        return
    found = differing(fresh, given.into, names)
    if found:
        fail(f"{'; '.join(found)}; run dist/make.py")
    print(f"dist/make.py: {len(names)} files are what the sources give")


if __name__ == "__main__":
    main()
