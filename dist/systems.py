#!/usr/bin/env python3
# SPDX-License-Identifier: Apache-2.0
"""usage: dist/systems.py [FOLDER]

Tries which text of dist/ each package takes on each system, on whichever this runs: Python's backend.py under other names of
the system, the conditions of Rust's text.rs under the cfgs of each target, also of those in its README.md, the files that Go
lists, and CMakeLists.txt by `cmake -P`. Nothing is compiled. FOLDER has dist/ and bindings/; without it, this checkout has.
What isn't installed (rustc from 1.85 on, go, cmake) is left out, and named.
"""

import filecmp
import os
import platform
import re
import shutil
import subprocess
import sys
import tempfile
from unittest import mock

# The text, or - where there is none; sys.platform and platform.machine(); rustc's target; GOOS/GOARCH; CMAKE_SYSTEM_NAME and
# CMAKE_SYSTEM_PROCESSOR, after : CMAKE_OSX_ARCHITECTURES. A - elsewhere is a system that the package's tool has no name for.
SYSTEMS = """
x86_64-elf     linux     x86_64      x86_64-unknown-linux-gnu       linux/amd64    Linux    x86_64
x86_64-elf     freebsd14 amd64       x86_64-unknown-freebsd         freebsd/amd64  FreeBSD  amd64
x86_64-elf     -         -           x86_64-unknown-linux-musl      android/amd64  -        -
aarch64-elf    linux     aarch64     aarch64-unknown-linux-gnu      linux/arm64    Linux    aarch64
aarch64-elf    freebsd14 arm64       aarch64-unknown-freebsd        freebsd/arm64  FreeBSD  arm64
aarch64-elf    -         -           aarch64-unknown-none           android/arm64  -        -
x86_64-none    -         -           x86_64-unknown-none            -              -        -
x86_64-macho   darwin    x86_64      x86_64-apple-darwin            darwin/amd64   Darwin   x86_64
x86_64-macho   -         -           -                              ios/amd64      Darwin   arm64:x86_64
aarch64-macho  darwin    arm64       aarch64-apple-darwin           darwin/arm64   Darwin   arm64
aarch64-macho  -         -           aarch64-apple-ios              ios/arm64      Darwin   x86_64:arm64
x86_64-coff    win32     AMD64       x86_64-pc-windows-msvc         windows/amd64  Windows  AMD64
x86_64-coff    -         -           x86_64-pc-windows-gnu          -              -        -
x86_64-elf     -         -           -                              -              Android  x86_64
aarch64-elf    -         -           -                              -              Android  aarch64
aarch64-elf    -         -           -                              -              OHOS     aarch64
x86_64-elf     -         -           -                              -              NetBSD   amd64
x86_64-elf     -         -           -                              -              DragonFly x86_64
aarch64-elf    -         -           -                              -              Fuchsia  aarch64
aarch64-macho  -         -           -                              -              iOS      arm64
-              -         -           -                              -              OpenBSD  amd64
-              -         -           -                              -              SunOS    x86_64
-              -         -           -                              -              VxWorks  x86_64
-              -         -           -                              -              CYGWIN   x86_64
-              -         -           -                              -              WindowsStore AMD64
-              -         -           -                              -              Generic  aarch64
-              win32     ARM64       aarch64-pc-windows-msvc        windows/arm64  Windows  ARM64
-              linux     riscv64     riscv64gc-unknown-linux-gnu    linux/riscv64  Linux    riscv64
-              linux     i686        i686-unknown-linux-gnu         linux/386      Linux    i686
-              linux     aarch64_be  aarch64_be-unknown-linux-gnu   -              Linux    aarch64_be
-              linux     armv7l      armv7-unknown-linux-gnueabihf  linux/arm      Linux    armv7l
-              -         -           x86_64-unknown-linux-gnux32    android/arm    -        -
-              -         -           -                              openbsd/amd64  -        -
-              -         -           -                              netbsd/arm64   -        -
-              -         -           -                              illumos/amd64  -        -
-              -         -           -                              js/wasm        -        -
-              win32     x86         i686-pc-windows-msvc           windows/386    Windows  X86
"""


def of_python(folder, system, machine):
    """The text that backend.py has the compiler link."""
    sys.path.insert(0, os.path.join(folder, "bindings", "python"))
    import backend

    def run(words, **_):
        linked.extend(it for it in words if it.endswith(".s"))
        open(words[words.index("-o") + 1], "wb").close()
        return subprocess.CompletedProcess(words, 0)

    linked = []
    with (
        mock.patch.object(sys, "platform", system),
        mock.patch.object(platform, "machine", lambda: machine),
        mock.patch.object(subprocess, "run", run),
        mock.patch.dict(os.environ, CC=sys.executable),
    ):
        try:
            backend.module()
        except SystemExit as error:
            return None if "there is no" in str(error) else str(error)
    (path,) = linked
    return os.path.basename(path)


def of_rust(folder, target):
    """The text that text.rs takes; None if it refuses the target."""
    found, refusals = texts_of_rust(folder, target)
    return None if refusals else found[0] if len(found) == 1 else found


def texts_of_rust(folder, target):
    """The texts whose conditions in text.rs hold, in the syntax that they have, and the reasons for which it refuses the target."""
    with open(os.path.join(folder, "bindings", "rust", "src", "text.rs"), encoding="utf-8") as file:
        source = re.sub(r"//.*", "", file.read())
    words = ["rustc", "--print", "cfg", "--target", target]
    cfgs = subprocess.run(words, capture_output=True, text=True, check=True).stdout.split()

    def holds(condition):
        # Each word is true or false of the target; any, all and not mean in Python what they mean in Rust.
        said = re.sub(r'(\w+) = ("\w*")', lambda it: str(f"{it[1]}={it[2]}" in cfgs), condition)
        return eval(said, {"any": lambda *it: any(it), "all": lambda *it: all(it)})

    found = []
    for arch, text, systems, syntax in re.findall(r'^    ("\w+"), "([^"]*)", \[([^]]*)\](?:, (att_syntax))?;', source, re.M):
        if f"target_arch={arch}" in cfgs and any(f"target_os={it}" in cfgs for it in re.findall(r'"\w+"', systems)):
            # (att_syntax is a word of x86 alone, whose texts need it)
            odd = "" if bool(syntax) == (arch == '"x86_64"') else f" {syntax}"
            is_there = os.path.isfile(os.path.join(folder, "dist", text))
            found.append(f"{text}{odd}" if is_there else f"{text}, which isn't in dist/")
    refusals = re.findall(r'refuse!\(\s*(.*?),\s*"([^"]*)"\s*\);', source, re.S)
    # (the macro with the texts refuses what they don't name)
    refusals = [(re.sub(r"not\(any\(\$.*\)\)", str(not found), condition, flags=re.S), why) for condition, why in refusals]
    return found, [why for condition, why in refusals if holds(condition)]


def targets_of_rust(folder):
    """The table of targets in the package's README.md: of each target what is expected, and what is so."""
    with open(os.path.join(folder, "bindings", "rust", "README.md"), encoding="utf-8") as file:
        rows = re.findall(r"^\| (`[^|]*`) \| (?:`([^|`]*)`|none: ([^|]*)) \|$", file.read(), re.M)
    for targets, text, reasons in rows:
        for target in re.findall(r"`([^`]*)`", targets):
            found, refusals = texts_of_rust(folder, target)
            if reasons:
                words = reasons.split("; ")
                said = [next((word for word in words if word in why), why) for why in refusals]
                yield target, sorted(words), sorted(said)
            else:
                yield target, [text], found + refusals


def of_go(folder, system):
    """The text that Go assembles, by the dist/ file that it is; system.go has to be there if and only if there is none."""
    goos, goarch = system.split("/")
    package = os.path.join(folder, "bindings", "go")
    environment = dict(os.environ, GOOS=goos, GOARCH=goarch, CGO_ENABLED="1", GOPROXY="off", GOFLAGS="-mod=mod")
    listed = subprocess.run(
        ["go", "list", "-e", "-f", "{{join .SFiles \" \"}} {{join .GoFiles \" \"}}", ".", "./internal/requirements"],
        cwd=package, env=environment, capture_output=True, text=True, check=True,
    ).stdout.split()
    taken = [it for it in listed if it.endswith((".s", ".S"))]
    if (not taken) != ("system.go" in listed) or len(taken) > 1:
        return listed
    if taken and taken[0].endswith(".S"):
        with open(os.path.join(package, taken[0]), encoding="utf-8") as file:
            taken = re.findall(r'^\.include "(.*)"$', file.read(), re.M)
    dist = os.path.join(folder, "dist")
    texts = (it for it in os.listdir(dist) if it.endswith(".s"))
    return next((it for it in texts if filecmp.cmp(f"{dist}/{it}", f"{package}/{taken[0]}", False)), taken) if taken else None


def of_cmake(folder, system, processor):
    """The text that the part of CMakeLists.txt before the library says."""
    dist = os.path.join(folder, "dist")
    with open(os.path.join(dist, "CMakeLists.txt"), encoding="utf-8") as file:
        part = re.search(r"^# ---- the text for this system\n(.*?)^enable_language", file.read(), re.S | re.M)[1]
    processor, _, architectures = processor.partition(":")
    values = {
        "CMAKE_SYSTEM_NAME": system, "CMAKE_SYSTEM_PROCESSOR": processor, "CMAKE_OSX_ARCHITECTURES": architectures,
        "CMAKE_CURRENT_SOURCE_DIR": dist, "CMAKE_SIZEOF_VOID_P": "8",
        # (what CMake makes of the system's name)
        "APPLE": str(system in ("Darwin", "iOS")).upper(), "WIN32": str(system == "Windows").upper(),
    }
    script = "cmake_minimum_required(VERSION 3.14)\n" + "".join(f'set({name} "{it}")\n' for name, it in values.items())
    with tempfile.NamedTemporaryFile("w", suffix=".cmake") as file:
        file.write(script + part + 'message("text ${text}")\n')
        file.flush()
        ran = subprocess.run(["cmake", "-P", file.name], capture_output=True, text=True)
    if ran.returncode:
        return None if "dcsctp: there is no " in " ".join(ran.stderr.split()) else ran.stderr
    return re.search(r"^text (.*)", ran.stderr, re.M)[1]


def has(tool):
    if tool == "rustc-1.85":
        words = ["rustc", "--edition", "2024", "--print", "cfg"]
        return shutil.which("rustc") and not subprocess.run(words, capture_output=True).returncode
    return shutil.which(tool)


def main():
    folder = os.path.abspath(sys.argv[1] if len(sys.argv) > 1 else os.path.join(os.path.dirname(__file__), os.pardir))
    tried, wrong = 0, 0
    packages = {"Python": (of_python, None), "Rust": (of_rust, "rustc-1.85"), "Go": (of_go, "go"), "CMake": (of_cmake, "cmake")}
    for package, (_, tool) in list(packages.items()):
        if tool and not has(tool):
            print(f"{package}: left out, since there is no {tool}")
            del packages[package]
    for line in SYSTEMS.split("\n")[1:-1]:
        text, python, machine, target, go, cmake, processor = line.split()
        expected = None if text == "-" else f"dcsctp-{text}.s"
        names = {"Python": (python, machine), "Rust": (target,), "Go": (go,), "CMake": (cmake, processor)}
        for package, (of, _) in packages.items():
            if names[package][0] == "-":
                continue
            found = of(folder, *names[package])
            tried += 1
            if found != expected:
                wrong += 1
                print(f"{package} on {' '.join(names[package])}: takes {found}, not {expected}")
    for target, expected, found in targets_of_rust(folder) if "Rust" in packages else ():
        tried += 1
        if found != expected:
            wrong += 1
            print(f"Rust's README.md on {target}: {expected}, not {found}")
    print(f"systems: {tried} tried, {wrong} wrong")
    return wrong > 0


if __name__ == "__main__":
    sys.exit(main())
