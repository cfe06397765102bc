#!/usr/bin/env bash
# SPDX-License-Identifier: Apache-2.0
# Tries the texts of dist/ as people without the toolchain use them.
set -u

usage='usage: dist/test.sh [--library] [FOLDER]

Tries the texts with each compiler and package tool that is there, in folders of their own, with no toolchain on PATH. Each
program has to print examples/expected.txt, and on all systems the same for 4,000 packets made at random. All packages read and
write 5,000 vectors made at random. What is not installed is left out, and named. The last line is: dist: N passed, M failed, K left out.

FOLDER has dist/ and bindings/, as an unpacked release; without it, this checkout has. The examples are the checkout'\''s.
--library leaves out what runs sctp_dump over captures.

Needed is a C compiler. Used where they are there: Python (from 3.10 on); gcc, clang, a C++ compiler, CMake, pkg-config, cargo (from
1.85 on), pip, go (from 1.19 on), node (from 18 on), tsc, esbuild, chromium; musl-gcc and qemu-x86_64; for arm64 aarch64-linux-gnu-gcc
and qemu-aarch64; for Windows x86_64-w64-mingw32-gcc and Wine; for riscv64 clang from 22 on and riscv64-linux-gnu-gcc; pion/sctp for
Go. Debian has musl-tools, qemu-user, gcc-aarch64-linux-gnu with libc6-dev-arm64-cross, gcc-mingw-w64-x86-64, wine64 and
golang-github-pion-sctp-dev. For the archive of a release git, and for Debian'\''s packages dpkg-dev, what they are built with (by
dpkg-checkbuilddeps), lintian and mandoc.'

library=
[ "${1:-}" != --library ] || { library=yes && shift; }
case ${1:-} in
    --help) echo "$usage" && exit ;;
    -*) echo "$usage" >&2 && exit 2 ;;
esac
cd "$(dirname "$0")/.." || exit
root=$PWD
from=$(cd "${1:-.}" && pwd) || exit
for file in dcsctp-x86_64-elf.s sctp_show-x86_64-elf.s sctp_dump-x86_64-elf.s dcsctp.h MANIFEST; do
    [ -f "$from/dist/$file" ] || { echo "dist: $from/dist has no $file; dist/make.py makes it" >&2 && exit 1; }
done

# A clang that takes the modules, 22 or later: the toolchain's has no other name.
clang_22=$(command -v clang-22 || { kit=$(rt doc 2>/dev/null) && echo "$(dirname "$kit")/toolchain/bin/clang"; } || echo clang-22)

# PATH without the folders of the toolchain.
path=
while IFS= read -r -d : folder; do
    if [ -x "$folder/rt" ] || [ -x "$folder/rattle" ]; then continue; fi
    path=$path:$folder
done <<<"$PATH:"
export PATH=${path#:} PYTHONDONTWRITEBYTECODE=1

all=$(mktemp -d)
trap 'rm -rf "$all"' EXIT
examples=$root/examples cc=${CC:-cc} cxx=${CXX:-c++}

# Has what follows work in a folder of its own, with copies of the texts and the packages.
enter() {
    work=$all/$1
    dist=$work/sources/dist bindings=$work/sources/bindings elf=$work/sources/dist/dcsctp-x86_64-elf.s
    mkdir -p "$work/sources/include"
    cp -r "$from/bindings" "$examples" "$from"/{LICENSE,NOTICE} "$work/sources/"
    mkdir "$work/sources/registry" && cp -r "$from/registry/vectors" "$work/sources/registry/"
    if [ -d "$all/first" ] && [ "$1" != first ]; then
        # (nothing writes into these)
        cp -rl "$all/first/sources/dist" "$work/sources/"
        cp "$all"/first/{packets.txt,answers} "$work/" 2>/dev/null
    else
        cp -r "$from/dist" "$work/sources/"
        cp "$root/dist/packets.py" "$work/sources/dist/"
    fi
    cp "$from/dist/dcsctp.h" "$work/sources/include/"
    export WINEDEBUG=-all WINEPREFIX=$work/wine
    passed=0 failed=0 left_out=0
}

# Says that what has a name begins, runs its command in the folder, and counts it; prints the end of its output if it fails.
try() {
    local name=$1
    shift
    printf 'dist: %s: begins\n' "$name"
    if (cd "$work" && "$@") >"$work/log" 2>&1 </dev/null; then
        passed=$((passed + 1))
        printf 'dist: %s: passed\n' "$name"
        grep -e 'left out, since' -e '^\(show\|dump\): [0-9]* passed' "$work/log"
        return 0
    else
        failed=$((failed + 1))
        printf 'dist: %s: failed\n%s\n' "$name" "$(tail -n 20 "$work/log")"
        return 1
    fi
}

# The same, if the tools that the first word names are there.
with() {
    local tool
    for tool in $1; do
        if ! has "$tool"; then
            left_out=$((left_out + 1))
            printf 'dist: %s: left out, since there is no %s\n' "$2" "$tool"
            return 1
        fi
    done
    shift
    try "$@"
}

has() {
    case $1 in
        python-3.10) python3 -c 'import json, shutil, sys; sys.exit(sys.version_info < (3, 10))' 2>/dev/null ;;
        rustc-1.85) rustc --edition 2024 --crate-type lib --emit metadata -o "$work/probe" - </dev/null 2>"$work/log" ;;
        python3-venv) python3 -c 'import ensurepip' 2>"$work/log" ;;
        Python.h) [ -f "$(python3 -c 'import sysconfig; print(sysconfig.get_path("include"))')/Python.h" ] ;;
        git-checkout) git -C "$root" rev-parse --git-dir >/dev/null 2>&1 ;;
        go-1.19) printf '%s\n' go1.19 "$(go version 2>/dev/null | cut -d ' ' -f 3)" | sort -CV ;;
        pion) [ -d /usr/share/gocode/src/github.com/pion/sctp ] ;;
        clang-memory)
            echo 'int main(void) { return 0; }' | clang -fsanitize=memory -o "$work/probe" -x c - 2>"$work/log" && "$work/probe" ;;
        node-18) node -e 'process.exit(process.versions.node.split(".")[0] < 18 ? 1 : 0)' 2>"$work/log" ;;
        *) command -v "$1" >/dev/null ;;
    esac
}

# ---- what a program prints

expected() {
    "$@" "$examples/packets.txt" >printed && diff printed "$examples/expected.txt"
}

# What it answers to the packets made at random, by Python: the first that runs says it, and the others have to say the same.
answers_as_others() {
    has python-3.10 || return 0
    "$@" "$work/packets.txt" >printed || return
    [ -f answers ] || cp printed answers
    cmp printed answers
}

all_of() {
    expected "$@" && answers_as_others "$@"
}

no_toolchain() {
    ! command -v rt && ! command -v rattle
}

sums() {
    cd "$dist" && sha256sum --strict -c MANIFEST
}

one_version() {
    local version
    version=$(sed -n 's/^#define DCSCTP_VERSION "\(.*\)"$/\1/p' "$dist/dcsctp.h")
    grep "^# dcsctp $version;" "$dist/MANIFEST" && grep -x "version = \"$version\"" "$bindings/rust/Cargo.toml"
}

# The program of docs/C.md: to an INIT it prints the answer that `show` prints.
answer() {
    "$cc" -o answer "$examples/c/answer.c" "$elf" -I "$dist" || return
    grep -m 1 '^1388' "$examples/packets.txt" | ./answer | diff - <(sed -n 's/^  answer //p;T;q' "$examples/expected.txt")
}

by() {
    "$1" -std=c11 -O2 -Wall -Wextra -Werror -I "$dist" -o "show_$1" "$examples/c/show.c" "$elf" && all_of "./show_$1"
}

shared() {
    "$cc" -shared -o libdcsctp.so "$elf" -Wl,-soname,libdcsctp.so -Wl,-z,text -Wl,--no-undefined -Wl,--version-script="$dist/dcsctp.map" &&
        "$cxx" -std=c++17 -O2 -I "$dist" -I "$bindings/cpp" -o show_cxx "$bindings/cpp/show.cc" -L. -ldcsctp -Wl,-rpath,"$work" &&
        expected ./show_cxx
}

# A library that has the text in it shows the library's names, but not by the version script of docs/C.md.
embedded() {
    sed -n 's/.*`FILE` has `\(.*\)`\. .*/\1/p' "$root/docs/C.md" >own.map
    printf '#include <dcsctp.h>\nuint32_t own_word(const uint8_t *, size_t);\n%s\n' \
        'uint32_t own_word(const uint8_t *bytes, size_t length) { return dcsctp_word(bytes, length); }' >own.c
    "$cc" -shared -fPIC -fvisibility=hidden -Down_word='__attribute__((visibility("default"))) own_word' -I "$dist" -o libown.so own.c "$elf" &&
        nm -D --defined-only libown.so | grep dcsctp_word &&
        "$cc" -shared -fPIC -I "$dist" -o libown.so own.c "$elf" -Wl,--version-script=own.map &&
        nm -D --defined-only libown.so | grep own_word && ! nm -D --defined-only libown.so | grep dcsctp_
}

musl() {
    musl-gcc -static -O2 -I "$dist" -o show_musl "$examples/c/show.c" "$elf" && all_of ./show_musl
}

arm64() {
    aarch64-linux-gnu-gcc -static -O2 -I "$dist" -o show_arm64 "$examples/c/show.c" "$dist/dcsctp-aarch64-elf.s" &&
        all_of qemu-aarch64 ./show_arm64
}

wine=$(command -v wine64 || command -v wine || ls /usr/lib/wine/wine64 2>/dev/null)
wineserver=$(command -v wineserver || ls /usr/lib/wine/wineserver64 2>/dev/null)
# Begins what programs under Wine share, which would keep the first one's pipe open. It stays for a minute after each, so that none
# begins while it ends.
begin_wine() {
    mkdir -p "$WINEPREFIX"
    if [ -n "$wineserver" ]; then "$wineserver" -p60; fi
    "$wine" cmd /c exit
}
in_wine() {
    "$wine" ./show.exe "Z:$1" 2>/dev/null | tr -d '\r'
}

windows() {
    x86_64-w64-mingw32-gcc -O2 -I "$dist" -o show.exe "$examples/c/show.c" "$dist/dcsctp-x86_64-coff.s" && begin_wine && all_of in_wine
}

# The start of the programs takes nothing but what tests/c/apple.h has.
apple() {
    local processor header text
    mkdir -p apple/sys
    for header in errno fcntl poll signal string unistd sys/stat; do
        echo '#include "apple.h"' >"apple/$header.h"
    done
    for processor in x86_64 aarch64; do
        set -- clang --target="${processor/aarch64/arm64}-apple-macos11" -c -o apple.o
        for text in dcsctp sctp_show sctp_dump; do
            "$@" "$dist/$text-$processor-macho.s" || return
        done
        "$@" -O2 -Wall -Wextra -Werror -ffreestanding -nostdlibinc -I apple -I "$root/tests/c" "$dist/program.c" || return
    done
}

# The text for kernels takes no register for vectors or floating point, and no byte below the stack pointer; and it gives the same.
bare_metal() {
    local text=$dist/dcsctp-x86_64-none.s
    ! grep -nE '%([xyz]?mm[0-9]|st\b|st\()|-(0x)?[0-9a-f]+\(%rsp\)' "$text" && "$cc" -O2 -mno-red-zone -I "$dist" -o show_none "$examples/c/show.c" "$text" &&
        all_of ./show_none
}

# A program and the library as one module of LLVM, by the command of docs/C.md. (The toolchain's clang has no headers of its own.)
one_module() {
    local command
    command=$(sed -n 's/^    \(clang-22 .*\) answer.c \(.*\) -o answer$/\1 \2/p' "$root/docs/C.md" | sed "s|dist|$dist|g")
    ${command/clang-22/$clang_22} --target=x86_64-linux-gnu --no-default-config -B"$(dirname "$clang_22")" \
        -isystem "$(gcc -print-file-name=include)" "$examples/c/show.c" -o show_module && all_of ./show_module
}

# A system that there is no text for.
riscv64() {
    "$clang_22" --target=riscv64-linux-gnu --no-default-config -Wno-override-module -O3 -c "$dist/dcsctp.ll" "$dist/heap.ll" &&
        riscv64-linux-gnu-gcc -static -O2 -I "$dist" -o show_riscv64 "$examples/c/show.c" dcsctp.o heap.o && all_of qemu-riscv64 ./show_riscv64
}

# A program that is protected by marks of calls and returns stays so when it links a text: the texts have these marks in their
# notes, and at the start of each function that others call. $1 is a prefix of the tools, $2 a flag, $3 the marks; then files.
keeps_marks() {
    local tools=$1 flag=$2 marks=$3 text
    echo 'int f(void) { return 0; }' >marked.c && "${tools}gcc" "$flag" -c marked.c || return
    for text in "${@:4}"; do
        "${tools}gcc" -c -o text.o "$dist/$text" && "${tools}ld" -r -o both.o marked.o text.o && "${tools}readelf" -nW both.o | grep "$marks" || return
        awk '/^\t\.globl/ { is_visible[$2 ":"] = 1 } is_wanted && !/^[\t.]*(cfi_|L)/ && !/^\t\.p2align/ { if (!/endbr64|hint\t#(34|25)/) { print is_wanted; bad = 1 } is_wanted = "" }
            is_visible[$0] { is_wanted = $0; n++ } /\tjmpq?\t\*/ && !/notrack/ { print; bad = 1 } END { exit bad || !n }' "$dist/$text" || return
    done
}

# A crash in a call shows who called.
unwound() {
    "$cc" -O1 -Wall -Wextra -Werror -I "$dist" -o unwound "$root/tests/c/unwind.c" "$elf" && ./unwound
}

# So it does in a debugger.
by_gdb() {
    local words=() _
    for _ in {1..11}; do words+=(-ex bt -ex continue); done
    "$cc" -O1 -g -I "$dist" -o crashes "$root/tests/c/unwind.c" "$elf" &&
        [ "$(gdb -q -batch -ex run "${words[@]}" ./crashes | tee crashes.txt | grep -c '^#.* main (')" -eq 11 ] || { cat crashes.txt; return 1; }
}

# So it does on arm64, where calls keep x18.
kept_on_arm64() {
    aarch64-linux-gnu-gcc -static -O1 -ffixed-x18 -I "$dist" -o x18 "$root/tests/c/x18.c" "$dist/dcsctp-aarch64-elf.s" &&
        qemu-aarch64 ./x18 &&
        aarch64-linux-gnu-gcc -static -O1 -I "$dist" -o unwound_arm64 "$root/tests/c/unwind.c" "$dist/dcsctp-aarch64-elf.s" &&
        qemu-aarch64 ./unwound_arm64
}

# The functions of a text for macOS, in the format of Linux: names have no underscore in front there, and sections other names.
as_elf() {
    sed -E 's/^\t\.section\t__TEXT,__text.*/\t.text/; s/^\t\.section\t__TEXT,__(const|literal|cstring).*/\t.section .rodata/
        s/^\t\.section\t__DATA,__const.*/\t.section .data.rel.ro,"aw"/
        /^\.subsections_via_symbols|^\t\.(loh|data_region|end_data_region)\b/d; /^\t\.asci[iz]\t/!s/\b_([a-z_][A-Za-z0-9_.$]*)/\1/g
        s/([A-Za-z0-9_.$]+)@PAGEOFF/:lo12:\1/g; s/@PAGE\b//g' "$dist/$1-macho.s"
}

apple_x86_64() {
    as_elf dcsctp-x86_64 >apple_x86_64.s && "$cc" -O2 -I "$dist" -o show_apple "$examples/c/show.c" apple_x86_64.s -Wl,-z,noexecstack &&
        all_of ./show_apple
}

apple_arm64() {
    as_elf dcsctp-aarch64 >apple_aarch64.s &&
        aarch64-linux-gnu-gcc -static -O2 -I "$dist" -o show_apple_arm64 "$examples/c/show.c" apple_aarch64.s &&
        all_of qemu-aarch64 ./show_apple_arm64
}

# ---- CMake and pkg-config

# A project that shows packets; its argument says where the library comes from.
cmake_project() {
    rm -rf user built && mkdir user && cat >user/CMakeLists.txt <<C && shift
cmake_minimum_required(VERSION 3.14)
project(user LANGUAGES C)
$1
add_executable(show $examples/c/show.c)
target_link_libraries(show dcsctp::dcsctp)
C
    cmake -S user -B built "$@" && cmake --build built && expected built/show
}

# Each kind beside what is there already; the folder is then moved, and used from where it is.
cmake_installed() {
    rm -rf library
    [ ! -d moved ] || mv moved prefix || return
    cmake -S "$dist" -B library -DCMAKE_INSTALL_PREFIX="$work/prefix" -DBUILD_SHARED_LIBS="$2" && cmake --build library &&
        cmake --install library && mv prefix moved && cmake_project "find_package(dcsctp 0.1 REQUIRED COMPONENTS $1)" \
        -DCMAKE_PREFIX_PATH="$work/moved" && is_linked "$1" built/show
}

# On x86-64 the assembler keeps branches within 32 bytes, unless the option is off.
cmake_aligns() {
    local option flag=' -(Wa,-)?mbranches-within-32B-boundaries '
    for option in ON OFF; do
        cmake -S "$dist" -B aligned -DDCSCTP_ALIGN_BRANCHES=$option &&
            cmake --build aligned --clean-first --verbose >"aligned.$option" || return
    done
    grep -E -- "$flag" aligned.ON && ! grep -E -- "$flag" aligned.OFF
}

# Whether a program takes the shared library, in the version of its names, or none.
is_linked() {
    local needed
    needed=$(readelf -d -V "$2" | grep -oE 'Shared library: \[libdcsctp[^]]*|Name: DCSCTP_[0-9.]+' | sort | tr '\n' ' ')
    [ "$1: $needed" = 'static: ' ] || [ "$1: $needed" = 'shared: Name: DCSCTP_0.1 Shared library: [libdcsctp.so.0.1 ' ]
}

# Both kinds of one prefix in one project, and which one is taken by which words; a kind that isn't there is refused.
cmake_both() {
    rm -rf user built && mkdir -p user/chosen && cat >user/CMakeLists.txt <<C && cat >user/chosen/CMakeLists.txt <<C || return
cmake_minimum_required(VERSION 3.14)
project(user LANGUAGES C)
add_subdirectory(chosen)
find_package(dcsctp 0.1 REQUIRED)
find_package(dcsctp 0.1 QUIET COMPONENTS other)
if(NOT dcsctp_FOUND)
  message(STATUS "other: \${dcsctp_NOT_FOUND_MESSAGE}")
endif()
foreach(kind static shared dcsctp)
  add_executable(\${kind} $examples/c/show.c)
  target_link_libraries(\${kind} dcsctp::\${kind})
endforeach()
C
set(BUILD_SHARED_LIBS ON)
find_package(dcsctp 0.1 REQUIRED)
add_executable(chosen $examples/c/show.c)
target_link_libraries(chosen dcsctp::dcsctp)
C
    cmake -S user -B built -DCMAKE_PREFIX_PATH="$work/moved" >said && grep 'other: there is no dcsctp::other in ' said &&
        cmake --build built && is_linked static built/static && is_linked shared built/shared && is_linked static built/dcsctp &&
        is_linked shared built/chosen/chosen && expected built/dcsctp && expected built/chosen/chosen
}

# The same by pkg-config, of what was installed last.
by_pkg_config() {
    local folder flags
    folder=$(dirname "$(find moved -name dcsctp.pc)")
    read -ra flags < <(PKG_CONFIG_PATH=$folder pkg-config "$@" --cflags --libs dcsctp) &&
        "$cc" -o show_pc "$examples/c/show.c" "${flags[@]}" && LD_LIBRARY_PATH=$folder/.. expected ./show_pc
}

cmake_subdirectory() {
    cmake_project "add_subdirectory($dist dcsctp)"
}

cmake_fetched() {
    cmake_project "include(FetchContent)
FetchContent_Declare(dcsctp SOURCE_DIR $dist)
FetchContent_MakeAvailable(dcsctp)" -DBUILD_SHARED_LIBS=ON
}

# What there is no text for is named when CMake runs: a sentence, and the words for CMake.
cmake_refuses() {
    local sentence=$1
    shift
    rm -rf refused
    ! cmake -S "$dist" -B refused -DCMAKE_SYSTEM_NAME=Linux -DCMAKE_TRY_COMPILE_TARGET_TYPE=STATIC_LIBRARY "$@" >refusal 2>&1 &&
        tr -s '\n ' ' ' <refusal | grep "dcsctp: $sentence"
}

cmake_refuses_processors() {
    local arm=(-DCMAKE_SYSTEM_PROCESSOR=aarch64 -DCMAKE_C_COMPILER=clang) intel=(-DCMAKE_SYSTEM_PROCESSOR=x86_64 -DCMAKE_C_COMPILER=clang)
    cmake_refuses 'there is no dcsctp-riscv64-elf.s for Linux on riscv64' -DCMAKE_SYSTEM_PROCESSOR=riscv64 &&
        cmake_refuses 'the compiler is for another processor' "${arm[@]}" &&
        cmake_refuses 'the compiler has the most significant byte first' "${arm[@]}" -DCMAKE_C_FLAGS=--target=aarch64_be-linux-gnu &&
        cmake_refuses 'the compiler may not use the registers for floating point' "${arm[@]}" \
            -DCMAKE_C_FLAGS='--target=aarch64-linux-gnu -mgeneral-regs-only' &&
        cmake_refuses 'the compiler may not use the registers for floating point' "${intel[@]}" -DCMAKE_C_FLAGS=-mno-sse &&
        cmake_refuses 'the compiler is for pointers of 4 bytes' "${intel[@]}" -DCMAKE_C_FLAGS=-mx32 &&
        cmake_refuses '.* uses the red zone' "${intel[@]}" -DCMAKE_C_FLAGS=-mno-red-zone
}

# What each package takes on systems that this isn't.
systems() {
    "$root/dist/systems.py" "$work/sources"
}

# ---- the programs

program() {
    local name=$1
    shift
    "$@" -O2 -Wall -Wextra -Werror -o "$name" "$dist/$name-x86_64-elf.s" "$dist/program.c"
}

sctp_show() {
    program sctp_show "$@" && "$root/tests/show/test.sh" "$work/sctp_show"
}

sctp_dump() {
    program sctp_dump "$@" && "$root/tests/dump/test.sh" "$work/sctp_dump"
}

# SIGINT ends an input that is a pipe, and sctp_dump prints what it has counted of it and of what is in the pipe by then, as where
# it is stopped before it reads. It ends sctp_show, and a run over files.
interrupted() {
    program sctp_dump "$@" && program sctp_show "$@" && python3 - "$root/crates/sctp_dump/data/cooked.pcap" <<'PYTHON'
import os, signal, subprocess, sys

PACKET = b"138813880102030400000000 0b000004\n"

def start(*words):
    pipe = {"stdin": subprocess.PIPE, "stdout": subprocess.PIPE, "stderr": subprocess.PIPE}
    return subprocess.Popen(words, preexec_fn=lambda: signal.signal(signal.SIGINT, signal.SIG_DFL), **pipe)

os.mkdir("messages")
ran = start("./sctp_dump", "--brief", "--messages", "--write-messages", "messages")
ran.stdin.write(PACKET)
ran.stdin.flush()
assert ran.stdout.readline().endswith(b" COOKIE_ACK\n"), "not a packet"
ran.send_signal(signal.SIGSTOP)
os.waitpid(ran.pid, os.WUNTRACED)
ran.stdin.write(PACKET)
ran.stdin.flush()
ran.send_signal(signal.SIGINT)
ran.send_signal(signal.SIGCONT)
printed = ran.stdout.read() + ran.stderr.read()
assert ran.wait() == 0 and b"\npackets 2: accepted 2, " in printed and printed.count(b"\n") == 2, printed
for words in (["./sctp_show"], ["./sctp_dump", "--payload", sys.argv[1], "-"]):
    ran = start(*words)
    ran.stdin.write(PACKET)
    ran.stdin.flush()
    ran.send_signal(signal.SIGINT)
    assert ran.wait() == -signal.SIGINT, words
PYTHON
}

# The program of a release, which the system loads at any address. (musl-gcc, as a compiler that makes such a program)
static_pie() {
    sctp_dump "$root/dist/static_pie.sh" && LC_ALL=C readelf -hldW sctp_dump >headers && grep 'Type: *DYN' headers &&
        grep GNU_RELRO headers && grep BIND_NOW headers && ! grep -E 'INTERP|NEEDED|TEXTREL' headers
}

# The programs of a system, by what runs them here, print the same.
elsewhere() {
    local system=$1 runner=$2 name
    shift 2
    mkdir "$system" && cd "$system" || return
    for name in sctp_show sctp_dump; do
        case $system in
            *-macho) as_elf "$name-${system%-macho}" ;;
            *) cat "$dist/$name-$system.s" ;;
        esac >"$name.s"
        "$@" -O2 -Wall -Wextra -Werror -o "$name.exe" "$name.s" "$dist/program.c" || return
        printf '#!/bin/sh\nexec %s "%s" "$@"\n' "$runner" "$PWD/$name.exe" >"$name" && chmod +x "$name"
    done
    "$root/tests/show/test.sh" --quick sctp_show && "$root/tests/dump/test.sh" --quick sctp_dump
}

# So they do on Windows, which has names of files and words in UTF-16; a word that isn't has no form in UTF-8.
windows_programs() {
    local name='a folder\ß ☃ 文' cooked=$root/crates/sctp_dump/data/cooked.pcap
    program sctp_dump "$cc" || return
    begin_wine
    elsewhere x86_64-coff "$wine" x86_64-w64-mingw32-gcc && mkdir 'a folder' && cp "$cooked" "${name/\\//}" || return
    ./sctp_dump --brief "$name" | diff - <(../sctp_dump --brief "$cooked") &&
        diff <(./sctp_dump --summary "$name!" 2>&1 >/dev/null) <(../sctp_dump --summary "$name!" 2>&1 >/dev/null) || return
    cat >start.c <<'C'
#include <windows.h>
int main(void)
{
    wchar_t words[] = L"sctp_dump.exe \xd800";
    STARTUPINFOW start = {.cb = sizeof start};
    PROCESS_INFORMATION made;
    return !CreateProcessW(NULL, words, NULL, NULL, TRUE, 0, NULL, NULL, &start, &made) || WaitForSingleObject(made.hProcess, INFINITE);
}
C
    x86_64-w64-mingw32-gcc -o start.exe start.c && diff <("$wine" ./start.exe 2>&1) <(../sctp_dump $'\xff' 2>&1)
}

# A processor before x86-64-v2 is told, and has no answer.
old_processor() {
    program sctp_dump musl-gcc -static || return
    qemu-x86_64 -cpu Nehalem ./sctp_dump --version && ! qemu-x86_64 -cpu Conroe ./sctp_dump --version 2>refusal &&
        grep 'lacks a feature of x86-64-v2' refusal
}

# ---- the other tests of the library, over the text

sanitizers=(-g -O1 -fsanitize=address -fsanitize=undefined -fno-sanitize-recover=all)
has_sanitizers() {
    echo 'int main(void) { return 0; }' | "$cc" "${sanitizers[@]}" -o "$work/probe" -x c - 2>"$work/log" && "$work/probe"
}

edge() {
    cd "$root" && "$cc" "${sanitizers[@]}" -I "$dist" -o "$work/edge" tests/c/edge.c "$elf" \
        -Wl,--wrap=malloc -Wl,--wrap=realloc -Wl,--wrap=free && "$work/edge"
}

# The processor's CRC32c against the library's.
processor() {
    cd "$root" && "$cc" "${sanitizers[@]}" -I "$dist" -o "$work/processor" tests/c/processor.c "$elf" && "$work/processor"
}

# On a processor of x86-64-v2 that lacks PCLMULQDQ the library is called.
nehalem=(qemu-x86_64 -cpu Nehalem)
processor_is_missing() {
    "$cc" -O2 -I "$dist" -o processor_missing "$root/tests/c/processor.c" "$elf" &&
        "${nehalem[@]}" ./processor_missing >said && grep "the processor's CRC32c: not there" said
}

# The same on arm64, in one lane and in three.
processor_on_arm64() {
    local options
    for options in +crc +crc+crypto; do
        aarch64-linux-gnu-gcc -static -O2 -march="armv8-a$options" -I "$dist" -o processor_arm64 "$root/tests/c/processor.c" \
            "$dist/dcsctp-aarch64-elf.s" && qemu-aarch64 ./processor_arm64 || return
    done
}

# What MemorySanitizer is told: each function that writes or reads much is wrapped; nothing is found in programs that are right, and
# in each that isn't.
memory() {
    local flags=(-std=c11 -g -O1 -fsanitize=memory -I "$dist") ended way=0
    diff <(grep -oE '^(uint32_t|bool|size_t) dcsctp_\w+' "$dist/dcsctp.h" | sed 's/.* //' | sort) \
        <({ grep -oP '^DCSCTP_MSAN_?[A-Z]*\(((uint32_t|bool|size_t), )?\Kdcsctp_\w+' "$dist/dcsctp_msan.h" &&
            printf 'dcsctp_%s\n' list_offset validate_sack version_number; } | sort) || return
    clang "${flags[@]}" -o answer_msan "$examples/c/answer.c" "$elf" && clang "${flags[@]}" -o show_msan "$examples/c/show.c" "$elf" &&
        clang "${flags[@]}" -o fuzz_msan "$root/tests/c/fuzz.c" "$elf" &&
        clang "${flags[@]}" -w -o memory "$root/tests/c/memory.c" "$elf" || return
    sed -n 's/^    \$ echo \(.*\) | \.\/answer$/\1/p' "$root/docs/C.md" | ./answer_msan && expected ./show_msan &&
        ./fuzz_msan 1000 1 "$examples/packets.txt" || return
    ./memory 0 || return
    while way=$((way + 1)); do
        ./memory $way 2>found
        ended=$?
        [ $ended -ne 3 ] || break
        grep 'use-of-uninitialized-value' found || { echo "tests/c/memory.c: the way $way isn't found" && return 1; }
    done
    [ $way -gt 9 ]
}

fuzz() {
    cd "$root" && "$cc" "${sanitizers[@]}" -I "$dist" -o "$work/fuzz" tests/c/fuzz.c "$elf" &&
        "$work/fuzz" 20000 1 examples/packets.txt
}

# ---- packages

# What is published builds by itself, and holds each text. Then it lies unpacked in vendor/, as `cargo vendor` would put it.
cargo_package() {
    rm -rf crate && "$root/dist/crate.sh" "$work/crate" "$work/sources" &&
        (cd crate && CARGO_TARGET_DIR=$work/target cargo package --offline --allow-dirty &&
            cargo package --list --allow-dirty >"$work/packaged") || return
    diff <(cd "$work/sources" && ls dist/dcsctp-*.s) <(grep '^dist/.*[.]s$' packaged) && rm -rf vendor && mkdir vendor &&
        tar -xzf target/package/davgyuti-*.crate -C vendor && mv vendor/davgyuti-* vendor/davgyuti &&
        echo '{"files": {}}' >vendor/davgyuti/.cargo-checksum.json
}

# The commands of its README: in the package, or in a project, for which crates.io is what lies in vendor/.
cargo_readme() {
    local command
    rm -rf user && mkdir -p user/src user/.cargo &&
        echo 'fn main() { assert_eq!(davgyuti::version_number(), 0x0100); }' >user/src/main.rs &&
        printf '[package]\nname = "user"\nedition = "2024"\n' >user/Cargo.toml &&
        printf '[source.%s]\n%s\n' crates-io 'replace-with = "vendor"' vendor "directory = '$work/vendor'" >user/.cargo/config.toml
    grep -o '`cargo [^`]*`' vendor/davgyuti/README.md | tr -d '`' >commands && [ "$(wc -l <commands)" -eq 3 ] || return
    export CARGO_TARGET_DIR=$work/target CARGO_NET_OFFLINE=true
    while read -r command; do
        case $command in
            # (a second build does nothing)
            'cargo add '*)
                (cd user && ${command/CLONE/$work/sources} && cargo run && cargo build -v 2>&1 | grep 'Fresh davgyuti') || return
                ;;
            *) (cd vendor/davgyuti && $command | diff - examples/expected.txt) || return ;;
        esac
    done <commands
}

# A clone of the repository, by its URL: cargo finds the package by its name.
cargo_git() {
    local git=(git -c user.name=dist -c user.email=dist -C repository)
    export CARGO_HOME=$work/cargo CARGO_TARGET_DIR=$work/target
    rm -rf repository && cp -r sources repository && git init -q repository && "${git[@]}" add . && "${git[@]}" commit -qm . &&
        cd user && cargo remove davgyuti && cargo add --git "file://$work/repository" davgyuti && cargo run
}

# With and without Vec, String and the processor's CRC32c.
cargo_tests() {
    cd vendor/davgyuti && export CARGO_TARGET_DIR=$work/target && cargo test --offline --all-features &&
        cargo test --offline --no-default-features
}

cargo_processor_is_missing() {
    cd vendor/davgyuti && CARGO_TARGET_X86_64_UNKNOWN_LINUX_GNU_RUNNER="${nehalem[*]}" CARGO_TARGET_DIR=$work/target \
        cargo test --offline --all-features --test processor
}

# Optimized as a whole, so that rustc puts its own code beside the text into one module.
cargo_show() {
    (cd "$bindings/rust" && CARGO_TARGET_DIR=$work/target CARGO_PROFILE_RELEASE_CODEGEN_UNITS=1 cargo build --offline \
        --release --example show) &&
        all_of target/release/examples/show &&
        # Its objects, which have rustc's code too, aren't said to be fit for IBT.
        mkdir objects && (cd objects && ar x ../target/release/deps/libdavgyuti-*.rlib && ! readelf -nW ./*.o | grep 'x86 feature')
}

# No warning of rustc, clippy (all that Cargo.toml asks for) and rustdoc, and the form of rustfmt; in the package, which has what
# these are told.
cargo_lints() {
    cd vendor/davgyuti && export CARGO_TARGET_DIR=$work/target RUSTDOCFLAGS='-D warnings' && cargo fmt --check &&
        cargo clippy --offline --all-features --all-targets -- -D warnings && cargo doc --offline --all-features --no-deps
}

# Two versions in one program are refused.
cargo_refuses() {
    rm -rf user && mkdir -p user/src user/old/src && touch user/{src/lib,old/build,old/src/lib}.rs &&
        printf '[package]\nname = "davgyuti"\nversion = "0.0.1"\nlinks = "dcsctp"\n' >user/old/Cargo.toml &&
        cat >user/Cargo.toml <<C || return
[package]
name = "user"
version = "0.1.0"
edition = "2024"
[dependencies]
new = { package = "davgyuti", path = "$bindings/rust" }
old = { package = "davgyuti", path = "old" }
C
    ! (cd user && cargo generate-lockfile --offline) 2>refusal && grep 'Only one package in the dependency graph' refusal
}

# The header for C++, and CMake's target for it.
cpp_package() {
    "$cxx" -std=c++17 -O2 -I "$dist" -I "$bindings/cpp" -o show_cpp "$bindings/cpp/show.cc" "$elf" && all_of ./show_cpp &&
        "$bindings/cpp/test.sh" "$dist"
}

cpp_cmake() {
    rm -rf user built && mkdir user && cat >user/CMakeLists.txt <<C
cmake_minimum_required(VERSION 3.14)
project(user LANGUAGES CXX)
find_package(dcsctp 0.1 REQUIRED)
add_executable(show $bindings/cpp/show.cc)
target_link_libraries(show dcsctp::cpp)
C
    cmake -S user -B built -DCMAKE_PREFIX_PATH="$work/moved" && cmake --build built && expected built/show
}

go_package() {
    (cd "$bindings/go" && export GOPROXY=off GOFLAGS=-mod=mod && go vet ./... && go build -gcflags=-d=checkptr ./... &&
        go test ./... && go test -tags davgyuti_cgo ./... && go build -o "$work/show_go" ./cmd/show) && all_of ./show_go
}

# The module as a release has it, by each command of its README.md that gets it: the program there runs, and the tests do.
go_module() {
    local get
    export GOPROXY=file://$work/proxy GONOSUMDB=davgyuti.example GOMODCACHE=$work/modules GOFLAGS=-modcacherw
    "$root/dist/go_module.py" "$bindings/go" 0 proxy && "$root/dist/go_module.py" "$bindings/go" 0 again && diff -r proxy again || return
    # What stands for proxy.golang.org, with another module that the user needs.
    mkdir other && cp "$bindings/go/dcsctp.h" other && echo 'module davgyuti.example/other' >other/go.mod &&
        "$root/dist/go_module.py" other 0 others || return
    while read -r get; do
        rm -rf user && mkdir user && cd user && go mod init user || return
        case $get in
            GOPROXY=*) go mod edit -require "davgyuti.example/other@$(cat ../others/davgyuti.example/other/@v/list)" &&
                grep -F "\`$get\`" "$root/docs/INSTALL.md" || return ;;
        esac
        { printf 'package main\n\nimport (\n"encoding/hex"\n"fmt"\n"net/netip"\n\n"davgyuti.example/davgyuti"\n)\n\n' &&
            sed -n '/^```go$/,/^```$/{/^```/!p}' "$bindings/go/README.md" && cat <<'G'; } >main.go || return
func main() {
	packet, _ := hex.DecodeString("138813880da737981148a1f6000300157906b4b0000100000000003368656c6c6f000000")
	fmt.Println(answer(new(davgyuti.Parsed), packet, 0x4d2df52d))
}
G
        get=${get//FOLDER/$work/proxy} get=${get/https:\/\/proxy.golang.org,direct/file://$work/others,off}
        eval "${get//CLONE/$bindings/..}" && go run . | grep -x 'DATA 2030482608: hello' || return
        cd .. || return
    done < <(sed -n 's/^    //p' "$bindings/go/README.md")
    cd user && go mod edit -droprequire davgyuti.example/davgyuti -dropreplace davgyuti.example/davgyuti &&
        go get davgyuti.example/davgyuti@latest && expected go run davgyuti.example/davgyuti/cmd/show &&
        go test davgyuti.example/davgyuti/... && go mod tidy && go mod vendor &&
        ls vendor/davgyuti.example/davgyuti/{LICENSE,NOTICE} && go run -mod=vendor . | grep -x 'DATA 2030482608: hello'
}

# example_conn_test.go under pion/sctp.
go_pion() {
    mkdir -p path/src/davgyuti.example && cp -r "$bindings/go" path/src/davgyuti.example/davgyuti &&
        cp "$bindings/go/testdata/pion/pion_test.go" path/src/davgyuti.example/davgyuti &&
        GO111MODULE=off GOPATH=$work/path:/usr/share/gocode go test -v -run TestPion davgyuti.example/davgyuti | grep '^--- PASS: TestPion'
}

go_windows() {
    (cd "$bindings/go" && export GOPROXY=off GOFLAGS=-mod=mod GOOS=windows CGO_ENABLED=1 CC=x86_64-w64-mingw32-gcc &&
        WINEDEBUG=-all WINEPREFIX=$work/wine go test -timeout 1h -exec "$wine" .)
}

# Also the archive that npm makes of it, in a project of its own; and in Chromium, by esbuild's bundles too, where these are there.
node_package() {
    cd "$bindings/js" && npm test
}

go_arm64() {
    (cd "$bindings/go" && export GOPROXY=off GOFLAGS=-mod=mod GOARCH=arm64 CGO_ENABLED=1 CC=aarch64-linux-gnu-gcc &&
        go test -timeout 1h -ldflags '-extldflags -static' -exec qemu-aarch64 . ./internal/direct)
}

python_package() {
    python3 -m venv venv && venv/bin/pip install --no-index "$bindings/python" &&
        venv/bin/python -m unittest discover -s "$bindings/python/tests"
}

python_processor_is_missing() {
    "${nehalem[@]}" venv/bin/python -m unittest discover -s "$bindings/python/tests" -p test_processor.py >said &&
        grep "the processor's CRC32c: not there" said
}

# The archive of sources is whole, and the same files give the same archive and the same wheel; it is installed in place too.
python_archives() {
    mkdir one two three && python_backend one && python_backend two && diff -r one two || return
    tar -xzf one/*.tar.gz -C three && venv/bin/pip wheel --no-index -w three three/davgyuti-* && cmp one/*.whl three/*.whl &&
        venv/bin/pip install --no-index -e three/davgyuti-*/ && (cd venv && bin/python -c 'import davgyuti
davgyuti.check(bytes.fromhex("138813884d2df52d67db78b50b000004"))
print(davgyuti.__file__)') | grep "three/davgyuti-.*/src/davgyuti/__init__.py"
}

python_backend() {
    (cd "$bindings/python" && python3 -c 'import backend, sys
backend.build_sdist(sys.argv[1])
backend.build_wheel(sys.argv[1])' "$work/$1")
}

# ---- the archive of a release, made of this checkout

# A link on a page in it leads to what is in it, and what SPDX says of it has its sum. Outside a clone none is made, nor a folder.
archive() {
    mkdir -p unpacked/dist && cp "$root/dist/release.sh" unpacked/dist/ && ! unpacked/dist/release.sh --archive none &&
        [ ! -e none ] || return
    "$root/dist/release.sh" --archive made && tar -xzf made/libdcsctp-*.tar.gz && mv libdcsctp-*/ archive || return
    "$root/tools/links.py" archive && (cd "$root" && dist/sbom.py 0 "$work/made") |
        grep "\"$(sha256sum <made/libdcsctp-*.tar.gz | cut -d ' ' -f 1)\""
}

# What the packages for Debian need, and isn't there, as debhelper-compat(=13).
lacks_for_debian() {
    (cd "$work/archive" && dpkg-checkbuilddeps 2>&1) | sed 's/.*: //; s/ (/(/g; s/\([<=>]\) /\1/g'
}

# Programs are built with what the packages for Debian install, and lintian finds nothing wrong in them.
debian() {
    local package libraries
    (cd archive && DEB_BUILD_OPTIONS=noautodbgsym dpkg-buildpackage -us -uc -b) || return
    for package in libdcsctp0.1 libdcsctp-dev sctp-dump; do
        dpkg-deb -x ${package}_*.deb installed || return
    done
    libraries=$(dirname installed/usr/lib/*/libdcsctp.a)
    "$cc" -I installed/usr/include -o show_deb "$examples/c/show.c" -L "$libraries" -ldcsctp &&
        LD_LIBRARY_PATH=$libraries expected ./show_deb &&
        "$cc" -I installed/usr/include -o show_deb "$examples/c/show.c" "$libraries/libdcsctp.a" && expected ./show_deb &&
        installed/usr/bin/sctp_dump --version && gzip -dc installed/usr/share/man/man1/sctp_dump.1.gz | cmp - "$root/docs/sctp_dump.1" &&
        { ! has lintian || lintian --fail-on error,warning --suppress-tags initial-upload-closes-no-bugs davgyuti_*.changes; }
}

random() {
    "$root/dist/packets.py" 4000 1 <"$examples/packets.txt" >packets.txt
}

# What all packages read and write, beside the vectors: others for each commit.
random_vectors() {
    "$root/registry/vectors/vectors.py" --random 5000 "$((16#0$(git -C "$root" rev-parse --short=8 HEAD)))" >vectors.jsonl
}

# ---- what is tried, in groups that run side by side

first() {
    with python-3.10 '4,000 packets are made at random' random
    with 'python-3.10 git-checkout' '5,000 vectors are made at random' random_vectors
    try 'no toolchain is on PATH' no_toolchain
    try 'the sums of MANIFEST' sums
    with python-3.10 'the copies in the packages' "$root/dist/make.py" --copies --compare
    try 'one version' one_version
    with python-3.10 'the stack of each call' "$root/dist/stack.py" --compare
    with "$cc" 'cc -o answer answer.c dcsctp-x86_64-elf.s' answer
    with gcc 'gcc' by gcc
}

texts() {
    has_sanitizers || sanitizers=(-O2)
    with clang 'clang' by clang
    with "$cxx" 'a shared library, from C++' shared
    with "$cc" 'a shared library with the text in it' embedded
    with musl-gcc 'static, by musl-gcc' musl
    with 'aarch64-linux-gnu-gcc qemu-aarch64' 'arm64, under qemu' arm64
    with "$cc" 'bare metal on x86-64' bare_metal
    with 'gcc readelf' 'IBT and shadow stacks are kept' keeps_marks '' -fcf-protection=full 'IBT, SHSTK' \
        {dcsctp,sctp_dump,sctp_show}-x86_64-elf.s dcsctp-x86_64-none.s
    with aarch64-linux-gnu-gcc 'BTI and PAC are kept' keeps_marks aarch64-linux-gnu- -mbranch-protection=standard 'BTI, PAC' \
        {dcsctp,sctp_dump,sctp_show}-aarch64-elf.s
    with "$clang_22 gcc" 'one module, by clang 22' one_module
    with "$clang_22 riscv64-linux-gnu-gcc qemu-riscv64" 'riscv64 under qemu, of the module' riscv64
    with "x86_64-w64-mingw32-gcc ${wine:-wine64}" 'Windows, under Wine' windows
    with clang 'macOS: the texts are assembled' apple
    with "$cc" 'macOS on x86-64: the same functions on Linux' apple_x86_64
    with 'aarch64-linux-gnu-gcc qemu-aarch64' 'macOS on arm64: the same functions on Linux' apple_arm64
    with "$cc" 'calls at the edges' edge
    with "$cc" 'a crash in a call shows its caller' unwound
    with "$cc gdb" 'so it does in gdb' by_gdb
    with 'aarch64-linux-gnu-gcc qemu-aarch64' 'the same on arm64, and x18 is kept' kept_on_arm64
    with "$cc" "the processor's CRC32c" processor
    with "$cc qemu-x86_64" "where the processor has no CRC32c" processor_is_missing
    with 'aarch64-linux-gnu-gcc qemu-aarch64' "the processor's CRC32c on arm64" processor_on_arm64
    with 'clang clang-memory' 'MemorySanitizer' memory
    with "$cc" '20,000 packets against a second reader' fuzz
    with "$cc" 'sctp_show' sctp_show "$cc"
    with musl-gcc 'sctp_show, static by musl-gcc' sctp_show musl-gcc -static
}

cmake_and_cpp() {
    with cmake 'CMake: find_package, static' cmake_installed static OFF && with pkg-config 'pkg-config, static' by_pkg_config
    with cmake 'CMake: find_package, shared' cmake_installed shared ON &&
        with pkg-config 'pkg-config, shared' by_pkg_config --define-prefix && try 'CMake: both in one prefix' cmake_both
    with cmake 'CMake: add_subdirectory' cmake_subdirectory
    [ "$(uname -m)" != x86_64 ] || with cmake 'CMake: branches within 32 bytes' cmake_aligns
    with cmake 'CMake: FetchContent, shared' cmake_fetched
    with 'cmake clang' 'CMake: processors without a text' cmake_refuses_processors
    with "$cxx" 'C++' cpp_package && with cmake 'C++, by CMake' cpp_cmake
}

programs() {
    with "$cc" 'sctp_dump' sctp_dump "$cc"
    with "$cc python-3.10" 'sctp_dump, interrupted' interrupted "$cc"
    with 'musl-gcc readelf' 'sctp_dump, as a static PIE by musl-gcc' static_pie
    with 'musl-gcc qemu-x86_64' 'sctp_dump on an old processor' old_processor
}

programs_elsewhere() {
    with 'aarch64-linux-gnu-gcc qemu-aarch64' 'the programs on arm64, under qemu' elsewhere aarch64-elf qemu-aarch64 \
        aarch64-linux-gnu-gcc -static
    with "x86_64-w64-mingw32-gcc ${wine:-wine64}" 'the programs on Windows, under Wine' windows_programs
    with "$cc" "macOS on x86-64: the programs' functions on Linux" elsewhere x86_64-macho '' "$cc" -Wl,-z,noexecstack
    with 'aarch64-linux-gnu-gcc qemu-aarch64' "macOS on arm64: the programs' functions on Linux" elsewhere aarch64-macho qemu-aarch64 \
        aarch64-linux-gnu-gcc -static
}

rust() {
    with 'cargo rustc-1.85' 'cargo package' cargo_package && try 'cargo test, in the package' cargo_tests &&
        try 'cargo add and run, as its README says' cargo_readme && with git 'cargo add --git' cargo_git
    with 'cargo rustc-1.85 qemu-x86_64' 'cargo test, where the processor has no CRC32c' cargo_processor_is_missing
    with 'cargo rustc-1.85' 'cargo run --example show' cargo_show
    with 'cargo rustc-1.85 cargo-fmt cargo-clippy' 'cargo clippy, fmt and doc' cargo_lints
    with 'cargo rustc-1.85' 'cargo: two versions' cargo_refuses
}

python_and_javascript() {
    with 'python-3.10 python3-venv Python.h' 'pip install' python_package && try 'pip wheel, of the archive of sources' python_archives &&
        with qemu-x86_64 'Python, where the processor has no CRC32c' python_processor_is_missing
    with 'node-18 npm' 'node --test' node_package
}

go_and_release() {
    with go-1.19 'go test' go_package
    with 'go-1.19 python-3.10' 'go get, of the release' go_module
    with 'go-1.19 pion' 'Go: a net.Conn for pion/sctp' go_pion
    with 'go-1.19 aarch64-linux-gnu-gcc qemu-aarch64' 'go test, arm64 under qemu' go_arm64
    with "go-1.19 x86_64-w64-mingw32-gcc ${wine:-wine64}" 'go test, Windows under Wine' go_windows
    with python-3.10 'the text of each system' systems
    with 'git-checkout python-3.10' 'the archive of a release' archive &&
        with "dpkg-checkbuilddeps $(lacks_for_debian)" 'packages for Debian' debian
}

# Runs a group, and leaves what it counted.
run_group() {
    enter "$1" && "$1"
    echo "$passed $failed $left_out" >"$all/$1.counts"
}

run_group first
[ ! -s "$all/first/vectors.jsonl" ] || export VECTORS=$all/first/vectors.jsonl
groups=(texts cmake_and_cpp rust python_and_javascript go_and_release)
[ "$library" ] || groups+=(programs programs_elsewhere)
for group in "${groups[@]}"; do
    run_group "$group" &
done
wait
read -r passed failed left_out < <(awk '{ for (i = 1; i <= 3; i++) n[i] += $i } END { print n[1], n[2], n[3] }' "$all"/*.counts)
printf 'dist: %s passed, %s failed, %s left out\n' "$passed" "$failed" "$left_out"
[ "$failed" -eq 0 ] && [ "$(cat "$all"/*.counts | wc -l)" -eq $((${#groups[@]} + 1)) ]
