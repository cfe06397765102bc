#!/usr/bin/env bash
# SPDX-License-Identifier: Apache-2.0
# Builds the C library into a folder of its own, and tries it from C and other languages (docs/C.md).
set -u

usage='usage: tests/c/test.sh [PACKETS]

Builds the C library, and tries it: the header against the library, the examples against what they have to print, calls
at the edges, associations of a real stack, and a million packets that are made at random, or PACKETS. The last line is:
c: N passed, M failed.

Without the toolchain the library is that of the text in dist/. Needed are what tools/build.sh needs. Python, C++, pkg-config,
valgrind and usrsctp are used where they are there.'

case ${1:-1000000} in
    *[!0-9]*)
        if [ "$1" = --help ]; then
            echo "$usage"
            exit
        fi
        echo "$usage" >&2
        exit 2
        ;;
esac
packets=${1:-1000000}
cd "$(dirname "$0")/../.." || exit
export PYTHONDONTWRITEBYTECODE=1

work=$(mktemp -d)
trap 'rm -rf "$work"' EXIT
prefix=$work/prefix
cc=${CC:-cc} cxx=${CXX:-c++}
passed=0 failed=0

# Runs a command whose name is given, and counts it; prints its output if it fails.
try() {
    local name=$1
    shift
    if "$@" >"$work/log" 2>&1; then
        passed=$((passed + 1))
        printf 'c: %s: passed\n' "$name"
        grep 'left out, since' "$work/log"
    else
        failed=$((failed + 1))
        printf 'c: %s: failed\n' "$name"
        tail -n 20 "$work/log"
    fi
}

left_out() {
    printf 'c: left out, since there is no %s: %s\n' "$1" "$2"
}

has() {
    case $1 in
        python-3.10) python3 -c 'import json, shutil, sys; sys.exit(sys.version_info < (3, 10))' 2>/dev/null ;;
        *) command -v "$1" >/dev/null ;;
    esac
}

finish() {
    printf 'c: %s passed, %s failed\n' "$passed" "$failed"
    [ "$failed" -eq 0 ]
    exit
}

# ---- what is visible

# Those of the library: the header's own are `static inline`, and call others in lines that begin with blanks.
functions() {
    grep '^[a-z]' include/dcsctp.h | grep -v '^static inline' | grep -o 'dcsctp_[a-z_]*(' | tr -d '(' | sort -u
}

archive_has_the_functions_alone() {
    diff <(functions) <(nm -g --defined-only "$prefix/lib/libdcsctp.a" | sed -n 's/.* T //p' | sort) &&
        [ "$(nm -g --defined-only "$prefix/lib/libdcsctp.a" | grep -c ' [A-SU-Z] ')" -eq 0 ]
}

# (with the version of dist/dcsctp.map)
shared_library_has_the_functions_alone() {
    local version
    version=$(sed -n 's/^\(DCSCTP_.*\) {.*/\1/p' dist/dcsctp.map)
    diff <(functions | sed "s/$/@@$version/") <(nm -D --defined-only "$prefix/lib/libdcsctp.so" | sed -n 's/.* T //p' | sort) &&
        readelf -V "$prefix/lib/libdcsctp.so" | grep "Name: $version\$"
}

# What the archive takes from elsewhere: five functions of libc at most, and the linker's own symbol.
archive_needs_libc_alone() {
    ! nm -u "$prefix/lib/libdcsctp.a" | sed -n 's/.* U //p' |
        grep -vxE 'malloc|realloc|free|memcpy|memmove|memset|memcmp|bcmp|_GLOBAL_OFFSET_TABLE_'
}

shared_library_needs_libc_alone() {
    readelf -d "$prefix/lib/libdcsctp.so" >"$work/dynamic" &&
        ! grep TEXTREL "$work/dynamic" &&
        ! grep NEEDED "$work/dynamic" | grep -v 'libc\.'
}

# ---- compiling and running

compile() {
    "$cc" -std=c11 -O2 -Wall -Wextra -I"$prefix/include" "$@"
}

# Compiles with the sanitizers, if the compiler has them.
sanitizers=
if echo 'int main(void) { return 0; }' >"$work/probe.c" &&
    "$cc" -fsanitize=address,undefined -o "$work/probe" "$work/probe.c" 2>"$work/log" && "$work/probe" 2>"$work/log"; then
    sanitizers='-g -O1 -fsanitize=address,undefined -fno-sanitize-recover=all'
else
    left_out sanitizer 'edge and fuzz run without'
fi

compile_sanitized() {
    # shellcheck disable=SC2086 # a list of options
    compile $sanitizers "$@"
}

header_is_c99() {
    echo '#include <dcsctp_registered.h>' | "$cc" -std=c99 -pedantic -Wall -Wextra -Werror -I"$prefix/include" -fsyntax-only -x c -
}

assertions_hold() {
    compile -pedantic -Werror -c -o "$work/assertions.o" tests/c/assertions.c
}

# The sizes, offsets and prototypes of dist/dcsctp.abi, as this compiler has them.
interface_is_the_compilers() {
    tools/abi.py --assertions >"$work/abi.c" && compile -pedantic -Werror -c -o "$work/abi.o" "$work/abi.c"
}

# Each reader of dcsctp_inline.h against its call: by a compiler, in a language, with options.
inline() {
    local compiler=$1 language=$2
    shift 2
    "$compiler" -x "${language%%[0-9]*}" "-std=$language" -Wall -Wextra -Wpedantic -Wconversion -Werror -I"$prefix/include" "$@" \
        -o "$work/inline" tests/c/inline.c -x none "$prefix/lib/libdcsctp.a" && "$work/inline" 20000 1 <examples/packets.txt
}

inline_sanitized() {
    # shellcheck disable=SC2086 # a list of options
    inline "$cc" c99 $sanitizers
}

header_is_cxx() {
    echo '#include <dcsctp_registered.h>
static_assert(sizeof(struct dcsctp_re_config) == 48, "its size");' >"$work/header.cc" &&
        "$cxx" -std=c++11 -pedantic -Wall -Wextra -Werror -I"$prefix/include" -c -o "$work/header.o" "$work/header.cc"
}

# The processor's CRC32c against the library's; its header in the other languages; and what its macro changes.
processor() {
    compile -Werror -o "$work/processor" tests/c/processor.c "$prefix/lib/libdcsctp.a" && "$work/processor" &&
        echo '#include <dcsctp_processor.h>' |
        "$cc" -std=c99 -pedantic -Wall -Wextra -Werror -I"$prefix/include" -fsyntax-only -x c - &&
        printf '#define DCSCTP_PROCESSOR_CRC32C\n#include <dcsctp_processor.h>\nuint32_t (*word)(const uint8_t *, size_t) = dcsctp_word;\n' |
        "$cc" -O2 -Wall -Wextra -Werror -I"$prefix/include" -c -o "$work/chosen.o" -x c - &&
        nm "$work/chosen.o" | grep ' t dcsctp_processor_word$'
}

processor_is_cxx() {
    echo '#include <dcsctp_processor.h>' |
        "$cxx" -std=c++11 -pedantic -Wall -Wextra -Werror -I"$prefix/include" -fsyntax-only -x c++ -
}

expected() {
    "$@" examples/packets.txt >"$work/printed" && diff "$work/printed" examples/expected.txt
}

show_in_c() {
    compile -o "$work/show_c" examples/c/show.c "$prefix/lib/libdcsctp.a" && expected "$work/show_c"
}

# With the shared library; the others take the static one.
show_in_cxx() {
    "$cxx" -std=c++17 -O2 -Wall -Wextra -I"$prefix/include" -Ibindings/cpp -o "$work/show_cxx" bindings/cpp/show.cc \
        -L"$prefix/lib" -ldcsctp -Wl,-rpath,"$prefix/lib" && expected "$work/show_cxx"
}

page_has_the_functions() {
    local name lacking=0
    for name in $(functions); do
        grep -q "\b$name\b" docs/C.md || { echo "not on the page: $name"; lacking=1; }
    done
    return $lacking
}

page_has_the_codes() {
    diff <(sed -n 's/^| `\(DCSCTP_[A-Z_]*\)` \([0-9]*\) |.*/\1 = \2/p' docs/C.md) \
        <(sed -n '/^enum dcsctp_result /,/^}/s/^    \(DCSCTP_[A-Z_]* = [0-9]*\),\{0,1\}\( .*\)\{0,1\}$/\1/p' include/dcsctp.h)
}

# The program of docs/C.md: it prints what the page says; the first packet is an INIT, whose answer is the first of
# examples/expected.txt, and a SACK has none.
answers_an_init() {
    sed -n 's/^    \$ echo \(.*\) | \.\/answer$/\1/p' docs/C.md | "$work/answer" |
        diff - <(sed -n '/^    \$ echo .* | \.\/answer$/{n;s/^    //p}' docs/C.md) || return 1
    grep -m 1 '^1388' examples/packets.txt | "$work/answer" | diff - <(sed -n 's/^  answer //p;T;q' examples/expected.txt) &&
        ! grep -m 1 '^138813884d2df52dc604d62e' examples/packets.txt | "$work/answer"
}

answer_by_hand() {
    compile -o "$work/answer" examples/c/answer.c "$prefix/lib/libdcsctp.a" && answers_an_init
}

answer_by_pkg_config() {
    local flags
    flags=$(PKG_CONFIG_PATH=$prefix/lib/pkgconfig pkg-config --cflags --libs dcsctp) || return
    # shellcheck disable=SC2086 # a list of options
    "$cc" -o "$work/answer" examples/c/answer.c $flags && LD_LIBRARY_PATH=$prefix/lib answers_an_init
}

# ---- edges, and packets at random

edge() {
    compile_sanitized -o "$work/edge" tests/c/edge.c "$prefix/lib/libdcsctp.a" -Wl,--wrap=malloc,--wrap=realloc,--wrap=free &&
        "$work/edge"
}

registered() {
    compile_sanitized -pedantic -Werror -o "$work/registered" tests/c/registered.c "$prefix/lib/libdcsctp.a" && "$work/registered"
}

receive() {
    compile_sanitized -pedantic -Werror -o "$work/receive" tests/c/receive.c "$prefix/lib/libdcsctp.a" && "$work/receive"
}

rules() {
    compile_sanitized -pedantic -Werror -o "$work/rules" tests/c/rules.c "$prefix/lib/libdcsctp.a" && "$work/rules" <examples/rules.txt
}

authenticated() {
    compile_sanitized -pedantic -Werror -o "$work/auth" tests/c/auth.c "$prefix/lib/libdcsctp.a" && "$work/auth"
}

# Whether there are as many different counts of a call's instructions, or of those of `control`, for HMACs that are wrong in these
# places.
counts() {
    local symbol=$1 name=$2 wanted=$3 place
    shift 3
    for place in "$@"; do
        valgrind --tool=callgrind --callgrind-out-file=/dev/null --toggle-collect="$symbol" "$work/same_time" "$name" "$place" \
            2>"$work/counted" | tr '\n' ' '
        sed -n 's/.* Collected : //p' "$work/counted"
    done | sort -u >"$work/counts"
    sed "s/^/$name: /" "$work/counts"
    [ "$(wc -l <"$work/counts")" -eq "$wanted" ] && [ "$(grep -c '^wrong [1-9]' "$work/counts")" -eq "$wanted" ]
}

same_time() {
    compile -pedantic -Werror -o "$work/same_time" tests/c/same_time.c "$prefix/lib/libdcsctp.a" &&
        counts dcsctp_verify_auth verify_auth_1 1 0 10 19 all &&
        counts dcsctp_verify_auth verify_auth_3 1 0 16 31 all &&
        counts dcsctp_open_cookie open_cookie 1 0 16 31 all &&
        counts control control 3 0 16 31
}

# By the Python that has scapy: that of Debian's package may not be the first on PATH.
multihomed() {
    local python=python3
    python3 -c 'import scapy' 2>/dev/null || ! /usr/bin/python3 -c 'import scapy' 2>/dev/null || python=/usr/bin/python3
    compile_sanitized -pedantic -Werror -o "$work/multihomed" examples/c/multihomed.c "$prefix/lib/libdcsctp.a" &&
        "$python" tests/c/multihomed.py "$work/multihomed"
}

has_usrsctp() {
    echo '#include <usrsctp.h>' | "$cc" -fsyntax-only -x c - 2>"$work/log"
}

rows() {
    compile_sanitized -pedantic -Werror -o "$work/rows" tests/c/rows.c "$prefix/lib/libdcsctp.a" &&
        "$work/rows" bindings/rust/examples/responder.txt
}

# With the shared libusrsctp, which then takes the time from the program.
interop() {
    compile_sanitized -pedantic -Werror -o "$work/interop" tests/c/interop.c "$prefix/lib/libdcsctp.a" -lusrsctp && "$work/interop"
}

# As many processes as there are processors, each with a seed of its own.
fuzz() {
    local seed seeds jobs=() job status=0
    seeds=$(nproc)
    compile_sanitized -o "$work/fuzz" tests/c/fuzz.c "$prefix/lib/libdcsctp.a" || return 1
    for ((seed = 1; seed <= seeds; seed++)); do
        "$work/fuzz" $((packets / seeds + 1)) "$seed" examples/packets.txt &
        jobs+=($!)
    done
    for job in "${jobs[@]}"; do
        wait "$job" || status=1
    done
    return $status
}

if has rt; then
    try 'the library is built' tools/build.sh "$prefix"
else
    try 'the library is built from the text in dist/' tools/build.sh --text "$prefix"
fi
[ "$failed" -eq 0 ] || finish
if has python-3.10; then
    try 'the header declares the library' tools/check_header.py
    try 'a wrong header is noticed' tools/check_header.py --must-fail
    try 'the binary interface is that of dist/dcsctp.abi' tools/abi.py
    try 'another binary interface is noticed' tools/abi.py --must-fail
    try 'sizes, offsets and prototypes' interface_is_the_compilers
else
    left_out python-3.10 'the header against the library'
fi
try 'the header is C99' header_is_c99
try 'values' assertions_hold
try 'the archive has these functions alone' archive_has_the_functions_alone
try 'the archive needs libc alone' archive_needs_libc_alone
try 'the shared library has these functions alone' shared_library_has_the_functions_alone
try 'the shared library needs libc alone' shared_library_needs_libc_alone
try 'the codes of docs/C.md' page_has_the_codes
try 'the functions of docs/C.md' page_has_the_functions
try 'the program of docs/C.md' answer_by_hand
if has pkg-config; then
    try 'the same by pkg-config' answer_by_pkg_config
else
    left_out pkg-config 'the program of docs/C.md with its flags'
fi
try 'the example in C' show_in_c
if has "$cxx"; then
    try 'the header is C++11' header_is_cxx
    try "the header of the processor's CRC32c is C++11" processor_is_cxx
    try 'the example in C++' show_in_cxx
else
    left_out "$cxx" 'the header and the example in C++'
fi
try "the processor's CRC32c, on packets of each size" processor
try 'calls on captured packets and at the edges, and each allocation refused' edge
try "what IANA's registry has beyond the kinds, field by field" registered
for compiler in "$cc c99" "$cxx c++11" 'clang c99' 'clang++ c++11'; do
    if has "${compiler% *}"; then
        # shellcheck disable=SC2086 # two words
        try "the readers that are inlined, beside the library's, by $compiler" inline $compiler -O2
    else
        left_out "${compiler% *}" 'the readers that are inlined by it'
    fi
done
try 'the same with the sanitizers' inline_sanitized
try "what is asked of whoever receives a packet, sentence by sentence" receive
try 'the rules that a packet breaks, row by row, and packets that end early' rules
try 'State Cookies, AUTH chunks and shared keys, beside Python' authenticated
if has valgrind; then
    try 'HMACs take the same instructions to compare, wherever they differ' same_time
else
    left_out valgrind 'the instructions that it takes to compare HMACs'
fi
if has python-3.10; then
    try 'the example with several addresses, beside Python, scapy and tshark' multihomed
else
    left_out python-3.10 'the example with several addresses'
fi
try "the responder's answers, those of the responders in other languages too" rows
if has_usrsctp; then
    try 'two sockets of usrsctp with the filter between them, and one that calls the responder' interop
else
    left_out usrsctp.h 'associations of a real stack'
fi
try "$packets packets at random" fuzz
finish
