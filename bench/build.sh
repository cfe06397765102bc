# SPDX-License-Identifier: Apache-2.0
# shellcheck shell=bash
# What the scripts of bench/ do first; they source it. Its functions run at the root of the repository, and what they make
# goes to the folder $out.

export PYTHONDONTWRITEBYTECODE=1
archives='crates/test_callers/out/libtest_callers.a crates/dcsctp_c/out/libdcsctp_c.a'

give_up() {
    echo "${0##*/}: $1" >&2
    exit 2
}

# Builds the library, proved, and links bench/PROGRAM.c with it: $out/PROGRAM. The words after PROGRAM are gcc's.
build_program() {
    local program=$1 crate
    shift
    mkdir -p "$out"
    echo 'building the library: minutes the first time, since it is proved first' >&2
    for crate in test_callers dcsctp_c; do
        (cd "crates/$crate" && rt lib) >"$out/library.log" 2>&1 || { tail -n 5 "$out/library.log" >&2; give_up "no $crate"; }
    done
    # shellcheck disable=SC2086 # a list of paths without blanks
    gcc -O2 -Wall -Wextra -Iinclude -o "$out/$program" "bench/$program.c" $archives "$(dirname "$(rt doc)")/c/liblibc_c.a" "$@"
}

# The driver counts the library's requests for memory.
build_driver() {
    build_program driver -Wl,--wrap=malloc,--wrap=realloc
}

# Makes the traffic files of a seed: $out/traffic.
make_traffic() {
    rm -rf "$out/traffic"
    python3 bench/traffic.py "$1" "$out/traffic"
}

# Builds the C library, proved, and links its program with it: $out/c_api.
build_c_api() {
    mkdir -p "$out"
    CC=gcc tools/build.sh "$out/c" >"$out/library.log" 2>&1 || { tail -n 5 "$out/library.log" >&2; give_up 'no C library'; }
    gcc -O2 -Wall -Wextra -I"$out/c/include" -o "$out/c_api" bench/c_api.c "$out/c/lib/libdcsctp.a"
    # rt ci takes no checkout with links in it.
    rm -r "$out/c"
}
