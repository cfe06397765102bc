#!/usr/bin/env bash
# SPDX-License-Identifier: Apache-2.0
# Refuses each request for memory in turn, of the programs test_rows and sctp_show.
set -u

usage='usage: tests/refusals/test.sh

Runs test_rows over rows.txt and faults.txt, and sctp_show over the inputs of show.txt, once for each of their requests for memory:
in the first run the first request is refused, and so on. An answer stays as it is, or says that memory ran out; that of a fault
stays. Then, without a refusal, what sctp_show asks for as it reads the packets of sizes.txt is compared with the sizes there and
in SECURITY.md.

The programs are those that `rt ci` proved and built; one that is missing, or older than a source file, is proved and
built first. Needed are a C compiler and Python; the variable CC names another than cc.'

case ${1:-} in
    '') ;;
    --help) echo "$usage" && exit ;;
    *) echo "$usage" >&2 && exit 2 ;;
esac
cd "$(dirname "$0")/../.." || exit
work=$(mktemp -d)
trap 'rm -rf "$work"' EXIT

is_built() {
    [ -x "$1" ] && [ -z "$(find crates/*/src -name '*.rt' -newer "$1" -print -quit)" ]
}

for program in test_rows sctp_show; do
    is_built crates/$program/out/$program || (cd crates/$program && rt run -- --help) >"$work/log" 2>&1 </dev/null
    [ -x crates/$program/out/$program ] || { echo "refusals: $program was not built" && tail "$work/log" && exit 1; }
done
"${CC:-cc}" -O2 -shared -fPIC -o "$work/refuse.so" tests/refusals/refuse.c -ldl && tests/refusals/refuse.py "$work/refuse.so"
