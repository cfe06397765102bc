#!/usr/bin/env bash
# SPDX-License-Identifier: Apache-2.0
# Writes the rows of usrsctp in bindings/rust/examples/responder.txt anew.
set -eu

usage='usage: tests/c/rows.sh

Has usrsctp call examples/c/responder.c (tests/c/interop.c), with the library of the text in dist/, and writes what passes there to
bindings/rust/examples/responder.txt. The rows that Python laid out stay. Look at what changes, and why: no test compares usrsctp itself
with these rows. Needed are a C compiler and libusrsctp-dev 0.9.5.0.'

if [ $# -ne 0 ]; then
    echo "$usage"
    [ "$1" = --help ]
    exit
fi
cd "$(dirname "$0")/../.."
work=$(mktemp -d)
trap 'rm -rf "$work"' EXIT
file=bindings/rust/examples/responder.txt
tools/build.sh --text "$work/prefix" >&2
"${CC:-cc}" -std=c11 -O2 -I"$work/prefix/include" -o "$work/interop" tests/c/interop.c "$work/prefix/lib/libdcsctp.a" -lusrsctp

# As many messages as are named; by the first seed by which as much is lost as the scenario asks for.
{
    sed '/^# responder-/,$d' "$file"
    for scenario in lossy:80 partial:30 streams:10 abort:3 auth:40 key:8 wrong-key:4 restart:4 cookies:4 auth-restart:4 \
        shutting-down:4 stale:4 unknown:4 forgotten:4 auth-forgotten:4; do
        seed=1
        until "$work/interop" "responder-${scenario%:*}" --messages "${scenario#*:}" --seed $seed --rows "$work/rows" >"$work/log" 2>&1; do
            [ $((++seed)) -le 500 ] || { cat "$work/log" >&2; exit 1; }
        done
        cat "$work/rows"
    done
    sed -n '/^# sha-256$/,$p' "$file"
} >"$work/all"
cp "$work/all" "$file"
