#!/usr/bin/env bash
# SPDX-License-Identifier: Apache-2.0
# Counts the library's instructions a packet, and compares them with bench/instructions.tsv.
set -eu
. "$(dirname "$0")/build.sh"

usage='usage: bench/instructions.sh [--record]

Counts the instructions that the library takes for each packet of five traffic files, call by call, and prints them
beside the figures of bench/instructions.tsv. Exits 1 where a count is more than 1 % above the recorded one. Takes 20
seconds once the library is built.

  --record  writes bench/instructions.tsv
  --help    prints this

callgrind counts one round over a file, after a round that warms up. Only the functions of the archives of the library are
counted; the C library has a column of its own, which is compared with nothing. So a count does not depend on the C library
or on the load of the machine. It does depend on the toolchain: record again after a change of it. check_lenient and
check_strict are dcsctp_check, with a policy that is known only as the program runs; the other calls are lenient, so
the compiler leaves out of them what only a strict check does.

The counts rest on three hints, which keep the work for a fault off the path of a valid item. Without padding_fault as a cold
call (dcsctp_tlv, frame.rt) some checks take 9 % more, without offset as the first field of LocatedFault 12 %, and without
listed_check inlined (reader.rt) 5 %. With the hints a check that knows the place of its fault takes 3 instructions more for
a packet than one that does not, and reading 9.

Needed are the toolchain, gcc, Python and valgrind.'

record=
for word in "$@"; do
    case $word in
        --record) record=yes ;;
        --help)
            echo "$usage"
            exit
            ;;
        *)
            echo "$usage" >&2
            exit 2
            ;;
    esac
done

cd "$(dirname "$0")/.."
out=bench/out/instructions
command -v valgrind >/dev/null || give_up 'valgrind is needed, whose tool callgrind counts'

build_driver
make_traffic 1
counts=$out/counts
rm -rf "$counts"
mkdir -p "$counts"
rt version >"$counts/toolchain.txt"
# What is counted: the functions of the library's archives, and neither the driver's nor the C library's.
# shellcheck disable=SC2086 # a list of paths without blanks
nm --defined-only $archives | sed -n 's/^[0-9a-f]* [tT] //p' >"$counts/functions.txt"

for file in data_small sack4 init hostile_params hostile_acks; do
    for call in check check_lenient check_strict borrowed refill read read_and_write write_over write_in_place build; do
        valgrind --tool=callgrind --toggle-collect=counted_round --demangle=no --compress-strings=no --compress-pos=no \
            --callgrind-out-file="$counts/$file.$call.callgrind" "$out/driver" --count "$call" "$out/traffic/$file.hex" \
            >"$counts/$file.$call.packets" 2>"$out/valgrind.log" || { cat "$out/valgrind.log" >&2; give_up "$call of $file"; }
    done
done

python3 bench/instructions.py "$counts" bench/instructions.tsv ${record:+--record}
