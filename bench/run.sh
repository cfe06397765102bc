#!/usr/bin/env bash
# SPDX-License-Identifier: Apache-2.0
# Times the library, and the Rust crate beside it where a program that times that is given (docs/SPEED.md).
set -eu
. "$(dirname "$0")/build.sh"

usage='usage: bench/run.sh [OPTION]..

Times each call over each traffic file, and prints a Markdown table. Everything it makes goes to bench/out/: results.tsv has
all figures, speed.svg is the plot.

  --original PROGRAM  times the Rust crate beside the library; the variable ORIGINAL does too
  --turns 3           how often each file has its turn
  --rounds 30         how many rounds a call has in a turn
  --millis 3          how long a round is at least
  --seed 1            the seed of the traffic files
  --help              prints this

The Rust crate is not part of this repository. Without it the ratios are left out, and the plot shows megabytes a second. PROGRAM
is called as `PROGRAM FILE --rounds N --millis M --tsv`. It prints a line of column names and then a line a call, tab separated;
read are the columns file, what (parse or write), greatest (the most packets a second of its rounds) and, if they are there, refused,
allocs/p and reallocs/p. parse is SctpPacket::from_bytes and the drop of what it returns; write is that, and then the size and the
bytes of the canonical packet by the builder of the crate, whose limit is that size.

A file has 2,000 packets, and a hostile one five. In each round all calls have their turn, the best round counts, and of all turns
the best. The driver counts requests for memory by wrapping malloc and realloc as it is linked. It leaves no free block in the heap
before the calls: one of 4 KiB makes reading a full DATA chunk a fifth slower. The library is what `rt lib` makes, LLVM at
opt_level 2 for x86-64-v2; the driver has -O2, and the two are not optimized together.

Needed are the toolchain, gcc and Python from 3.9 on.'

misused() {
    echo "$usage" >&2
    exit 2
}

original=${ORIGINAL:-}
turns=3 rounds=30 millis=3 seed=1
while [ $# -gt 0 ]; do
    [ "$1" != --help ] || { echo "$usage" && exit; }
    [ $# -gt 1 ] || misused
    case $1 in
        --original) original=$2 ;;
        --turns) turns=$2 ;;
        --rounds) rounds=$2 ;;
        --millis) millis=$2 ;;
        --seed) seed=$2 ;;
        *) misused ;;
    esac
    shift 2
done
[ -z "$original" ] || [ -x "$original" ] || give_up "$original is not a program"
[ -z "$original" ] || original=$(realpath "$original")

cd "$(dirname "$0")/.."
out=bench/out
# before the load of its own work
load=$(cut -d' ' -f1 /proc/loadavg)

build_driver
make_traffic "$seed"

# What the figures were measured with, for the table's caption.
{
    printf 'date\t%s\n' "$(date -u '+%Y-%m-%d %H:%M UTC')"
    printf 'processor\t%s\n' "$(sed -n 's/^model name[^:]*: //p' /proc/cpuinfo | head -n 1)"
    printf 'processors\t%s\n' "$(nproc)"
    printf 'load\t%s\n' "$load"
    printf 'toolchain\t%s\n' "$(rt version)"
    printf 'commit\t%s\n' "$(git log -1 --format=%h -- crates)$(git diff --quiet HEAD -- crates || echo ' with changes')"
    printf 'turns\t%s\nrounds\t%s\nmillis\t%s\nseed\t%s\n' "$turns" "$rounds" "$millis" "$seed"
} >"$out/circumstances.tsv"

# The library and the Rust crate take turns at each file, so that a slow spell of the machine hits both.
rm -f "$out"/library.*.tsv "$out"/original.*.tsv
for ((turn = 1; turn <= turns; turn++)); do
    for file in "$out"/traffic/*.hex; do
        "$out/driver" "$rounds" "$millis" "$file" >>"$out/library.$turn.tsv"
        case $original:$file in
            :* | *:*/clean_*) ;;
            *) "$original" "$file" --rounds "$rounds" --millis "$millis" --tsv >>"$out/original.$turn.tsv" ;;
        esac
    done
    echo "turn $turn of $turns is over" >&2
done

python3 bench/report.py "$out"
python3 bench/plot.py "$out" "$out/speed.svg"
