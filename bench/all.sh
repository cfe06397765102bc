#!/usr/bin/env bash
# SPDX-License-Identifier: Apache-2.0
# Measures all that docs/SPEED.md shows.
set -eu -o pipefail
. "$(dirname "$0")/build.sh"

usage='usage: bench/all.sh [--record]

Runs bench/run.sh in six turns, bench/crc.sh, bench/c.sh, bench/packages.py and bench/dump.py: all that docs/SPEED.md shows, in
its order. What each prints is in bench/out/ too: run.md, crc.md, c.md, packages.md, dump.md. Nothing else should run on the
machine. It takes five minutes once the library, the C library and sctp_dump are proved.

  --record  writes the tables into docs/SPEED.md, and the plot beside it
  --help    prints this

The variable ORIGINAL names a program that times the Rust crate too (bench/run.sh --help). bench/packages.py --help says what
the packages are timed beside; what of that is missing, and tshark, is left out. Needed are the toolchain, gcc, Python from 3.9
on and /usr/bin/time.'

case $#:${1:-} in
    0: | 1:--record) ;;
    1:--help) echo "$usage" && exit ;;
    *) echo "$usage" >&2 && exit 2 ;;
esac
[ -z "${ORIGINAL:-}" ] || ORIGINAL=$(realpath "$ORIGINAL")
cd "$(dirname "$0")/.."
out=bench/out

# Runs a script with its words, and keeps what it prints.
parts=()
part() {
    local script=$1
    shift
    "bench/$script" "$@" | tee "$out/${script%.*}.md"
    parts+=("${script%.*}")
    echo
}

mkdir -p "$out"
(cd crates/sctp_dump && rt run -- --version) >"$out/sctp_dump.log" 2>&1 || give_up "no sctp_dump: see $out/sctp_dump.log"
part run.sh --turns 6
part crc.sh
part c.sh
part packages.py
part dump.py
if [ $# -eq 1 ]; then
    python3 bench/record.py "${parts[@]}"
    cp "$out/speed.svg" docs/speed.svg
fi
echo "bench/all.sh: $SECONDS seconds"
