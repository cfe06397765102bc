#!/usr/bin/env bash
# SPDX-License-Identifier: Apache-2.0
# Times the C library (docs/SPEED.md).
set -eu
. "$(dirname "$0")/build.sh"

usage='usage: bench/c.sh [ROUNDS [MILLIS]]

Prints a Markdown table of nanoseconds a packet. Each call has 30 rounds of 3 milliseconds, or as many as given.

Needed are the toolchain, gcc and Python.'

case ${1:-} in
    -*)
        echo "$usage"
        [ "$1" = --help ] && exit
        exit 2
        ;;
esac

cd "$(dirname "$0")/.."
out=bench/out
build_c_api
make_traffic 1
files=()
for file in data1200 data_small data_bundle init mixed; do
    files+=("$out/traffic/$file.hex")
done
"$out/c_api" "${1:-30}" "${2:-3}" "${files[@]}"
