#!/usr/bin/env bash
# SPDX-License-Identifier: Apache-2.0
# Times the CRC32c beside a loop in C that goes byte by byte, and the processor's (docs/SPEED.md).
set -eu
. "$(dirname "$0")/build.sh"

usage='usage: bench/crc.sh [ROUNDS [MILLIS]]

Prints a Markdown table of gigabytes a second. Each function has 30 rounds of 3 milliseconds, or as many as given.

Needed are the toolchain and gcc.'

case ${1:-} in
    -*)
        echo "$usage"
        [ "$1" = --help ] && exit
        exit 2
        ;;
esac

cd "$(dirname "$0")/.."
out=bench/out
build_program crc
"$out/crc" "${1:-30}" "${2:-3}"
