#!/usr/bin/env bash
# SPDX-License-Identifier: Apache-2.0
# usage: dist/static_pie.sh ARGUMENT ..
#
# Is musl-gcc, and makes a static program that the system may load at any address. `musl-gcc -static-pie` makes one that asks
# for an interpreter.
set -eu -o pipefail

# The folder of musl's start files.
musl=$(musl-gcc -'###' -x c /dev/null 2>&1 | grep -o '[^ "]*crt1\.o')
musl=${musl%/*}
exec musl-gcc -static -fPIE -nostartfiles -Wl,-pie,--no-dynamic-linker,-z,text,-z,relro,-z,now "$musl/rcrt1.o" "$musl/crti.o" "$@" \
    "$musl/crtn.o"
