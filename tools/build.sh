#!/usr/bin/env bash
# SPDX-License-Identifier: Apache-2.0
# Builds the C library, proved, and puts it into a folder (docs/C.md).
set -eu -o pipefail

usage='usage: tools/build.sh [--text] PREFIX

Proves and builds the C library, and puts it into the folder PREFIX:

  include/dcsctp.h
  include/dcsctp_inline.h      readers that are compiled into their caller, an option that is not proved
  include/dcsctp_registered.h  a struct for each type that dcsctp.h keeps as bytes, an option that is not proved
  include/dcsctp_processor.h   the CRC32c of the processor, an option that is not proved
  include/dcsctp_msan.h        what dcsctp.h says to MemorySanitizer
  lib/libdcsctp.a              for static linking; it needs libc and nothing else
  lib/libdcsctp.so             for dynamic linking; it needs libc and nothing else. A link to libdcsctp.so.MAJOR.MINOR,
                               since until 1.0.0 a minor version may change the interface
  lib/pkgconfig/dcsctp.pc

The first run proves everything below it, and prints a line as each of twelve crates is done: that takes 8 to 20 minutes on
four processors, and 4 GB of disk for what is kept. Later runs take half a minute. Needed are the toolchain and a C compiler
with binutils; the variables CC, LD, OBJCOPY and AR name others than cc, ld, objcopy and ar.

  --text  takes the text and the headers of dist/, as they are, and needs no toolchain: nothing is proved'

give_up() {
    echo "tools/build.sh: $1" >&2
    exit 1
}

text=
if [ "${1:-}" = --text ]; then
    text=dist/dcsctp-$(uname -m)-elf.s
    shift
fi
if [ $# -ne 1 ] || [ "${1#-}" != "$1" ] || [ -z "$1" ]; then
    if [ "${1:-}" = --help ]; then
        echo "$usage"
        exit
    fi
    echo "$usage" >&2
    exit 2
fi

cc=${CC:-cc} ld=${LD:-ld} objcopy=${OBJCOPY:-objcopy} ar=${AR:-ar}
for tool in $([ "$text" ] || echo rt) "$cc" "$ld" "$objcopy" "$ar"; do
    command -v "$tool" >/dev/null || give_up "the program $tool is needed, and isn't there"
done
mkdir -p "$1" || give_up "the folder $1 can't be made"
prefix=$(cd "$1" && pwd)
cd "$(dirname "$0")/.."

work=$(mktemp -d)
trap 'rm -rf "$work"' EXIT

if [ "$text" ]; then
    headers=dist
    "$cc" -c -o "$work/dcsctp.o" "$text"
else
    headers=include
    # The archive of the crate, and the toolchain's three functions that call malloc, realloc and free.
    # Of what rt says, a line is passed on for each crate that is done, and that another process keeps it waiting.
    archive=crates/dcsctp_c/out/libdcsctp_c.a
    first=
    [ -f "$archive" ] || first='; the first run takes 8 to 20 minutes'
    echo "tools/build.sh: proving and building twelve crates$first" >&2
    (cd crates/dcsctp_c && rt lib) 2>&1 | tee "$work/log" |
        sed -n -u -E 's/^crate (dcsctp_[a-z0-9_]*): .*/  \1/p; s/^rt: (.*waiting.*)/  \1/p' >&2 || {
        { grep -E 'error|not proved|^rt:' "$work/log" || cat "$work/log"; } | tail -n 10 | cut -c1-300 >&2
        give_up 'crates/dcsctp_c was not built'
    }
    kit=$(dirname "$(rt doc)")
    heap=$kit/c/liblibc_c.a
    [ -f "$archive" ] || give_up "rt lib made no $archive"
    [ -f "$heap" ] || give_up "the toolchain has no $heap"

    # One object, in which the functions of the header alone are visible to a linker.
    grep -v '^static inline' include/dcsctp.h | grep -o 'dcsctp_[a-z_]*(' | tr -d '(' | sort -u >"$work/functions"
    "$ld" -r -o "$work/dcsctp.o" --whole-archive "$archive" "$heap"
    "$objcopy" --keep-global-symbols="$work/functions" "$work/dcsctp.o"
fi
"$ar" rcsD "$work/libdcsctp.a" "$work/dcsctp.o"
version=$(sed -n 's/^#define DCSCTP_VERSION "\(.*\)"$/\1/p' $headers/dcsctp.h)
soname=libdcsctp.so.${version%.*}
"$cc" -shared -o "$work/$soname" "$work/dcsctp.o" -Wl,-soname,"$soname" -Wl,-z,text -Wl,-z,noexecstack \
    -Wl,--no-undefined -Wl,--version-script=dist/dcsctp.map

mkdir -p "$prefix/include" "$prefix/lib/pkgconfig"
install -m 644 $headers/*.h "$prefix/include"
install -m 644 "$work/libdcsctp.a" "$prefix/lib/libdcsctp.a"
install -m 755 "$work/$soname" "$prefix/lib/$soname"
ln -sf "$soname" "$prefix/lib/libdcsctp.so"
cat >"$prefix/lib/pkgconfig/dcsctp.pc" <<PC
prefix=\${pcfiledir}/../..
libdir=\${prefix}/lib
includedir=\${prefix}/include

Name: dcsctp
Description: The wire layer of SCTP (RFC 9260), proved
Version: $version
Cflags: -I\${includedir}
Libs: -L\${libdir} -ldcsctp
PC
echo "the library is in $prefix/lib, and its header in $prefix/include"
