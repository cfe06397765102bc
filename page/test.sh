#!/usr/bin/env bash
# SPDX-License-Identifier: Apache-2.0
# Tries the page, and the program that is in it.
set -u

usage='usage: page/test.sh [FOLDER]

Tries the scripts of page/src without a browser, over made lines, and over what dist/sctp_dump.wasm prints: they have a line of their
own. Then it tries dist/sctp_dump.wasm, which has to print what the native program does, over all
of crates/sctp_dump/data, and the page, which page/make.py makes first: page/out/sctp.html, or sctp.html in another folder, as it
is. It is tried in Chromium, as a user would, from a disk and from a server; what depends on a browser most in Firefox, too. So is
page/page.html, as a web server gives it. Before that tsc compares the scripts with their types.
The last line is: page: N passed, M failed, and K left out, if something was.

Needed are node, from 20 on, and Python. Used where they are there: chromium, or what CHROMIUM names; firefox-esr, or what FIREFOX
names; tsc; lz4. Without one of them its part is left out.'

case ${1:-} in
    --help) echo "$usage" && exit ;;
    -*) echo "$usage" >&2 && exit 2 ;;
esac
here=$(dirname "$0")/..
folder=$(realpath "${1:-$here/page/out}")
cd "$here" || exit
leave_out() {
    echo "page: left out, since $1"
    echo 'page: 0 passed, 0 failed, 1 left out'
    exit 0
}
command -v node >/dev/null || leave_out 'there is no node'
node page/tests/units.mjs || { echo 'page: 0 passed, 1 failed' && exit 1; }
if command -v tsc >/dev/null; then
    tsc -p page || { echo 'page: 0 passed, 1 failed' && exit 1; }
    echo 'page: the scripts with their types: passed'
else
    echo 'page: the scripts with their types: left out, since there is no tsc'
fi

[ $# -gt 0 ] || page/make.py || { echo 'page: 0 passed, 1 failed' && exit 1; }
exec node page/tests/run.mjs "$folder/sctp.html" dist/sctp_dump.wasm
