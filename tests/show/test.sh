#!/usr/bin/env bash
# SPDX-License-Identifier: Apache-2.0
# Runs the program sctp_show over texts, and where a device fails.
set -u

usage='usage: tests/show/test.sh [--quick] [PROGRAM]

Runs the program over each row of tests/show/rows.txt and of captures.txt, and compares all that it prints, and its status; then
over an input that comes byte by byte, one that is too long, and devices that fail. The last line is: show: N passed, M failed.
--quick leaves out devices that an emulator or Wine may not have.

The program is crates/sctp_show/out/sctp_show, which `rt ci` proved and built, unless another is named; if it is missing, or older
than a source file, it is proved and built first.'

program=crates/sctp_show/out/sctp_show quick=
[ "${1:-}" != --quick ] || { quick=yes && shift; }
case ${1:-} in
    --help) echo "$usage" && exit ;;
    -*) echo "$usage" >&2 && exit 2 ;;
    ?*) program=$(realpath "$1") ;;
esac
cd "$(dirname "$0")/../.." || exit
work=$(mktemp -d)
trap 'rm -rf "$work"' EXIT

is_built() {
    [ -x "$program" ] && [ -z "$(find crates/*/src -name '*.rt' -newer "$program" -print -quit)" ]
}

if [ $# -eq 0 ]; then
    is_built || (cd crates/sctp_show && rt run) >"$work/log" 2>&1 </dev/null
fi
[ -x "$program" ] || { echo 'show: sctp_show was not built' && tail "$work/log" && exit 1; }

passed=0 failed=0
# Counts a run by its status, and by what it printed and was to print; says what differs.
judge() {
    if diff "$work/wanted" "$work/printed" >"$work/log" && diff /dev/null "$work/errors" >>"$work/log" && [ "$2" -eq "$3" ]; then
        passed=$((passed + 1))
    else
        failed=$((failed + 1))
        printf 'show: %.100s: status %s, and not %s; < what was wanted, > what was printed\n' "$1" "$2" "$3"
        head -n 20 "$work/log"
    fi
}

# ---- rows

# Prints a text, with the escapes of printf %b; of {7f}*3 7f7f7f.
print_text() {
    local rest=$1
    while [[ $rest =~ ^([^{]*)\{([^}]*)\}\*([0-9]+)(.*)$ ]]; do
        rest=${BASH_REMATCH[4]}
        printf %b "${BASH_REMATCH[1]}"
        yes "${BASH_REMATCH[2]}" | head -n "${BASH_REMATCH[3]}" | tr -d '\n'
    done
    printf %b "$rest"
}

row=
# Runs the program over the row's text, of which all lines were read.
run_row() {
    [ -n "$row" ] || return
    print_text "$row" >"$work/text"
    "$program" <"$work/text" >"$work/printed" 2>"$work/errors"
    judge "$row" $? "$(grep -c '^error: ' "$work/wanted")"
}

while IFS= read -r line; do
    case $line in
        '' | '#'*) ;;
        '  '*) echo "${line#  }" >>"$work/wanted" ;;
        *)
            run_row
            row=${line%% = *}
            if [ "$row" = "$line" ]; then : >"$work/wanted"; else echo "${line#* = }" >"$work/wanted"; fi
            ;;
    esac
done < <(cat tests/show/{rows,captures}.txt)
run_row

# ---- devices

digits=1388138801020304000000000b000004
printf '%s\n' 'source=5000 destination=5000 tag=16909060 checksum=0' COOKIE-ACK "canonical=$digits" >"$work/wanted"
for ((i = 0; i < ${#digits}; i++)); do
    printf %s "${digits:i:1}" && sleep 0.01
done | "$program" >"$work/printed" 2>"$work/errors"
judge 'an input that comes byte by byte' "${PIPESTATUS[1]}" 0

: >"$work/wanted"
: >"$work/printed"
"$program" <<<"$digits" >/dev/full 2>"$work/errors"
judge 'a full disk' $? 2
exec 3> >(true)
wait $!
"$program" <<<"$digits" >&3 2>"$work/errors"
judge 'a pipe that is closed' $? 2

if [ -z "$quick" ]; then
    "$program" <. >/dev/full 2>"$work/errors"
    judge 'a full disk, and a directory as input' $? 2
    echo 'error: read failed' >"$work/wanted"
    "$program" <. >"$work/printed" 2>"$work/errors"
    judge 'a directory as input' $? 1
    if python3 -c 'import os, tty; os.openpty()' 2>/dev/null; then
        tests/broken_input.py 13881 "$program" >"$work/printed" 2>"$work/errors"
        judge 'an input that fails after five bytes' $? 1
    else
        echo 'show: tests/broken_input.py: left out, since there is no pseudoterminal by python3'
    fi
    printf source=500 >"$work/wanted"
    (trap '' XFSZ && exec prlimit --fsize=10 "$program" <<<"$digits" >"$work/printed" 2>"$work/errors")
    judge 'an output that takes ten bytes' $? 2
    printf '%s\n' 'error: input too long' 99999 >"$work/wanted"
    print_text '{0}*300000' >"$work/text"
    {
        "$program" >"$work/printed" 2>"$work/errors"
        ended=$?
        wc -c >>"$work/printed"
    } <"$work/text"
    judge 'of 300,000 bytes 200,001 are read' $ended 1
fi

printf 'show: %s passed, %s failed\n' "$passed" "$failed"
[ "$failed" -eq 0 ]
