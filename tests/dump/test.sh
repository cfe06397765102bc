#!/usr/bin/env bash
# SPDX-License-Identifier: Apache-2.0
# Runs the program sctp_dump with each option, and where something fails.
set -u

usage='usage: tests/dump/test.sh [--quick] [PROGRAM]

Runs the program over the rows of runs.txt, and compares all that it prints, and its status. Its options have to be those of its
manual page, docs/sctp_dump.1, at which mandoc, if it is there, finds nothing wrong. Then tools/rules.py has it ask the rules of
the packets of rules.txt in examples/, it has the chunks of refused.txt and the captures in data/, reports.py compares what it
prints of the packets of reports.txt, faults.py looks at lengths that are refused, objects.py at its JSON, forms.py at its three
forms, logs.py at associations of logs, auth.py at AUTH, times.py at times, pcapng.py at the pcapng files that it writes, files.py at
the files of messages; where tshark is, associations.py at associations of captures, messages.py at their messages, channels.py at
their channels, fragments.py at IP fragments, and tshark.py at packets; where scapy is, scapy.py at the same; where both are, tunnels.py
at tunnels; fields.py compares the JSON and the Python package, of each field of a real stack'\''s packets, with tshark and scapy, where
they are. Last come a table that is full, and inputs and outputs that fail.
The last line is: dump: N passed, M failed. --quick leaves out the scripts, a word that isn'\''t UTF-8, and an output that is
limited, for a program that runs in an emulator or under Wine.

The program is crates/sctp_dump/out/sctp_dump, which `rt ci` proved and built, unless another is named; if it is missing,
or older than a source file, it is proved and built first.'

program=crates/sctp_dump/out/sctp_dump quick=
[ "${1:-}" != --quick ] || { quick=yes && shift; }
case ${1:-} in
    --help) echo "$usage" && exit ;;
    -*) echo "$usage" >&2 && exit 2 ;;
    ?*) program=$(realpath "$1") ;;
esac
cd "$(dirname "$0")/../.." || exit
work=$(mktemp -d)
trap 'rm -rf "$work"' EXIT

is_built() {
    [ -x "$program" ] && [ -z "$(find crates/*/src -name '*.rt' -newer "$program" -print -quit)" ]
}

if [ $# -eq 0 ]; then
    is_built || (cd crates/sctp_dump && rt run -- --help) >"$work/log" 2>&1 </dev/null
    program=$PWD/$program
fi
[ -x "$program" ] || { echo 'dump: sctp_dump was not built' && tail "$work/log" && exit 1; }
root=$PWD rows=$PWD/tests/dump/runs.txt captures=$PWD/tests/dump/data
cd crates/sctp_dump/data || exit

passed=0 failed=0
# Counts a run, whose output and errors are files, by its status and what it was to be; says what differs.
judge() {
    local name=$1 ended=$2 status=$3
    if diff "$work/wanted" "$work/printed" >"$work/log" && diff "$work/wanted_errors" "$work/errors" >>"$work/log" &&
        [ "$ended" -eq "$status" ]; then
        passed=$((passed + 1))
    else
        failed=$((failed + 1))
        printf 'dump: %s: status %s, and not %s; < what was wanted, > what was printed\n' "$name" "$ended" "$status"
        head -n 40 "$work/log"
    fi
}

# Counts a script that looks at the program; prints what it says, if it fails.
look() {
    if "$@" >"$work/log" 2>&1; then
        passed=$((passed + 1))
    else
        failed=$((failed + 1))
        head -n 40 "$work/log"
    fi
}

leave_out() {
    echo "dump: ${1#"$root/"}: left out, since there is no $2"
}

# The scripts are in Python, with all of its library.
if [ -n "$quick" ]; then
    look() { :; }
    leave_out() { :; }
elif ! python3 -c 'import json, shutil, sys; sys.exit(sys.version_info < (3, 10))' 2>/dev/null; then
    look() { leave_out "$1" python-3.10; }
fi

# The same, if the tools that the first word names are there.
look_with() {
    local tool
    for tool in $1; do
        case $tool in
            tshark-4) tshark --version 2>/dev/null | grep -q '^TShark .*) 4\.' ;;
            *) command -v "$tool" >/dev/null ;;
        esac || { leave_out "$2" "$tool" && return; }
    done
    look "${@:2}"
}

# The Python that has scapy: that of Debian's package may not be the first on PATH. Other versions may dissect more.
find_scapy() {
    local python
    for python in python3 /usr/bin/python3; do
        "$python" -c 'import scapy; exit(not scapy.VERSION.startswith("2.5."))' 2>/dev/null && echo "$python" && return
    done
    return 1
}

# Looks by that Python, if it is there.
look_with_scapy() {
    local python
    if python=$(find_scapy); then look "$python" "$@"; else leave_out "$1" 'scapy 2.5'; fi
}

# Runs a row, its words and input with their escapes.
run() {
    local words=() word
    if [ -n "$quick" ] && [[ $1 == *\\xff* ]]; then return; fi
    for word in $1; do
        words+=("$(printf %b "$word")")
    done
    printf %b "$2" | timeout 600 "$program" "${words[@]:1}" >"$work/printed" 2>"$work/errors"
    local ended=${PIPESTATUS[1]}
    if [ -n "$quick" ] && [ "$ended" -ne "$3" ] && [ ! -s "$work/printed" ] && [ ! -s "$work/errors" ]; then
        # (what runs it may not have begun it, which only Wine was seen to do)
        echo "dump: $1: status $ended, and nothing printed: once more"
        printf %b "$2" | timeout 600 "$program" "${words[@]:1}" >"$work/printed" 2>"$work/errors"
        ended=${PIPESTATUS[1]}
    fi
    judge "$1" "$ended" "$3"
}

row=
while IFS= read -r line; do
    case $line in
        '#'*) ;;
        '$ '*)
            row=${line#??} input=
            : >"$work/wanted"
            : >"$work/wanted_errors"
            ;;
        '< '*) input+=${line#??}'\n' ;;
        '! '*) echo "${line#??}" >>"$work/wanted_errors" ;;
        '? '*)
            run "$row" "$input" "${line#??}"
            row=
            ;;
        *) [ -z "$row" ] || echo "$line" >>"$work/wanted" ;;
    esac
done <"$rows"

# The text of --help is a row; -h prints the same.
: >"$work/wanted_errors"
"$program" --help >"$work/wanted"
"$program" -h >"$work/printed" 2>"$work/errors"
judge 'sctp_dump -h' $? 0

# The manual page has these options, and no others.
grep -oE -- '--[a-z-]+' "$work/printed" | sort -u >"$work/wanted"
sed -n 's/^\.It Fl \(-[a-z-]*\).*/-\1/p' "$root/docs/sctp_dump.1" | sort >"$work/printed"
judge 'the options of sctp_dump.1' $? 0
if command -v mandoc >/dev/null; then look mandoc -T lint -W warning "$root/docs/sctp_dump.1"; fi

# ---- rules

# What is said of the rules that the packets of each row break.
look "$root/tools/rules.py" --try "$program"

: >"$work/wanted_errors"
# What real stacks sent breaks none.
printf 'warnings: 0\n' >"$work/wanted"
for file in "$captures"/*.log "$captures"/*.pcap; do
    "$program" --json --check --summary "$file" 2>"$work/errors" | tail -n 1 | sed 's/.*"warnings":\([0-9]*\)}$/warnings: \1/' >"$work/printed"
    judge "rules that ${file##*/} breaks" "${PIPESTATUS[0]}" 0
done

# ---- chunks that are refused

# Of a length that is refused the text says which are needed.
look "$root/tests/dump/faults.py" "$program"

grep ' = ! ' "$root/tests/dump/refused.txt" >"$work/rows"
sed 's/.* = //' "$work/rows" >"$work/wanted"
echo '! size at 65535: packet: 65536 bytes, but 65535 are the most' >>"$work/wanted"
(sed 's/ = .*//; s/^/138813890102030400000000 /' "$work/rows" && printf '%0131072d' 0) | "$program" --brief 2>"$work/errors" |
    sed -n 's/^[0-9].* zero //p' >"$work/printed"
judge 'what is said of chunks that are refused' "${PIPESTATUS[1]}" 1

# ---- reports

# Each kind of chunk, parameter and error cause, in each form.
look "$root/tests/dump/reports.py" "$program"

# ---- lines that are too long

# Those of more than 262,144 bytes aren't looked at, with a line feed or without one; one of as many is.
: >"$work/wanted_errors"
cat >"$work/wanted" <<'WANTED'
line 1 skipped: more than 262144 bytes
1 - -:0 > -:0 0x00000000 zero ! size at 65535: packet: 131072 bytes, but 65535 are the most
line 3 skipped: more than 262144 bytes
packets 1: accepted 0, refused 1 (size 1, length 0, padding 0, value 0), cut off 0; skipped 2 (not SCTP 0, fragment 0, cut 0, malformed 0, too long 2, unknown 0, link type 0)
WANTED
printf '%0262145d\n%0262144d\n%0262145d' 0 0 0 | "$program" --brief >"$work/printed" 2>"$work/errors"
judge 'lines that are too long' "${PIPESTATUS[1]}" 1

# ---- JSON

# Each line is an object, and each place holds the value of its key. Lines and blocks say the same. A log has the associations of
# its capture, and captures have those of a model over tshark, where IP fragments are put together. AUTH is right where Python's HMAC
# is. What --pcapng writes holds the packets of the input, also for tshark.
look "$root/tests/dump/objects.py" "$program"
look "$root/tests/dump/forms.py" "$program"
look "$root/tests/dump/logs.py" "$program"
look "$root/tests/dump/auth.py" "$program"
look "$root/tests/dump/pcapng.py" "$program"
look "$root/tests/dump/files.py" "$program"
look_with 'tshark capinfos' "$root/tests/dump/pcapng.py" "$program" --tshark
look_with tshark "$root/tests/dump/associations.py" "$program"
look_with tshark "$root/tests/dump/messages.py" "$program"
look_with tshark "$root/tests/dump/channels.py" "$program"
look_with tshark "$root/tests/dump/fragments.py" "$program"

# ---- blocks

# They say what other programs do.
look_with_scapy "$root/tests/dump/scapy.py" --program "$program"
look_with 'tshark-4 editcap mergecap text2pcap tcpdump hexdump xxd' "$root/tests/dump/tshark.py" "$program"
if command -v tshark >/dev/null; then
    look_with_scapy "$root/tests/dump/tunnels.py" "$program"
else
    leave_out "$root/tests/dump/tunnels.py" tshark
fi

# ---- fields of a real stack's packets

# The script looks for the tools itself: what it says of them, and of how many fields agree, is passed on.
if python=$(find_scapy); then
    look "$python" "$root/tests/dump/fields.py" "$program"
else
    look "$root/tests/dump/fields.py" "$program"
fi
sed -n 's/^fields: /dump: &/p' "$work/log"

# ---- times

look "$root/tests/dump/times.py" "$program"

# ---- a table that is full

# INITs with these tags.
inits() {
    printf '138813890000000000000000 01000014 %08x 00010000 00010001 00000001\n' "$@"
}

# Packets to the ends with these tags.
packets_to() {
    printf '13891388%08x00000000 0b000004\n' "$@"
}

# Of 10,000 associations 1 is seen once more, and 3 ends. For two others 3 leaves, and then 2, which was silent longest; after
# that packets to 1 and 4 are theirs, and those to 2 and 3 are of none, as is an INIT that 3 sends again.
{
    inits {1..10000}
    packets_to 1
    echo '138813890000000300000000 06010004' # ABORT, with its sender's tag
    inits 10001 10002
    packets_to 1 2 3 4
    inits 3
} | timeout 600 "$program" --associations 2>"$work/errors" >"$work/all"
ended=$?
awk -v RS= '/left the table/ || /second end sent packets [^0]/' "$work/all" | grep -E '^association|left|sent' >"$work/printed"
: >"$work/wanted_errors"
cat >"$work/wanted" <<'WANTED'
association 3
left the table
first end sent packets 2: refused 0, checksums: zero 2, wrong 0
second end sent packets 0: refused 0, checksums: zero 0, wrong 0
association 2
left the table
first end sent packets 1: refused 0, checksums: zero 1, wrong 0
second end sent packets 0: refused 0, checksums: zero 0, wrong 0
association 1
first end sent packets 1: refused 0, checksums: zero 1, wrong 0
second end sent packets 2: refused 0, checksums: zero 2, wrong 0
association 4
first end sent packets 1: refused 0, checksums: zero 1, wrong 0
second end sent packets 1: refused 0, checksums: zero 1, wrong 0
associations: 2 left the table, and what is said of them is a part (--keep keeps more); packets of none 3
WANTED
judge 'a table that is full' $ended 0

# Of 1,026 transports 1,024 are known by their names; the others count as one, whose INIT came twice.
printf 'O 00:00:00.000 0000 13 88 13 89 00 00 00 00 00 00 00 00 01 00 00 14 00 00 00 01 00 01 00 00 00 01 00 01 00 00 00 01 # SCTP_PACKET T%s\n' \
    {1..1026} | timeout 600 "$program" --associations 2>"$work/errors" >"$work/all"
ended=$?
{
    grep -c '^transport: T[0-9]*$' "$work/all"
    awk -v RS= '/another name/' "$work/all" | grep -E '^transport|INIT|sent'
} >"$work/printed"
cat >"$work/wanted" <<'WANTED'
1024
transport: of another name
begins: packet 1025, time 00:00:00.000000, INIT
never established, INIT 2
first end sent packets 2: refused 0, checksums: zero 2, wrong 0
second end sent packets 0: refused 0, checksums: zero 0, wrong 0
WANTED
judge 'more transports than are known by their names' $ended 0

# ---- more fragments than are followed

# DATA with these TSNs, each a message.
messages() {
    printf '138813890000000100000000 00030011 %08x 00010000 00000033 61000000\n' "$@"
}

# Of 1,026 messages 1,024 are followed; once all are acknowledged, there is room for the next one.
{
    messages {1..1026}
    echo '138913880000000200000000 03000010 00000402 00010000 0000 0000' # SACK of 1026
    messages 1027
} | timeout 600 "$program" --messages 2>"$work/errors" >"$work/all"
ended=${PIPESTATUS[1]}
{
    grep -c '^message of 1 > .*, acknowledged (packet 1027)$' "$work/all"
    grep -v -e ', acknowledged (packet 1027)$' -e '^packets' "$work/all"
} >"$work/printed"
cat >"$work/wanted" <<'WANTED'
1024
message of 1 > stream 1, ssn 0, ppid 51 (WebRTC String), size 1, tsn 1027: sent (packet 1028), not acknowledged
messages: DATA not followed 2, for which there was no room, or whose header isn't whole
WANTED
judge 'more fragments than are followed' "$ended" 0

# ---- more channels than are kept

# A message of each stream, and SACKs: the first 1,024 channels are kept, and what the others have is counted.
for ((stream = 0; stream < 65536; stream += 512)); do
    for ((i = stream; i < stream + 512; i++)); do
        printf '138813890000000100000000 00030011 %08x %04x0000 00000033 61000000\n' "$i" "$i"
    done
    printf '138913880000000200000000 03000010 %08x 00010000 0000 0000\n' $((stream + 511))
done | timeout 600 "$program" --channels 2>"$work/errors" >"$work/all"
ended=${PIPESTATUS[1]}
{
    grep -c '^channel of 1: stream [0-9]*, ppid 51 (WebRTC String); > messages 1, bytes 1,' "$work/all"
    grep '^other' "$work/all"
} >"$work/printed"
cat >"$work/wanted" <<'WANTED'
1024
other channels of 1; > messages 64512, bytes 64512, repeated 0, abandoned 0, not acknowledged 0, first (packet 1027), last (packet 65663), in flight 1 at most; < messages 0, bytes 0, repeated 0, abandoned 0, not acknowledged 0
WANTED
judge 'more channels than are kept' "$ended" 0

# ---- more addresses than are kept

# An INIT with 3,000 addresses (of 24,020 bytes, in a packet of 24,032), twice: the first 8 are kept.
init=$(printf '138813890000000000000000 01005dd4 00000001 00010000 00010001 00000001' && printf ' 00050008 0a%06x' {1..3000})
printf '%s\n' "$init" "$init" | timeout 600 "$program" --associations 2>"$work/errors" | sed -n '/announced/p; /^first end sent/p' >"$work/printed"
ended=${PIPESTATUS[1]}
{
    printf '  announced 10.0.0.%d (INIT)\n' {1..8}
    echo '  announced 2992 more'
    echo 'first end sent packets 2: refused 0, checksums: zero 2, wrong 0'
} >"$work/wanted"
judge 'more addresses than are kept' $ended 0

# ---- more paths than are kept

# Of 20 addresses a packet each to one: the paths of the first 16 are kept.
printf '4500002400000000408400000a0000%02x0a000102 138813890000000500000000 0b000004\n' {1..20} |
    timeout 600 "$program" --paths 2>"$work/errors" | grep -E '^path|^on other' >"$work/printed"
ended=${PIPESTATUS[1]}
{
    printf 'path from 10.0.0.%d to 10.0.1.2: first end sent packets 1: refused 0, checksums: zero 1, wrong 0\n' {1..16}
    echo 'on other paths packets 4'
} >"$work/wanted"
judge 'more paths than are kept' $ended 0

# ---- an input that is waited for

# A packet is printed though its input doesn't end yet.
mkfifo "$work/pipe"
: >"$work/all"
timeout 600 "$program" <"$work/pipe" >"$work/all" 2>"$work/errors" &
exec 3>"$work/pipe"
echo '138813880102030400000000 0b000004' >&3
for _ in {1..6000}; do
    grep -q '^COOKIE ACK' "$work/all" && break
    sleep 0.1
done
cp "$work/all" "$work/printed"
exec 3>&-
wait $!
ended=$?
printf '%s\n' 'packet 1' 'source 5000, destination 5000, tag 0x01020304' 'checksum 0x00000000: zero' 'COOKIE ACK' '' >"$work/wanted"
: >"$work/wanted_errors"
judge 'an input that is waited for' $ended 0

# ---- an input that comes byte by byte, and one that fails

# It is printed as what comes at once, of which there is a row.
digits=$'138813880102030400000000 0b000004\n138813880102030400000000 0b000003\n'
printf %s "$digits" | "$program" >"$work/wanted" 2>"$work/wanted_errors"
for ((i = 0; i < ${#digits}; i++)); do
    printf %s "${digits:i:1}" && sleep 0.01
done | timeout 600 "$program" >"$work/printed" 2>"$work/errors"
judge 'an input that comes byte by byte' "${PIPESTATUS[1]}" 1

# What was read before is printed.
if [ -z "$quick" ] && python3 -c 'import os, tty; os.openpty()' 2>/dev/null; then
    printf '%s\n' 'packet 1' 'source 5000, destination 5000, tag 0x01020304' 'checksum 0x00000000: zero' 'COOKIE ACK' '' >"$work/wanted"
    echo '138813880102030400000000 0b000004' | "$program" --summary | tail -n 1 >>"$work/wanted"
    echo 'sctp_dump: -: a read failed' >"$work/wanted_errors"
    "$root/tests/broken_input.py" "${digits%??}" "$program" >"$work/printed" 2>"$work/errors"
    judge 'an input that fails' $? 2
else
    leave_out tests/broken_input.py 'pseudoterminal by python3'
fi

# ---- an output that fails

# The packets of a long text, of which more is printed than a pipe holds.
long() {
    yes '138813880102030400000000 0b000004' | head -n 100000
}

: >"$work/wanted"
: >"$work/printed"
echo 'sctp_dump: a write failed' >"$work/wanted_errors"

"$program" cooked.pcap >/dev/full 2>"$work/errors"
judge 'a full disk' $? 2
"$program" --summary cooked.pcap >/dev/full 2>"$work/errors"
judge 'a full disk at the end of the run' $? 2
"$program" --pcapng cooked.pcap >/dev/full 2>"$work/errors"
judge 'a full disk, and a pcapng file' $? 2
"$program" --help >/dev/full 2>"$work/errors"
judge 'a full disk, and no packets' $? 2
long | timeout 600 "$program" - cooked.pcap >/dev/full 2>"$work/errors"
judge 'a full disk in the first of two files' "${PIPESTATUS[1]}" 2
: >"$work/wanted_errors"
long | timeout 600 "$program" 2>"$work/errors" | head -n 1 >/dev/null
judge 'a pipe that is closed after a line' "${PIPESTATUS[1]}" 2
exec 3> >(true)
wait $!
timeout 600 "$program" cooked.pcap >&3 2>"$work/errors"
judge 'a pipe that is closed' $? 2
if [ -z "$quick" ]; then
    # Nothing is written twice. (the limit is that of standard error too, which is no file here)
    printf 'packet 1\ns' >"$work/wanted"
    echo 'sctp_dump: a write failed' >"$work/wanted_errors"
    (trap '' XFSZ && exec prlimit --fsize=10 "$program" - <<<"$digits" 2>&1 >"$work/printed") | cat >"$work/errors"
    judge 'an output that takes ten bytes' "${PIPESTATUS[0]}" 2
fi

printf 'dump: %s passed, %s failed\n' "$passed" "$failed"
[ "$failed" -eq 0 ]
