#!/usr/bin/env bash
# SPDX-License-Identifier: Apache-2.0
# The README's test command, from the root of the repository.
set -u

usage='usage: ./test.sh [library | --quick]

Runs the gate: the files that have to agree are compared; `rt ci` proves everything, and runs each program and test; each
request for memory of what it built is refused; sctp_show is run over its rows, and sctp_dump with each option; the library
that it proved is tried from C; the texts in dist/ are tried, and, by the toolchain that MANIFEST names alone, made anew and
compared; the commands of the pages are run; and so is
the page for browsers. Peers of WebRTC talk, and their packets are read. The last line is that of `rt ci`.

  library  what a user of the library depends on, alone: the gate without sctp_dump and the page. `rt ci` proves and tries the C
           library, sctp_show, the rows, the tests and the crates below them. It isn'\''t the gate, and its last line says so
  --quick  for who has changed a line: what runs without a proof, within three minutes on four processors. That is the
           comparisons, and each program over its stored input by `rt try`; of test_rows all rows but those whose packets
           are very large, or changed byte by byte. The toolchain keeps no unproved program, and makes no unproved library
           for C. So requests are refused, sctp_show is run over its rows, sctp_dump with its options, and C is tried, only
           where what was proved and built is as new as the sources. The last line says what passed, failed and was left
           out, and that nothing was proved
  --help   prints this

Without the toolchain rt it runs what needs none, with and without --quick: the comparisons, the texts in dist/ in each language
that is installed, among them sctp_show over its rows and sctp_dump with each option, the C tests over the text, the commands of
the pages, the page, and peers. It says what begins, and names what it leaves out: what lacks a tool, or has one that is too old.
Where a text is older than its sources, and a step over the texts fails, the failure is printed, but not counted. The last line says
that nothing was proved, and ends in N passed, M failed'

quick= library= crates=() modules=()
case $#:${1:-} in
    0:) ;;
    1:library) library=yes crates=(dcsctp_c sctp_show test_rows test_callers) modules=(dcsctp sctp_show) ;;
    1:--quick) quick=yes ;;
    1:--help) echo "$usage" && exit ;;
    *) echo "$usage" >&2 && exit 2 ;;
esac
cd "$(dirname "$0")" || exit
work=$(mktemp -d)
trap 'rm -rf "$work"' EXIT

# Names the sources that don't say their license.
have_licenses() {
    ! git grep -L 'SPDX-License-Identifier: Apache-2.0' -- '*.c' '*.cc' '*.h' '*.hpp' '*.go' '*.rs' '*.py' '*.sh' '*.js' '*.cjs' '*.mjs' \
        '*.ts' '*.css' '*.html' '*/CMakeLists.txt' ':!crates' 2>/dev/null | grep .
}

# Names the wrong bodies of tools/plants.txt that no longer fit their files.
plants_fit() {
    tools/plant.py --list >"$work/plants" || { grep ': broken: ' "$work/plants" && false; }
}

compare() {
    # The rows and their stored output are one text.
    cmp crates/test_rows/stdin crates/test_rows/stdout && tools/captures.py --compare && tools/examples.py --compare &&
        tools/api.py --compare && tools/rules.py --compare && tools/links.py . && registry/make.py --compare && registry/test.py &&
        registry/vectors/vectors.py --compare && registry/vectors/test.py && registry/places.py --compare &&
        registry/test_places.py && have_licenses && plants_fit && tools/lint.sh
}

# Whether the library and the program as WebAssembly are those of the modules.
compare_wasm() {
    if command -v wasm-opt >/dev/null; then
        dist/wasm.py --compare
    else
        echo 'dist: WebAssembly: not compared, since there is no wasm-opt (Debian: binaryen)'
    fi
}

# Whether the program prints the table of rows without their answers too: none of its answers is taken from the table.
answers_rows_alone() {
    sed '/^ /d; /^#/!s/ = .*//' crates/test_rows/stdin | crates/test_rows/out/test_rows | cmp - crates/test_rows/stdout
}

# Whether the packages, and loops without them in their languages, get the same sums of packets, those of random chunks among them.
sums_agree() {
    bench/packages.py --turns 1 --rounds 0
}

# Runs what tries sctp_dump or the page, unless the library is tried alone.
for_tool() {
    [ "$library" ] || "$@"
}

# Says that a step of the gate begins, and runs it.
say() {
    printf 'gate: %s: begins\n' "$*"
    "$@"
}

run_gate() {
    local gate
    say compare || exit 1
    # All that the gate prints but its last line, which waits for the rest.
    rt ci "${crates[@]}" | awk -v last="$work/last" 'NR > 1 { print line; fflush() } { line = $0 } END { print line > last }'
    gate=${PIPESTATUS[0]}
    if [ "$gate" -eq 0 ]; then
        say tests/refusals/test.sh && answers_rows_alone && say tests/show/test.sh && for_tool say tests/dump/test.sh || exit 1
        tools/take_libraries.py
        say tests/c/test.sh && say dist/make.py --jobs 4 --compare "${modules[@]}" && compare_wasm &&
            say dist/test.sh ${library:+--library} && say sums_agree && say tools/commands.py && say tools/examples.py --try &&
            for_tool say page/test.sh && for_tool say tests/peers/test.sh crates/sctp_dump/out/sctp_dump || exit 1
    fi
    cat "$work/last"
    exit "$gate"
}

# ---- without a proof

# A table without the rows that take minutes where each access is checked. Lines of answers begin with a blank.
without_long_rows() {
    awk '!/^ / { is_long = /^changed / || /\*[0-9][0-9][0-9]/ } !is_long' "$1"
}

# Runs the program of a crate over its stored input, unproved.
try_program() {
    local out=$work/$1 args=() data=() status=0 file
    mkdir "$out"
    cd "crates/$1" || return
    for file in stdin stdout; do
        if [ "$1" = test_rows ]; then without_long_rows $file; elif [ -f $file ]; then cat $file; fi >"$out/$file"
    done
    for file in data/*; do
        [ ! -f "$file" ] || data+=(--data "${file#data/}=$file")
    done
    [ ! -f args ] || mapfile -t args <args
    [ ! -f status ] || status=$(<status)
    rt try "${data[@]}" -- "${args[@]}" <"$out/stdin" >"$out/printed" 2>"$out/log"
    if [ $? -ne "$status" ] || ! diff "$out/stdout" "$out/printed"; then
        cat "$out/log"
        return 1
    fi
}

mode=quick passed=0 failed=0 left_out=0 older=
# Says whether a step passed, by its status, and of one that failed what else it printed. Counts what its scripts say that passed
# and failed, or else the step, and what they left out.
report() {
    local log=$work/$1.log good bad
    read -r good bad < <(awk -v status="$2" '
        match($0, /[0-9]+ (rows )?passed, [0-9]+ failed/) { split(substr($0, RSTART), n, /[^0-9]+/); good += n[1]; bad += n[2]; said = 1 }
        END { if (!said) good = !status; if (status && !bad) bad = 1; print good + 0, bad + 0 }' "$log")
    passed=$((passed + good)) left_out=$((left_out + $(grep -c 'left out, since' "$log")))
    if [ "$2" -eq 0 ]; then
        printf '%s: %s: passed\n' "$mode" "$1"
        return
    fi
    grep -v -e ': passed$' -e ': begins$' -e 'left out, since' "$log" | head -n 40
    if [ "$older" ]; then
        leave_out "$1: $bad failed" "dist/ is older than the sources of" $older
    else
        failed=$((failed + bad))
        printf '%s: %s: failed\n' "$mode" "$1"
    fi
}

# Says that a step begins, runs its command, and says what of it begins, passed or was left out, at once.
run() {
    printf '%s: %s: begins\n' "$mode" "$1"
    "${@:2}" 2>&1 | tee "$work/$1.log" | grep --line-buffered -e ': begins$' -e ': passed' -e 'left out, since'
    return "${PIPESTATUS[0]}"
}

step() {
    run "$@"
    report "$1" $?
}

# The same beside what follows. Bash forgets how a process ended once another has its number: so a file says it.
started=()
start() {
    {
        run "$@"
        echo $? >"$work/$1.status"
    } &
    started+=("$1")
}

# Waits for the steps that `start` began, and reports them.
finish() {
    local name
    wait
    for name in "${started[@]}"; do
        report "$name" "$(cat "$work/$name.status" || echo 1)"
    done
}

# Whether these files were built after the last change of a source.
are_built() {
    local file
    for file in "$@"; do
        [ -e "$file" ] && [ -z "$(find crates/*/src -newer "$file" -print -quit)" ] || return
    done
}

# Says what is left out, and why.
leave_out() {
    left_out=$((left_out + 1))
    printf '%s: %s: left out, since %s\n' "$mode" "$1" "${*:2}"
}

run_quickly() {
    local main program why='what was built is missing, or older than a source'
    for main in crates/*/src/main.rt; do
        program=${main%/src/main.rt} program=${program#crates/}
        start "$program" try_program "$program"
    done
    step comparisons compare
    step 'commands of the pages' tools/commands.py
    step 'code of CALLING.md' tools/examples.py --try
    with node 'scripts of the page' node page/tests/units.mjs
    finish
    if are_built crates/test_rows/out/test_rows crates/sctp_show/out/sctp_show; then
        step 'refused requests' tests/refusals/test.sh
    else
        leave_out 'refused requests' "$why"
    fi
    if are_built crates/sctp_show/out/sctp_show; then
        step 'runs of sctp_show' tests/show/test.sh
    else
        leave_out 'runs of sctp_show' "$why"
    fi
    if are_built crates/sctp_dump/out/sctp_dump; then
        step 'runs of sctp_dump' tests/dump/test.sh
    else
        leave_out 'runs of sctp_dump' "$why"
    fi
    if are_built crates/dcsctp_c/out/libdcsctp_c.a; then step C tests/c/test.sh 100000; else leave_out C "$why"; fi
    step 'real peers' tests/peers/test.sh
    printf 'quick: %s passed, %s failed, %s left out; nothing was proved\n' "$passed" "$failed" "$left_out"
    [ "$failed" -eq 0 ]
}

# ---- without the toolchain

# The crates whose sources aren't those that the texts of dist/ were made of.
changed_crates() {
    local sum name
    while read -r _ _ sum name; do
        (cd "crates/$name" && find src specs -type f 2>/dev/null | LC_ALL=C sort | xargs sha256sum | sha256sum) |
            grep -q "^$sum " || echo "$name"
    done < <(grep '^# source ' dist/MANIFEST)
}

# Whether these tools, and this kind of processor, are there; else the step is left out. (Debian's python3-minimal is a part of Python.)
has() {
    local tool
    for tool in $1; do
        case $tool in
            x86-64) [ "$(uname -m)" = x86_64 ] ;;
            node-*) node -e "process.exit(parseInt(process.versions.node) < ${tool#node-} ? 1 : 0)" 2>/dev/null ;;
            python-3.10) python3 -c 'import json, shutil, sys; sys.exit(sys.version_info < (3, 10))' 2>/dev/null ;;
            *) command -v "$tool" >/dev/null ;;
        esac || { leave_out "$2" "there is no $tool" && return 1; }
    done
}

# Runs a step, if its tools are there.
with() {
    ! has "$1" "$2" || step "${@:2}"
}

run_without_rt() {
    local cc=${CC:-cc} name
    mode='without rt'
    with python-3.10 comparisons compare
    # What comes now runs over the texts.
    older=$(changed_crates)
    if has "$cc x86-64" 'texts of dist'; then start 'texts of dist' dist/test.sh ${library:+--library}; fi
    with "$cc" C tests/c/test.sh 100000
    with "$cc x86-64 python-3.10" 'sums of packets' sums_agree
    with "$cc x86-64 python-3.10" 'commands of the pages' tools/commands.py
    for_tool with node-18 'scripts of the page' node page/tests/units.mjs
    for_tool with 'node-20 python-3.10' page page/test.sh
    for_tool with "$cc x86-64 python-3.10" 'real peers' tests/peers/test.sh
    finish
    for name in 'the proofs, and the rows and tests of the crates' 'refused requests' 'the code of CALLING.md' \
        'whether dist/ and the WebAssembly are what the sources give'; do
        leave_out "$name" 'it takes rt'
    done
    printf 'without rt: %s left out, and nothing was proved: %s passed, %s failed\n' "$left_out" "$passed" "$failed"
    [ "$failed" -eq 0 ]
}

if ! command -v rt >/dev/null; then run_without_rt; elif [ "$quick" ]; then run_quickly; else run_gate; fi
