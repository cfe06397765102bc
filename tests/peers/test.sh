#!/usr/bin/env bash
# SPDX-License-Identifier: Apache-2.0
# Has real peers of WebRTC talk, and compares what is read of their packets.
set -u

usage='usage: tests/peers/test.sh [PROGRAM [FOLDER]]

Has aiortc and Chromium open data channels to each other, ordered and unordered, reliable and not, and send texts and bytes each
way. Some packets are lost, and some come twice. Then each end resets a channel, and one of them aborts. Of each SCTP packet,
sctp_dump and the Python package have to read what aiortc reads and wrote, and the canonical packet has to be the same bytes;
sctp_dump has to find no broken rule, one association with what each end sent, and the messages that the peers sent and got;
tshark has to see the same chunks and TSNs. So too for two peers of aiortc, where aiortc reads and writes its packets by the
Python package, and for pion and Chromium, where pion does by the Go package. Then bytes are changed, which has to be found.
The last line is: peers: N passed, M failed. A talk may take 600 s.

PROGRAM is sctp_dump; if none is named, it is built from the text in dist/, as the package is. FOLDER keeps the captures.

Needed are aiortc 1.4 (Debian: python3-aiortc), for python3 or /usr/bin/python3, and a C compiler. Used where they are there:
chromium, or what CHROMIUM names, with node; go and pion/webrtc, in the GOPATH that PION names, or in /usr/share/gocode (Debian:
golang-github-pion-webrtc.v3-dev); tshark.'

case ${1:-} in
    --help) echo "$usage" && exit ;;
    -*) echo "$usage" >&2 && exit 2 ;;
esac
work=$(mktemp -d)
trap 'rm -rf "$work"' EXIT
program=$(realpath "${1:-$work/sctp_dump}") folder=$(realpath "${2:-$work}") cc=${CC:-cc}
cd "$(dirname "$0")/../.." || exit

leave_out() {
    echo "peers: left out, since there is no $1"
    echo 'peers: 0 passed, 0 failed, 1 left out'
    exit
}

has_aiortc() {
    "$1" -c 'import aiortc; exit(not aiortc.__version__.startswith("1.4."))' 2>/dev/null
}

for python in python3 /usr/bin/python3; do
    ! has_aiortc "$python" || break
done
has_aiortc "$python" || leave_out 'aiortc 1.4'
command -v $cc >/dev/null || leave_out "$cc"

# Makes what runs: the program, if none is named, and the package.
build() {
    [ $# -gt 0 ] || $cc -O2 -o "$program" "dist/sctp_dump-$(uname -m)-elf.s" dist/program.c || return
    (cd bindings/python && "$python" -c 'import backend, sys; print(backend.build_wheel(sys.argv[1]))' "$work") >"$work/wheel" &&
        "$python" -m zipfile -e "$work/$(<"$work/wheel")" "$work"
}

# Makes the peer of pion, over the Go package: pion/sctp is a copy among whose files pion/layer.go is.
build_pion() {
    local path=$work/go copy=$work/go/src/github.com/pion/sctp
    mkdir -p "$path/src/peer" "$path/src/davgyuti.example" "${copy%/*}" && cp -r "$pion/src/github.com/pion/sctp" "$copy" &&
        cp -r bindings/go "$path/src/davgyuti.example/davgyuti" && cp tests/peers/pion/peer.go "$path/src/peer" &&
        sed -i 's/^func (p \*packet) \(un\)\?marshal(/func (p *packet) own_\1marshal(/' "$copy/packet.go" &&
        sed -i 's/^func (a \*Association) Close(/func (a *Association) ownClose(/
                s/netConn: *config\.NetConn,/netConn: \&tappedConn{Conn: config.NetConn},/' "$copy/association.go" &&
        cp tests/peers/pion/layer.go "$copy" && GO111MODULE=off GOPATH=$path:$pion go build -o "$work/pion" peer
}

export PYTHONDONTWRITEBYTECODE=1
pion=$(realpath "${PION:-/usr/share/gocode}")
build "$@" || { echo 'peers: nothing was built' && echo 'peers: 0 passed, 1 failed' && exit 1; }
peer=()
if command -v go >/dev/null && [ -d "$pion/src/github.com/pion/webrtc" ]; then
    build_pion || { echo 'peers: no peer of pion was built' && echo 'peers: 0 passed, 1 failed' && exit 1; }
    peer=("$work/pion")
fi
PYTHONPATH=$work "$python" tests/peers/run.py "$program" "$folder" ${peer[@]+"${peer[@]}"}
