#!/usr/bin/env bash
# SPDX-License-Identifier: Apache-2.0
# usage: dist/crate.sh FOLDER [ROOT]
#
# Makes a folder that isn't there yet: the package for Rust as it is published, bindings/rust with what lies outside of it: the texts,
# what the tests read, LICENSE and NOTICE. `cargo package` and `cargo publish` are for that folder. ROOT is the folder of a clone or of
# an unpacked archive, if it isn't this file's.
set -euo pipefail

[ $# -ge 1 ] && [ $# -le 2 ] && [ ! -e "$1" ] || {
    sed -n 's/^# usage: /usage: /p' "$0" >&2
    exit 2
}
root=${2:-$(cd "$(dirname "$0")/.." && pwd)}
mkdir -p "$1/dist" "$1/registry/vectors"
for name in Cargo.toml README.md build.rs clippy.toml rustfmt.toml src tests examples; do
    cp -r "$root/bindings/rust/$name" "$1/"
done
cp "$root"/{LICENSE,NOTICE} "$1/"
cp "$root"/dist/dcsctp-*.s "$1/dist/"
cp "$root"/examples/*.txt "$1/examples/"
cp "$root"/registry/vectors/*.jsonl "$1/registry/vectors/"
