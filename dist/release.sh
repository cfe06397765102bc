#!/usr/bin/env bash
# SPDX-License-Identifier: Apache-2.0
# Makes the files of a release, and tries them (docs/RELEASE.md).
set -eu -o pipefail

usage='usage: dist/release.sh [--draft | --archive] FOLDER

Makes in FOLDER, which has to be new or empty, of the texts in dist/ and of this checkout:

  libdcsctp-VERSION.tar.gz             the texts, header, CMake, programs, packages, examples, debian/, and all pages
  davgyuti-VERSION.crate               the package for Rust
  davgyuti-VERSION.tar.gz, davgyuti-VERSION-py3-none-SYSTEM.whl  those for Python
  davgyuti-VERSION-go.tar.gz           the module for Go, as a GOPROXY has it
  davgyuti-VERSION.tgz                 the package for JavaScript
  libdcsctp0.1_VERSION-1_ARCH.deb, libdcsctp-dev_.., sctp-dump_..   those for Debian, where debhelper and CMake are
  sctp_dump-VERSION-linux-x86_64       the program, a static PIE: it runs on any Linux, from x86-64-v2 on
  musl-COPYRIGHT                       the notice of the C library in it
  sctp_dump-VERSION.html               the page with the program as WebAssembly
  davgyuti-VERSION.spdx.json           what these files are, and their sums, as SPDX 2.3
  SHA256SUMS

The same commit gives the same files, with the same compilers. It stops where something is not committed, CHANGELOG.md says
that the version is not released yet, MANIFEST is not that of these files and sources, or a test fails; with the toolchain on
PATH it also makes the texts anew and compares them. Needed are git, a C compiler, musl-gcc, cargo, Python with pip, npm.

  --draft    what is not committed or not released yet is only said
  --archive  makes the first of these files alone, compares and tries nothing
  --help     prints this'

give_up() {
    echo "dist/release.sh: $1" >&2
    exit 1
}

draft='' archive_alone=''
case ${1:-} in
    --help) echo "$usage" && exit ;;
    --draft) draft=yes && shift ;;
    --archive) archive_alone=yes && shift ;;
esac
if [ $# -ne 1 ] || [ -z "$1" ] || [ "${1#-}" != "$1" ]; then
    echo "$usage" >&2
    exit 2
fi

# Says what is against a release, and ends unless it is a draft.
object() {
    if [ "$draft" ]; then echo "dist/release.sh: a draft: $1" >&2; else give_up "$1"; fi
}

git -C "$(dirname "$0")" ls-files --error-unmatch release.sh >/dev/null 2>&1 ||
    give_up 'git is needed, and this in a clone: it packs what git lists'
mkdir -p "$1" || give_up "the folder $1 can't be made"
to=$(cd "$1" && pwd)
[ -z "$(ls -A "$to")" ] || give_up "the folder $1 isn't empty"
cd "$(dirname "$0")/.."
[ -f dist/MANIFEST ] || give_up 'dist/ has no MANIFEST: dist/make.py makes it, and the texts'

work=$(mktemp -d)
trap 'rm -rf "$work"' EXIT
version=$(sed -n 's/^#define DCSCTP_VERSION "\(.*\)"$/\1/p' include/dcsctp.h)
folder=libdcsctp-$version maintainer='Davgyuti maintainers <maintainers@users.noreply.davgyuti.example>'
committed=$(git log -1 --format=%ct)

# Packs a part of a folder: the same files give the same archive.
pack() {
    tar -C "$1" --sort=name --mtime="@$committed" --owner=0 --group=0 --numeric-owner --mode=a+rX,u+w,go-w -cf - "$2" | gzip -9n
}

# ---- the archive: what is needed for the commands of the pages, and what their links lead to

make_archive() {
    mkdir "$work/$folder"
    {
        git ls-files -coz --exclude-standard -- '*.md' LICENSE NOTICE bindings ':(glob)crates/test_callers/src/*.rt' dist docs \
            tests/dump/data examples include registry/sctp.txt ':(glob)registry/vectors/*.jsonl' ':!dist/*.py' ':!dist/*.sh'
        git ls-files -z dist/texts.py
    } | xargs -0 cp -P --parents -t "$work/$folder"
    mv "$work/$folder/dist/debian" "$work/$folder/"
    printf 'davgyuti (%s-1) unstable; urgency=medium\n\n  * CHANGELOG.md says what is in this version.\n\n -- %s  %s\n' \
        "$version" "$maintainer" "$(date -u -R -d "@$committed")" >"$work/$folder/debian/changelog"
    pack "$work" "$folder" >"$to/$folder.tar.gz"
}

if [ "$archive_alone" ]; then
    make_archive
    exit
fi
for tool in git cc musl-gcc cargo python3 npm sha256sum tar; do
    command -v "$tool" >/dev/null || give_up "$tool is needed, and isn't there"
done

# ---- whether it is what it says

[ -z "$(git status --porcelain)" ] || object 'something is not committed'
grep "^## $version" CHANGELOG.md | grep -qv 'not released yet' || object "CHANGELOG.md doesn't say when $version is released"
grep -q "^# dcsctp $version;" dist/MANIFEST || give_up "dist/MANIFEST isn't that of version $version: run dist/make.py"
(cd dist && sha256sum --quiet --strict -c MANIFEST) || give_up 'a file in dist/ is not what MANIFEST says: run dist/make.py'
for file in include/*.h LICENSE NOTICE; do
    cmp "$file" "dist/${file##*/}" || give_up "dist/${file##*/} is not $file: run dist/make.py"
done
while read -r sum name; do
    # (not every crate has specs)
    found=$(cd "crates/$name" && { find src specs -type f 2>/dev/null || :; } | LC_ALL=C sort | xargs sha256sum | sha256sum)
    [ "$found" = "$sum  -" ] || give_up "the sources of $name are not those in MANIFEST: run dist/make.py"
done < <(sed -n 's/^# source //p' dist/MANIFEST)
if command -v rt >/dev/null; then
    dist/make.py --compare
else
    echo 'dist/release.sh: the toolchain is not here: the texts are not made anew' >&2
fi

# ---- the files

make_archive
# What follows is made of what a user unpacks.
mkdir "$work/user"
tar -xzf "$to/$folder.tar.gz" -C "$work/user"
user=$work/user/$folder
dist/crate.sh "$work/crate" "$user"
(cd "$work/crate" && CARGO_TARGET_DIR=$work/target cargo package --quiet --offline --allow-dirty)
cp "$work/target/package/davgyuti-$version.crate" "$to/"
(cd "$user/bindings/python" && PYTHONDONTWRITEBYTECODE=1 python3 -c 'import backend, sys
backend.build_sdist(sys.argv[1])
backend.build_wheel(sys.argv[1])' "$to")
dist/go_module.py "$user/bindings/go" "$committed" "$work/go"
pack "$work/go" davgyuti.example >"$to/davgyuti-$version-go.tar.gz"
npm_config_cache=$work/npm npm pack --silent --offline --pack-destination "$to" "$user/bindings/js"
program=$to/sctp_dump-$version-linux-x86_64
dist/static_pie.sh -O2 -s -o "$program" "$user/dist/sctp_dump-x86_64-elf.s" "$user/dist/program.c"
# (which holds musl, whose license asks for its notice)
cp /usr/share/doc/musl/copyright "$to/musl-COPYRIGHT"
page/make.py --into "$work/page/sctp.html"
cp "$work/page/sctp.html" "$to/sctp_dump-$version.html"

if command -v dh >/dev/null && command -v cmake >/dev/null; then
    # (it writes beside the folder)
    cp -r "$user" "$work/debian"
    (cd "$work/debian" && DEB_BUILD_OPTIONS=noautodbgsym dpkg-buildpackage -us -uc -b) >"$work/log" 2>&1 ||
        { cat "$work/log" && give_up 'the packages for Debian failed'; }
    cp "$work"/*.deb "$to/"
else
    echo 'dist/release.sh: debhelper or CMake is not here: the packages for Debian are left out' >&2
fi

# ---- whether they work

tools/links.py "$user"
tools/commands.py "$user"
dist/test.sh "$user"
tests/dump/test.sh "$program"
page/test.sh "$work/page"
dist/sbom.py "$version" "$to" >"$work/sbom" && mv "$work/sbom" "$to/davgyuti-$version.spdx.json"
(cd "$to" && find . -type f | LC_ALL=C sort | sed 's,^\./,,' | xargs sha256sum >"$work/sums" && mv "$work/sums" SHA256SUMS && ls -l)
