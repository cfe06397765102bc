#!/usr/bin/env bash
# SPDX-License-Identifier: Apache-2.0
# usage: tools/lint.sh
#
# Asks the formatters and linters that are installed, each with the settings of the repository: gofmt; flake8 (.flake8); shellcheck
# (.shellcheckrc) and cppcheck. dist/test.sh has those that need a package built (rustfmt, clippy, go vet), page/test.sh has tsc, and
# bindings/cpp/test.sh clang-tidy. Names what is left out. Status 1 if one finds something.
cd "$(dirname "$0")/.." || exit
failed=0

files() {
    git ls-files -z "$@" 2>/dev/null
}

# Runs the words after the first, which says what they need, if that is installed.
ask() {
    if ! command -v "$1" >/dev/null; then
        echo "tools/lint.sh: left out, since it isn't here: $1"
    elif ! "${@:2}"; then
        echo "tools/lint.sh: $1 found something"
        failed=1
    fi
}

go_is_formatted() { ! files '*.go' | xargs -r0 gofmt -l | grep .; }
python_is_clean() { files '*.py' | xargs -r0 flake8; }
scripts_parse() { files '*.sh' .ci/run | xargs -r0 -n 1 bash -n; }
scripts_are_clean() { files '*.sh' .ci/run | xargs -r0 shellcheck -S warning; }
c_is_clean() {
    files 'examples/c/*.c' | xargs -r0 cppcheck --quiet --enable=warning,portability -I include --error-exitcode=1
}

ask gofmt go_is_formatted
ask flake8 python_is_clean
ask bash scripts_parse
ask shellcheck scripts_are_clean
ask cppcheck c_is_clean
exit $failed
