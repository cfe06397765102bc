#!/usr/bin/env bash
# SPDX-License-Identifier: Apache-2.0
# usage: bindings/cpp/test.sh [DIST]
#
# Builds test.cc with g++ and clang++, those that are there, as C++17, C++20 and C++23, with the sanitizers, over the text in the
# folder DIST (else the repository's dist/), and runs it over registry/vectors, and the file $VECTORS; show.cc and the README's
# program as well, as C++17; all with every warning as an error. Has the compilers refuse views of bytes that are gone, some of
# them clang++ alone. Looks whether dcsctp.hpp calls each function of dcsctp.h, or test.cc compares with it what is read by
# generated code; and by clang-tidy whether each result is [[nodiscard]]. Compares the processor's CRC32c with the library's. Stops
# at the first that fails.
set -eu -o pipefail
case ${1:-} in
    --help) sed -n 's/^# \(usage: \)/\1/p' "$0" && exit ;;
    -*) sed -n 's/^# \(usage: \)/\1/p' "$0" >&2 && exit 2 ;;
esac
cd "$(dirname "$0")"
dist=${1:-../../dist}
text=$dist/dcsctp-$(uname -m)-elf.s
for file in "$dist/dcsctp.h" "$text"; do
    [ -f "$file" ] || { echo "bindings/cpp: there is no $file; dist/make.py makes it" >&2 && exit 1; }
done
work=$(mktemp -d)
trap 'rm -rf "$work"' EXIT

# Comments and the names of structs aside, each function has to be called, but for one that the texts alone need, dcsctp_read_many,
# whose rows are read as those of dcsctp_read, dcsctp_items, which counts, and those in whose place generated code writes.
left_out='named|usual_policy|writer_[a-z_]+|read_many|items|short_numbers|(add_)?registered_(chunk|parameter|cause)|add_(chunk|data|i_data|sack|init|init_ack|cookie_echo|cookie_ack|heartbeat)'
left_out+='|add_(shutdown|shutdown_ack|shutdown_complete|forward_tsn|i_forward_tsn|parameter|number|re_config|missing_parameters)'
functions=$(sed -E ':a; s%/\*.*\*/%%; /\/\*/{N; ba}' "$dist/dcsctp.h" | grep -oE '\bdcsctp_[a-z_]+\(' | grep -vE "^dcsctp_($left_out)\(" | sort -u)
[ "$(wc -l <<<"$functions")" -ge 45 ] || { echo "bindings/cpp: $dist/dcsctp.h has too few functions" >&2 && exit 1; }
sed 's%//.*%%' dcsctp.hpp dcsctp_kinds.hpp test.cc test_kinds.hpp >"$work/code"
for function in $functions; do
    grep -qE "::${function%(}(\(|[,>);])" "$work/code" ||
        { echo "bindings/cpp: dcsctp.hpp never calls ${function%(}" >&2 && exit 1; }
done

{
    printf '#include "dcsctp.hpp"\n#include <arpa/inet.h>\n#include <cstring>\n#include <iostream>\nint main()\n{\n'
    sed -n '/^```cpp$/,/^```$/{/^```/!p}' README.md
    printf '}\n'
} >"$work/readme.cc"
{
    printf 'INIT ACK: State Cookie\nAdd IP Address: 1\n192.0.2.1\n198.51.100.1\n2001:db8::1\n2001:db8::2\n'
    printf 'COOKIE ACK to tag 1294857517\n'
} >"$work/readme.expected"

# The processor's CRC32c, of each size; the library's has its own name again.
cat >"$work/processor.cc" <<'C'
#include "dcsctp.hpp"
#undef dcsctp_word
#undef dcsctp_seal
#include <random>
int main()
{
    std::mt19937 random;
    for (std::size_t size = 0; size <= 2000; size++) {
        std::vector<std::uint8_t> one(size);
        for (std::uint8_t &it : one)
            it = static_cast<std::uint8_t>(random());
        std::vector<std::uint8_t> other = one;
        if (size >= 12 && dcsctp::packet(one).word().number() != ::dcsctp_word(one.data(), size))
            return 1;
        if (static_cast<bool>(dcsctp::seal(one)) != (::dcsctp_seal(other.data(), size) == DCSCTP_OK) || one != other)
            return 2;
    }
}
C

# Views of bytes that are gone, and what isn't looked at: behind -, what clang++ alone finds. (What is right is in test.cc.)
gone=(
    'packet it(made());'
    'packet it(std::array<std::uint8_t, 16>{});'
    '- std::size_t size() { const bytes_view it = made(); return it.size(); }'
    '- packet own() { const std::vector<std::uint8_t> bytes = made(); return packet(bytes); }'
    '- builder own() { std::vector<std::uint8_t> bytes; return builder(bytes, 1, 2, 3); }'
    '- builder own() { std::uint8_t bytes[100]; return builder(bytes, 1, 2, 3); }'
    'void unused(packet it) { it.first_fault(); }'
    'packet it(as_bytes(text()));'
    'packet it(as_bytes(static_cast<const std::string>("a packet")));'
    'const bytes_view it = as_bytes(std::vector<std::byte>(16));'
    'const bytes_view it = as_bytes(std::array<std::byte, 16>{});'
    '- bytes_view list() { return {1, 2, 3}; }'
    '- std::size_t list() { const packet it({1, 2, 3}); return it.size(); }'
    'const auto it = read_chunk(made());'
    'const auto it = open_cookie({}, made(), 0);'
)

flags=(-Wall -Wextra -Wpedantic -Wconversion -Wshadow -Werror -I . -I "$dist")
sanitizers=(-g "-fsanitize=address,undefined" -fno-sanitize-recover=all)
vectors=() tried=0
if [ -f ../../registry/vectors/kinds.jsonl ]; then vectors=(../../registry/vectors); else echo 'bindings/cpp: left out: registry/vectors'; fi
for compiler in g++ clang++; do
    command -v "$compiler" >"$work/log" || { echo "bindings/cpp: left out, since it isn't here: $compiler" && continue; }
    echo 'int main() {}' >"$work/probe.cc"
    if ! { "$compiler" "${sanitizers[@]}" -o "$work/probe" "$work/probe.cc" && "$work/probe"; } >"$work/log" 2>&1; then
        echo "bindings/cpp: $compiler has no sanitizers" && sanitizers=()
    fi
    for standard in 20 17 2b; do
        if ! "$compiler" -std=c++$standard -fsyntax-only "$work/probe.cc" 2>"$work/log"; then
            echo "bindings/cpp: left out, since $compiler hasn't it: C++$standard" && continue
        fi
        [ $standard != 20 ] || { "$compiler" -std=c++20 "${flags[@]}" -fsyntax-only test.cc && continue; }
        "$compiler" -std=c++$standard "${flags[@]}" "${sanitizers[@]}" -Wl,--wrap=malloc,--wrap=realloc -o "$work/test" test.cc "$text"
        "$work/test" "${vectors[@]}"
        tried=$((tried + 1))
    done
    for way in "${gone[@]}"; do
        [ "$compiler" = clang++ ] || [ "${way%% *}" != - ] || continue
        printf '%s\n' '#include "dcsctp.hpp"' 'using namespace dcsctp; std::string text(); std::vector<std::uint8_t> made();' \
            "${way#- }" >"$work/gone.cc"
        if "$compiler" -std=c++17 "${flags[@]}" -fsyntax-only "$work/gone.cc" 2>"$work/said" ||
            ! grep -q 'deleted\|-Wdangling\|address\|nodiscard' "$work/said"; then
            echo "bindings/cpp: $compiler on $way:" >&2 && cat "$work/said" >&2 && exit 1
        fi
    done
    "$compiler" -std=c++17 "${flags[@]}" -DDCSCTP_PROCESSOR_CRC32C -c -o "$work/processor.o" "$work/processor.cc"
    nm "$work/processor.o" >"$work/names"
    grep -q ' t .*dcsctp_processor_word' "$work/names"
    "$compiler" -o "$work/processor" "$work/processor.o" "$text" && "$work/processor"
    "$compiler" -std=c++17 "${flags[@]}" -o "$work/readme" "$work/readme.cc" "$text"
    "$work/readme" | diff - "$work/readme.expected"
    "$compiler" -std=c++17 "${flags[@]}" -Weffc++ -O2 -o "$work/show" show.cc "$text"
    if [ -f ../../examples/packets.txt ]; then
        "$work/show" ../../examples/packets.txt | diff - ../../examples/expected.txt
    fi
done
if command -v clang-tidy >"$work/log"; then
    clang-tidy --quiet --checks='-*,modernize-use-nodiscard' --warnings-as-errors='*' --header-filter='dcsctp.*hpp' show.cc -- \
        -std=c++17 -I . -I "$dist" 2>"$work/log"
else
    echo 'bindings/cpp: left out, since it isn'"'"'t here: clang-tidy'
fi
echo "bindings/cpp: $tried builds of test.cc passed, and what show.cc and README.md print is right"
[ "$tried" -gt 0 ]
