#!/bin/sh
# calls.sh [SEED [COUNT]]: the calls for C of crate tap, through the static library and include/culvertecho.h: a C program with answers
# written by hand (tests/calls/fixed.c), and COUNT cases of the stream, answered by tests/calls/stream.c and held to the second
# implementation. Every slice stands between guard bytes. A wrong expectation, and a program that exchanges two fields, must be seen. All
# that is built or written lies in target/tests.
set -eu
root=$(CDPATH='' cd -- "$(dirname -- "$0")/.." && pwd)
cd "$root"
seed=${1:-1}
count=${2:-20000}
# A wrong program is seen in fewer.
few=2000
work=target/tests
mkdir -p "$work"

fail() {
    echo "calls: $*" >&2
    exit 1
}

. tests/x86_tools.sh
prepare_c
prepare_rust

# 1. The library: what it asks of the firmware, and that it gives the names of the header and no others.
static_library tap
asked=$("$nm" -u "$library" | sed -n 's/^ *U //p' | sort -u | tr '\n' ' ')
[ "$asked" = "memcpy memmove memset " ] || fail "$library asks for $asked"
given=$("$nm" -g --defined-only "$library" | sed -n 's/^[0-9a-f]* T //p' | sort | tr '\n' ' ')
echo "calls: the library gives ${given}and asks for $asked"
named=$(sed -n 's/^size_t \(culvertecho_[a-z_]*\)(.*/\1/p' include/culvertecho.h | sort | tr '\n' ' ')
[ "$given" = "$named" ] || fail "culvertecho.h names $named"

# build NAME SOURCE: linked statically, so that the emulator needs no C library of its own
build() {
    "$cc" -std=c99 -O2 -Wall -Wextra -Werror -Iinclude -Itests/calls -static -o "$work/$1" "$2" -L"${library%/*}" -ltap ||
        fail "$2 does not compile"
}

# 2. Answers written by hand.
build calls_fixed tests/calls/fixed.c
$emulator "$work/calls_fixed" examples || fail "a call differs from 02, or a wrong expectation is not seen"

# 3. The header in C++, where there is a compiler for it, and the example.
if command -v g++ >/dev/null 2>&1; then
    printf '#include "culvertecho.h"\nint main() { unsigned char d[1]; return culvertecho_decide(d, 0, d, 0, d, 0, d, 0) != 19; }\n' >"$work/calls.cc"
    g++ -std=c++98 -Wall -Wextra -Werror -fsyntax-only -Iinclude "$work/calls.cc" || fail "culvertecho.h is no C++"
    echo "calls: the header is C++ as well"
fi
build calls_example examples/tap.c
$emulator "$work/calls_example" >"$work/calls_example.out" || fail "examples/tap.c fails"

# 4. The stream, against the second implementation.
build calls_stream tests/calls/stream.c
"$rustc" -O --edition 2021 -o "$work/differential" tests/differential.rs || fail "tests/differential.rs does not compile"
"$work/differential" calls "$seed" "$count" >"$work/calls_cases"
$emulator "$work/calls_stream" <"$work/calls_cases" >"$work/calls_found" || fail "a call takes more stack than culvertecho.h says"
"$work/differential" told "$seed" "$count" "$work/difference" <"$work/calls_found" >"$work/calls_told" || {
    cat "$work/calls_told"
    fail "a call differs from the second implementation"
}
sed 's/^/calls: /' "$work/calls_told"
"$work/differential" calls "$seed" "$few" | $emulator "$work/calls_stream" exchanged 2>"$work/calls_stack" >"$work/calls_wrong"
if "$work/differential" told "$seed" "$few" "$work/calls_difference" <"$work/calls_wrong" >"$work/calls_told"; then
    fail "input and record exchanged are not seen"
fi
echo "calls: input and record exchanged are seen: $(tail -n 1 "$work/calls_told")"
rm -f "$work/calls_cases" "$work/calls_found" "$work/calls_wrong"
