#!/bin/sh
# measure/run.sh: the product beside the second implementation, on demand. Builds the static library of crate test_exports, links it and the
# reference into one program, and prints times, ratios and stack; then xmllint on the same bench-like segment, for scale.
# The library is x86-64. On Arm both sides are built for x86-64 and run under Debian's emulator: a ratio means something there, a time does not.
# All that is built or written lies in target/measure.
set -eu
root=$(CDPATH= cd -- "$(dirname -- "$0")/.." && pwd)
cd "$root"
work=target/measure
mkdir -p "$work"
page=4096
xml_runs=10

fail() {
    echo "measure: $*" >&2
    exit 1
}

. tests/x86_tools.sh

# xmllint for the same processor: the package itself cannot stand beside this machine's own, so it is only unpacked.
foreign_xmllint() {
    if [ ! -x "$work/xmllint/usr/bin/xmllint" ]; then
        (cd "$work" && apt-get download libxml2-utils:amd64 >>apt.log 2>&1 && dpkg-deb -x libxml2-utils_*_amd64.deb xmllint) ||
            fail "no libxml2-utils:amd64: $work/apt.log"
    fi
    xmllint=$work/xmllint/usr/bin/xmllint
}

# Sets rustc, its flags, cc, the emulator (none on x86-64) and xmllint.
prepare() {
    if [ "$(uname -m)" = x86_64 ]; then
        prepare_rust
        prepare_c
        command -v xmllint >/dev/null 2>&1 || install libxml2-utils
        flags='' xmllint=xmllint
        return
    fi
    dpkg --print-foreign-architectures | grep -qx amd64 || dpkg --add-architecture amd64
    prepare_c
    install rustc libstd-rust-dev:amd64 libc6:amd64 libxml2:amd64
    # Debian's own compiler has a library for x86-64; another one that stands earlier on the path need not.
    rustc=/usr/bin/rustc
    flags='--target x86_64-unknown-linux-gnu -C linker=x86_64-linux-gnu-gcc'
    foreign_xmllint
}

# The stack of the three calls for C, by the program that tests/calls.sh holds to the stream: on standard error, since its answers go nowhere.
calls() {
    static_library tap
    "$cc" -std=c99 -O2 -Iinclude -Itests/calls -static -o "$work/calls" tests/calls/stream.c -L"${library%/*}" -ltap ||
        fail "tests/calls/stream.c does not compile"
    measure frames >"$work/frames"
    $emulator "$work/calls" <"$work/frames" 2>&1 >"$work/called" || fail "a call takes more stack than culvertecho.h says"
}

build() {
    static_library test_exports
    # shellcheck disable=SC2086
    "$rustc" --edition 2021 -C opt-level=3 $flags -L "${library%/*}" -l static=test_exports -o "$work/measure" measure/main.rs ||
        fail "measure/main.rs does not compile"
}

measure() {
    $emulator "$work/measure" "$@"
}

# least WORD KEYS: the least of the times that xmllint gives in its line `WORD took N ms`, in microseconds.
least() {
    i=0
    while [ "$i" -lt "$xml_runs" ]; do
        $emulator "$xmllint" --noout --timing --schema "$work/keys$2.xsd" "$work/trace.xml" 2>&1 || fail "xmllint refuses the trace"
        i=$((i + 1))
    done | sed -n "s/^$1 took \([0-9]*\) ms$/\1/p" | sort -n | sed -n '1s/$/000/p'
}

# The rows of another tool, in the column of the reference; it counts whole milliseconds.
xml_rows() {
    measure xml "$work"
    if $emulator "$xmllint" --noout --schema "$work/broken.xsd" "$work/trace.xml" >/dev/null 2>&1; then
        fail "xmllint does not see that the trace breaks a key"
    fi
    echo "| xmllint --schema, parsing | segment as XML | parsed | | $(least Parsing 0) | | |"
    for keys in 0 1 64; do
        echo "| xmllint --schema, validating | segment as XML, $keys xs:unique | validates | | $(least Validating "$keys") | | |"
    done
}

# Each operation runs on as many pages as were found to be used, and ends by a signal on a page less.
limits() {
    sed -n 's/^| \([a-z_]*\) | [0-9]* | \([0-9]*\) |.*/\1 \2/p' "$work/stacks" >"$work/limits"
    [ -s "$work/limits" ] || fail "no stack figures"
    while read -r name bytes; do
        measure stack "$name" "$bytes" || fail "$name needs more than $bytes bytes of stack"
        if measure stack "$name" "$((bytes - page))" >"$work/overrun" 2>&1; then
            fail "$name needs a page less than $bytes bytes of stack"
        fi
    done <"$work/limits"
    echo "Runs within those pages give the same answers; within a page less each ends by a signal."
}

prepare
build
echo "machine: $(uname -m)${emulator:+, both sides x86-64 emulated by $emulator}; load before:$(uptime | sed 's/.*load average//')"
echo
measure table
xml_rows
echo
measure stacks >"$work/stacks"
cat "$work/stacks"
echo
limits
calls
echo "load after:$(uptime | sed 's/.*load average//')"
