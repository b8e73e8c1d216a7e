#!/bin/sh
# fixed_cases.sh: holds the reference, then the program replay that `rt ci` built, to answers that were written by hand from documents 01
# and 02. A difference fails it, and so does `not here`. Wrong expectations and wrong lines of the reference must be caught: a comparison that
# cannot fail shows nothing. All that is built or written lies in target/tests.
set -eu
root=$(CDPATH= cd -- "$(dirname -- "$0")/.." && pwd)
cd "$root"
work=target/tests
mkdir -p "$work"

fail() {
    echo "fixed_cases: $*" >&2
    exit 1
}

rustc=$(command -v rustc) || fail "no rustc: tests/differential.sh installs Debian's"
# They are quick, so they run with every sum and index checked.
"$rustc" --edition 2021 -o "$work/fixed_cases" tests/fixed_cases.rs || fail "tests/fixed_cases.rs does not compile"

# 1. The reference.
"$work/fixed_cases" self >"$work/fixed_self" || {
    cat "$work/fixed_self"
    fail "the reference differs from 01"
}
sed 's/^/reference: /' "$work/fixed_self"
lines=$("$work/fixed_cases" lines)
line=0
while [ "$line" -lt "$lines" ]; do
    line=$((line + 1))
    if "$work/fixed_cases" self "$line" >"$work/fixed_wrong"; then
        fail "wrong line $line of the reference is not caught"
    fi
    grep -q '^differs: ' "$work/fixed_wrong" || fail "wrong line $line of the reference is not there"
done
echo "reference: $lines wrong lines caught"

# 2. The program replay.
"$work/fixed_cases" cases >"$work/fixed_stream"
tests/run_program.sh test_replay <"$work/fixed_stream" >"$work/fixed_found" || fail "replay did not run"
"$work/fixed_cases" compare <"$work/fixed_found" >"$work/fixed_compared" || {
    cat "$work/fixed_compared"
    fail "replay differs from 01"
}
sed 's/^/replay: /' "$work/fixed_compared"

# One wrong expectation is seen, and nothing else with it.
if "$work/fixed_cases" compare 1 <"$work/fixed_found" >"$work/fixed_wrong"; then
    fail "a wrong expectation is not caught"
fi
[ "$(grep -c '^differs: ' "$work/fixed_wrong")" -eq 1 ] || fail "a wrong expectation makes other cases differ"
echo "replay: a wrong expectation is caught: $(grep '^differs: ' "$work/fixed_wrong")"

# 3. The programs that have rows of their own: each prints its line, and makes the file that it is to make and no other.
rows=$work/fixed_programs
rm -rf "$rows"
"$work/fixed_cases" programs "$rows" || fail "the rows of the programs are not written"
count=0
for row in "$rows"/*; do
    # The names of the files have no spaces.
    tests/run_program.sh $(cat "$row/command") >"$row/found" || true
    cmp -s "$row/says" "$row/found" || fail "$(cat "$row/name"): $(cat "$row/command") prints: $(head -c 400 "$row/found")"
    if [ -f "$row/wanted" ]; then
        cmp "$row/wanted" "$row/out" || fail "$(cat "$row/name"): $(cat "$row/command") writes other bytes"
    elif [ -e "$row/out" ]; then
        fail "$(cat "$row/name"): $(cat "$row/command") makes a file"
    fi
    count=$((count + 1))
done
echo "programs: $count rows printed and written as wanted"
