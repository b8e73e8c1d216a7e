#!/bin/sh
# differential.sh [SEED [COUNT]]: holds the programs that `rt ci` built to the reference in plain Rust, which is written from document 01
# alone. Cases and expected answers are made again in each run; a difference fails it, is printed, and lies in target/tests/difference as
# files that can be run again. From 200,000 cases on, each operation, verdict and refusal has its minimum (tests/differential/counts.rs).
# Wrong lines of the reference must be caught: a comparison that cannot fail shows nothing. A longer run: another SEED, a larger COUNT;
# nothing but the answers is kept, so COUNT may be in the millions. All that is built or written lies in target/tests.
set -eu
root=$(CDPATH= cd -- "$(dirname -- "$0")/.." && pwd)
cd "$root"
seed=${1:-1}
count=${2:-362000}
work=target/tests
# The reference's own consistency, and the wrong lines, need no more random cases than these.
few=20000
mkdir -p "$work"

start=$(date +%s)
said() {
    sed "s/^/$1: /"
    echo "$1: $(($(date +%s) - start)) seconds since the start"
}

fail() {
    echo "differential: $*" >&2
    exit 1
}

# Debian's rustc serves where there is none; without any the run fails.
. tests/x86_tools.sh
prepare_rust
echo "differential: $("$rustc" --version), seed $seed, $count random cases"

build() {
    name=$1
    shift
    "$rustc" "$@" --edition 2021 -o "$work/$name" "tests/$name.rs" || fail "tests/$name.rs does not compile"
}
# The fixed checks are quick, so they run with every sum and index checked.
build reference_checks
build path_vectors -O
build differential -O

# 1. The reference itself: fixed checks, then random ones.
"$work/reference_checks" || fail "the reference fails its own checks"
"$work/differential" self "$seed" "$few" || fail "the reference contradicts itself"

# 2. Paths: the program test_paths.
"$work/path_vectors" counts "$seed"
"$work/path_vectors" cases "$seed" >"$work/path_cases"
"$work/path_vectors" answers "$seed" >"$work/path_wanted"
tests/run_program.sh test_paths <"$work/path_cases" >"$work/path_found" || fail "test_paths did not run"
if ! cmp "$work/path_wanted" "$work/path_found"; then
    diff "$work/path_wanted" "$work/path_found" | head -20
    fail "test_paths differs from the reference (line n is case n)"
fi
echo "test_paths: $(wc -l <"$work/path_found") cases agree"
for line in 1 2; do
    "$work/path_vectors" answers "$seed" "$line" >"$work/path_wrong"
    if cmp -s "$work/path_wrong" "$work/path_found"; then
        fail "test_paths: wrong line $line is not caught"
    fi
done
echo "test_paths: 2 wrong lines caught"

# 3. The public operations: the program replay, which answers while the cases are made and compared. An operation that it does not have yet is
# answered `not here`, counted apart and compared with nothing; differential/counts.rs lists those that it has.
if ! "$work/differential" cases "$seed" "$count" | tests/run_program.sh test_replay | tee "$work/found" |
    "$work/differential" compare "$seed" "$count" "$work/difference" >"$work/compared"; then
    cat "$work/compared"
    fail "replay differs from the reference, or an outcome is too rare"
fi
said replay <"$work/compared"

# 4. The evidence that replay wrote: its own checkers and the reference's have to accept each proof and each tree.
if ! "$work/differential" evidence "$seed" "$count" "$work/found" | tests/run_program.sh test_replay |
    "$work/differential" accepted "$seed" "$count" "$work/found" "$work/difference" >"$work/accepted"; then
    cat "$work/accepted"
    fail "some evidence is not accepted, or an answer is refuted"
fi
said evidence <"$work/accepted"

# 5. Each wrong line of the reference has to be caught in replay's answers.
if ! "$work/differential" wrong "$seed" "$few" <"$work/found" >"$work/wrong"; then
    cat "$work/wrong"
    fail "a wrong line is not caught, or too few are"
fi
said "wrong lines" <"$work/wrong"
echo "differential: seed $seed: $(sed -n 's/ cases: /& /p' "$work/compared" | tr -s ' '), $(tail -n 1 "$work/wrong")"
