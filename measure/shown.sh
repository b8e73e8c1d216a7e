#!/bin/sh
# measure/shown.sh: `show`, `make` and `advise` on inputs as large as they may be, and `explain` on two examples, on demand. Milliseconds of
# processor time, by bash's `time`, the least of three runs, the start of the programs included. All that is built or written lies in
# target/measure/shown. The programs have to be built: ./culvertecho builds them.
set -eu
root=$(CDPATH= cd -- "$(dirname -- "$0")/.." && pwd)
cd "$root"
work=target/measure/shown
runs=3

fail() {
    echo "shown: $*" >&2
    exit 1
}

# processor COMMAND..: what the command takes of the processor, by itself and in the system, in milliseconds
processor() {
    bash -c 'TIMEFORMAT="%3U %3S"; time "$@" >"$0"' "$work/printed" "$@" 2>"$work/took" || true
    tail -n 1 "$work/took" | awk '{ printf "%.0f\n", ($1 + $2) * 1000 }'
}

# row INPUT WORD COMMAND..: the least time of its runs, and how much it printed; what it prints has to begin with WORD
row() {
    input=$1 word=$2
    shift 2
    best=
    i=0
    while [ "$i" -lt "$runs" ]; do
        took=$(processor "$@")
        { [ -z "$best" ] || [ "$took" -lt "$best" ]; } && best=$took
        i=$((i + 1))
    done
    case $(head -c 16 "$work/printed") in
        "$word"*) ;;
        *) fail "$*: printed $(head -n 1 "$work/printed")" ;;
    esac
    echo "| $input | $(($(wc -l <"$work/printed"))) | $(($(wc -c <"$work/printed"))) | $best |"
}

run=tests/run_program.sh

# of NAME: the three files of an input
of() { echo "$work/$1.profile $work/$1.question $work/$1.evidence"; }

rm -rf "$work"
mkdir -p "$work"
rustc --edition 2021 -C opt-level=3 -o "$work/write" measure/shown.rs || fail "measure/shown.rs does not compile"
"$work/write" "$work"
"$run" show profile "$work/full.profile" >"$work/full.text"
"$run" decide "$work/steps.profile" "$work/steps.question" "$work/steps.evidence" >"$work/said"
# shellcheck disable=SC2046
"$run" trim $(of steps) "$work/short.evidence" >"$work/said"
cp "$work/steps.profile" "$work/short.profile"
cp "$work/steps.question" "$work/short.question"

echo "machine: $(uname -m), $(nproc) processors; load before:$(uptime | sed 's/.*load average//')"
echo
echo "| program and input | lines | bytes | milliseconds |"
echo "|---|--:|--:|--:|"
row "show profile: 64 keys of full size, 199 labels of 32 bytes" element "$run" show profile "$work/full.profile"
row "make profile: the same from its text" made "$run" make profile "$work/full.text" "$work/made"
cmp "$work/made" "$work/full.profile" || fail "another profile was made"
# shellcheck disable=SC2046
{
    row "show proof: 64 keys, the proof of 8 steps" " 0  (" "$run" show proof $(of steps)
    row "show proof: the same, trimmed" " 0  (" "$run" show proof $(of short)
    row "show proof: 256 lines, contexts of 32 symbols" "  0  (" "$run" show proof $(of contexts)
    row "show proof: 256 lines, 48 key paths" "  0  (" "$run" show proof $(of sets)
    row "show tree: a segment, 64 keys in the profile" "   0 root" "$run" show tree $(of segment)
    row "show dot: the same" "graph tree" "$run" show dot $(of segment)
    row "show tree: twin chains" "   0 root" "$run" show tree $(of chains)
}
row "advise: 64 keys of the segment" "(" "$run" advise "$work/segment.profile" "$work/segment.question"
row "advise: 64 keys, 256 key paths and 7 cuts to try" "nothing near" "$run" advise "$work/candidates.profile" "$work/candidates.question"
row "explain: row a, implied" Asked ./culvertecho explain examples/a.profile examples/a.question
row "explain: row b, not implied" Asked ./culvertecho explain examples/b.profile examples/b.question
row "explain: row b, with a page" Asked ./culvertecho explain examples/b.profile examples/b.question --html "$work/b.html"
echo
echo "load after:$(uptime | sed 's/.*load average//')"
