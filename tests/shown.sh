#!/bin/sh
# shown.sh [SEED [PROGRAMS]]: holds the programs `show`, `make` and `advise` to the second implementation, every byte that they print and
# write, on files of target/tests/shown; `decide`, `trim` and `text` help. A difference fails it, is printed, and its files are kept in
# target/tests/shown/difference. Each outcome has its minimum (tests/shown.rs). Wrong lines of the reference must be seen: a comparison
# that cannot fail shows nothing. PROGRAMS is a folder of the programs, or target/tests/shown.run, which stands in for them.
set -eu
root=$(CDPATH='' cd -- "$(dirname -- "$0")/.." && pwd)
cd "$root"
seed=${1:-1}
work=target/tests
mkdir -p "$work"

fail() {
    echo "shown: $*" >&2
    exit 1
}

. tests/x86_tools.sh
prepare_rust
"$rustc" -O --edition 2021 -o "$work/shown.run" tests/shown.rs || fail "tests/shown.rs does not compile"

# There are many short processes, so the programs are run without a script between where they can be: copies of them, in one folder. (A link
# would do, but rt ci refuses a repository with a link in any of its folders.)
programs=${2:-tests/run_program.sh}
if [ $# -lt 2 ] && [ "$(uname -m)" = x86_64 ]; then
    programs=$work/programs
    rm -rf "$programs"
    mkdir "$programs"
    for name in show make advise decide trim text; do
        cp "crates/$name/out/$name" "$programs" || fail "no program $name: rt ci builds it"
    done
fi

start=$(date +%s)
"$work/shown.run" run "$programs" "$work/shown" "$seed" >"$work/shown.said" || {
    cat "$work/shown.said"
    fail "a program differs from the second implementation, or an outcome is too rare"
}
grep -E '^(profiles|damaged texts|proofs|trees|advice|keys|graphs)' "$work/shown.said" | tr '\n' ';' | sed 's/^/shown: /; s/;$/\n/; s/;/; /g'
tail -n 1 "$work/shown.said" | sed 's/^/shown: /'
"$work/shown.run" wrong "$programs" "$work/shown" "$seed" >"$work/shown.wrong" || {
    cat "$work/shown.wrong"
    fail "a wrong line is not seen"
}
tail -n 1 "$work/shown.wrong" | sed 's/^/shown: /'
echo "shown: $(($(date +%s) - start)) seconds"
