#!/bin/sh
# tree_cost.sh: the tree test on trees that a careless one would never finish, through the programs that `rt ci` built. The
# verdicts are held to those derived by hand, the times to nothing but a limit against hanging. All that is built or written lies in
# target/tests.
set -eu
root=$(CDPATH= cd -- "$(dirname -- "$0")/.." && pwd)
cd "$root"
work=target/tests
mkdir -p "$work/tree_cost"

fail() {
    echo "tree_cost: $*" >&2
    exit 1
}

# differential.sh installs Debian's rustc where there is none.
rustc=$(command -v rustc) || fail "no rustc: tests/differential.sh installs Debian's"
"$rustc" -O --edition 2021 -o "$work/tree_cost.run" tests/tree_cost.rs || fail "tests/tree_cost.rs does not compile"
"$work/tree_cost.run" tests/run_program.sh "$work/tree_cost" || fail "a tree test went wrong"
