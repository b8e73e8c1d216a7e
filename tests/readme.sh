#!/bin/sh
# Runs every console block of the README and of docs/FROM-TRACE-TO-ANSWER.md in the repository's root, command after command, and holds the
# output to the lines that stand there. A command is a line after `$ ` with the lines after `> ` that follow it.
set -eu
root=$(CDPATH='' cd -- "$(dirname -- "$0")/.." && pwd)
cd "$root"
work=target/tests/readme
rm -rf "$work" target/none target/trace
mkdir -p "$work"

fail() {
    echo "readme: $*" >&2
    exit 1
}

. tests/x86_tools.sh
prepare_c

# run PAGE LEAST: each command into a file of its own, with what it has to print beside it
run() {
    page=$1
    rm -rf "$work"
    mkdir -p "$work"
    awk -v to="$work" '
        /^```console$/ { on = 1; next }
        /^```$/ { on = 0; asked = 0; next }
        on && /^\$ / { n++; asked = 1; print substr($0, 3) >(to "/" n ".command"); printf "" >(to "/" n ".wanted"); next }
        on && asked && /^> / { print substr($0, 3) >(to "/" n ".command"); next }
        on { asked = 0; print >(to "/" n ".wanted") }
    ' "$page"
    n=1
    while [ -f "$work/$n.command" ]; do
        # On another machine neither `cc` nor `nm` knows the library's objects: there tests/calls.sh builds and runs the example.
        if grep -qE '^(cc|nm) ' "$work/$n.command" && [ "$(uname -m)" != x86_64 ]; then
            n=$((n + 1))
            continue
        fi
        sh "$work/$n.command" >"$work/$n.found" 2>"$work/$n.errors" || true
        if ! cmp -s "$work/$n.wanted" "$work/$n.found"; then
            echo "readme: $page: $(cat "$work/$n.command")" >&2
            diff "$work/$n.wanted" "$work/$n.found" >&2 || true
            cat "$work/$n.errors" >&2
            exit 1
        fi
        n=$((n + 1))
    done
    [ "$n" -gt "$2" ] || { echo "readme: $page: only $((n - 1)) commands were found" >&2; exit 1; }
    echo "readme: $((n - 1)) commands print what $page says"
}

run README.md 40
run docs/FROM-TRACE-TO-ANSWER.md 20
