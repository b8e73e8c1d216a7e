#!/bin/sh
# Holds the documents to the repository: every theorem, definition, function, edit, file and page that they name is there, their lines are
# under 140 characters, and nothing cites a page or an issue that a reader of the repository does not have.
set -eu
root=$(CDPATH='' cd -- "$(dirname -- "$0")/.." && pwd)
cd "$root"
work=$(mktemp -d)
trap 'rm -rf "$work"' EXIT
failed=0
tried=0

wrong() {
    echo "documents: $*" >&2
    failed=1
}

# defined NAME FILE..: NAME is written in one of these files as a word of its own
defined() {
    word=$(printf '%s' "$1" | sed 's/[][\.*^$?+(){}|]/\\&/g')
    shift
    grep -qsE "(^|[ ({])$word([ ;,:)}]|\$)" "$@"
}

# there TOKEN: what a document has between backquotes, where it has the form of a name
there() {
    case $1 in
        *" "* | *"*"* | *"$"* | *\"* | --* | *..*) return 0 ;;
        *::*)
            crate=${1%%::*}
            [ -d "crates/$crate" ] || return 1
            name=${1##*::}
            find "crates/$crate/src" -name '*.rt' -exec cat {} + >"$work/source"
            grep -qE "(fn|const|enum|struct|mod|^ +) ?$name\\b" "$work/source"
            ;;
        crates/* | tests/* | docs/* | measure/* | examples/* | include/* | front/*) [ -e "$1" ] || ls "$1".* >/dev/null 2>&1 ;;
        [a-z]*/[a-z]*)
            [ -f "crates/${1%%/*}/must-fail/${1#*/}.edit" ]
            ;;
        [a-z]*.[A-Z]*.*)
            rest=${1#*.}
            defined "${rest#*.}" "crates/${1%%.*}/specs/${rest%%.*}.antt"
            ;;
        [a-z]*.[A-Z]*)
            [ -f "crates/${1%%.*}/specs/${1#*.}.antt" ]
            ;;
        [A-Z].*) return 0 ;;
        [A-Z]*.[a-zA-Z]*)
            defined "${1#*.}" crates/*/specs/"${1%%.*}".antt
            ;;
        [a-z]*[a-z]-[a-z]* | [a-z]*→* | [a-z]*\?) defined "$1" "$work/specs" ;;
        # a definition, or else a crate, an edit, a function of a crate, of the second implementation or of the front, a call from C
        [a-z]*_[a-z]*) defined "$1" "$work/specs" || grep -qw -- "$1" "$work/code" ;;
    esac
}

find crates -path '*/specs/*.antt' -exec cat {} + >"$work/specs"
{
    find crates -path '*/must-fail/*.edit'
    find crates tests measure -name '*.r[st]' -exec cat {} +
    cat crates.txt include/culvertecho.h culvertecho
} >"$work/code"
for page in docs/PROMISES.md docs/ARGUMENT.md docs/MAP.md docs/DECISIONS.md; do
    sed '/^```/,/^```/d' "$page" | grep -o '`[^`]*`' | tr -d '`' | sort -u >"$work/names"
    while read -r name; do
        tried=$((tried + 1))
        there "$name" || wrong "$page names $name, which is not there"
    done <"$work/names"
done
[ "$tried" -gt 300 ] || wrong "only $tried names were found"
if there "theory_paths.Spelling.no-such-theorem" || there "checks/no_such_edit" || there "op_profile::no_such_function" || there no_such_name; then
    wrong "a name that is not there is not seen"
fi

# every crate is on the map
sed -n 's/^\([a-z_0-9]*\)[^:#]*:.*/\1/p' crates.txt >"$work/crates"
while read -r crate; do
    grep -q "\`$crate\`" docs/MAP.md || wrong "docs/MAP.md has no crate $crate"
done <"$work/crates"

# links, from the folder of their page, and lines
for page in README.md docs/*.md docs/landings/*.md tests/README.md; do
    folder=$(dirname "$page")
    grep -o '](\([^)#]*\)' "$page" | sed 's/](//' | grep -v '^$' | sort -u >"$work/links" || true
    while read -r link; do
        [ -e "$folder/$link" ] || wrong "$page links $link, which is not there"
    done <"$work/links"
    LC_ALL=C.UTF-8 grep -nE '.{140}' "$page" >"$work/long" && wrong "$page: lines of 140 characters or more: $(cut -c1-60 "$work/long")"
done

# a page or a number that only its writers had
if grep -rnE 'DESIGN|[Ii]ssues? [0-9]|\bthe design\b' README.md docs crates tests measure examples include front culvertecho test crates.txt \
    --include='*' --exclude=documents.sh >"$work/cited"; then
    wrong "cites what is not in the repository: $(cut -c1-120 "$work/cited")"
fi

[ "$failed" -eq 0 ] || exit 1
echo "documents: $tried names, every link and every line"
