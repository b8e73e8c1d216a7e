#!/bin/sh
# The front as a stranger would use it: the bundled examples, other folders, folders with spaces, links, bad usage, unreadable files, refused
# inputs, an output that cannot be written, no toolchain. Each line says what is tried; a difference fails the run.
set -eu
root=$(CDPATH= cd -- "$(dirname -- "$0")/.." && pwd)
work=$(mktemp -d)
trap 'rm -rf "$work"' EXIT
front=$root/culvertecho
examples=$root/examples
tried=0

fail() {
    echo "front: $*" >&2
    exit 1
}

# expect STATUS OUTPUT COMMAND..: the front's exit status and its whole standard output
expect() {
    status=$1
    output=$2
    shift 2
    tried=$((tried + 1))
    found=0
    "$front" "$@" >"$work/found" 2>"$work/errors" </dev/null || found=$?
    [ "$found" -eq "$status" ] || fail "$*: status $found, not $status: $(cat "$work/found" "$work/errors")"
    printf '%s' "$output" >"$work/wanted"
    cmp -s "$work/wanted" "$work/found" || fail "$*: printed $(cat "$work/found"), not $output"
}
line='
'

# the main job: every row of 01 with its verdict, all evidence accepted
"$front" >"$work/table" || fail "the bundled examples do not agree with 01: $(cat "$work/table")"
rows=$(grep -c ' accepted ' "$work/table") || true
[ "$rows" -eq 13 ] || fail "$rows rows, not 13"
grep -q '^b    not implied  132 ' "$work/table" || fail "row b is not there"
grep -q '^m2   implied      30 ' "$work/table" || fail "row m in edition 2 is not there"
# the keys stand there as a person types them
grep -qF ' accepted  (port, (frame, {@seq})) | (., (port.frame, {@seq}))' "$work/table" || fail "row b has no typed keys"
# a wrong expectation is seen: the same examples with row a turned round
cp -R "$root/examples" "$front" "$work"
ln -s "$root/crates" "$work/crates"
sed 's/^a	I/a	N/' "$examples/rows.txt" >"$work/examples/rows.txt"
if "$work/culvertecho" >"$work/table"; then fail "a wrong row is not seen"; fi

# in a folder with spaces, and through links to it, one of them relative to a link
mkdir -p "$work/a folder with spaces" "$work/links"
cp -R "$root/examples" "$front" "$work/a folder with spaces"
ln -s "$root/crates" "$work/a folder with spaces/crates"
ln -s "$work/a folder with spaces/culvertecho" "$work/links/a link"
ln -s "a link" "$work/links/linked"
for started in "$work/a folder with spaces/culvertecho" "$work/links/a link" "$work/links/linked"; do
    tried=$((tried + 1))
    "$started" >"$work/table" || fail "$started: status $?: $(cat "$work/table")"
    [ "$(tail -n 1 "$work/table")" = "all rows agree with document 01" ] || fail "$started: $(cat "$work/table")"
done
cd "$work/links"
front=./linked
expect 1 "not implied 132$line" decide "../a folder with spaces/examples/b.profile" "../a folder with spaces/examples/b.question" "../a tree"
[ "$(ls)" = "a link${line}linked" ] || fail "the links' folder was changed: $(ls)"
front=$root/culvertecho

# from another folder, which it leaves as it was; names with spaces
mkdir "$work/other folder"
cd "$work/other folder"
cp "$examples/a.profile" "a profile"
expect 0 "implied 144$line" decide "a profile" "$examples/a.question" "$work/proof"
expect 0 "accepted$line" checker proof "a profile" "$examples/a.question" "$work/proof"
[ "$(ls)" = "a profile" ] || fail "the folder was changed: $(ls)"
cd "$work"

# OUT is overwritten by exactly the bytes used, and stays on a refusal
head -c 1000 /dev/zero >"$work/out"
expect 1 "not implied 132$line" decide "$examples/b.profile" "$examples/b.question" "$work/out"
[ "$(wc -c <"$work/out")" -eq 132 ] || fail "OUT has other bytes than those used"
cp "$work/out" "$work/before"
: >"$work/empty"
expect 2 "refused 1 2 0$line" decide "$examples/b.profile" "$work/empty" "$work/out"
cmp -s "$work/before" "$work/out" || fail "a refusal changed OUT"
expect 2 "refused 1 2 0$line" decide "$examples/b.profile" "$work/empty" "$work/not_made"
[ ! -e "$work/not_made" ] || fail "a refusal made OUT"

# every answer's status
expect 1 "broken 0 4 9 6 11$line" profile keep "$examples/b.profile" "$examples/b.question" "$work/out"
expect 0 "kept$line" profile keep "$examples/b.profile" "$examples/a.question" "$work/out"
expect 0 "accepted 0 4 9 6 11$line" checker tree "$examples/b.profile" "$examples/b.question" "$work/out"
expect 2 "refused 12 1 0 witness 0 4 9 6 11$line" checker tree "$examples/a.profile" "$examples/b.question" "$work/out"
expect 2 "refused 13 3 0$line" checker tree "$examples/b.profile" "$examples/a.question" "$work/out"
expect 2 "refused 10 3 8$line" checker proof "$examples/a.profile" "$examples/b.question" "$work/proof"
expect 2 "refused 10 3 0$line" checker proof "$examples/a.profile" "$examples/a.question" "$work/empty"
# m in both editions: the tree of edition 1 has an attribute twice, the proof of edition 2 uses rule 10
expect 1 "not implied 66$line" decide "$examples/m.profile" "$examples/m.question" "$work/m"
expect 0 "accepted 2 4 5 4 5$line" checker tree "$examples/m.profile" "$examples/m.question" "$work/m"
expect 2 "refused 16 3 5$line" checker tree "$examples/m2.profile" "$examples/m2.question" "$work/m"
expect 0 "implied 30$line" decide "$examples/m2.profile" "$examples/m2.question" "$work/m2"
expect 0 "accepted$line" checker proof "$examples/m2.profile" "$examples/m2.question" "$work/m2"
expect 2 "refused 9 3 0$line" checker proof "$examples/m.profile" "$examples/m.question" "$work/m2"
expect 2 "refused 8 3 0$line" checker tree "$examples/a.profile" "$examples/a.question" "$work/empty"
expect 0 "rewritten 69$line" profile rewrite "$examples/b.profile" "$work/rewritten"
cmp -s "$examples/b.profile" "$work/rewritten" || fail "rewriting changed the profile"
printf '\003\004' >"$work/narrow"
printf '\000\004' >"$work/wide"
expect 0 "included$line" profile include "$examples/b.profile" "$work/narrow" "$work/wide"
expect 1 "not included$line" profile include "$examples/b.profile" "$work/wide" "$work/narrow"
expect 0 "" profile body "$examples/b.profile" 7
expect 0 "" profile body "$examples/b.profile" 99999999999999999999999999
expect 0 "" profile body "$examples/b.question" 0
"$front" profile body "$examples/b.profile" 6 >"$work/body"
printf '\001\003\001\004\001\001\007' >"$work/wanted"
cmp -s "$work/wanted" "$work/body" || fail "the body of record 6 is not its bytes"

# lean profiles: the keys 0 and 2 are dropped, and key 2's proof is checked against the reduced profile, which is h's
expect 0 "reduced 69 dropped 0,2$line" lean reduce "$examples/lean.profile" "$work/lean"
cmp -s "$examples/h.profile" "$work/lean" || fail "the reduced profile is not h's"
expect 0 "reduced 69 dropped -$line" lean reduce "$work/lean" "$work/again"
cmp -s "$work/lean" "$work/again" || fail "reducing again changed the profile"
expect 0 "reduced 80 dropped -$line" lean reduce "$examples/f.profile" "$work/again"
expect 0 "reduced 0 dropped -$line" lean reduce "$work/empty" "$work/again"
[ ! -s "$work/again" ] || fail "reducing an empty profile wrote something"
expect 0 "proof 144$line" lean proof "$examples/lean.profile" 2 "$work/of_2"
expect 0 "accepted$line" checker proof "$work/lean" "$examples/a.question" "$work/of_2"
expect 2 "refused 9 3 1$line" checker proof "$examples/lean.profile" "$examples/a.question" "$work/of_2"
expect 0 "proof 144$line" lean proof "$examples/lean.profile" 0 "$work/of_0"
expect 0 "accepted$line" checker proof "$work/lean" "$examples/h.question" "$work/of_0"
# not dropped: OUT is made, and made empty
for number in 1 3 99 99999999999999999999999999; do
    cp "$work/of_2" "$work/of_none"
    expect 0 "proof 0$line" lean proof "$examples/lean.profile" "$number" "$work/of_none"
    [ -f "$work/of_none" ] && [ ! -s "$work/of_none" ] || fail "the proof of number $number is not an empty file"
done
expect 2 "refused 4 1 0$line" lean reduce "$examples/b.question" "$work/not_made"
expect 2 "refused 4 1 0$line" lean proof "$examples/b.question" 0 "$work/not_made"
[ ! -e "$work/not_made" ] || fail "a refusal made OUT"

# keys in plain text: OUT ends with a newline, which is not counted; a key of four paths, any-path and text, the labels of edition 2
written() { printf '%s\n' "$1" | cmp -s - "$work/line" || fail "the line is $(cat "$work/line"), not $1"; }
expect 0 "text 25$line" text line "$examples/b.profile" "$examples/b.question" "$work/line"
written '(., (port.frame, {@seq}))'
printf '\020\000\002\000\000\001\002\004\000\001\003\001\007\002\004\005' >"$work/four"
expect 0 "text 40$line" text line "$examples/b.profile" "$work/four" "$work/line"
written '(., (run, {., port, @seq, frame.stamp}))'
printf '\015\000\002\000\001\000\003\003\000\004\001\001\001' >"$work/any"
expect 0 "text 26$line" text line "$examples/b.profile" "$work/any" "$work/line"
written '(_*, (port._*.frame, {#}))'
expect 0 "text 18$line" text line "$examples/m2.profile" "$examples/m2.question" "$work/line"
written '(port, (@id, {.}))'
# and read back, with the newline or without it, as the question's own record; key paths in another order are put into record order
spell() { printf "$1" >"$work/spelled"; }
expect 0 "text 25$line" text line "$examples/b.profile" "$examples/b.question" "$work/line"
expect 0 "key 11$line" text key "$examples/b.profile" "$work/line" "$work/key"
cmp -s "$examples/b.question" "$work/key" || fail "the line of b's question is not read back as its record"
spell '(., (run, {frame.stamp, @seq, ., port}))'
expect 0 "key 16$line" text key "$examples/b.profile" "$work/spelled" "$work/key"
cmp -s "$work/four" "$work/key" || fail "typed paths are not put into record order"
spell '(port, (@id, {.}))'
expect 0 "key $(wc -c <"$examples/m2.question" | tr -d ' ')$line" text key "$examples/m2.profile" "$work/spelled" "$work/key"
cmp -s "$examples/m2.question" "$work/key" || fail "the line of m's question is not read back in edition 2"
# 17 and 18 before 4, 5 and 6, all with input 2; a second newline is 17
for row in '17 (port,(frame, {@seq}))' '17 (port, (frame, {@seq}))\n\n' '17 ' '18 (_*._*, (nobody, {.}))' '18 (id, (port, {.}))' \
    '4 (port, (frame, {_*}))' '4 (_*._*, (port, {}))' '5 (., (., {}))' '5 (@id, (port, {@id, @id}))' '6 (@id, (port, {@id}))'; do
    spell "${row#* }"
    expect 2 "refused ${row%% *} 2 0$line" text key "$examples/b.profile" "$work/spelled" "$work/not_made"
done
expect 2 "refused 4 1 0$line" text key "$examples/b.question" "$work/spelled" "$work/not_made"
expect 5 "unreadable $work/none$line" text key "$work/none" "$work/line" "$work/not_made"
expect 5 "unreadable $work/none$line" text key "$examples/b.profile" "$work/none" "$work/not_made"
expect 4 "unwritable$line" text key "$examples/b.profile" "$work/line" "$work/no/such/folder"
expect 2 "refused 1 2 0$line" text line "$examples/b.profile" "$work/empty" "$work/not_made"
expect 2 "refused 4 2 0$line" text line "$work/empty" "$examples/b.question" "$work/not_made"
expect 5 "unreadable $work/none$line" text line "$work/none" "$examples/b.question" "$work/not_made"
expect 5 "unreadable $work/none$line" text line "$examples/b.profile" "$work/none" "$work/not_made"
expect 4 "unwritable$line" text line "$examples/b.profile" "$examples/b.question" "$work/no/such/folder"
usage="usage: text key PROFILE LINE OUT | text line PROFILE QUESTION OUT$line"
expect 3 "$usage" text
expect 3 "$usage" text line "$examples/b.profile" "$examples/b.question"
expect 3 "$usage" text key "$examples/b.profile" "$work/line"
expect 3 "$usage" text neither "$examples/b.profile" "$examples/b.question" "$work/not_made"
[ ! -e "$work/not_made" ] || fail "a refusal or a wrong call made OUT"

# trimmed proofs: nine lines become two, and stay when they are trimmed again
"$front" decide "$examples/a.profile" "$examples/a.question" "$work/long" >"$work/said"
expect 0 "trimmed 32$line" trim "$examples/a.profile" "$examples/a.question" "$work/long" "$work/short"
expect 0 "accepted$line" checker proof "$examples/a.profile" "$examples/a.question" "$work/short"
expect 0 "trimmed 32$line" trim "$examples/a.profile" "$examples/a.question" "$work/short" "$work/again"
cmp -s "$work/short" "$work/again" || fail "trimming again changed the proof"
expect 2 "refused 10 3 0$line" trim "$examples/a.profile" "$examples/a.question" "$work/empty" "$work/not_made"
expect 5 "unreadable $work/none$line" trim "$examples/a.profile" "$examples/a.question" "$work/none" "$work/not_made"
expect 4 "unwritable$line" trim "$examples/a.profile" "$examples/a.question" "$work/long" "$work/no/such/folder"
expect 3 "usage: trim PROFILE QUESTION PROOF OUT$line" trim "$examples/a.profile" "$examples/a.question" "$work/long"
[ ! -e "$work/not_made" ] || fail "a refused trimming made OUT"

# salvage: what is left of a damaged file, and the listing; the same again, and a sound file, stay as they are
damaged=$root/crates/salvage/data
expect 0 "salvaged 2${line}3 8${line}6 1${line}broken 0 0 1 3 2 4$line" salvage "$damaged/profile.key" "$damaged/tree.key" "$work/left"
{
    head -c 27 "$damaged/tree.key"
    printf '\011\000\003\000\000\000\002\000\000\011\000\003\000\003\000\006\005\000'
} >"$work/wanted_tree"
cmp -s "$work/wanted_tree" "$work/left" || fail "what is left has other bytes"
expect 0 "salvaged 0${line}broken 0 0 1 3 2 4$line" salvage "$damaged/profile.key" "$work/left" "$work/again"
cmp -s "$work/left" "$work/again" || fail "salvaging again changed the tree"
expect 0 "salvaged 0$line" salvage "$examples/b.profile" "$work/before" "$work/again"
cmp -s "$work/before" "$work/again" || fail "salvaging changed a sound tree"
expect 2 "refused 8 3 0$line" salvage "$damaged/profile.key" "$work/empty" "$work/not_made"
head -c 36865 /dev/zero >"$work/large"
expect 2 "refused 7 3 0$line" salvage "$damaged/profile.key" "$work/large" "$work/not_made"
expect 2 "refused 2 1 0$line" salvage "$damaged/tree.key" "$damaged/tree.key" "$work/not_made"
[ ! -e "$work/not_made" ] || fail "a refused salvage made OUT"
expect 4 "unwritable$line" salvage "$damaged/profile.key" "$damaged/tree.key" "$work/no/such/folder"
expect 3 "usage: salvage PROFILE TREE OUT$line" salvage "$damaged/profile.key" "$damaged/tree.key"
# a root and as many records of 4 bytes as the larger kind has room for: eleven blocks
printf '\004\000\143\000' >"$work/four"
while [ "$(wc -c <"$work/four")" -lt 45044 ]; do
    cat "$work/four" "$work/four" >"$work/fours"
    mv "$work/fours" "$work/four"
done
{
    printf '\013\000\005\000\377\377\313\000\000\000\000'
    head -c 45044 "$work/four"
    printf '\004'
} >"$work/many"
said=$(echo "salvaged 11262" && seq -f '%.0f 2' 1 11261 && echo "11262 1")
expect 0 "$said$line" salvage "$damaged/profile.key" "$work/many" "$work/again"

# a campaign: b's tree breaks a's key, an empty file is refused by 8, and a name that cannot be read is counted
"$front" decide "$examples/b.profile" "$examples/b.question" "$work/segment" >"$work/said" || true
printf '%s\n%s\n%s\n' "$work/segment" "$work/empty" "$work/none" >"$work/list"
expect 0 "0 0 1${line}8 1${line}unread 1$line" campaign "$examples/a.profile" "$work/list"
printf '%s\n' "$work/none" >"$work/unread"
expect 0 "0 0 0${line}unread 1$line" campaign "$examples/a.profile" "$work/unread"
expect 0 "unread 1$line" campaign "$work/empty" "$work/unread"
expect 2 "refused 4 1 0$line" campaign "$examples/b.question" "$work/list"
expect 5 "unreadable $work/none$line" campaign "$work/none" "$work/list"
expect 5 "unreadable $work/none$line" campaign "$examples/a.profile" "$work/none"
expect 3 "usage: campaign PROFILE LIST$line" campaign "$examples/a.profile"

# what a person reads: a profile as text and back, a proof's and a tree's lines, keys near a question; explain.sh holds what they say
said=$(printf 'element 2 run\nelement 3 port\nelement 4 frame\nelement 5 stamp\nattribute 6 id\nattribute 7 seq\n(port, (frame, {@seq}))')
expect 0 "$said$line" show profile "$examples/b.profile"
expect 0 "" show profile "$work/empty"
expect 2 "refused 4 1 0$line" show profile "$examples/b.question"
printf '%s\n' "$said" >"$work/written"
expect 0 "made 69$line" make profile "$work/written" "$work/made"
cmp -s "$examples/b.profile" "$work/made" || fail "the profile made of its text has other bytes"
expect 0 "made 0$line" make profile "$work/empty" "$work/made"
printf 'element 2 run\nelement two port\n' >"$work/written"
expect 2 "line 2: no edition, element, attribute or key line$line" make profile "$work/written" "$work/not_made"
printf 'element 2 run\n(run, (port, {.}))\n' >"$work/written"
expect 2 "line 2: refused 18 2 0$line" make profile "$work/written" "$work/not_made"
printf 'element 1 run\n' >"$work/written"
expect 2 "refused 3 1 0$line" make profile "$work/written" "$work/not_made"
[ ! -e "$work/not_made" ] || fail "a fault made OUT"
expect 4 "unwritable$line" make profile "$work/empty" "$work/no/such/folder"
expect 0 "0  (., (port.frame, {@seq}))  key 0 of the profile${line}1  (port, (frame, {@seq}))    context target, from 0$line" \
    show proof "$examples/a.profile" "$examples/a.question" "$work/short"
expect 2 "refused 10 3 0$line" show proof "$examples/a.profile" "$examples/a.question" "$work/empty"
expect 0 "kept$line" show tree "$examples/b.profile" "$examples/a.question" "$work/out"
expect 2 "refused 8 3 0$line" show all "$examples/b.profile" "$examples/b.question" "$work/empty"
for word in tree all dot; do
    "$front" show "$word" "$examples/b.profile" "$examples/b.question" "$work/out" >"$work/found" || fail "show $word: status $?"
    grep -q '^   0 root                  context$\|^graph tree {$' "$work/found" || fail "show $word: $(cat "$work/found")"
done
expect 0 "(port, (frame, {@seq}))$line" advise "$examples/b.profile" "$examples/b.question"
expect 0 "implied$line" advise "$examples/a.profile" "$examples/a.question"
expect 1 "nothing near$line" advise "$examples/d.profile" "$examples/d.question"
expect 2 "refused 1 2 0$line" advise "$examples/b.profile" "$work/empty"
for name in "$work/none" "$work/other folder"; do
    expect 5 "unreadable $name$line" show profile "$name"
    expect 5 "unreadable $name$line" show dot "$examples/b.profile" "$examples/b.question" "$name"
    expect 5 "unreadable $name$line" make profile "$name" "$work/not_made"
    expect 5 "unreadable $name$line" advise "$name" "$examples/b.question"
done
expect 3 "usage: make profile TEXT OUT$line" make profile "$work/empty"
expect 3 "usage: advise PROFILE QUESTION$line" advise "$examples/b.profile"
found=0
"$front" show nothing >"$work/found" || found=$?
[ "$found" -eq 3 ] && grep -q '^usage: show ' "$work/found" || fail "show nothing: status $found: $(cat "$work/found")"

# an empty file is empty: no labels, so the question's symbol 3 is unknown
expect 2 "refused 4 2 0$line" decide "$work/empty" "$examples/b.question" "$work/not_made"
expect 0 "included$line" profile include "$examples/b.profile" "$work/empty" "$work/empty"
# an unreadable file is named, whichever argument it is, and nothing is made or changed: a missing file, a folder, no name at all
for name in "$work/no such file" "$work/other folder" ""; do
    said="unreadable $name$line"
    expect 5 "$said" decide "$name" "$examples/b.question" "$work/not_made"
    expect 5 "$said" decide "$examples/b.profile" "$name" "$work/not_made"
    expect 5 "$said" checker proof "$name" "$examples/a.question" "$work/proof"
    expect 5 "$said" checker proof "$examples/a.profile" "$name" "$work/proof"
    expect 5 "$said" checker proof "$examples/a.profile" "$examples/a.question" "$name"
    expect 5 "$said" checker tree "$name" "$examples/b.question" "$work/out"
    expect 5 "$said" checker tree "$examples/b.profile" "$name" "$work/out"
    expect 5 "$said" checker tree "$examples/b.profile" "$examples/b.question" "$name"
    expect 5 "$said" profile rewrite "$name" "$work/not_made"
    expect 5 "$said" profile body "$name" 6
    expect 5 "$said" salvage "$name" "$damaged/tree.key" "$work/not_made"
    expect 5 "$said" salvage "$damaged/profile.key" "$name" "$work/not_made"
    expect 5 "$said" lean reduce "$name" "$work/not_made"
    expect 5 "$said" lean proof "$name" 0 "$work/not_made"
    expect 5 "$said" profile include "$name" "$work/narrow" "$work/wide"
    expect 5 "$said" profile include "$examples/b.profile" "$name" "$work/wide"
    expect 5 "$said" profile include "$examples/b.profile" "$work/narrow" "$name"
    expect 5 "$said" profile keep "$name" "$examples/b.question" "$work/out"
    expect 5 "$said" profile keep "$examples/b.profile" "$name" "$work/out"
    expect 5 "$said" profile keep "$examples/b.profile" "$examples/b.question" "$name"
done
# two of them: the first is named
expect 5 "unreadable $work/first$line" decide "$work/first" "$work/second" "$work/not_made"
# a file that may not be read; root may read all
cp "$examples/b.profile" "$work/locked"
chmod 000 "$work/locked"
[ -r "$work/locked" ] || expect 5 "unreadable $work/locked$line" decide "$work/locked" "$examples/b.question" "$work/not_made"
[ ! -e "$work/not_made" ] || fail "an unreadable file made OUT"
expect 4 "unwritable$line" decide "$examples/a.profile" "$examples/a.question" "$work/no/such/folder"
expect 4 "unwritable$line" profile rewrite "$examples/a.profile" "$work/no/such/folder"
expect 4 "unwritable$line" lean reduce "$examples/lean.profile" "$work/no/such/folder"
expect 4 "unwritable$line" lean proof "$examples/lean.profile" 2 "$work/no/such/folder"
expect 4 "unwritable$line" lean proof "$examples/lean.profile" 1 "$work/no/such/folder"

# bad usage
usage="usage: decide PROFILE QUESTION OUT$line"
expect 3 "$usage" decide
expect 3 "$usage" decide "$examples/a.profile" "$examples/a.question"
expect 3 "$usage" decide "$examples/a.profile" "$examples/a.question" "$work/not_made" more
usage="usage: checker proof PROFILE QUESTION PROOF | checker tree PROFILE QUESTION TREE$line"
expect 3 "$usage" checker
expect 3 "$usage" checker neither a b c
usage="usage: profile rewrite PROFILE OUT | profile body PROFILE N | profile include PROFILE PATH PATH | profile keep PROFILE QUESTION TREE$line"
expect 3 "$usage" profile
expect 3 "$usage" profile body "$examples/a.profile" six
expect 3 "$usage" profile body "$examples/a.profile" ""
expect 3 "$usage" profile body "$examples/a.profile" -1
expect 3 "$usage" profile keep "$examples/a.profile"
usage="usage: lean reduce PROFILE OUT | lean proof PROFILE N OUT$line"
expect 3 "$usage" lean
expect 3 "$usage" lean reduce "$examples/lean.profile"
expect 3 "$usage" lean proof "$examples/lean.profile" "$work/not_made"
for number in two "" -1; do expect 3 "$usage" lean proof "$examples/lean.profile" "$number" "$work/not_made"; done
expect 3 "$usage" lean neither "$examples/lean.profile" "$work/not_made"
[ ! -e "$work/not_made" ] || fail "a wrong call made OUT"
found=0
"$front" no_such_command >"$work/found" || found=$?
[ "$found" -eq 3 ] || fail "an unknown command: status $found, not 3"
grep -q '^usage: culvertecho' "$work/found" || fail "an unknown command prints no usage"
# usage that was asked for
cp "$work/found" "$work/usage"
for word in --help -h help; do expect 0 "$(cat "$work/usage")$line" "$word"; done

# no programs, and a toolchain that is missing or builds nothing: on the path are the tools that the front uses and no others
mkdir "$work/bare" "$work/tools"
cp -R "$examples" "$root/culvertecho" "$work/bare"
for tool in cat head tr mktemp rm uname readlink dirname; do ln -s "$(command -v "$tool")" "$work/tools/$tool"; done
printf '#!/bin/sh\nPATH=%s exec %s/culvertecho "$@"\n' "$work/tools" "$work/bare" >"$work/start"
printf '#!/bin/sh\nexit 1\n' >"$work/no_rt"
chmod 755 "$work/start" "$work/no_rt"
front=$work/start
expect 6 "" decide "$examples/b.profile" "$examples/b.question" "$work/not_made"
grep -q 'command rt is not on the path$' "$work/errors" || fail "without a toolchain: $(cat "$work/errors")"
expect 6 ""
mv "$work/no_rt" "$work/tools/rt"
expect 6 "" decide "$examples/b.profile" "$examples/b.question" "$work/not_made"
grep -q 'programs could not be built$' "$work/errors" || fail "where nothing can be built: $(cat "$work/errors")"
front=$root/culvertecho

# the listing: example b with its profile.key, without one, and refused inputs
mkdir "$work/listing"
cd "$work/listing"
list() { "$front" list <"$1" >"$work/found" || return $?; }
cp "$examples/b.profile" profile.key
list "$work/before" || fail "the listing of b: status $?"
cmp -s "$root/crates/list/stdout" "$work/found" || fail "the listing of b differs"
# 4,096 nodes, five blocks: a root and 4,095 nodes under it, whose records are all the same bytes
# star ROOT NODE BYTES LINE: the two records, how many bytes the nodes have, and what a node's line says behind its number
star() {
    printf "$2" >"$work/node"
    while [ "$(wc -c <"$work/node")" -lt "$3" ]; do
        cat "$work/node" "$work/node" >"$work/nodes"
        mv "$work/nodes" "$work/node"
    done
    {
        printf "$1"
        head -c "$3" "$work/node"
    } >"$work/star"
    list "$work/star" || fail "the listing of 4,096 nodes: status $?"
    {
        printf 'nodes 4096\n0 - 203 -\n'
        seq -f "%.0f $4" 1 4095
    } >"$work/wanted"
    cmp "$work/wanted" "$work/found" || fail "the listing of 4,096 nodes differs"
}
star '\011\000\003\000\377\377\313\000\000' '\011\000\003\000\000\000\003\000\000' 36855 "0 3 -"
star '\013\000\005\000\377\377\313\000\000\000\000' '\013\000\005\000\000\000\007\377\377\377\377' 45045 "0 7 4294967295"
refused() {
    tried=$((tried + 1))
    found=0
    list "$1" || found=$?
    [ "$found" -eq 2 ] && [ "$(cat "$work/found")" = "refused $2" ] || fail "list $1: $found $(head -c 100 "$work/found"), not refused $2"
}
refused /dev/null "8 3 0"
# of the listing alone 01 says that an unreadable file counts as empty: here the tree, below the profile
refused "$work" "8 3 0"
head -c 131 "$work/before" >"$work/cut"
refused "$work/cut" "1 3 11"
head -c 36865 /dev/zero >"$work/large"
refused "$work/large" "7 3 0"
printf '\013' | cat "$work/star" - >"$work/large"
refused "$work/large" "7 3 0"
cat "$root/crates/list/stdin" "$work/before" >"$work/mixed"
refused "$work/mixed" "2 3 12"
rm profile.key
refused "$work/before" "8 3 2"
mkdir profile.key
refused "$work/before" "8 3 2"
rmdir profile.key
printf '\005\000\001\000\002' >profile.key
refused "$work/before" "1 1 0"
head -c 16385 /dev/zero >profile.key
refused "$work/before" "7 1 0"
cd "$root"

echo "front: the table of 01 and $tried calls answer as the README says"
