#!/bin/sh
# Campaigns over real files: missing, a folder, unreadable, empty, repeated, 200 and 201 names, lines that end otherwise; and a campaign in four
# parts, whose reports are added. Each line says what is tried; a difference fails the run.
set -eu
root=$(CDPATH= cd -- "$(dirname -- "$0")/.." && pwd)
work=$(mktemp -d)
trap 'chmod -R u+rwx "$work"; rm -rf "$work"' EXIT
examples=$root/examples
tried=0

fail() {
    echo "campaign: $*" >&2
    exit 1
}

run() { sh "$root/tests/run_program.sh" "$@"; }

# expect REPORT PROFILE: the whole report over the list that stands in $work/list
expect() {
    tried=$((tried + 1))
    printf '%s' "$1" >wanted
    run campaign "$2" list >found 2>errors </dev/null || fail "$(cat list): status $?"
    cmp -s wanted found || fail "$(head -c 300 list) printed $(cat found), not $1"
    [ ! -s errors ] || fail "standard error is no terminal, and was written: $(cat errors)"
}
line='
'

# lines COUNT NAME: so many lines with the name
lines() { awk -v count="$1" -v name="$2" 'BEGIN { for (i = 0; i < count; i++) print name }'; }

# s1 is the tree of b, which breaks a's key; s2 its root and first port; s3 is cut; s4 is empty. Names are relative to the current folder.
cd "$work"
profile=$examples/a.profile
run decide "$examples/b.profile" "$examples/b.question" s1 >said
head -c 22 s1 >s2
head -c 100 s1 >s3
: >s4
mkdir folder

printf 's1\ns2\ns3\nmissing\ns1\n' >list
expect "0 1 2${line}1 1${line}unread 1$line" "$profile"
# the empty name cannot be read; the last line may have no newline
printf 's1\n\ns4' >list
expect "0 0 1${line}8 1${line}unread 1$line" "$profile"
: >list
expect "0 0 0${line}unread 0$line" "$profile"
printf '\n' >list
expect "0 0 0${line}unread 1$line" "$profile"
printf '\n\n\n' >list
expect "0 0 0${line}unread 3$line" "$profile"
# a repeated name counts each time; 200 names are a campaign
lines 200 s1 >list
expect "0 0 200${line}unread 0$line" "$profile"
lines 201 s1 >list
expect "refused 7 3 0$line" "$profile"
# .. before the profile
printf '\003' >bad
expect "refused 7 3 0$line" bad
printf 's1\n' >list
expect "refused 1 1 0$line" bad
# .. and no name is opened: one that would wait for a writer is passed by
if mkfifo pipe 2>/dev/null; then
    printf 'pipe\n' >list
    expect "refused 1 1 0$line" bad
fi
# a profile without keys, and one without labels: nothing stands in a tree then
printf 's1\n' >list
head -c 58 "$profile" >labels
expect "unread 0$line" labels
expect "8 1${line}unread 0$line" s4
# names are taken as they stand: a carriage return is part of one
printf 's1\r\n' >list
expect "0 0 0${line}unread 1$line" "$profile"
printf ' s1\n' >list
expect "0 0 0${line}unread 1$line" "$profile"
printf 'folder\n' >list
expect "0 0 0${line}unread 1$line" "$profile"
cp s1 locked
chmod 000 locked
printf 'locked\n' >list
[ -r locked ] || expect "0 0 0${line}unread 1$line" "$profile"
# several refusal numbers, ascending: a record that is no node, a root that is none, a file over its size
cp "$examples/a.profile" s5
head -c 11 /dev/zero >s6
{ cat s1; head -c 46000 /dev/zero; } >s7
printf 's7\ns4\ns5\ns3\ns6\ns3\n' >list
run campaign "$profile" list >found
[ "$(tail -n 1 found)" = "unread 0" ] || fail "several refusals: $(cat found)"
awk 'NR == 1 { if ($0 != "0 0 0") exit 1; next } NF == 2 && $1 != "unread" { if ($1 <= last) exit 1; last = $1; sum += $2 } END { exit sum != 6 }' found ||
    fail "several refusals: $(cat found)"
# a list of 819,200 bytes is read, one of a byte more has over 200 names or a name that no call takes
head -c 819200 /dev/zero | tr '\000' x >list
expect "0 0 0${line}unread 1$line" "$profile"
head -c 819201 /dev/zero | tr '\000' x >list
expect "refused 7 3 0$line" "$profile"

# a campaign in four lists, four at a time, and the reports added, as README says: the report of the whole
awk 'BEGIN { split("s1 s2 s3 s4 missing folder s6", name, " "); for (i = 0; i < 180; i++) print name[(i * i + i) % 7 + 1] }' >list
split -n l/4 list part.
printf '%s\n' part.?? | xargs -P 4 -I NAME sh -c "sh '$root/tests/run_program.sh' campaign '$profile' NAME >NAME.report"
awk -f "$examples/add_reports.awk" part.*.report >wanted
run campaign "$profile" list >found
cmp -s wanted found || fail "four parts give $(cat wanted), the whole $(cat found)"
tried=$((tried + 1))

echo "campaign: $tried campaigns as expected"
