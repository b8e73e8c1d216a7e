#!/bin/sh
# `explain` and its page. Every row of examples/rows.txt: decide's status, the drawing's marks at the nodes of the tree check, the lines of
# the trimmed proof, and the commands of the page, which make the files with the sums that it shows. Then long names, many keys, a large
# tree, refusals, and names that would break a page or a shell. Each check is tried on something wrong as well, which it has to see.
set -eu
root=$(CDPATH='' cd -- "$(dirname -- "$0")/.." && pwd)
work=$(mktemp -d)
trap 'rm -rf "$work"' EXIT
front=$root/culvertecho
examples=$root/examples
tried=0
line='
'

fail() {
    echo "explain: $*" >&2
    exit 1
}

# explains STATUS WORD..: runs explain, with what it printed in $work/found
explains() {
    status=$1
    shift
    tried=$((tried + 1))
    ended=0
    "$front" explain "$@" >"$work/found" 2>"$work/errors" </dev/null || ended=$?
    [ "$ended" -eq "$status" ] || fail "$*: status $ended, not $status: $(cat "$work/found" "$work/errors")"
    [ ! -s "$work/errors" ] || fail "$*: $(cat "$work/errors")"
}

# expect STATUS OUTPUT WORD..: the same, and the whole of what it prints
expect() {
    wanted=$2
    status=$1
    shift 2
    explains "$status" "$@"
    printf '%s' "$wanted" | cmp -s - "$work/found" || fail "$*: printed $(cat "$work/found"), not $wanted"
}

# has TEXT: a whole line of what was printed
has() { grep -qxF -- "$1" "$work/found" || fail "no line '$1' in: $(cat "$work/found")"; }

# evidence FILE: what stands between `Why: ..` and what the second program said
evidence() { awk '/^The second program / { exit } on && NF { print } /^Why: / { on = 1 }' "$1"; }

# marks DRAWING: a line `NODE MARK` for each mark, sorted; marks stand last, behind two spaces or more
marks() {
    awk '{
        if (!match($0, / (context|first|second|equal by [^ ]*)(, (context|first|second|equal by [^ ]*))*$/)) next
        if (substr($0, RSTART - 1, 1) != " ") next
        n = split(substr($0, RSTART + 1), mark, ", ")
        for (i = 1; i <= n; i++) print $1 " " mark[i]
    }' "$1" | sort
}

# wanted_marks KEY ACCEPTED..: the same off the numbers of the tree check
wanted_marks() {
    paths=${1#*\{}
    paths=${paths%\}*}
    shift 2
    printf '%s context\n%s first\n%s second\n' "$1" "$2" "$3"
    shift 3
    while [ $# -gt 0 ]; do
        printf '%s equal by %s\n%s equal by %s\n' "$1" "${paths%%, *}" "$2" "${paths%%, *}"
        paths=${paths#*, }
        shift 2
    done
}

# records FILE: how many records stand in it, by their length fields
records() {
    od -An -v -tu1 "$1" | tr -s ' ' '\n' |
        awk 'NF { byte[n++] = $1 } END { for (i = 0; i < n; i += byte[i] + 256 * byte[i + 1]) count++; print count + 0 }'
}

# well_formed PAGE: every tag is closed in its order, attributes are quoted, and no `<`, `>` or `&` stands in the text as itself
well_formed() {
    awk '
        function wrong(what) { print "page: " what; bad = 1; exit 1 }
        BEGIN { RS = "<" }
        NR == 1 { if ($0 != "") wrong("text before the first tag"); next }
        {
            end = index($0, ">")
            if (!end) wrong("a tag without an end: " $0)
            tag = substr($0, 1, end - 1)
            text = substr($0, end + 1)
            if (NR == 2) { if (tag != "!doctype html") wrong("no doctype"); next }
            name = tag
            sub(/[ \/\n].*/, "", name)
            if (tag ~ /^\//) {
                name = substr(tag, 2)
                if (depth < 1 || open[depth] != name) wrong("/" name " closes " open[depth])
                depth--
            } else {
                if (name !~ /^[a-z][a-z0-9]*$/) wrong("no tag: " tag)
                rest = substr(tag, length(name) + 1)
                gsub(/[ \n][A-Za-z:-]+="[^"]*"/, "", rest)
                if (rest !~ /^\/?$/) wrong("attributes of " tag)
                if (rest != "/" && name != "meta") open[++depth] = name
            }
            if (open[depth] != "style" && text ~ />/) wrong("a > in the text: " text)
            gsub(/&(amp|lt|gt|quot|#[0-9]+|#x[0-9a-f]+);/, "", text)
            gsub(/&(amp|lt|gt|quot|#[0-9]+|#x[0-9a-f]+);/, "", tag)
            if (text tag ~ /&/) wrong("an & as itself: " text tag)
        }
        END { if (!bad && (depth != 0 || NR < 20)) { print "page: " depth " tags are open"; exit 1 } }
    ' "$1"
}

# alone PAGE: no script, nothing fetched
alone() { ! grep -qiE '<script|javascript:|https?:|@import|url\(|<link|<img|<iframe|<object| on[a-z]+=|src=|href=' "$1"; }

# unescaped: text of a page as it was
unescaped() { sed -e 's/&lt;/</g' -e 's/&gt;/>/g' -e 's/&quot;/"/g' -e "s/&#39;/'/g" -e "s/&#13;/$(printf '\r')/g" -e 's/&amp;/\&/g'; }

# commands PAGE: the commands that it shows
commands() {
    awk '/<pre class="commands">/ { on = 1; sub(/<pre class="commands">/, "") } on && /^<\/pre>/ { exit } on' "$1" | unescaped
}

# sums PAGE: the sums of profile, question and evidence that it shows
sums() { sed -n 's/.*<tr><th scope="row">[a-z]*<\/th><td class="number">[0-9]*<\/td><td>\([0-9a-f]*\)<\/td><\/tr>.*/\1/p' "$1"; }

# agrees PAGE: its commands end with the sums that it shows, and the second program accepts on the way
agrees() {
    commands "$1" >"$work/commands"
    mkdir -p "$work/scratch"
    PATH="$root:$PATH" TMPDIR="$work/scratch" sh "$work/commands" >"$work/ran" 2>"$work/ran.errors" || return 1
    sums "$1" >"$work/wanted.sums"
    [ "$(wc -l <"$work/wanted.sums")" -eq 3 ] && grep -q '^accepted' "$work/ran" || return 1
    grep -oE '^\\?[0-9a-f]{64} ' "$work/ran" | tr -d ' \\' | cmp -s - "$work/wanted.sums"
}

# sound PAGE: all of it
sound() {
    well_formed "$1" || fail "$1 is not well formed"
    alone "$1" || fail "$1 does not stand alone"
    agrees "$1" || fail "$1: the commands make something else: $(cat "$work/commands" "$work/ran" "$work/ran.errors" "$work/wanted.sums")"
}

# proof_row ROW KEY: the trimmed proof's lines, in the text and in the table of the page
proof_row() {
    "$front" trim "$examples/$1.profile" "$examples/$1.question" "$work/whole" "$work/short" >"$work/said"
    "$front" show proof "$examples/$1.profile" "$examples/$1.question" "$work/short" >"$work/lines"
    [ "$(records "$work/short")" -eq "$(wc -l <"$work/lines")" ] || fail "$1: show proof has other lines than the proof has records"
    cmp -s "$work/lines" "$work/shown" || fail "$1: another proof is shown: $(cat "$work/shown")"
    grep -qF "<td class=\"number\">$(sed -n 's/^trimmed //p' "$work/said")</td>" "$work/page" || fail "$1: the page has another size"
    sed -n 's/^<tr>.*class="number">\([0-9]*\)<.*<code>\(.*\)<\/code><\/td><td>\(.*\)<\/td><\/tr>$/\1 \2 \3/p' "$work/page" >"$work/rows"
    sed 's/^ *//; s/  */ /g' "$work/lines" | cmp -s - "$work/rows" || fail "$1: another table: $(cat "$work/rows")"
    has "The second program checked the proof: accepted."
    grep -qF '<h1>Implied</h1>' "$work/page" || fail "$1: no verdict on the page"
}

# tree_row ROW KEY: the drawing's marks, at the nodes that the second program names
tree_row() {
    "$front" show tree "$examples/$1.profile" "$examples/$1.question" "$work/whole" >"$work/lines"
    cmp -s "$work/lines" "$work/shown" || fail "$1: another tree is shown: $(cat "$work/shown")"
    said=$("$front" checker tree "$examples/$1.profile" "$examples/$1.question" "$work/whole")
    # shellcheck disable=SC2086
    wanted_marks "$2" $said | sort >"$work/marks"
    marks "$work/shown" | cmp -s - "$work/marks" || fail "$1: marks $(marks "$work/shown"), not $(cat "$work/marks")"
    has "The second program checked the tree: $said."
    grep -oE '^(<pre class="tree">)?<b> *[0-9]+' "$work/page" | grep -oE '[0-9]+$' | sort -u >"$work/bold"
    printf '%s\n' "${said#accepted }" | tr ' ' '\n' | sort -u | cmp -s - "$work/bold" || fail "$1: bold lines $(cat "$work/bold")"
    grep -qF '<h1>Not implied</h1>' "$work/page" || fail "$1: no verdict on the page"
    "$front" advise "$examples/$1.profile" "$examples/$1.question" >"$work/near" || true
    sed -n 's/^(/  &/p' "$work/near" >"$work/wanted"
    sed '1,/^What to do: /d' "$work/found" | grep '^  (' | cmp -s - "$work/wanted" || [ ! -s "$work/wanted" ] || fail "$1: other advice"
}

# row ROW KEY: the row by its question's file and by its typed key
row() {
    ended=0
    "$front" decide "$examples/$1.profile" "$examples/$1.question" "$work/whole" >"$work/said" || ended=$?
    decided=$ended
    explains "$decided" "$examples/$1.profile" "$examples/$1.question" --html "$work/page"
    cp "$work/found" "$work/by_file"
    cp "$work/page" "$work/$1.html"
    has "Asked: does $2 follow from $examples/$1.profile?"
    evidence "$work/found" >"$work/shown"
    if [ "$decided" -eq 0 ]; then proof_row "$1" "$2"; else tree_row "$1" "$2"; fi
    sound "$work/page"
    explains "$decided" "$examples/$1.profile" "$2" --html "$work/page"
    cmp -s "$work/found" "$work/by_file" && cmp -s "$work/page" "$work/$1.html" || fail "$1: the typed key is told otherwise"
}

# a dot that draws nothing, so that every page below has the text alone; pages with a drawing come at the end
mkdir "$work/undrawn"
printf '#!/bin/sh\nexit 1\n' >"$work/undrawn/dot"
chmod 755 "$work/undrawn/dot"
path=$PATH
PATH=$work/undrawn:$path

tab=$(printf '\t')
rows=0
while IFS=$tab read -r name said keys asked; do
    case $name in "#"* | "") continue ;; esac
    row "$name" "$asked"
    rows=$((rows + 1))
done <"$examples/rows.txt"
[ "$rows" -eq 13 ] || fail "$rows rows, not 13"

# spoiled FILE EDIT CHECK..: the front with an edit by sed, which the check has to see
spoiled() {
    rm -rf "$work/wrong"
    mkdir -p "$work/wrong"
    cp -R "$root/culvertecho" "$root/front" "$work/wrong"
    ln -s "$root/crates" "$work/wrong/crates"
    sed "$2" "$root/$1" >"$work/wrong/$1"
    ! cmp -s "$root/$1" "$work/wrong/$1" || fail "the edit $2 changes nothing"
    edit=$2
    shift 2
    if (front=$work/wrong/culvertecho && "$@") >/dev/null 2>&1; then fail "not seen: $edit"; fi
    tried=$((tried + 1))
}

# hostile NAME: a file of that name as profile and as question, from its own folder: it is told, the page is sound, and nothing is run
hostile() {
    mkdir -p "$work/hostile"
    cd "$work/hostile"
    cat "$examples/b.profile" >"./$1"
    explains 1 "$1" '(., (port.frame, {@seq}))' --html page
    told=$(printf '%s' "$1" | tr '\001-\037\177' '?')
    has "Asked: does (., (port.frame, {@seq})) follow from $told?"
    told=$(printf '%s' "$told" | awk '{
        gsub(/&/, "\\&amp;"); gsub(/</, "\\&lt;"); gsub(/>/, "\\&gt;"); gsub(/"/, "\\&quot;"); gsub(/\047/, "\\&#39;"); print }')
    grep -qF "follow from <code>$told</code>?" page || fail "$1: the page has another name than $told"
    sound page
    cat "$examples/b.question" >"./$1"
    explains 1 "$examples/b.profile" "$1" --html page
    sound page
    [ ! -e ran ] || fail "$1: something was run"
    rm -f -- "./$1" page
    cd "$work"
}

plain='<b>&amp;"it'\''s"'
for name in 'two words' ' ' "$plain" '$(touch ran)' '`touch ran`' '; touch ran' '*' '\n%s%n' -x -- --help '&lt;' '~' '"><script>x' \
    "two${line}lines" "ends${line}" '"$again"' '}))' "$(printf 'tab\tbell\007return\r.')"; do
    hostile "$name"
done

# each check sees what it is there for
spoiled front/explain.sh 's/"\$kind" profile question evidence$/"$kind" profile question decided/' row a '(port, (frame, {@seq}))'
spoiled front/explain.sh 's/cat "$work\/evidence.text"/sed "s,first$,second," "$work\/evidence.text"/' row b '(., (port.frame, {@seq}))'
spoiled front/explain.sh 's/ended=1/ended=0/' row b '(., (port.frame, {@seq}))'
spoiled front/explain.sh "s/say_checked() { printf '/&Yes: /" row b '(., (port.frame, {@seq}))'
spoiled front/page.sh 's/^escaped() { .*/escaped() { cat; }/' hostile "$plain"
spoiled front/page.sh "s/ -e 's.\"[^ ]* / /" hostile "$plain"
spoiled front/page.sh 's/^quoted() {/& printf %s "$1"; return/' hostile 'two words'
spoiled front/page.sh '/culvertecho trim /d' row a '(port, (frame, {@seq}))'
spoiled front/page.sh 's/sum_row question question/sum_row question profile/' row a '(port, (frame, {@seq}))'
spoiled front/page.sh 's/<\/main>//' row a '(port, (frame, {@seq}))'
spoiled front/page.sh 's/<footer>/<footer><script>/' row a '(port, (frame, {@seq}))'
spoiled front/page.css '1s/$/ @import "x";/' row a '(port, (frame, {@seq}))'
row a '(port, (frame, {@seq}))'
sed 's/@seq/@id/' "$work/a.html" >"$work/page"
if agrees "$work/page"; then fail "a page with another key agrees"; fi
if (row a '(., (port.frame, {@seq}))') >/dev/null 2>&1; then fail "another key is not seen"; fi

# names of 32 bytes with - and _
long=a-_9bcdefghijklmnopqrstuvwxyz-_-
last=${long%?}z
printf 'element 2 %s\nelement 3 x\nattribute 200 %s\n(., (%s, {@%s}))\n' "$long" "$last" "$long" "$last" >"$work/text"
"$front" make profile "$work/text" "$work/long" >"$work/said" || fail "long names: $(cat "$work/said")"
explains 0 "$work/long" "(., ($long, {@$last}))" --html "$work/page"
has "0  (., ($long, {@$last}))  key 0 of the profile"
sound "$work/page"
explains 1 "$work/long" "($long, (x._*.$long, {@$last, .}))" --html "$work/page"
has "Asked: does ($long, (x._*.$long, {., @$last})) follow from $work/long?"
sound "$work/page"

# 64 keys: their numbers stand right-aligned, and a proof may cite the last
{
    seq 2 65 | sed 's/.*/element & e&/; s/ e65$/ last/'
    echo 'attribute 66 id'
    seq -f '(., (e%.0f, {@id}))' 2 64
    echo '(., (last, {@id}))'
} >"$work/text"
"$front" make profile "$work/text" "$work/many" >"$work/said" || fail "64 keys: $(cat "$work/said")"
explains 0 "$work/many" '(., (last, {@id}))' --html "$work/page"
has "The profile (edition 1) has 64 keys:"
has "   0  (., (e2, {@id}))"
has "  63  (., (last, {@id}))"
has "0  (., (last, {@id}))  key 63 of the profile"
sound "$work/page"

# the largest tree that is written, 178 nodes (02, request 8): half of them are filler attributes, which are left out
eight() { printf '%s.%s.%s.%s.%s.%s.%s.%s' "$1" "$1" "$1" "$1" "$1" "$1" "$1" "$2"; }
large="($(eight run run), ($(eight port port), {$(eight run run), $(eight run port), $(eight run frame), $(eight run stamp)}))"
explains 1 "$examples/m.profile" "$large" --html "$work/page"
evidence "$work/found" >"$work/shown"
[ "$(wc -l <"$work/shown")" -eq 89 ] || fail "the largest tree has $(wc -l <"$work/shown") lines, not 89"
said=$(sed -n 's/^The second program checked the tree: \(.*\)\.$/\1/p' "$work/found")
# shellcheck disable=SC2086
wanted_marks "$large" $said | sort >"$work/marks"
marks "$work/shown" | cmp -s - "$work/marks" || fail "the largest tree: marks $(marks "$work/shown")"
[ "$(wc -l <"$work/marks")" -eq 11 ] || fail "the largest tree has $(wc -l <"$work/marks") marks, not 11"
grep -q '<td class="number">1958</td>' "$work/page" || fail "the largest tree has not 178 records of 11 bytes"
sound "$work/page"

# an empty profile, both verdicts; edition 2 is said
: >"$work/empty"
explains 0 "$work/empty" '(., (., {.}))' --html "$work/page"
has "The profile (edition 1) has no keys."
sound "$work/page"
explains 1 "$work/empty" '(_*, (_*, {.}))' --html "$work/page"
has "No key near it was found to follow."
sound "$work/page"
explains 0 "$examples/m2.profile" "$examples/m2.question"
has "The profile (edition 2) has no keys."
has "0  (port, (@id, {.}))  single attribute"

# prose keeps to 100 columns; lines with keys and names are as long as these
for name in a b d; do
    explains "$(grep -c "^$name	N" "$examples/rows.txt")" "$examples/$name.profile" "$examples/$name.question"
    if sed '/^Asked: /d; /^ *[0-9]* /d' "$work/found" | grep -qE '.{101}'; then fail "$name: a line over 100 columns"; fi
done

# what is refused: the line, then a sentence; typed keys by number
refusal() {
    number=$1
    explains 2 "$examples/b.profile" "$2" --html "$work/page"
    has "Asked: does $2 follow from $examples/b.profile?"
    has "refused $number 2 0"
    grep -q "^The typed key $3" "$work/found" || fail "$2: $(cat "$work/found")"
    well_formed "$work/page" && alone "$work/page" || fail "$2: the page of a refusal"
    grep -qF '<h1>Refused</h1>' "$work/page" && grep -qF "refused $number 2 0" "$work/page" || fail "$2: no refusal on the page"
}
refusal 17 '(port,(frame, {@seq}))' 'is not of the form'
refusal 17 '(<b>"x"&amp;' 'is not of the form'
refusal 18 '(port, (frame, {seq}))' 'has a name that the profile does not declare'
refusal 4 '(port, (frame, {_*}))' 'has a path'
refusal 5 '(., (., {}))' 'has no key path'
refusal 6 '(@id, (port, {@id}))' 'has an attribute or text'
# .. and records: the question's own, without a key to say, and the profile's, by record
expect 2 "refused 1 2 0${line}The question is empty or cut, or has another length than its kind and its counts say.$line" \
    "$examples/b.profile" "$work/empty"
said="The question is of a kind that may not stand there: a profile is an edition or none, labels, then${line}keys; a question is one key."
expect 2 "refused 2 2 0${line}$said$line" "$examples/b.profile" "$examples/b.profile"
profile_refusal() {
    explains 2 "$work/bad" "$examples/b.question"
    has "refused $1 1 $2"
    grep -q "^Record $2 of the profile (the first is record 0) $3" "$work/found" || fail "$(cat "$work/found")"
}
cp "$examples/b.question" "$work/bad"
profile_refusal 4 0 'has a path'
{ cat "$examples/b.profile"; tail -c 11 "$examples/b.profile"; } >"$work/bad"
profile_refusal 15 7 'is a key that stands'
{ cat "$examples/b.profile"; printf '\013\000'; } >"$work/bad"
profile_refusal 1 7 'is empty or cut'
{ printf '\007\000\001\000\001\001x'; cat "$examples/b.profile"; } >"$work/bad"
profile_refusal 3 0 'declares a label badly'
cat "$examples/b.question" "$examples/b.profile" >"$work/bad"
profile_refusal 4 0 'has a path'
{ cat "$examples/b.profile"; head -c 9 "$examples/b.profile"; } >"$work/bad"
profile_refusal 2 7 'is of a kind'
head -c 16385 /dev/zero >"$work/bad"
profile_refusal 7 0 'is too much'

# a page for one that is refused takes the place of an older one; files that cannot be read or written, and bad usage, leave it
echo older >"$work/page"
expect 5 "unreadable $work/none$line" "$work/none" "$examples/b.question" --html "$work/page"
expect 5 "unreadable $work/none$line" "$examples/b.profile" "$work/none" --html "$work/page"
expect 5 "unreadable $work/hostile$line" "$work/hostile" "$work/none"
expect 5 "unreadable $line" "" "$examples/b.question"
expect 5 "unreadable $line" "$examples/b.profile" ""
for name in "$work/no/such/folder" "$work/hostile" ""; do
    expect 4 "unwritable$line" "$examples/b.profile" "$examples/b.question" --html "$name"
    expect 4 "unwritable$line" "$examples/b.profile" '(' --html "$name"
done
usage="usage: explain PROFILE KEY [--html FILE]$line"
expect 3 "$usage"
expect 3 "$usage" "$examples/b.profile"
expect 3 "$usage" "$examples/b.profile" "$examples/b.question" more --html "$work/page"
expect 3 "$usage" "$examples/b.profile" "$examples/b.question" --html
expect 3 "$usage" --html "$work/page" "$examples/b.profile" "$examples/b.question" --html "$work/page"
[ "$(cat "$work/page")" = older ] || fail "a wrong call changed the page"

# the option in each place, a link in another folder, a folder with spaces, a profile that can be read once
explains 1 --html "$work/first" "$examples/b.profile" "$examples/b.question"
explains 1 "$examples/b.profile" --html "$work/second" "$examples/b.question"
explains 1 "$examples/b.profile" "$examples/b.question" --html "$work/third"
cmp -s "$work/first" "$work/second" && cmp -s "$work/first" "$work/third" || fail "the option's place changes the page"
mkdir -p "$work/a folder" "$work/links"
cp -R "$root/culvertecho" "$root/front" "$work/a folder"
ln -s "$root/crates" "$work/a folder/crates"
ln -s "../a folder/culvertecho" "$work/links/a link"
cd "$work/links"
front="./a link"
explains 1 "$examples/b.profile" "$examples/b.question" --html "../a page"
cmp -s "$work/a page" "$work/third" || fail "through a link the page is another"
cd "$work"
front=$root/culvertecho
"$front" explain /dev/stdin "$examples/b.question" <"$examples/b.profile" >"$work/found" && fail "a pipe: status 0"
has "Asked: does (., (port.frame, {@seq})) follow from /dev/stdin?"

# a drawing: of it the page has what stands between the tags; with Graphviz on the machine, that of the tree
mkdir "$work/drawn"
cat >"$work/drawn/dot" <<'END'
#!/bin/sh
[ "$1" = -Tsvg ] && grep -q '^graph tree {' "$2" || exit 1
cat <<'SVG'
<?xml version="1.0" encoding="UTF-8" standalone="no"?>
<!DOCTYPE svg PUBLIC "-//W3C//DTD SVG 1.1//EN"
 "http://www.w3.org/Graphics/SVG/1.1/DTD/svg11.dtd">
<!-- Generated by graphviz -->
<svg width="200pt" height="100pt"
 viewBox="0.00 0.00 200.00 100.00" xmlns="http://www.w3.org/2000/svg" xmlns:xlink="http://www.w3.org/1999/xlink">
<g id="graph0" class="graph">
<!-- n0 -->
<text x="1" y="2">0 root</text>
</g>
</svg>
SVG
END
chmod 755 "$work/drawn/dot"
drawn() {
    explains 1 "$examples/b.profile" "$examples/b.question" --html "$work/page"
    sound "$work/page"
    for part in '<svg role="img" aria-label="The tree: context node 0, first target node 4, second target node 9. ' \
        ' viewBox="0.00 0.00 200.00 100.00" style="width:100%;max-width:200pt;min-width:110pt">' '<text x="1" y="2">0 root</text>'; do
        grep -qF "$part" "$work/page" || fail "the drawing has no $part"
    done
}
PATH=$work/drawn:$path
drawn
spoiled front/page.sh 's/ on = 1$/ on = 1; print/' drawn
PATH=$path
if command -v dot >/dev/null 2>&1; then
    explains 1 "$examples/d.profile" "$examples/d.question" --html "$work/page"
    sound "$work/page"
    grep -q '>11 port<' "$work/page" || fail "Graphviz drew no second target"
fi

echo "explain: $tried calls as expected"
