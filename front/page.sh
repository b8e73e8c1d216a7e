# page.sh: (read by front/explain.sh) what `explain` tells as one page that stands alone: no script, nothing fetched. It has the sentences
# of the text, the proof as a table or the tree as a drawing and as text, and the commands by which a reader makes everything again. All
# text that comes from elsewhere goes through `escaped`.

# How small a drawing may become, in parts of its own size, before its box scrolls; and how many points wide it may be to fit, that small,
# into the widest page.
least_scale=0.55
fitting=1180

# escaped: standard input as text of the page
escaped() { sed -e 's/&/\&amp;/g' -e 's/</\&lt;/g' -e 's/>/\&gt;/g' -e 's/"/\&quot;/g' -e "s/'/\&#39;/g" -e "s/$(printf '\r')/\&#13;/g"; }

# in_page TEXT: one word or name, with nothing that could end a line
in_page() { printable "$1" | escaped; }

# quoted TEXT: for the shell, as it stands where that is plain
quoted() {
    case $1 in
        "" | -* | *[!A-Za-z0-9._/-]*)
            printf "'"
            printf '%s' "$1" | sed "s/'/'\\\\''/g"
            printf "'"
            ;;
        *) printf '%s' "$1" ;;
    esac
}

# opened NAME HEADING: a section
opened() { printf '<section class="%s">\n<h2>%s</h2>\n<div>\n' "$1" "$2"; }
closed() { printf '</div>\n</section>\n'; }

# headed NAME COLUMN..: the head of a table
headed() {
    printf '<table class="%s">\n<thead><tr>' "$1"
    shift
    printf '<th scope="col">%s</th>' "$@"
    printf '</tr></thead>\n<tbody>\n'
}

# paragraph: a sentence on standard input, with a capital where it began behind a colon
paragraph() {
    escaped | awk '{
        gsub(/`[^`]+`/, "<code>&</code>")
        gsub(/`/, "")
        print "<p>" toupper(substr($0, 1, 1)) substr($0, 2) "</p>"
    }'
}

page_head() {
    printf '<!doctype html>\n<html lang="en">\n<head>\n<meta charset="utf-8">\n'
    printf '<meta name="viewport" content="width=device-width, initial-scale=1">\n'
    printf '<title>%s: %s</title>\n<style>\n' "$1" "$(in_page "${asked:-$profile}")"
    cat "$here/front/page.css"
    printf '</style>\n</head>\n<body class="%s">\n<header>\n<h1>%s</h1>\n' "$2" "$1"
    [ -n "$asked" ] || return 0
    printf '<p class="asked">Asked: does <code>%s</code> follow from <code>%s</code>?</p>\n' "$(in_page "$asked")" "$(in_page "$profile")"
}

# the opening tag has a line of its own and the next; names of namespaces are not needed inside a page
page_svg() {
    awk -v least="$least_scale" -v label="$1" '
        /^<svg / { split($0, part, "\""); wide = part[2] + 0; next }
        /viewBox=/ && !on {
            on = 1
            match($0, /viewBox="[^"]*"/)
            printf "<svg role=\"img\" aria-label=\"%s\" %s ", label, substr($0, RSTART, RLENGTH)
            printf "style=\"width:100%%;max-width:%dpt;min-width:%dpt\">\n", wide, wide * least
            next
        }
        on && !/^<!--/
    '
}

# Where Graphviz is not installed or draws nothing the text below stands alone.
page_drawing() {
    command -v dot >/dev/null 2>&1 || return 0
    shown graph show dot profile question evidence
    dot -Tsvg "$work/graph" >"$work/svg" 2>/dev/null && grep -q '^<svg ' "$work/svg" || return 0
    # shellcheck disable=SC2086
    set -- ${checked#accepted }
    wide=$(sed -n 's/^<svg width="\([0-9]*\).*/\1/p' "$work/svg")
    hint=hint
    [ "${wide:-0}" -le "$fitting" ] || hint="hint wide"
    printf '<div class="drawing" role="region" aria-label="Drawing of the tree" tabindex="0">\n'
    page_svg "The tree: context node $1, first target node $2, second target node $3. The text below says the same." <"$work/svg"
    printf '</div>\n<p class="%s">The drawing can be moved sideways. The same as text:</p>\n' "$hint"
}

# The lines of the nodes that the second program named are bold.
page_tree() {
    page_drawing
    printf '<pre class="tree">'
    escaped <"$work/evidence.text" |
        awk -v nodes="${checked#accepted }" 'BEGIN { n = split(nodes, node, " "); for (i = 1; i <= n; i++) marked[node[i]] = 1 }
            { print ($1 in marked) ? "<b>" $0 "</b>" : $0 }'
    printf '</pre>\n'
}

# A key ends with the first }))
page_proof() {
    headed proof Line Key Reason
    escaped <"$work/evidence.text" | awk '{
        number = $1
        sub(/^ *[0-9]+ +/, "")
        end = index($0, "}))") + 2
        reason = substr($0, end + 1)
        sub(/^ +/, "", reason)
        printf "<tr><th scope=\"row\" class=\"number\">%s</th>", number
        printf "<td><code>%s</code></td><td>%s</td></tr>\n", substr($0, 1, end), reason
    }'
    printf '</tbody>\n</table>\n'
}

page_profile() {
    opened profile Profile
    say_profile | paragraph
    if [ -s "$work/keys" ]; then
        headed keys Number Key
        escaped <"$work/keys" | awk '{ printf "<tr><th scope=\"row\" class=\"number\">%d</th><td><code>%s</code></td></tr>\n", NR - 1, $0 }'
        printf '</tbody>\n</table>\n'
    fi
    if [ -s "$work/profile.text" ]; then
        printf '<details>\n<summary>All its records, as <code>show profile</code> writes and <code>make profile</code> reads them</summary>\n'
        printf '<pre>'
        escaped <"$work/profile.text"
        printf '</pre>\n</details>\n'
    fi
    closed
}

page_advice() {
    opened advice "What to do"
    say_advice | paragraph
    if [ "$kind" = tree ]; then
        say_near | paragraph
        [ "$(head -c 1 "$work/near")" != "(" ] || escaped <"$work/near" | sed '1i<ul>
s/.*/<li><code>&<\/code><\/li>/
$a</ul>'
    fi
    closed
}

# The commands by which question and evidence are made again, and checked, in a folder of their own.
commands() {
    name=$(quoted "$profile")
    printf 'again=$(mktemp -d)\n'
    printf "printf '%%s\\\\n' %s >\"\$again/line\"\n" "$(quoted "$asked")"
    printf 'culvertecho text key %s "$again/line" "$again/question"\n' "$name"
    if [ "$kind" = proof ]; then
        printf 'culvertecho decide %s "$again/question" "$again/decided"\n' "$name"
        printf 'culvertecho trim %s "$again/question" "$again/decided" "$again/proof"\n' "$name"
    else
        printf 'culvertecho decide %s "$again/question" "$again/tree"\n' "$name"
    fi
    printf 'culvertecho checker %s %s "$again/question" "$again/%s"\n' "$kind" "$name" "$kind"
    printf 'sha256sum -- %s "$again/question" "$again/%s"\n' "$name" "$kind"
}

# sum_row WORD FILE: the SHA-256 of what was judged
sum_row() {
    sum=$(sha256sum <"$work/$2") || return
    printf '<tr><th scope="row">%s</th><td class="number">%d</td><td>%s</td></tr>\n' "$1" "$(wc -c <"$work/$2")" "${sum%% *}"
}

page_again() {
    opened again "Check it again"
    echo 'In the folder where this was asked, with `culvertecho` on the path. The last command prints the sums below.' | paragraph
    printf '<pre class="commands">'
    commands | escaped
    printf '</pre>\n'
    headed sums File Bytes SHA-256
    sum_row profile profile && sum_row question question && sum_row "$kind" evidence || return
    printf '</tbody>\n</table>\n'
    closed
}

page_refusal() {
    page_head Refused refused
    printf '</header>\n<main>\n'
    opened refusal Why
    printf '<pre>%s</pre>\n' "$(in_page "$refusal")"
    # shellcheck disable=SC2086
    say_refusal $refusal | paragraph
    closed
}

page_verdict() {
    case $verdict in
        implied) page_head Implied implied ;;
        *) page_head "Not implied" not-implied ;;
    esac
    say_verdict | paragraph
    printf '</header>\n<main>\n'
    opened why Why
    say_why | paragraph
    "page_$kind"
    closed
    opened checked "Second program"
    say_checked | paragraph
    closed
    page_advice
    page_profile
    page_again
}

print_page() {
    case $verdict in
        refused) page_refusal ;;
        *) page_verdict ;;
    esac || return
    printf '</main>\n<footer>Culvertecho: what is said here are answers of proved programs; this page lays them out.</footer>\n</body>\n</html>\n'
}
