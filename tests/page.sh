#!/bin/sh
# The page of `explain` in a browser: (not in ./test) opens the pages of four rows in headless Chromium, 1280 and 400 pixels wide, and holds
# the rendered text, the console and the widths. `tests/page.sh pictures` also writes docs/explain-implied.png and
# docs/explain-not-implied.png. What is missing is installed from Debian's packages (Chromium and Graphviz, about 130 MB; pngquant).
set -eu
root=$(CDPATH='' cd -- "$(dirname -- "$0")/.." && pwd)
work=$(mktemp -d)
trap 'rm -rf "$work"' EXIT
front=$root/culvertecho
widths="1280 400"
picture_width=1200
picture_bytes=204800
picture_colours=128

fail() {
    echo "page: $*" >&2
    exit 1
}

. "$root/tests/x86_tools.sh"
command -v chromium >/dev/null 2>&1 || install chromium fonts-dejavu-core
command -v dot >/dev/null 2>&1 || install graphviz

# browse OPTION.. URL: one page, from a folder of its own, with what it logs in $work/log
browse() {
    chromium --headless --no-sandbox --disable-gpu --hide-scrollbars --allow-file-access-from-files --enable-logging=stderr --v=0 \
        --user-data-dir="$work/browser" "$@" 2>"$work/log"
}

# framed PAGE WIDTH: a page of ours that shows it in a frame of that width, so that its own media rules see that width, and then writes down
# how wide it became, which parts stick out of it, and its text as it is rendered
framed() {
    cat <<END
<!doctype html>
<title>frame</title>
<iframe id="frame" src="$1" style="width:$2px;height:900px;border:0"></iframe>
<pre id="told"></pre>
<script>
window.onload = function () {
  var inner = document.getElementById("frame").contentDocument;
  var wide = inner.documentElement.scrollWidth;
  var out = [];
  inner.querySelectorAll("body *").forEach(function (part) {
    if (part.closest(".drawing, pre") && !part.matches(".drawing, pre")) return;
    if (part.getBoundingClientRect().right > $2 + 0.5) out.push(part.tagName);
  });
  var drawing = inner.querySelector(".drawing svg text");
  var size = drawing ? drawing.getBoundingClientRect().height : 0;
  document.getElementById("told").textContent = "wide " + wide + "\nout " + out.join(" ") + "\nletters " + size +
    "\nhigh " + Math.ceil(inner.body.getBoundingClientRect().height) + "\n" + inner.body.innerText;
};
</script>
END
}

# opened PAGE WIDTH: the text as it is rendered goes to $work/text
opened() {
    framed "$1" "$2" >"$work/frame.html"
    browse --window-size=1400,1000 --virtual-time-budget=5000 --dump-dom "file://$work/frame.html" >"$work/dom"
    if grep -E 'CONSOLE|Uncaught' "$work/log" >&2; then fail "$1 at $2: the console has an error"; fi
    awk '/<pre id="told">/ { on = 1; sub(/.*<pre id="told">/, "") } on && /<\/pre>/ { sub(/<\/pre>.*/, ""); print; exit } on' "$work/dom" |
        sed 's/&lt;/</g; s/&gt;/>/g; s/&amp;/\&/g' >"$work/text"
    grep -qx "wide $2" "$work/text" || fail "$1 at $2: $(grep '^wide' "$work/text")"
    grep -qx 'out ' "$work/text" || fail "$1 at $2: outside of it stands $(grep '^out' "$work/text")"
}

# has TEXT: somewhere in the rendered text
has() { grep -qF -- "$1" "$work/text" || fail "'$1' is not in the text: $(cat "$work/text")"; }

# legible: the letters of the drawing are at least 10 pixels high
legible() { awk '/^letters / { high = $2 } END { exit high < 10 }' "$work/text" || fail "the drawing: $(grep '^letters' "$work/text")"; }

tell() { "$front" explain "$root/examples/$1.profile" "$root/examples/$1.question" --html "$work/$1.html" >"$work/said" || true; }

# a key and a tree of the greatest size, and a refused key, that are wider than any screen
eight() { printf '%s.%s.%s.%s.%s.%s.%s.%s' "$1" "$1" "$1" "$1" "$1" "$1" "$1" "$2"; }
large="($(eight run run), ($(eight port port), {$(eight run run), $(eight run port), $(eight run frame), $(eight run stamp)}))"
"$front" explain "$root/examples/m.profile" "$large" --html "$work/large.html" >"$work/said" || true
"$front" explain "$root/examples/m.profile" "($large" --html "$work/refused.html" >"$work/said" || true

seen=0
for row in a b c d; do tell "$row"; done
for width in $widths; do
    opened "$work/a.html" "$width"
    has Implied
    has 'context target, from 0'
    has 'accepted.'
    has "$(sha256sum <"$root/examples/a.profile" | cut -c 1-64)"
    opened "$work/c.html" "$width"
    has Implied
    for row in b d; do
        opened "$work/$row.html" "$width"
        has 'Not implied'
        for target in first second; do grep -qE "^ +[0-9]+ .* $target\$" "$work/text" || fail "$row: no $target target in the text"; done
        has 'The second program checked the tree: accepted 0'
        has 'SHA-256'
        legible
    done
    opened "$work/large.html" "$width"
    has 'The second program checked the tree: accepted 16 32 112'
    legible
    opened "$work/refused.html" "$width"
    has Refused
    has 'refused 17 2 0'
    seen=$((seen + 6))
done

# what is wrong is seen: a page wider than its frame, an error in the console
sed 's/<footer>/<footer><div style="width:900px">x<\/div>/' "$work/a.html" >"$work/wide.html"
if (opened "$work/wide.html" 400) 2>/dev/null; then fail "a page that is too wide is not seen"; fi
sed 's/<footer>/<footer><script>nothing.there()<\/script>/' "$work/a.html" >"$work/loud.html"
if (opened "$work/loud.html" 400) 2>/dev/null; then fail "an error in the console is not seen"; fi

# picture PAGE FILE: all of the page, as high as it is at that width
picture() {
    opened "$1" "$picture_width"
    high=$(sed -n 's/^high //p' "$work/text")
    browse --window-size="$picture_width,$high" --screenshot="$work/picture.png" "file://$1" >"$work/said" || fail "no picture of $1"
    pngquant --force --output "$root/docs/$2" "$picture_colours" -- "$work/picture.png" || fail "$2: pngquant"
    [ "$(wc -c <"$root/docs/$2")" -lt "$picture_bytes" ] || fail "$2 has $(wc -c <"$root/docs/$2") bytes"
}

# One profile for both: a key that does not follow, and the one near it that does.
pictures() {
    cd "$work"
    cat >text <<'END'
element 2 run
element 3 port
element 4 frame
element 5 stamp
attribute 6 id
attribute 7 seq
(., (_*.port, {@id}))
(_*.port, (_*.frame, {@seq}))
END
    "$front" make profile text bench.profile >said
    "$front" explain bench.profile '(run, (port.frame, {stamp, @seq}))' --html not_implied.html >said || true
    "$front" explain bench.profile '(run.port, (frame, {stamp, @seq}))' --html implied.html >said
    picture "$work/implied.html" explain-implied.png
    picture "$work/not_implied.html" explain-not-implied.png
}
if [ "${1:-}" = pictures ]; then
    command -v pngquant >/dev/null 2>&1 || install pngquant
    pictures
fi
echo "page: $seen pages as expected"
