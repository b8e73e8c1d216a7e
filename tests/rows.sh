#!/bin/sh
# Holds examples/ROW.profile and examples/ROW.question, and a profile that stands there alone, to examples/rows.txt: the records are made again from
# what a reader sees there, and every byte is compared. No other profile or question may stand beside them, and a changed row has to be
# seen. The program `text` has to read every key that stands there as its record, and to write every asked key as it stands there.
set -eu
root=$(CDPATH='' cd -- "$(dirname -- "$0")/.." && pwd)
work=$(mktemp -d)
trap 'rm -rf "$work"' EXIT

# records ROWS: for each row a line "NAME.profile BYTES" and a line "NAME.question BYTES", the bytes in hex
records() {
    awk -F '\t' '
        BEGIN { for (i = 32; i < 127; i++) code[sprintf("%c", i)] = i }
        function byte(n) { return sprintf(" %02x", n) }
        function record(kind, body,    length_) { length_ = 4 + length(body) / 3; return byte(length_) " 00" byte(kind) " 00" body }
        # the number of a label by its name as it stands in a path
        function symbol(name) {
            if (name == "_*") return 0
            if (name == "#") return 1
            if (name in number) return number[name]
            wrong("no label " name)
        }
        function wrong(what) { print "rows.txt, line " NR ": " what; failed = 1; exit 1 }
        function path(text,    part, n, i, out) {
            if (text == ".") return " 00"
            n = split(text, part, ".")
            out = byte(n)
            for (i = 1; i <= n; i++) out = out byte(symbol(part[i]))
            return out
        }
        # (C, (T, {P, P}))
        function key(text,    part, n, i, out) {
            if (text !~ /^\([^(){}, ]+, \([^(){}, ]+, \{[^(){}]+\}\)\)$/) wrong("no key: " text)
            gsub(/[(){}]/, "", text)
            n = split(text, part, ", ")
            out = path(part[1]) path(part[2]) byte(n - 2)
            for (i = 3; i <= n; i++) out = out path(part[i])
            return record(2, out)
        }
        function keys(text,    part, n, i, out) {
            if (text == "none") return ""
            n = split(text, part, /\)\), /)
            for (i = 1; i <= n; i++) out = out key(part[i] (i < n ? "))" : ""))
            return out
        }
        function label(name, class, mark,    i, body) {
            number[mark name] = ++last
            body = byte(last) byte(class)
            for (i = 1; i <= length(name); i++) body = body byte(code[substr(name, i, 1)])
            return record(1, body)
        }
        # "# Elements run, port; attributes id, seq. .." gives the labels their numbers, from 2 on
        /^# Elements / {
            last = 1
            line = substr($0, 12)
            sub(/\..*/, "", line)
            split(line, class, "; attributes ")
            for (c = 1; c <= 2; c++) {
                n = split(class[c], name, ", ")
                for (i = 1; i <= n; i++) labels = labels label(name[i], c, c == 2 ? "@" : "")
            }
        }
        # "# NAME.profile", a tab and the keys: a profile without a question
        /^# [a-z]+\.profile\t/ { print substr($1, 3) labels keys($2) }
        /^#/ || /^$/ { next }
        {
            edition = sub(/, edition 2$/, "", $3) ? record(6, byte(2)) : ""
            print $1 ".profile" edition labels keys($3)
            print $1 ".question" key($4)
        }
        END { exit failed }
    ' "$1"
}

# the same lines off the files
files() {
    (
        cd "$root/examples"
        for file in *.profile *.question; do
            printf '%s' "$file"
            od -An -v -tx1 "$file" | tr -d '\n'
            printf '\n'
        done
    ) | sort
}

records "$root/examples/rows.txt" | sort >"$work/wanted"
files >"$work/found"
diff "$work/wanted" "$work/found" || { echo "rows: the files in examples/ are not what rows.txt says" >&2; exit 1; }
[ "$(wc -l <"$work/found")" -ge 27 ] || { echo "rows: only $(wc -l <"$work/found") files" >&2; exit 1; }
# one path of one row changed
sed 's/^b\(.*\)@seq/b\1@id/' "$root/examples/rows.txt" >"$work/rows.txt"
records "$work/rows.txt" | sort >"$work/changed"
if cmp -s "$work/changed" "$work/found"; then
    echo "rows: a changed row is not seen" >&2
    exit 1
fi
echo "rows: $(wc -l <"$work/found") files are the records of rows.txt"

wrong() {
    echo "rows: $*" >&2
    exit 1
}

# text WORD PROFILE IN OUT: the program, held to the first word of its answer
text() {
    wanted=$1
    [ "$1" = key ] || wanted=text
    said=$("$root/tests/run_program.sh" text "$@" </dev/null)
    case $said in "$wanted "*) ;; *) wrong "text $*: $said" ;; esac
}

# keys NAME KEYS: the keys of a profile, read by the program one by one, are the last bytes of the profile
keys() {
    : >"$work/keys"
    printf '%s\n' "$2" | sed 's/, edition 2$//; s/)), /))\n/g' >"$work/lines"
    while read -r typed; do
        [ "$typed" != none ] || continue
        printf '%s\n' "$typed" >"$work/line"
        text key "$root/examples/$1.profile" "$work/line" "$work/key"
        cat "$work/key" >>"$work/keys"
        read_keys=$((read_keys + 1))
    done <"$work/lines"
    tail -c "$(wc -c <"$work/keys")" "$root/examples/$1.profile" | cmp - "$work/keys" || wrong "$1: text reads other keys"
}

# question NAME KEY: read it is the question's record, and that record is written as this line
question() {
    printf '%s\n' "$2" >"$work/line"
    text key "$root/examples/$1.profile" "$work/line" "$work/key"
    cmp "$root/examples/$1.question" "$work/key" || wrong "$1: text reads another question"
    text line "$root/examples/$1.profile" "$root/examples/$1.question" "$work/written"
    cmp "$work/line" "$work/written" || wrong "$1: text writes the question otherwise"
    read_keys=$((read_keys + 1))
}

tab=$(printf '\t')
read_keys=0
sed -n 's/^# \([a-z]*\)\.profile\t/\1\t-\t/; /^[^#]/p' "$root/examples/rows.txt" >"$work/typed"
while IFS=$tab read -r row said profile asked; do
    keys "$row" "$profile"
    [ -z "$asked" ] || question "$row" "$asked"
done <"$work/typed"
[ "$read_keys" -ge 27 ] || wrong "only $read_keys keys were read"
echo "rows: text reads and writes the $read_keys keys of rows.txt"
