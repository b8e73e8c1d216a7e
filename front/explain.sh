# explain.sh: (read by culvertecho) `explain PROFILE KEY [--html FILE]` asks the programs and lays out their answers. Nothing here decides:
# each sentence is chosen by the first words of an answer. Everything is asked of one copy of the profile and of the question, so what is
# told belongs to the same bytes, and a name may hold anything. The evidence of an implied key is the trimmed proof, which is checked and
# shown as one file.

# One byte more than each input may have, as the programs read them.
profile_read=16385
question_read=131071

# The widest line of prose; keys and names are not broken.
columns=100

# explain_words WORD..: sets profile, key, and page where there is one; false where they are not the words of the command.
explain_words() {
    taken=0 paged=no page=''
    while [ $# -gt 0 ]; do
        if [ "$1" = --html ]; then
            [ $# -ge 2 ] && [ "$paged" = no ] || return 1
            paged=yes page=$2
            shift
        else
            taken=$((taken + 1))
            case $taken in
                1) profile=$1 ;;
                2) key=$1 ;;
            esac
        fi
        shift
    done
    [ "$taken" -eq 2 ]
}

# copied NAME FILE BYTES: as much of the named file as the programs would read of it
copied() {
    { head -c "$3" <"$1" >"$work/$2"; } 2>/dev/null && return
    printf 'unreadable %s\n' "$1"
    return 1
}

# asking PROGRAM ..: a program's answer about the files of $work goes to `said`
asking() { said=$(cd "$work" && run "$@"); }

# sure WORD PROGRAM ..: for what cannot be refused any more; another answer than WORD is no answer at all
sure() {
    word=$1
    shift
    asking "$@"
    case $said in
        "$word" | "$word "*) ;;
        *) no_programs "$* answered '$said' instead of $word" ;;
    esac
}

# shown FILE PROGRAM ..: a program's lines, where they are no refusal
shown() {
    lines=$work/$1
    shift
    (cd "$work" && run "$@") >"$lines" || no_programs "$* ended with $?"
    status_of "$lines" 0
    [ $? -le 1 ] || no_programs "$* answered '$(cat "$lines")'"
}

# The question's record, off the typed key or the file, and its key in plain text; false where it is refused.
read_question() {
    case $key in
        "("*)
            asked=$key
            asking text key profile line question
            case $said in "refused "*) return 1 ;; esac
            ;;
    esac
    asking text line profile question asked
    case $said in
        "text "*) asked=$(cat "$work/asked") ;;
        *) return 1 ;;
    esac
}

# Decides, trims a proof, has the second program check what is shown, and collects what else is told.
find_evidence() {
    asking decide profile question decided
    case $said in
        "implied "*)
            verdict=implied kind=proof
            sure trimmed trim profile question decided evidence
            ;;
        "not implied "*)
            verdict="not implied" kind=tree
            mv "$work/decided" "$work/evidence"
            ;;
        *) return 1 ;;
    esac
    sure accepted checker "$kind" profile question evidence
    checked=$said
    shown evidence.text show "$kind" profile question evidence
    shown profile.text show profile profile
    grep '^(' "$work/profile.text" >"$work/keys"
    [ "$kind" = proof ] || shown near advise profile question
}

# printable TEXT: for a terminal, what is no printed character as a question mark
printable() { printf '%s' "$1" | tr '\001-\037\177' '?'; }

# wrapped: prose on standard input, a paragraph a line
wrapped() {
    awk -v most="$columns" '{
        line = $1
        for (i = 2; i <= NF; i++)
            if (length(line) + 1 + length($i) > most) { print line; line = $i } else line = line " " $i
        print line
    }'
}

# The sentences, each a paragraph of one line: the page has them too.
say_question() { printf 'does %s follow from %s?\n' "$(printable "$asked")" "$(printable "$profile")"; }

say_verdict() {
    case $verdict in
        implied) echo "Every trace that keeps the profile keeps this key." ;;
        *) echo "A trace can keep every key of the profile and break this one." ;;
    esac
}

say_profile() {
    edition=$(sed -n '1s/^edition //p' "$work/profile.text")
    count=$(($(wc -l <"$work/keys")))
    case $count in
        0) many="no keys." ;;
        1) many="1 key:" ;;
        *) many="$count keys:" ;;
    esac
    printf 'The profile (edition %s) has %s\n' "${edition:-1}" "$many"
}

say_why() {
    case $kind in
        proof) echo "each line follows from the profile or from lines above it, and the last is the asked key." ;;
        *) echo "this tree keeps the profile and breaks the key." ;;
    esac
}

say_checked() { printf 'The second program checked the %s: %s.\n' "$kind" "$checked"; }

# Behind `accepted` stand the context, the two targets, and a pair of nodes for each key path of the question, in their order.
say_double() {
    paths=${asked#*\{}
    paths=${paths%\}*}
    # shellcheck disable=SC2086
    set -- ${checked#accepted }
    printf 'keep the check on this index. The double to look for is the pair of nodes %s and %s, below node %s: both lead' "$2" "$3" "$1"
    shift 3
    joined=''
    while [ $# -ge 2 ]; do
        path=${paths%%, *}
        [ "$path" != . ] || path="the empty path"
        printf '%s by %s to one value (nodes %s and %s)' "$joined" "$path" "$1" "$2"
        paths=${paths#*, }
        joined=", and"
        shift 2
    done
    echo .
}

say_advice() {
    case $kind in
        proof) echo "build this index unchecked, and keep the proof with the trace (\`culvertecho decide\` writes it)." ;;
        *) say_double ;;
    esac
}

say_near() {
    case $(cat "$work/near") in
        "("*) echo "These keys near it do follow:" ;;
        *) echo "No key near it was found to follow." ;;
    esac
}

# refused_input: which input the refusal names, at the front of a sentence
refused_input() {
    case $2,$key in
        1,*) printf 'Record %s of the profile (the first is record 0)' "$3" ;;
        2,"("*) printf 'The typed key' ;;
        *) printf 'The question' ;;
    esac
}

# say_refusal refused NUMBER INPUT RECORD: the number in a sentence
say_refusal() {
    shift
    refused_input "$@"
    case $1 in
        1) echo " is empty or cut, or has another length than its kind and its counts say." ;;
        2) echo " is of a kind that may not stand there: a profile is an edition or none, labels, then keys; a question is one key." ;;
        3) echo " declares a label badly: numbers ascend from 2 to 200, the class is 1 or 2, and a name stands once." ;;
        4) echo " has a path with an undeclared label, with _* twice running or in a key path, or with over 8 labels." ;;
        5) echo " has no key path, over 4 of them, one of them twice, or (in a record) not in their order." ;;
        6) echo " has an attribute or text that does not stand last in context, target and key path put together." ;;
        7) echo " is too much: a profile has at most 16,384 bytes and 64 keys." ;;
        15) echo " is a key that stands in the profile already: take the later one out." ;;
        17) echo " is not of the form (C, (T, {P, ..})), as (port, (frame, {@seq})) is: one space after each comma, none elsewhere." ;;
        18) echo " has a name that the profile does not declare: mind its spelling, and @ before attributes and nothing else." ;;
        *) echo " is refused by number $1, which README explains." ;;
    esac
}

# numbered: lines on standard input with their numbers from 0, as wide as the last
numbered() { awk '{ line[NR] = $0 } END { wide = length(NR - 1); for (i = 1; i <= NR; i++) printf "  %" wide "d  %s\n", i - 1, line[i] }'; }

tell_refusal() {
    [ -z "$asked" ] || printf 'Asked: %s\n\n' "$(say_question)"
    printf '%s\n' "$refusal"
    # shellcheck disable=SC2086
    say_refusal $refusal | wrapped
}

tell() {
    printf 'Asked: %s\n\n' "$(say_question)"
    case $verdict in
        implied) printf 'Implied. ' ;;
        *) printf 'Not implied. ' ;;
    esac
    say_verdict
    echo
    say_profile
    numbered <"$work/keys"
    printf '\nWhy: %s\n\n' "$(say_why)"
    cat "$work/evidence.text"
    printf '\n%s\n\n' "$(say_checked)"
    printf 'What to do: %s\n' "$(say_advice)" | wrapped
    [ "$kind" = tree ] || return 0
    say_near
    sed -n 's/^(/  &/p' "$work/near"
}

# The page is written before anything is said, so that `unwritable` is the whole answer where it cannot be.
write_page() {
    # shellcheck source=front/page.sh
    . "$here/front/page.sh"
    print_page >"$work/page" || no_programs "the page could not be made"
    { cat "$work/page" >"$page"; } 2>/dev/null
}

explain() {
    explain_words "$@" || { echo "usage: explain PROFILE KEY [--html FILE]"; return 3; }
    build
    work=$(mktemp -d) || no_programs "no temporary folder can be made"
    trap 'rm -rf "$work"' EXIT
    LC_ALL=C
    export LC_ALL
    copied "$profile" profile "$profile_read" || return 5
    case $key in
        "("*) printf '%s\n' "$key" >"$work/line" ;;
        *) copied "$key" question "$question_read" || return 5 ;;
    esac
    asked='' refusal='' verdict=refused kind=none
    read_question && find_evidence || refusal=$said
    case $verdict,$refusal in
        implied,) ended=0 teller=tell ;;
        "not implied,") ended=1 teller=tell ;;
        refused,"refused "*) ended=2 teller=tell_refusal ;;
        *) no_programs "a program answered '$refusal'" ;;
    esac
    [ "$paged" = no ] || write_page || { echo unwritable; return 4; }
    "$teller"
    return "$ended"
}
