#!/bin/sh
# measure/campaign.sh [COUNT]: the program `campaign` over 200 segments (or COUNT) of 4,096 nodes with 64 keys, on one processor and as four
# lists side by side, and xmllint with 64 `xs:unique` over the same segments, on demand. Milliseconds by the clock on the wall, the least of
# three runs. All that is built or written lies in target/measure/campaign. The programs have to be built: ./culvertecho builds them.
set -eu
root=$(CDPATH= cd -- "$(dirname -- "$0")/.." && pwd)
cd "$root"
count=${1:-200}
work=target/measure/campaign
runs=3
lists=4

fail() {
    echo "campaign: $*" >&2
    exit 1
}

# least COMMAND..: the least time of its runs, in milliseconds
least() {
    best=
    i=0
    while [ "$i" -lt "$runs" ]; do
        start=$(date +%s%N)
        "$@" || fail "$1 ended with $?"
        took=$((($(date +%s%N) - start) / 1000000))
        { [ -z "$best" ] || [ "$took" -lt "$best" ]; } && best=$took
        i=$((i + 1))
    done
    echo "$best"
}

whole() { (cd "$work" && "$root/tests/run_program.sh" campaign profile.key list >report); }

parted() { (cd "$work" && printf '%s\n' part.* | xargs -P "$lists" -I LIST sh -c "'$root/tests/run_program.sh' campaign profile.key LIST >report.LIST"); }

# shellcheck disable=SC2046
validated() { (cd "$work" && xmllint --noout --schema keys64.xsd $(sed 's/tree$/xml/' list) 2>xml.log) || fail "xmllint: $(tail -n 1 "$work/xml.log")"; }

rm -rf "$work"
mkdir -p "$work"
command -v xmllint >/dev/null 2>&1 || DEBIAN_FRONTEND=noninteractive apt-get install -y --no-install-recommends libxml2-utils >"$work/apt.log" 2>&1 ||
    fail "no xmllint, and apt-get could not install libxml2-utils: $work/apt.log"
rustc --edition 2021 -C opt-level=3 -o "$work/make" measure/campaign.rs || fail "measure/campaign.rs does not compile"
"$work/make" "$work" "$count"
(cd "$work" && split -n "l/$lists" list part.)

echo "machine: $(uname -m), $(nproc) processors; load before:$(uptime | sed 's/.*load average//')"
echo
echo "| tool | input | milliseconds |"
echo "|---|---|--:|"
echo "| campaign | $count segments of 4096 nodes, 64 keys | $(least whole) |"
# every key is kept by every segment
seq -f "%.0f $count 0" 0 63 >"$work/wanted"
echo "unread 0" >>"$work/wanted"
cmp "$work/wanted" "$work/report" || fail "the report is another"
echo "| campaign | the same as $lists lists, side by side | $(least parted) |"
echo "| xmllint --schema | the same segments as XML, 64 xs:unique | $(least validated) |"
echo
echo "load after:$(uptime | sed 's/.*load average//')"
