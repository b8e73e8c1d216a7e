# Adds the reports of a campaign's parts, made with one profile: awk -f add_reports.awk REPORT..
# A key's line has three numbers, a refusal's two; the last line is `unread` and its count.
$1 == "unread" { unread += $2; next }
NF == 3 { if ($1 >= keys) keys = $1 + 1; kept[$1] += $2; broken[$1] += $3 }
NF == 2 { refused[$1] += $2 }
END {
    for (key = 0; key < keys; key++) print key, kept[key], broken[key]
    for (number = 1; number < 20; number++) if (number in refused) print number, refused[number]
    print "unread", unread + 0
}
