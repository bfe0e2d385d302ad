# Works out the files of `expected` without spl, in the current folder: awk -f expect.awk access.log

# A text as a field of a row.
function field(text) {
    if (text !~ /[",]/) return text
    gsub(/"/, "\"\"", text)
    return "\"" text "\""
}

BEGIN { OFS = "," }

$9 !~ /^[0-9]+$/ || $10 !~ /^(-|[0-9]+)$/ {
    print field($0) >"others.csv"
    next
}

{
    path = $7
    sub(/\?.*/, "", path)
    bytes = $10 + 0
    line = $1 OFS substr($4, 2) OFS substr($6, 2) OFS field(path) OFS $9 OFS bytes
    if ($9 ~ /^4/) print line >"refused.csv"
    if ($9 ~ /^5/) print line >"failed.csv"
    if (bytes >= 100000) print line >"large.csv"
    requests[path]++
    failures[path] += $9 ~ /^5/
    sum[path] += bytes
}

END {
    sorted = "LC_ALL=C sort -t '\t' -k 1,1 | cut -f 2 >paths.csv"
    for (path in requests) print path "\t" field(path), requests[path], failures[path], sum[path] | sorted
}
