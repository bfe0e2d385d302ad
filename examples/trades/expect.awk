# Works out the files of `expected` without spl, in the current folder: awk -f expect.awk trades.csv

# Cuts a row at its commas, but for those between quotes. A field keeps its quotes, since each text that has
# them needs them in the output too.
function cut(row,    at, letter, quoted, count) {
    split("", field)
    count = 1
    for (at = 1; at <= length(row); at++) {
        letter = substr(row, at, 1)
        if (letter == "\"") quoted = !quoted
        if (letter == "," && !quoted) count++
        else field[count] = field[count] letter
    }
}

BEGIN { OFS = "," }

{
    sub(/\r$/, "")
    cut($0)
    if (field[6] <= 0 || field[5] <= 0) { print >"cancelled.csv"; next }
    value = field[5] * field[6]
    fee = int(value * 25 / 10000)
    if (fee < 150) fee = 150
    file = value >= 1000000 ? "large.csv" : value >= 100000 ? "middle.csv" : "small.csv"
    print field[1], field[2], field[3], field[4], value, fee >file
    held[field[2] OFS field[3]] += field[4] == "true" ? field[6] : -field[6]
}

# In the order of the texts without their quotes, byte by byte.
END {
    for (both in held) {
        plain = both
        gsub(/"/, "", plain)
        print plain "\t" both "," held[both] | "LC_ALL=C sort | cut -f 2 >holdings.csv"
    }
}
