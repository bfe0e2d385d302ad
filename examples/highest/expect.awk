# Works out the files of `expected` without spl, in the current folder: awk -f expect.awk trades.csv

BEGIN { FS = OFS = "," }

{
    cents[$2, count[$2]++] = $3
    highest = lowest = $3
    for (at = count[$2] - 10; at < count[$2]; at++) {
        if (at < 0) continue
        if (cents[$2, at] > highest) highest = cents[$2, at]
        if (cents[$2, at] < lowest) lowest = cents[$2, at]
    }
    print $0, highest, lowest >"range.csv"
}
