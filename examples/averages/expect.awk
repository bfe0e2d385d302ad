# Works out the files of `expected` without spl, in the current folder: awk -f expect.awk readings.csv

BEGIN { FS = OFS = "," }

$3 < -400 || $3 > 1250 { next }

{
    sum[$2] += $3
    if (++number[$2] == 10) {
        print $2, $1, int(sum[$2] / 10) >"means.csv"
        sum[$2] = number[$2] = 0
    }
}
