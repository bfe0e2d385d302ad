# Works out the files of `expected` without spl, in the current folder: awk -f expect.awk readings.csv

BEGIN { FS = OFS = ","; kept = 5; jump = 60 }

$3 < -400 || $3 > 1250 { print >"failures.csv"; next }

{
    if ($3 > 250) print >"warm.csv"
    if ($3 > 400) print >"hot.csv"
    sum[$2] += $3
    if (++count[$2] == 1 || $3 < least[$2]) least[$2] = $3
    if (count[$2] == 1 || $3 > greatest[$2]) greatest[$2] = $3
    mean = int(sum[$2] / count[$2])
    line = $0 OFS count[$2] OFS least[$2] OFS greatest[$2] OFS mean
    print line >"statistics.csv"
    away = $3 - mean
    if (count[$2] > kept && away <= -jump) print line >"falls.csv"
    if (count[$2] > kept && away >= jump) print line >"rises.csv"
}
