# Works out the files of `expected` without spl, in the current folder: awk -f expect.awk sales.csv

BEGIN { FS = OFS = ","; quiet = busy = bulk = 0 }

$3 <= 0 || $4 <= 0 { next }

$4 >= 20 { print >"bulk.csv"; bulk++ }

{
    sold = ++sales[$2]
    taken[$2, sold] = $3 * $4
    number = sold < 3 ? sold : 3
    sum = 0
    for (at = sold - number + 1; at <= sold; at++) sum += taken[$2, at]
    if (sum >= 6000) { print $1, $2, sum, number >"busy.csv"; busy++ }
    else { print $1, $2, sum, number >"quiet.csv"; quiet++ }
}

# What is printed with the counts: the rows of each sink, in the order of the program.
END {
    print "sink QuietOut tuples " quiet >"counts"
    print "sink BusyOut tuples " busy >"counts"
    print "sink BulkOut tuples " bulk >"counts"
}
