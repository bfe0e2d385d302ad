# The prices of the last 1,000 trades that are above all later ones, from `first` to `next_one`.
BEGIN { FS = OFS = ","; first = next_one = 0 }
{
    while (next_one > first && price[next_one - 1] <= $3) next_one--
    price[next_one] = $3
    row[next_one++] = NR
    while (row[first] <= NR - 1000) first++
    print $1, price[first]
}
