BEGIN { FS = OFS = "," }
{ last[$2] = $3 }
$1 % 50000 == 49999 { sum = 0; for (each in last) sum += last[each]; print $1, sum }
