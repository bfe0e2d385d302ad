BEGIN { FS = OFS = "," }
{ sum[$2] += $3; print $2, sum[$2] }
