BEGIN { FS = OFS = "," }
{ value = $3 * $4; print $2, last[$2] + value; last[$2] = value }
