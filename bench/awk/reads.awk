BEGIN { FS = OFS = "," }
{ if (!($2 in first)) first[$2] = $3; print $2, first[$2] }
