BEGIN { FS = OFS = "," }
{ print $1 + 0, $2, $3 + 0, $4 + 0 }
