BEGIN { FS = "," }
{ if (!($2 in last)) symbols++; last[$2] = $3 }
END { print symbols }
