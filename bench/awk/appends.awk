BEGIN { FS = OFS = "," }
{ price[NR] = $3 }
END { print NR, price[NR] }
