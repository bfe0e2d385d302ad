BEGIN { FS = OFS = "," }
{ sum[$2] += $3 }
END { for (symbol in sum) print symbol, sum[symbol] | "LC_ALL=C sort" }
