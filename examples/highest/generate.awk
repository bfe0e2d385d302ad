# Writes the trades of this example: awk -f generate.awk >trades.csv
# A trade is a second, a symbol and a price in cents, which goes up and down slowly.

# The next number from 0 to below `n`, by Park and Miller's generator.
function draw(n) {
    seed = seed * 16807 % 2147483647
    return int(seed / 65536) % n
}

BEGIN {
    seed = 3
    symbols = split("ACME BOLT CORE DELTA", symbol, " ")
    split("12500 830 41000 2675", cents, " ")
    for (row = 0; row < 300; row++) {
        s = draw(symbols) + 1
        cents[s] += draw(41) - 20
        printf "%d,%s,%d\n", 36000 + row * 7, symbol[s], cents[s]
    }
}
