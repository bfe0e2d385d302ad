# Writes `one.csv`, a column of prices, and `four.csv`, trades of a second, a symbol, a price and a quantity:
# awk -v rows=N -v keys=K -f data.awk

# The next number from 0 to below 32,768, by Park and Miller's generator.
function next_number() {
    seed = seed * 16807 % 2147483647
    return int(seed / 65536)
}

# The next number from 0 to below `n`.
function draw(n) {
    if (n <= 32768)
        return next_number() % n
    return (next_number() * 32768 + next_number()) % n
}

BEGIN {
    seed = 1
    printf "" >"one.csv"
    printf "" >"four.csv"
    for (row = 0; row < rows; row++) {
        price = draw(1000)
        print price >"one.csv"
        printf "%d,S%d,%d,%d\n", row, draw(keys), price, 1 + draw(500) >"four.csv"
    }
}
