# Writes the sales of this example: awk -f generate.awk >sales.csv
# A sale is a second, a shop, a price in cents and how many pieces were sold. Now and then many are, and now and
# then none, or the price is no price.

# The next number from 0 to below `n`, by Park and Miller's generator.
function draw(n) {
    seed = seed * 16807 % 2147483647
    return int(seed / 65536) % n
}

BEGIN {
    seed = 4
    shops = split("bakery books flowers hardware market", shop, " ")
    split("240 1450 690 980 310", cents, " ")
    for (row = 0; row < 300; row++) {
        s = draw(shops) + 1
        price = cents[s] + draw(10) * 10
        pieces = 1 + draw(6)
        chance = draw(25)
        if (chance == 0) pieces = 0
        else if (chance == 1) price = draw(2) ? 0 : -price
        else if (chance < 4) pieces = 20 + draw(40)
        printf "%d,%s,%d,%d\n", 32400 + row * 19 + draw(19), shop[s], price, pieces
    }
}
