# Writes the trades of this example: awk -f generate.awk >trades.csv
# A trade is a second, an account, a symbol, whether it is a purchase, a price in cents and a quantity. Lines
# end with CR and LF, and texts with a comma or a quote are quoted, as spreadsheets write them.

# The next number from 0 to below `n`, by Park and Miller's generator.
function draw(n) {
    seed = seed * 16807 % 2147483647
    return int(seed / 65536) % n
}

BEGIN {
    seed = 2
    accounts = split("Ames|\"Baker, Jones\"|Chen|\"The \"\"Dock\"\" Fund\"|Ekberg", account, "|")
    symbols = split("ACME|BOLT|\"CORE,B\"|DELTA", symbol, "|")
    split("12500 830 41000 2675", cents, " ")
    for (row = 0; row < 300; row++) {
        a = draw(accounts) + 1
        s = draw(symbols) + 1
        cents[s] += draw(41) - 20
        quantity = 1 + draw(9) * (draw(3) ? 1 : 40)
        chance = draw(30)
        if (chance == 0) quantity = 0
        price = chance == 1 ? -cents[s] : cents[s]
        printf "%d,%s,%s,%s,%d,%d\r\n", 36000 + row * 7, account[a], symbol[s], draw(2) ? "true" : "false",
            price, quantity
    }
}
