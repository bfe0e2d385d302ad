# Writes the readings of this example: awk -f generate.awk >readings.csv
# A reading is a second, a sensor and tenths of a degree. Temperatures go up and down slowly, with a jump now
# and then, and some readings are none.

# The next number from 0 to below `n`, by Park and Miller's generator.
function draw(n) {
    seed = seed * 16807 % 2147483647
    return int(seed / 65536) % n
}

BEGIN {
    seed = 1
    sensors = split("attic cellar kitchen roof shed street", sensor, " ")
    split("210 120 205 90 130 60", at, " ")
    for (row = 0; row < 400; row++) {
        s = draw(sensors) + 1
        at[s] += draw(21) - 10
        tenths = at[s]
        chance = draw(40)
        if (chance == 0) tenths += 80 + draw(220)
        else if (chance == 1) tenths -= 80 + draw(120)
        else if (chance == 2) tenths = draw(2) ? 9999 : -999
        printf "%d,%s,%d\n", 1000 + row * 5 + draw(5), sensor[s], tenths
    }
}
