# Writes the log of this example: awk -f generate.awk >access.log
# Its lines have commas and quotes in them, as browsers send them, one also within a path.

# The next number from 0 to below `n`, by Park and Miller's generator.
function draw(n) {
    seed = seed * 16807 % 2147483647
    return int(seed / 65536) % n
}

BEGIN {
    seed = 3
    paths = split("/ /cart/show /cart/pay /img/logo.png /login /search?q=tea /search?q=cups+and+pots /video/intro.mp4 /compare/tea,cups", path, " ")
    users = split("- - - anna ben", user, " ")
    from[1] = "-"
    from[2] = "https://shop.example/"
    from[3] = "https://search.example/?q=tea,cups"
    browser[1] = "curl/8.5.0"
    browser[2] = "Mozilla/5.0 (X11; Linux x86_64) AppleWebKit/537.36 (KHTML, like Gecko) Chrome/124.0 Safari/537.36"
    browser[3] = "Mozilla/5.0 (\\\"tea\\\", a browser)"
    for (row = 0; row < 300; row++) {
        second += draw(9)
        stamp = sprintf("04/May/2026:08:%02d:%02d +0000", int(second / 60) % 60, second % 60)
        host = "10.0." draw(3) "." 1 + draw(20)
        chance = draw(30)
        if (chance == 0) {
            printf "%s - - [%s] \"\\x16\\x03\\x01\" 400 226 \"-\" \"-\"\n", host, stamp
            continue
        }
        p = draw(paths) + 1
        bytes = path[p] ~ /video/ ? 90000 + draw(900) * 1000 : 200 + draw(9000)
        status = 200
        if (chance < 3) { status = 404; bytes = "-" }
        else if (chance < 5) { status = path[p] ~ /pay/ ? 503 : 500; bytes = 87 }
        else if (chance < 7) { status = 304; bytes = "-" }
        printf "%s - %s [%s] \"%s %s HTTP/1.1\" %d %s \"%s\" \"%s\"\n", host, user[draw(users) + 1], stamp,
            path[p] ~ /pay|login/ ? "POST" : "GET", path[p], status, bytes, from[draw(3) + 1], browser[draw(3) + 1]
    }
    print "-- log rotated --"
}
