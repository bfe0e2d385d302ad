# Finds a byte of a text, which is counted from 0. It prints `LINE:COLUMN:`, the line, and a caret under the
# byte. The text may be cut after the byte. A column is a character of UTF-8, and so is a tab. Of a long
# line what is near the byte is printed.
#
# usage: awk -v at=BYTE -f place.awk <TEXT

# Tells the place that is after `before` and in front of `after` in a line.
function tell(number, before, after,    column, pad) {
    column = before
    gsub(/[\200-\277]/, "", column)
    column = length(column) + 1
    if (length(before) > 140) {
        before = substr(before, length(before) - 119)
        sub(/^[\200-\277]+/, "", before)
        before = ".. " before
    }
    if (length(after) > 80) {
        after = substr(after, 1, 80)
        sub(/[\300-\377][\200-\277]*$/, "", after)
        after = after " .."
    }
    pad = before
    gsub(/[\200-\277]/, "", pad)
    gsub(/[^\t]/, " ", pad)
    sub(/ +$/, "", after)
    printf "%d:%d:\n%s%s\n%s^\n", number, column, before, after, pad
    told = 1
    exit
}

at <= before + length($0) { tell(NR, substr($0, 1, at - before), substr($0, at - before + 1)) }
{ before += length($0) + 1 }

# The place is the end of a text that ends with a line feed, or that is empty.
END { if (!told) printf "%d:1:\n(the end of the program)\n^\n", NR + 1 }
