# Tells what is wrong with a row: its number of fields, or the first field that isn't written as its type. The row may
# have what is passed over, as a carriage return at its end. Where nothing is wrong, as far as can be told, it says
# nothing.
#
# usage: awk -v attributes="TYPE NAME,TYPE NAME.." -f row.awk <ROW

# The fields of a row: their number. What is in `field`, a quoted one without its quotes.
function cut(row,    at, letter, number, quoted) {
    number = 1
    field[1] = ""
    for (at = 1; at <= length(row); at++) {
        letter = substr(row, at, 1)
        if (quoted && letter == "\"" && substr(row, at + 1, 1) == "\"") { field[number] = field[number] letter; at++ }
        else if (quoted && letter == "\"") quoted = 0
        else if (quoted) field[number] = field[number] letter
        else if (letter == "\"" && (at == 1 || substr(row, at - 1, 1) == ",")) quoted = 1
        else if (letter == ",") field[++number] = ""
        else field[number] = field[number] letter
    }
    return number
}

# Whether digits, of which the first is no zero, mean more than others.
function exceeds(digits, most) {
    return length(digits) != length(most) ? length(digits) > length(most) : digits "" > most ""
}

# Whether a text is written as a type that files have.
function is_written(text, type,    negative, most) {
    if (type == "rstring") return 1
    if (type == "boolean") return text == "true" || text == "false"
    if (text !~ /^-?[0-9]+$/) return 0
    negative = sub(/^-/, "", text)
    sub(/^0+/, "", text)
    most = largest[type]
    if (negative && type ~ /^u/) most = ""
    else if (negative) most = least[type]
    return !exceeds(text, most)
}

BEGIN {
    split("int8 127 int16 32767 int32 2147483647 int64 9223372036854775807 uint8 255 uint16 65535 uint32 " \
        "4294967295 uint64 18446744073709551615", pair, " ")
    for (at = 1; at in pair; at += 2) largest[pair[at]] = pair[at + 1]
    split("int8 128 int16 32768 int32 2147483648 int64 9223372036854775808", pair, " ")
    for (at = 1; at in pair; at += 2) least[pair[at]] = pair[at + 1]
    wanted = split(attributes, attribute, ",")
}

NR == 1 && wanted {
    sub(/^\357\273\277/, "")
    gsub(/^\r+|\r+$/, "")
    number = cut($0)
    if (number != wanted) {
        gsub(/,/, ", ", attributes)
        printf "It has %d field%s, and %d %s wanted: %s.\n", number, number == 1 ? "" : "s", wanted,
            wanted == 1 ? "is" : "are", attributes
        exit
    }
    for (at = 1; at <= number; at++) {
        split(attribute[at], part, " ")
        if (part[1] != "rstring" && part[1] != "boolean" && !(part[1] in largest)) exit
        if (!is_written(field[at], part[1])) {
            text = length(field[at]) > 60 ? substr(field[at], 1, 60) " .." : field[at]
            printf "Field %d is \"%s\", and %s is %s %s.\n", at, text, part[2], part[1] ~ /^i/ ? "an" : "a", part[1]
            exit
        }
    }
}
