# Finds the invocation of an operator in a program that `spl` accepts. It prints `FROM COLUMN TO KIND`: the
# invocation's first line, the byte of that line with which it begins, its last line, and the operator's kind.
# For a FileSource a line follows with the types and names of its stream's attributes, with `,` between them, or an
# empty one where they can't be told, and then its file's name, without a line feed. Where there is no such operator it
# prints nothing.
#
# usage: awk -v name=NAME -f invocation.awk <PROGRAM
#
# A name `N.X` means the operator X in the composite that the main composite's invocation N invokes.
#
# With -v line_wanted=LINE -v column_wanted=COLUMN it prints which attributes of the invocation that begins there have no value, so far
# as that can be told. With -v sink=NAME it prints the name of a Join of the main composite from which that sink's tuples
# come, where there is one.

# Tokens: words and dollars, texts with a quote in front and their escapes read, and symbols of a byte each.

function add(text, start) {
    token[++count] = text
    line[count] = NR
    column[count] = start
}

function is_word(letter) {
    return letter != "" && index("abcdefghijklmnopqrstuvwxyzABCDEFGHIJKLMNOPQRSTUVWXYZ0123456789_$", letter)
}

# Reads the text whose quote is at `at`, and answers the place after it.
function read_text(at,    start, quote, letter, text) {
    start = at
    quote = substr($0, at++, 1)
    while ((letter = substr($0, at++, 1)) != quote && letter != "") {
        if (letter == "\\") {
            letter = substr($0, at++, 1)
            letter = letter == "n" ? "\n" : letter == "t" ? "\t" : letter == "r" ? "\r" : letter
        }
        text = text letter
    }
    add("\"" text, start)
    return at
}

function read_word(at,    start) {
    start = at
    while (is_word(substr($0, at, 1))) at++
    add(substr($0, start, at - start), start)
    return at
}

{
    at = 1
    while ((letter = substr($0, at, 1)) != "") {
        pair = substr($0, at, 2)
        if (in_comment) {
            if (pair == "*/") { in_comment = 0; at++ }
            at++
        } else if (pair == "//") {
            break
        } else if (pair == "/*") {
            in_comment = 1
            at += 2
        } else if (letter == "\"" || letter == "'") {
            at = read_text(at)
        } else if (is_word(letter)) {
            at = read_word(at)
        } else {
            if (letter != " " && letter != "\t") add(letter, at)
            at++
        }
    }
}

# The parser: `here` is the token that is next.

# Passes a token, or all of a bracket with what it holds.
function pass(    depth) {
    do {
        if (index("([{", token[here])) depth++
        else if (index(")]}", token[here])) depth--
        here++
    } while (depth > 0 && here <= count)
}

# Passes the brackets `<` and `>` of a type, and answers what stands between them.
function pass_type(    depth, start) {
    start = here + 1
    do {
        if (token[here] == "<") depth++
        else if (token[here] == ">") depth--
        here++
    } while (depth > 0 && here <= count)
    return joined(start, here - 1)
}

# The tokens from one to another, with blanks between them.
function joined(start, end,    text) {
    for (; start < end; start++) text = text (text == "" ? "" : " ") token[start]
    return text
}

# A definition of a type, at its name.
function definition(within,    start) {
    start = here
    pass_clause()
    meaning[within, token[start]] = joined(start + 2, here - 1)
}

function pass_clause() {
    while (here <= count && token[here] != ";") pass()
    here++
}

# A stream of a head, at its word.
function stream(within,    text) {
    here++
    text = pass_type()
    if (token[here] !~ /^[A-Za-z_]/) return
    shape[within, token[here]] = text
    made[++streams] = token[here]
}

# The first stream of a head, or its alias.
function head(within,    first) {
    streams = 0
    if (token[here] == "stream") {
        stream(within)
        here++
    } else {
        here++
        while (here <= count && token[here] != ")") {
            if (token[here] == "stream") stream(within)
            here++
        }
        here++
    }
    first = streams ? made[1] : ""
    if (token[here] == "as") {
        first = token[here + 1]
        here += 2
    }
    return first
}

# The streams that an invocation reads, from its `(` on, with blanks around them.
function inputs(    end, text) {
    end = here
    pass()
    for (text = " "; ++end < here - 1;) {
        if (token[end] == "as") end++
        else if (token[end] !~ /^[,;]$/) text = text token[end] " "
    }
    return text
}

# The values that are one token each, of the parameters in the braces of an invocation.
function values(key) {
    here++
    while (here <= count && token[here] != "}") {
        if (token[here + 1] == ":" && token[here + 3] == ";") value[key, token[here]] = token[here + 2]
        if (token[here + 1] == "=" && token[here - 1] ~ /^[:,]$/) assigned[key, token[here]] = 1
        pass()
    }
    here++
}

function invocation(within,    first, key, at) {
    first = here
    key = within SUBSEP head(within)
    for (at = 1; at <= streams; at++) maker[within, made[at]] = key
    home[key] = within
    main_stream[key] = streams == 1 ? made[1] : ""
    kind[key] = token[here + 1]
    here += 2
    reads[key] = inputs()
    if (token[here] == "{") values(key)
    else here++
    from[key] = line[first] " " column[first]
    to[key] = line[here - 1]
}

# A parameter of a composite: `expression<TYPE> $name : DEFAULT;`
function parameter(within) {
    here++
    pass_type()
    if (token[here + 1] == ":" && token[here + 3] == ";") usual[within, token[here]] = token[here + 2]
    pass_clause()
}

function composite(    own) {
    own = token[here + 1]
    here += 2
    if (token[here] == "(") pass()
    else without_ports = own
    if (own == "Main") has_main = 1
    here++
    while (here <= count && token[here] != "}") {
        if (token[here] == "expression") parameter(own)
        else if (token[here] == "stream" || token[here] == "(") invocation(own)
        else if (index(" param type graph config ", " " token[here] " ")) here++
        else if (token[here + 1] == "=") definition(own)
        else pass_clause()
    }
    here++
}

# The value of the parameter `file` of the operator that the name's parts lead to.
function file_of(level,    text, rounds) {
    text = value[inside[level], part[level], "file"]
    while (substr(text, 1, 1) == "$" && rounds++ < 1000) {
        if (level > 1 && (inside[level - 1], part[level - 1], substr(text, 2)) in value) {
            level--
            text = value[inside[level], part[level], substr(text, 2)]
        } else {
            text = usual[inside[level], text]
        }
    }
    return substr(text, 1, 1) == "\"" ? substr(text, 2) : ""
}

# A type without names for types.
function plain(within, type,    rounds) {
    while (rounds++ < 100) {
        if ((within, type) in meaning) type = meaning[within, type]
        else if (("", type) in meaning) type = meaning["", type]
        else return type
    }
}

# The attributes of a shape, as `types` and `names`. It answers their number, or 0 where they can't be told.
function attributes(within, text,    rounds, number, word, words, depth, at, start) {
    while (text ~ /^[A-Za-z_0-9]+$/ && rounds++ < 100) {
        if ((within, text) in meaning || ("", text) in meaning) text = plain(within, text)
        else if ((within, text) in shape) text = shape[within, text]
        else return 0
    }
    words = split(text ",", word, " ")
    if (sub(/,$/, "", word[words])) word[++words] = ","
    start = 1
    for (at = 1; at <= words; at++) {
        if (word[at] == "<") depth++
        else if (word[at] == ">") depth--
        else if (word[at] == "," && !depth) {
            if (at - start < 2) return 0
            names[++number] = word[at - 1]
            for (types[number] = ""; start < at - 1; start++) types[number] = types[number] " " word[start]
            types[number] = plain(within, substr(types[number], 2))
            start = at + 1
        }
    }
    return number
}

# The attributes of the one stream of an operator, that have no value.
function without_value(key,    within, number, at, name, read, ports, has, missing, other) {
    within = home[key]
    if (main_stream[key] == "") return ""
    ports = split(reads[key], read, " ")
    for (at = 1; at <= ports; at++) {
        if (!((within, read[at]) in shape)) return ""
        other = attributes(within, shape[within, read[at]])
        if (!other) return ""
        for (; other; other--) has[types[other] " " names[other]]++
    }
    number = attributes(within, shape[within, main_stream[key]])
    for (at = 1; at <= number; at++) {
        name = names[at]
        if (!((key, name) in assigned) && has[types[at] " " name] != 1)
            missing = missing (missing == "" ? "" : ", ") types[at] " " name
    }
    return missing
}

# A Join from which the tuples of an operator come, also where it stands within a composite.
function join_before(key,    read, count, at, found, inner) {
    if (seen[key]++) return ""
    if (kind[key] == "Join") return substr(key, index(key, SUBSEP) + 1)
    for (inner in kind) {
        if (index(inner, kind[key] SUBSEP) == 1 && kind[inner] == "Join") return substr(key, index(key, SUBSEP) + 1)
    }
    count = split(reads[key], read, " ")
    for (at = 1; at <= count && found == ""; at++) {
        if ((home[key], read[at]) in maker) found = join_before(maker[home[key], read[at]])
    }
    return found
}

function print_attributes(key,    number, at) {
    number = attributes(home[key], shape[home[key], main_stream[key]])
    for (at = 1; at <= number; at++) printf "%s%s %s", (at == 1 ? "" : ","), types[at], names[at]
    print ""
}

END {
    here = 1
    while (here <= count) {
        if (token[here] == "composite") composite()
        else if (token[here] == "type") { here++; definition("") }
        else pass()
    }
    at = has_main ? "Main" : without_ports
    if (sink != "") {
        if ((at, sink) in kind) print join_before(at SUBSEP sink)
        exit
    }
    if (column_wanted) {
        for (key in from) if (from[key] == line_wanted " " column_wanted) print without_value(key)
        exit
    }
    parts = split(name, part, ".")
    for (level = 1; level <= parts; level++) {
        inside[level] = at
        if (!((at, part[level]) in kind)) exit
        at = kind[at, part[level]]
    }
    print from[inside[parts], part[parts]], to[inside[parts], part[parts]], at
    if (at == "FileSource") {
        print_attributes(inside[parts] SUBSEP part[parts])
        printf "%s", file_of(parts)
    }
}
