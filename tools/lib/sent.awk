# A program of the user's as a script for `calls` (trial/README.md), and its lines for whoever shows what came of them. Behind lines.awk.
# The environment's NAME: how messages call the file; -v lines=FILE: gets `number text` of each line that is sent. Comments (#) and empty
# lines are passed over. Words between the lines: docs/MANUAL.md. The status is 3 if something is wrong with the file.
BEGIN {
    control["stop"] = 253
    control["reset"] = 254
    control["break"] = 255
    limit = 100000
}
END {
    if (wrong) exit 3
    if (items == 0) refuse("it holds no line for the board")
    if (wrong) exit 3
    for (i = 1; i <= items; i++) send(i)
}

function refuse(why) {
    print "exercise: " ENVIRON["NAME"] ": " why >"/dev/stderr"
    wrong = 1
}

# A line of the file: what it is, and its value.
function take(at, text, word, rest) {
    if (text == "" || text ~ /^#/) return
    items++
    line[items] = at
    print at " " text >lines
    kind[items] = "text"
    value[items] = text
    rest = text
    sub(/[ \t]+$/, "", rest)
    word = rest
    sub(/ .*/, "", word)
    if (rest == "start" || rest == "go on") value[items] = "@0S"
    else if (rest in control) byte(control[rest])
    else if (rest == "list") kind[items] = "list"
    else if (text ~ /^key .$/) byte(code[substr(text, 5)])
    else if (word == "byte") numbers(at, rest, 1, 255, "byte")
    else if (word == "ports") numbers(at, rest, 4, 255, "ports")
    else if (word == "clock") numbers(at, rest, 1, 1000000, "clock")
    else if (word == "key") refuse("line " at ": key takes one character behind one space")
}

function byte(v) {
    kind[items] = "byte"
    value[items] = v
}

# A word with its numbers.
function numbers(at, text, count, most, word, field, n, i, fits) {
    n = split(text, field, " ")
    fits = n == count + 1
    for (i = 2; i <= n; i++) if (field[i] !~ /^[0-9]+$/ || length(field[i]) > 7 || field[i] + 0 > most) fits = 0
    if (!fits) refuse("line " at ": " word " takes " (count == 1 ? "a whole number" : count " whole numbers") " from 0 to " most)
    kind[items] = word
    value[items] = substr(text, length(word) + 2)
}

# What an item sends. Behind each byte the board runs until it has nothing more to do; but where the file counts the clock calls, in front of
# the item or behind it, a line is sent at once.
function send(i, n, k) {
    print "N " line[i]
    if (kind[i] == "clock") print "Q " value[i]
    else if (kind[i] == "list") print "L"
    else if (kind[i] == "ports") print "I " value[i]
    else if (kind[i] == "byte") receive(value[i], i, 1)
    else {
        n = length(value[i])
        for (k = 1; k <= n; k++) receive(code[substr(value[i], k, 1)], i, 0)
        receive(13, i, 1)
    }
    print "S"
}

function receive(v, i, last) {
    print "B " v
    if (last ? kind[i + 1] == "clock" : kind[i - 1] == "clock") return
    print "Q " limit
    print "E"
}
