# What a reply that refuses a line means, in a few words, for the text under a line and for the picture's notes.

# Whether a reply refuses its line: one character but 0, or at the end line of a program G with a letter and a place.
function refuses(reply) {
    return names_fault(reply) || length(reply) == 1 && reply != "0"
}

function names_fault(reply) {
    return reply ~ /^G[abcde][0-9][0-9][0-9][0-9]$/
}

function meaning(reply, storing) {
    if (names_fault(reply)) return fault(substr(reply, 2, 1))
    if (reply == "1") return "a number is out of range"
    if (reply == "3") return "these axes are not allowed"
    if (reply == "4") return "no axes are set"
    if (reply == "5") return storing ? "this is no record" : "this is no line of the board"
    if (reply == "6") return "no room for this record"
    if (reply == "7") return "too few or too many numbers"
    if (reply == "8") return "no program is stored"
    if (reply == "9") return "outside the range of positions"
    if (reply == "D") return "a speed is out of range"
    if (reply == "G") return storing ? "the program fails its check" : "stored under other axes"
    if (reply == "W") return "something stands stopped"
    return ""
}

# What a letter behind G means.
function fault(letter) {
    if (letter == "a") return "target outside"
    if (letter == "b") return "loop starts too early"
    if (letter == "c") return "loops overlap"
    if (letter == "d") return "more than seven loops"
    return "jump across a loop"
}

# What a 5 means, and which space was refused in a line that otherwise looks like one of the board.
function misshapen(line, storing) {
    return meaning("5", storing) spaces(line, storing)
}

function spaces(line, storing) {
    if (line ~ /[ \t]$/) return ": a space stands at its end"
    if (line !~ (storing ? "^[0mnz3512efy][-0-9, ]*$" : "^@0[AaMmSsnNzPbBikefy]?[-0-9, ]*$")) return ""
    if (line ~ / ,/) return ": a space stands before a comma"
    if (line ~ /  /) return ": two spaces stand together"
    return ""
}
