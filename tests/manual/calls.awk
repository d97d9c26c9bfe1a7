# A block `calls` of the manual. part=script: the script for the program calls. part=answers: the block again, with the
# answers from the file `output` that the program printed.
BEGIN {
    for (i = 32; i < 127; i++) code[sprintf("%c", i)] = i
    words["stop"] = 253
    words["reset"] = 254
    words["break"] = 255
}
!/^> / { next }
part == "answers" { print }
{
    sent = substr($0, 3)
    split(sent, field, " ")
    if (sent in words) receive(words[sent])
    else if (sent ~ /^key .$/) receive(code[substr(sent, 5)])
    else if (sent ~ /^clock [0-9]+$/) command("C " field[2], field[2])
    else if (sent ~ /^ports /) command("I" substr(sent, 6), 0)
    else if (sent ~ /^lend reply [0-9]+$/) command("R " field[3], 0)
    else if (sent ~ /^lend store [0-9]+$/) command("M " field[3], 0)
    else if (sent ~ /^lend table [0-9]+$/) command("U " field[3], 0)
    else if (sent ~ /^host store /) command("W" substr(sent, 11), 0)
    else if (sent ~ /^host held /) command("K" substr(sent, 10), 0)
    else if (sent ~ /^host table /) command("T" substr(sent, 11), 0)
    else if (sent ~ /^table [0-9]+$/) command("V " field[2], 1)
    else if (sent == "fill") command("F", 1)
    else if (sent ~ /^host /) command("H" substr(sent, 5), 0)
    else if (sent == "list") listing()
    else {
        for (i = 1; i <= length(sent); i++) receive(code[substr(sent, i, 1)])
        receive(13)
    }
}

function receive(byte) { command("B " byte, 1) }

function command(text, answers, i) {
    if (part == "script") {
        print text
        return
    }
    for (i = 0; i < answers; i++) answer(next_line())
}

# The listing ends with the line 9. A refusal is one line.
function listing(line) {
    if (part == "script") {
        print "L"
        return
    }
    do {
        line = substr(next_line(), 3)
        print (line ~ /^(G|102|103|106)$/ ? "refused " : "line ") line
    } while (line !~ /^(9|G|102|103|106|)$/)
}

function next_line(line) {
    if ((getline line <output) <= 0) line = "no answer"
    return line
}

function answer(line, word) {
    split(line, word, " ")
    if (line == "B -") return
    if (line ~ /^[BC] 10[1-6]$/) print "refused " word[2]
    else if (word[1] == "F") print (word[2] == "0" ? "filled" : "refused " word[2])
    else if (word[1] == "V") print "entry " word[2]
    else if (word[1] == "B") print "reply " word[2]
    else if (word[2] == "Pulse") print "pulse " word[3] " " word[4]
    else if (word[2] == "Send") print "send " sprintf("%c", word[3] + 0)
    else if (word[1] == "C") print tolower(word[2])
    else print line
}
