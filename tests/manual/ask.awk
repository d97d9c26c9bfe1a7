# A block `ask` of the manual; tools/lib/sheet.awk is named before it. part=script: lines for a program ask. part=answers: the block
# again, with the answers from the file `output` that the program printed.
!/^> / { next }
part == "answers" { print }
$2 == "axis" {
    axis = bits($4) " " bits($6) " " bits($8)
    next
}
part == "script" {
    if ($2 != "chain") exit 1
    print chain()
    next
}
{
    if ((getline line <output) <= 0) line = "no answer"
    if (line !~ /^0( |$)/) line = "0 refused " line
    print substr(line, 3)
}

# The question for a chain: `3 x 0.333` is three distances, and behind `into` stands how many numbers its output has.
function chain(i, many, n, room, distances) {
    for (i = 3; i <= NF; i++) {
        if ($i == "into") {
            room = $(++i)
            continue
        }
        many = 1
        if ($(i + 1) == "x") {
            many = $i
            i += 2
        }
        for (; many > 0; many--) {
            distances = distances " " thousandths($i)
            n++
        }
    }
    return "chain " axis " " (room == "" ? n + 0 : room) distances
}
