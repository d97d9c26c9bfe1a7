# A block `sheet` of the manual; tools/lib/sheet.awk is named before it. part=script: lines for a program of the sheet. part=answers:
# the block again, with the answers from the file `output` that the program printed.
!/^> / { next }
part == "answers" { print }
$2 == "axis" {
    axis = bits($4) " " bits($6) " " bits($8)
    next
}
part == "script" {
    if ($2 == "distance") print "D " axis " " bits($3)
    else if ($4 == "mm/s") print "S " axis " " bits($3)
    else if ($4 == "mm/min") print "M " axis " " bits($3)
    else if ($4 == "steps/s") print "N " axis " " whole($3)
    else exit 1
    next
}
{
    if ((getline line <output) <= 0) line = "no answer"
    split(line, word, " ")
    if (word[1] == "0") print word[2]
    else print "refused " word[1]
}
