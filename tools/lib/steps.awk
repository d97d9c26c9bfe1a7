# Values as a person writes them, one to a line, for tools/steps; tools/lib/sheet.awk is named before it. part=axis: the bits of lead,
# steps and gear, which are the arguments. part=script: a line for the program of the sheet for each value. part=answers: a line for each
# value, with the answers from the file `output` that the program printed.
BEGIN {
    if (part == "axis") exit axis_of(ARGV[1], ARGV[2], ARGV[3])
}
{ $0 = value_of($0, NR == 1) }
$0 == "" { next }
{
    take($0)
    asked++
}
part == "script" && fault == "" { print kind " " axis " " (kind == "N" ? whole(number) : bits(number)) }
part == "answers" { print answered($0) }
END {
    if (part == "script" && asked == 0) exit 3
    if (failed) print failed " of " asked " values could not be converted" >faults
}

# Prints the bits of the three numbers, or which is none. The status is 2 then.
function axis_of(lead, steps, gear, wrong) {
    wrong = !is_number(lead) ? "LEAD " lead : !is_number(steps) ? "STEPS " steps : !is_number(gear) ? "GEAR " gear : ""
    if (wrong != "") print wrong " is no number; write it as 5 or 0.5" (wrong ~ /,/ ? ", with a decimal point and no comma" : "")
    else print bits(lead) " " bits(steps) " " bits(gear)
    return wrong == "" ? 0 : 2
}

# Takes a value apart into number, unit and kind; `fault` says why it is none.
function take(text) {
    fault = ""
    match(text, /^[-+]?[0-9.]*/)
    number = substr(text, 1, RLENGTH)
    unit = substr(text, RLENGTH + 1)
    sub(/^[ \t]+/, "", unit)
    if (unit == "") unit = "mm"
    kind = unit == "mm" ? "D" : unit == "mm/s" ? "S" : unit == "mm/min" ? "M" : unit == "steps/s" ? "N" : ""
    if (text ~ /,/) fault = "write a decimal point and no comma, as in 2.5"
    else if (text ~ /^[0-9]+[ \t]*x/) fault = "distances are repeated in a chain, as in --chain 30 x 0.333"
    else if (kind == "" || !is_number(number)) fault = "a value is a distance, as 10 or -2.5 mm, or a speed, as 600 mm/min, 10 mm/s or 900 steps/s"
    else if (kind == "N" && !is_whole(number)) fault = "steps per second are a whole number"
}

# The line for a value.
function answered(text, line, word) {
    if (fault != "") {
        failed++
        return text ": no value; " fault
    }
    if ((getline line <output) <= 0 || line !~ /^[0-9]+ -?[0-9]+$/) line = "none"
    split(line, word, " ")
    if (word[1] == "0") return number " " unit " = " word[2] (kind == "D" ? " steps" : " steps/s")
    failed++
    return number " " unit ": " (line == "none" ? "the program of the sheet gave no answer" : "refused " word[1] ", " why(word[1]))
}

function why(refusal) {
    if (refusal == "202" && kind == "D") return "the distance is beyond 1,000,000 mm"
    if (refusal == "202") return number ~ /^-/ ? "a speed is not negative" : "the speed is beyond 1,000,000 " unit
    if (kind == "D") return "the result is not from -8,388,608 to 8,388,607 steps"
    return "the result is not from 30 to 10,000 steps/s"
}
