# A chain of distances as a person writes them, one to a line, for tools/steps; tools/lib/sheet.awk is named before it. part=questions:
# lines for the program ask. part=answers: a line for each distance and one for the total, with the answers from the file `output` that
# the program printed. What is wrong goes to the file `faults`; the status is 3 if there is no value, 4 if there are faults, and 5 if the
# program gave no answer.
{ $0 = value_of($0, NR == 1) }
$0 == "" { next }
{
    asked++
    take($0)
}
END {
    if (asked == 0) exit 3
    if (failed) print failed " of " asked " values could not be taken, so nothing is converted" >faults
    if (failed) exit 4
    exit (part == "questions" ? questions() : answers())
}

# Takes a value apart, which is a distance or several of the same, and puts them behind those before. One more than a chain may have is
# enough: it is refused then.
function take(text, many, mm, unit) {
    many = 1
    mm = text
    if (match(text, /^[0-9]+[ \t]*x[ \t]*/)) {
        mm = substr(text, RLENGTH + 1)
        many = size(substr(text, 1, index(text, "x") - 1))
    }
    match(mm, /^[-+]?[0-9.]*/)
    unit = substr(mm, RLENGTH + 1)
    mm = substr(mm, 1, RLENGTH)
    sub(/^[ \t]+/, "", unit)
    if (text ~ /,/) fault(text, "write a decimal point and no comma, as in 2.5")
    else if (unit ~ /^(mm\/s|mm\/min|steps\/s)$/) fault(text, "a speed is converted without --chain")
    else if (many == 0 || !is_number(mm) || unit !~ /^(mm)?$/) fault(text, "write 0.333 or -2.5 mm, or 30 x 0.333 for thirty of them")
    else if (thousandths(mm) == "") fault(text, "a chain is summed in thousandths of a mm, so a distance has at most three decimals")
    else for (; many > 0 && n <= 1000; many--) {
        distance[++n] = mm
        thousandth[n] = thousandths(mm)
    }
}

function fault(text, why) {
    failed++
    print text ": no distance of a chain; " why >faults
}

# The chain, with an output of as many numbers. Behind it each sum by itself, as far as they are allowed, as a chain of one distance:
# their answers tell which distance a refused chain was refused for.
function questions(i, line, sum) {
    line = "chain " axis " " n
    for (i = 1; i <= n; i++) line = line " " thousandth[i]
    print line
    for (i = 1; i <= n && is_allowed(sum += thousandth[i]); i++) print "chain " axis " 1 " sum
    return 0
}

function is_allowed(sum) {
    return sum >= -1000000000 && sum <= 1000000000
}

function answers(line, word, i, sum, steps) {
    line = answer()
    if (line == "105" || line == "202" || line == "203") {
        print "refused " line ": " (line == "105" ? "a chain has at most 1,000 distances" : line == "202" ? sum_beyond() : steps_beyond()) >faults
        return 4
    }
    if (line !~ /^0( -?[0-9]+)+$/ || split(line, word, " ") != n + 1) return 5
    for (i = 1; i <= n; i++) {
        print distance[i] " mm = " word[i + 1] " steps"
        sum += thousandth[i]
        steps += word[i + 1]
    }
    print "total " in_mm(sum) " mm = " steps " steps"
    return 0
}

function answer(line) {
    return (getline line <output) > 0 ? line : ""
}

# Which distance a sum is refused for. A number of more than 15 digits cannot be added to exactly, and need not be.
function sum_beyond(i, sum) {
    for (i = 1; i <= n; i++) {
        sum += thousandth[i]
        if (is_allowed(sum)) continue
        return which(i) " takes the sum " (length(thousandth[i]) > 15 ? "" : "to " in_mm(sum) " mm, ") "beyond 1,000,000 mm"
    }
    return "a sum is beyond 1,000,000 mm"
}

# Which distance a result or a difference is refused for, by the answers for each sum.
function steps_beyond(i, sum, line, here, there) {
    for (i = 1; i <= n; i++) {
        sum += thousandth[i]
        line = answer()
        if (line == "203") return which(i) " takes the sum to " in_mm(sum) " mm, which is not from -8,388,608 to 8,388,607 steps"
        if (line !~ /^0 -?[0-9]+$/) break
        there = substr(line, 3) + 0
        if (there - here < -8388608 || there - here > 8388607) return which(i) " is " (there - here) " steps, which is not from -8,388,608 to 8,388,607"
        here = there
    }
    return "a sum or a distance is not from -8,388,608 to 8,388,607 steps"
}

function which(i) {
    return "distance " i ", " distance[i] " mm,"
}

# Thousandths in mm, without needless zeros.
function in_mm(sum, digits, mm) {
    digits = sprintf("%04.0f", sum < 0 ? -sum : sum)
    mm = substr(digits, 1, length(digits) - 3) "." substr(digits, length(digits) - 2)
    sub(/[.]?0+$/, "", mm)
    return (sum < 0 ? "-" : "") mm
}
