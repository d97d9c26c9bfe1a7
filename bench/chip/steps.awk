# The instructions of calls in a log of the emulator, where each line is one: awk -f steps.awk -v receive=NAME -v clock=NAME -v said=FILE
# IMAGE.dis FILE.rows LOG, where IMAGE.dis is what objdump -d prints, the rows are those of bench/chip/steps, and `said` is what pace printed.
# For each row it prints their number: from the first of the function to its return, so all that it calls is in it, the memory functions of
# newlib too. A call is a bl; it has returned when the instruction behind the bl comes.

function refuse(why) {
    print "steps: " why >"/dev/stderr"
    refused = 1
    exit 1
}

FILENAME ~ /\.dis$/ {
    if ($1 !~ /^[0-9a-f]+:$/) next
    address = substr($1, 1, length($1) - 1)
    if (site != "") back[site] = address
    site = ""
    name = index($0, "<" receive ">") ? "receive" : index($0, "<" clock ">") ? "clock" : ""
    if (name == "" || !index($0, "\tbl\t")) next
    site = address
    to = $0
    sub(/^.*\tbl\t/, "", to)
    sub(/ .*$/, "", to)
    entry[to] = name
    next
}

FILENAME ~ /\.rows$/ {
    split($0, part, "|")
    bytes += length(part[1])
    if (part[2] != "") row[++rows] = bytes " " part[2]
    next
}

# an instruction that was stopped before it began is logged once more
/^Stopped / {
    n--
    next
}

!/^Trace / {
    print >"/dev/stderr"
    next
}

{
    n++
    split($4, part, "/")
    pc = part[2]
    sub(/^0+/, "", pc)
    if (end == "" && (pc in entry)) {
        if (!(last in back)) refuse("a call of " entry[pc] " is no bl")
        end = back[last]
        first = n
        calls++
        if (entry[pc] == "clock") ticks++
        else {
            heard++
            ticks = 0
        }
    } else if (end != "" && pc == end) {
        steps[heard " " ticks] = n - first
        end = ""
    }
    last = pc
}

END {
    if (refused) exit 1
    getline line <said
    split(line, part, " ")
    if (heard != bytes || calls != part[1])
        refuse("of " bytes " bytes the log shows " heard + 0 " received, and " calls + 0 " calls where pace counts " part[1] + 0)
    for (i = 1; i <= rows; i++) {
        if (!(row[i] in steps)) refuse("there is no such call: " row[i])
        print steps[row[i]]
    }
}
