# What the program ask answers to the question for a join: awk -f replies.awk -f fault.awk -f join.awk QUESTION ANSWER. Prints a script for
# `calls` (trial/README.md) that lists the joined program. -v first=FILE, -v second=FILE: the lines of both, as store.awk keeps them; the
# environment's FIRST and SECOND: how messages call them. Why they are not joined goes to the file `faults`; the status is 4 then, and 5 if
# ask gave no answer.
BEGIN { for (i = 0; i < 256; i++) value[sprintf("%02x", i)] = i }
FNR == NR {
    records = $3 + $7
    used = $2 + $6
    next
}
{
    answers++
    if ($0 ~ /^0 [0-9]+ [0-9]+ ([1378]|15) (-|[0-9a-f]+) (-|[0-9]+(,[0-9]+)*)$/ && length($5) == ($2 == 0 ? 1 : 2 * $2) && starts($6) == $3) listing()
    else if ($0 == "G" && enters()) refuse(into_a_loop(), "nothing may lead into a loop: put a record in front of it, as 5 0, a delay of nothing")
    else if ($0 == "6" && (records > 1000 || used > 16384)) refuse(no_room(), "make a loop of what repeats, or leave the two as two programs")
    else answers = 2
}
END {
    if (answers != 1) exit 5
    if (refused) exit 4
}

# Puts the bytes into a board's store, and lists them.
function listing(i) {
    for (i = 0; i < $2; i++) print "W " i " " value[substr($5, 2 * i + 1, 2)]
    print "K " $2 " " $3 " " $4
    print "L"
}

# How many entries a table has.
function starts(table, entries) {
    return table == "-" ? 0 : split(table, entries, ",")
}

function refuse(why, how) {
    print "refused " $0 ": " why "\n" how >faults
    refused = 1
}

function no_room() {
    return "no room: together they have " thousands(records) " records and " thousands(used) " bytes, and a store has 1,000 and 16,384"
}

function thousands(n) {
    return n < 1000 ? n : int(n / 1000) "," sprintf("%03d", n % 1000)
}

# Whether a jump or a wait of the first leads to its end place, where a loop of the second would start; the first of each is kept.
function enters(place, count) {
    count = take(first)
    for (place = count - 1; place >= 0; place--) if (place in leads_to && leads_to[place] == count) out = record_at(place)
    count = take(second)
    for (place = count - 1; place >= 0; place--) if (place in back_to && back_to[place] == 0) loop = loop_at(place)
    return out != "" && loop != ""
}

function into_a_loop() {
    return "in " ENVIRON["FIRST"] " " out " leads to the end place, and there " ENVIRON["SECOND"] " begins with " loop
}

# Keeps the records of a program in the place of those before; their number.
function take(file, line, place) {
    split("", line_of)
    split("", back_to)
    split("", leads_to)
    while ((getline line <file) > 0) keep_record(place++, line + 0, substr(line, index(line, " ") + 1))
    return place + 0
}
