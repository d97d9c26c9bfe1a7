# What a board holds of a program that was sent to it for storing: awk -f state.awk -f replies.awk -f circles.awk -f fault.awk
# -f stored.awk STREAM. STREAM is what `calls` printed of the script that store.awk made, -v lines=FILE the lines that it sent. Prints the
# program as a join is asked (trial/README.md, ask): bytes in use, records, axes, and the bytes in hexadecimal digits. What was refused goes to
# the file `faults`, behind the environment's NAME; the status is 4 then, and 5 if `calls` gave no answer.
BEGIN {
    for (i = 1; i < 128; i++) byte[sprintf("%c", i)] = sprintf("%02x", i)
    while ((getline line <lines) > 0) text[line + 0] = substr(line, index(line, " ") + 1)
    most = 10
}
$1 == "N" { current = $2 }
$1 == "B" && $2 != "-" && current != "" { reply($2) }
$1 == "S" {
    used = $behind("used")
    records = $behind("records")
    axes = $behind("store_axes")
}
$1 == "L" && $2 != "9" { bytes = bytes encoded($2) }
END {
    if (refused > most) note("and " (refused - most) " more lines are refused")
    if (refused) exit 4
    if (!accepted || records != places || length(bytes) != 2 * used) exit 5
    print used " " records " " axes " " (bytes == "" ? "-" : bytes)
}

# The answer to a line; the end line comes last, as number 0. Without the lines that are refused it is another program that was checked.
function reply(sent) {
    if (current == 0 && sent == "0") accepted = 1
    else if (sent == "0") keep_record(places++, current, text[current])
    else if (current == 0 && !refused) check(sent)
    else if (current > 0 && ++refused <= most) note("line " current ": refused " sent ": " reason(sent, text[current]))
}

function reason(sent, line,    words) {
    words = circle_refused(sent, circle_line(line, 1), 1, 0, 0)
    return words != "" ? words : sent == "5" ? misshapen(line, 1) : meaning(sent, 1)
}

# What the check at the end line has found.
function check(sent, more) {
    if (!names_fault(sent)) return
    refused = 1
    note("refused " sent ": " fails(sent))
    more = fault_found(sent, places)
    if (more != "") note(more)
}

function note(why) {
    print ENVIRON["NAME"] ": " why >>faults
}

# A line of the listing as a record: the mark, its code, the count of its numbers, and each as four bytes, the lowest first.
function encoded(line, n, i, number, digits) {
    n = split(substr(line, 2), number, ",")
    digits = "d72b" byte[substr(line, 1, 1)] sprintf("%02x", n)
    for (i = 1; i <= n; i++) digits = digits four(number[i] < 0 ? number[i] + 4294967296 : number[i] + 0)
    return digits
}

function four(v, i, digits) {
    for (i = 1; i <= 4; i++) {
        digits = digits sprintf("%02x", v % 256)
        v = int(v / 256)
    }
    return digits
}
