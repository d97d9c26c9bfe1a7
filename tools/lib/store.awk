# The lines of a program as a script for `calls` (trial/README.md) that stores them on a board. Behind lines.awk. -v axes=N: the axes, 1, 3,
# 7, 8 or 15; -v lines=FILE: gets `number text` of each line that is sent. Comments (#) and empty lines are passed over, and the last line may be
# the end line. What is no line of a program goes to the file `faults`, behind the environment's NAME; the status is 3 then.
BEGIN {
    if (axes == 15) send("@07")
    send(axes == 15 ? "@08" : "@0" axes)
    send("@0i")
}
END {
    if (wrong) exit 3
    print "N 0"
    send("9")
    print "S\nL"
}

function take(number, text) {
    if (text == "" || text ~ /^#/ || wrong) return
    if (text ~ /^@/) refuse("line " number ": " text " is no line of a program; ./exercise FILE --listing --no-picture prints the program of a whole exercise")
    else if (end) refuse("line " number " stands behind the end line 9, line " end)
    else if (text == "9") end = number
    else {
        print number " " text >lines
        print "N " number
        send(text)
    }
}

function refuse(why) {
    print ENVIRON["NAME"] ": " why >>faults
    wrong = 1
}

function send(text, k, n) {
    n = length(text)
    for (k = 1; k <= n; k++) print "B " code[substr(text, k, 1)]
    print "B 13"
}
