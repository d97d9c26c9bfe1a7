# Makes of raw bytes, as `od -An -v -tu1` prints them, a script for the program calls: each byte is received and then the board runs until
# it has nothing more to do. Lines are counted at the carriage returns. -v lines=FILE: gets `number text` of each line, at most 100 bytes of it,
# with ? for what is no character or too much. More than 1,048,576 bytes end it with status 3.

BEGIN {
    print "N 1"
    line = 1
    for (i = 32; i < 127; i++) character[i] = sprintf("%c", i)
}
{
    for (i = 1; i <= NF; i++) {
        if (++n > 1048576) exit
        if (next_line) print "N " (++line)
        next_line = $i == 13
        print "B " $i "\nQ 100000\nE"
        if ($i == 13 || $i > 252) print "S"
        keep($i)
    }
}
END {
    if (n > 1048576) exit 3
    print "S"
}

# A byte of a line. Control codes are none, and a reset clears what was sent of it.
function keep(byte) {
    if (byte == 13) print line " " text >lines
    if (byte == 13 || byte == 254) text = ""
    else if (byte < 253 && length(text) <= 100) text = text (byte in character && length(text) < 100 ? character[byte] : "?")
}
