# The lines of a file as any editor writes them: each ends with a line feed, a carriage return or both, and a byte order mark in front is
# passed over. For awk programs that are named behind this file and have a function take(number, text): it gets each line with its number.
# code[c] is the byte of a character.
BEGIN { for (i = 1; i < 256; i++) code[sprintf("%c", i)] = i }
NR == 1 { sub(/^\357\273\277/, "") }
{
    sub(/\r$/, "")
    n = split($0, part, "\r")
    if (n == 0) number++
    for (i = 1; i <= n; i++) take(++number, part[i])
}
