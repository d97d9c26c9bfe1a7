# Values as a person writes them, and their numbers as the programs of the sheet read them. Functions for the awk programs that are
# named behind this file.

# The value of a line: without the byte order mark that a first line may have, and without spaces around it. A comment has none.
function value_of(line, first) {
    if (first && substr(line, 1, 3) == "\357\273\277") line = substr(line, 4)
    gsub(/^[ \t]+|[ \t]+$/, "", line)
    return line ~ /^#/ ? "" : line
}

# A number as a person writes it: digits with at most one decimal point among them, before them or behind them, and at most one sign in
# front. No exponent, no comma, no space.
function is_number(text) {
    return text ~ /^[-+]?([0-9]+[.]?[0-9]*|[.][0-9]+)$/
}

function is_whole(text) {
    return text ~ /^[-+]?[0-9]+$/
}

# A number without its sign, as the nearest 64-bit float, which is what awk makes of a text. Zeros in front go: some awks read 010 as 8.
function size(text) {
    sub(/^[-+]?0*/, "", text)
    return text + 0
}

# The thousandths of a number, as the digits of a whole number: -2500 for -2.5. Nothing if a part of a thousandth is left. From 19
# digits on it is 18 nines: a chain of distances refuses both alike.
function thousandths(text, sign, point, decimals) {
    sign = text ~ /^-/ ? "-" : ""
    sub(/^[-+]/, "", text)
    point = index(text ".", ".")
    decimals = substr(text, point + 1)
    sub(/0+$/, "", decimals)
    if (length(decimals) > 3) return ""
    text = substr(text, 1, point - 1) substr(decimals "000", 1, 3)
    sub(/^0+/, "", text)
    if (text == "") return "0"
    return sign (length(text) > 18 ? "999999999999999999" : text)
}

# Sixteen digits of four parts of 16 bits.
function pattern(part1, part2, part3, part4) {
    return sprintf("%04x%04x%04x%04x", part1, part2, part3, part4)
}

# The bits of the float that is nearest to a number; infinity if it is too large for a float. Halving and doubling lose nothing: v ends
# from 1 up to 2, or below 1 at the exponent of the tiniest floats.
function bits(text, v, sign, e, part1, part2, part3) {
    v = size(text)
    sign = text ~ /^-/ ? 32768 : 0
    if (v == 0) return pattern(sign, 0, 0, 0)
    if (v > 1.7976931348623157e308) return pattern(sign + 32752, 0, 0, 0)
    for (e = 1023; v >= 2; e++) v /= 2
    for (; v < 1 && e > 1; e--) v *= 2
    if (v < 1) e = 0
    else v -= 1
    v *= 16; part1 = int(v)
    v = (v - part1) * 65536; part2 = int(v)
    v = (v - part2) * 65536; part3 = int(v)
    v = (v - part3) * 65536
    return pattern(sign + e * 16 + part1, part2, part3, v)
}

# A whole number in two's complement of 64 bits. A size beyond 2^53 becomes 2^53: the sheet refuses both alike. The parts of a negative
# number are those of its size less one, each taken from 65535.
function whole(text, v, minus, part1, part2, part3) {
    v = size(text)
    if (v > 9007199254740992) v = 9007199254740992
    minus = text ~ /^-/ && v > 0
    if (minus) v -= 1
    part1 = int(v / 281474976710656); v -= part1 * 281474976710656
    part2 = int(v / 4294967296); v -= part2 * 4294967296
    part3 = int(v / 65536); v -= part3 * 65536
    if (minus) return pattern(65535 - part1, 65535 - part2, 65535 - part3, 65535 - v)
    return pattern(part1, part2, part3, v)
}
