# What the lines and the records of circles say: e, f and y. For told.awk, follow.awk and stored.awk, behind replies.awk.
#
# A line is taken apart into its letter and its numbers, parted by spaces, as in "y 16 600 0 2 0 -1 1"; another line is nothing.
# Kept: circle_at[place], the same of the record at a place, if it is one of these.

# A line, or while storing a record. What stands in front of a line was taken by a wait.
function circle_line(text, storing,    n, i, part, line) {
    if (!match(text, storing ? "^[efy] ?-?[0-9]+(, ?-?[0-9]+)*$" : "@0[efy] ?-?[0-9]+(, ?-?[0-9]+)*$")) return ""
    text = substr(text, RSTART + (storing ? 0 : 2))
    line = substr(text, 1, 1)
    text = substr(text, 2)
    gsub(/ /, "", text)
    n = split(text, part, ",")
    for (i = 1; i <= n; i++) line = line " " sprintf("%d", part[i])
    return line
}

function keep_circle(place, text) {
    circle_at[place] = circle_line(text, 1)
}

function is_arc(circle) { return circle ~ /^y/ && split(circle, arc_part, " ") == 8 }

function sign_of(n) { return n > 0 ? 1 : n < 0 ? -1 : 0 }

# The plane's first and second axis.
function plane_axis(plane, which) { return substr("xyxzyz", 2 * plane + which, 1) }

function plane_words(plane) { return plane_axis(plane, 1) " and " plane_axis(plane, 2) }

function turn_words(direction) { return direction < 0 ? "counter-clockwise" : "clockwise" }

# The directions that the rule gives from a start. An axis that rests at first goes towards the centre.
function directions_of(u, v, direction,    turn) {
    turn = direction < 0 ? -1 : 1
    return (v == 0 ? -sign_of(u) : turn * sign_of(v)) "," (u == 0 ? -sign_of(v) : -turn * sign_of(u))
}

# The root of a sum of two squares. It is found by halving, since an awk may have been built without sqrt: the first guess is a tenth off at
# most, and each turn doubles the digits that are right.
function root_of(a, b,    square, root, turn) {
    if (a < 0) a = -a
    if (b < 0) b = -b
    if (a == 0 || b == 0) return a + b
    square = a * a + b * b
    root = a > b ? a + 0.4 * b : b + 0.4 * a
    for (turn = 1; turn <= 4; turn++) root = (root + square / root) / 2
    return root
}

# A length that need not be whole, in thousandths, without noughts at its end.
function decimals(size,    n, whole, text) {
    n = int(size * 1000 + 0.5)
    whole = int(n / 1000)
    text = sprintf("%d.%03d", whole, n - whole * 1000)
    sub(/\.?0+$/, "", text)
    return text
}

# A circle, or an arc of one, of which so many pulses are made; arc_part has its numbers.
function arc_words(made, is_back, radius, direction, plane, speed,    whole) {
    whole = made == arc_part[2]
    return (whole && is_back ? "circle" : "arc") " of radius " radius ", " turn_words(direction) " in " plane_words(plane) ", " \
        (whole ? "" : made " of ") arc_part[2] (arc_part[2] == 1 ? " pulse" : " pulses") " at " speed
}

# Why a line of a circle, or while storing a record, is refused, in the board's plane and direction; nothing if there is no more to say
# than of other lines.
function circle_refused(sent, circle, storing, plane, direction) {
    if (circle ~ /^e/ && sent == "1") return "a plane is 0, 1 or 2"
    if (circle ~ /^f/ && sent == "1") return "a direction is 0 or -1"
    if (!is_arc(circle)) return ""
    if (sent == "1") return arc_fault(storing, direction)
    if (sent == "3") return "the plane of " plane_words(plane) " needs an axis that is not set"
    if (sent == "9") return "the circle would leave the range of positions"
    return ""
}

# The number of an arc that is at fault: arc_part has them. While storing, directions that do not fit the start are no fault.
function arc_fault(storing, direction) {
    if (beyond(2, 0, 8388607)) return "the arc length is not from 0 to 8,388,607"
    if (beyond(4, -8388608, 8388607)) return "the third number is not from -8,388,608 to 8,388,607"
    if (beyond(5, -4000000, 4000000) || beyond(6, -4000000, 4000000)) return "the start is not from -4,000,000 to 4,000,000"
    if (arc_part[5] == 0 && arc_part[6] == 0) return "the start is the centre itself"
    if (!is_one(arc_part[7]) || !is_one(arc_part[8])) return "the last two numbers are 1 or -1"
    if (storing) return ""
    return turn_words(direction) " from " arc_part[5] "," arc_part[6] " the directions are " directions_of(arc_part[5] + 0, arc_part[6] + 0, direction)
}

function beyond(which, from, to) { return arc_part[which] + 0 < from || arc_part[which] + 0 > to }
function is_one(n) { return n == 1 || n == -1 }
