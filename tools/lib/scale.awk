# Steps and millimetres: how the picture and the table say a distance.
#
# Given: scale, the steps of a millimetre on x, y and z, and then of a degree of A if they are known; empty if distances are said in steps.

BEGIN {
    in_mm = scale != ""
    if (!in_mm) scale = "1 1 1"
    split(scale, part, " ")
    per_x = part[1]
    per_y = part[2]
    per_z = part[3]
    per["x"] = per_x + 0
    per["y"] = per_y + 0
    per["z"] = per_z + 0
    in_degrees = 4 in part
    if (in_degrees) per["a"] = part[4] + 0
    unit = in_mm ? "mm" : "steps"
}

# So many hundredths, with at most two decimals and no nought at their end.
function hundredths(n,    whole, rest) {
    whole = int(n / 100)
    rest = n - whole * 100
    if (rest == 0) return sprintf("%d", whole)
    if (rest % 10 == 0) return sprintf("%d.%d", whole, rest / 10)
    return sprintf("%d.%02d", whole, rest)
}

# A number of steps of an axis as the picture says it: as it is, or in mm with at most two decimals.
function said(steps, axis,    n, minus) {
    if (!in_mm) return sprintf("%d", steps)
    minus = steps < 0 ? "-" : ""
    if (steps < 0) steps = -steps
    n = int(steps * 100 / per[axis] + 0.5)
    if (n == 0 && steps > 0) return "under 0.01"
    return minus hundredths(n)
}

# The same with the unit.
function said_with_unit(steps, axis) {
    return said(steps, axis) (in_mm ? " mm" : steps == 1 || steps == -1 ? " step" : " steps")
}

# A number of steps in mm with three decimals, half a thousandth rounded away from nought, for the table.
function thousandths(steps, axis,    n, minus, whole) {
    minus = steps < 0 ? "-" : ""
    if (steps < 0) steps = -steps
    n = int(steps * 1000 / per[axis] + 0.5)
    if (n == 0) minus = ""
    whole = int(n / 1000)
    return minus sprintf("%d.%03d", whole, n - whole * 1000)
}
