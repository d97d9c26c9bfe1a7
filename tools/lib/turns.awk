# What is said of the A axis. For told.awk and follow.awk, behind replies.awk.

# Whether A is among axes, alone or beside x, y and z.
function is_turning(axes) { return axes >= 8 }

function axes_words(axes) {
    return (axes % 8 == 7 ? "x, y, z" : axes % 8 == 3 ? "x, y" : axes % 8 == 1 ? "x" : "") (axes == 15 ? ", " : "") (axes >= 8 ? "a" : "")
}

# Why a line, or while storing a record, is refused on a board with these axes; nothing if A has no part in it.
function turn_refused(sent, line, storing, axes, store_axes) {
    if (sent == "3") return axes_refused(line, storing, axes)
    if (sent == "7" && axes == 8 && line ~ (storing ? "^[0m]" : "@0[AaMm]")) return "A is set alone, and a movement has two numbers then; for four axes send @07, then @08"
    if (sent == "G" && !storing && (is_turning(axes) || is_turning(store_axes)))
        return "stored under other axes: " axes_words(store_axes) " (" store_axes ") then, " axes_words(axes) " (" axes ") now"
    return ""
}

# A line that sets axes, or n and N with the axes that they name.
function axes_refused(line, storing, axes,    n) {
    if (!storing && match(line, /@0+[0-9]+$/)) {
        n = substr(line, RSTART + 2) + 0
        if (n == 8) return "A is set alone, or behind x, y and z: send @07, then @08"
        return n > 8 && n < 16 ? "for four axes send @07, then @08" : ""
    }
    if (!is_turning(axes) || line !~ (storing ? "^n ?[0-9]+$" : "@0[nN] ?[0-9]+$")) return ""
    return axes == 8 ? "only a is set: its number is 8" : "a is named alone, by 8; x, y and z by 1 to 7"
}
