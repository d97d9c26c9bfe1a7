# The rows of the table of measures: what the program leaves on the plate, of what follow.awk has kept. Used by measure.awk and plate.awk.
#
# Made: row[1..n_rows], each the number of a thing in made[]; cell[1..n_cells], the cells of the row asked for last.

# Which things are rows. With one or two axes and no plate given every way is a line; otherwise what is in the plate is a row. A alone has no
# tool: each of its turns is a row. Behind the columns of a table with arcs stand those that only arcs have.
function find_rows(    i, what) {
    is_flat = !has_z && surface <= 0
    is_alone = has_a && !has_x && surface <= 0
    for (i = 1; i <= n_made; i++) {
        what = substr(made[i], 1, index(made[i], " ") - 1)
        if ((what == "go" || what == "turn") && !is_flat) continue
        row[++n_rows] = i
        n_of[what]++
        if (i in arc_of) n_arcs++
        if (is_turn(i)) n_turns++
    }
}

# Whether a way is one of A alone, while x and y stand still.
function is_turn(i,    f) {
    if (made[i] !~ /^(turn|cut) / || from_a[i] == to_a[i]) return 0
    split(made[i], f, " ")
    return f[2] == f[5] && f[3] == f[6] && !(i in arc_of)
}

function row_name(i, what) { return i in arc_of ? "arc" : is_turn(i) ? "turn" : what == "go" ? "line" : what == "left" ? "left down" : what }

# The depth of a thing below the surface, at its deepest.
function depth_of(i, f) { return surface - (i in lowest_of ? lowest_of[i] : f[7]) }

# The axes that both ends of a row have columns for, in steps, and in mm or degrees. Without z there are no heights, and A is there if it was
# ever set; for lines of numbers (csv) x, y and z are always there.
function axes_shown(csv) { return (csv ? "xyz" : is_alone ? "" : is_flat ? "xy" : "xyz") (has_a ? "a" : "") }
function axes_in_mm(csv,    shown) {
    if (!in_mm) return ""
    shown = axes_shown(csv)
    if (!in_degrees) sub(/a/, "", shown)
    return shown
}

# The cells of a row. For lines of numbers the columns are always the same, and a depth that is none is empty.
function fill_cells(r, csv,    f, i) {
    split(made[row[r]], f, " ")
    n_cells = 0
    put(r)
    put(row_name(row[r], f[1]))
    put_ends(row[r], f, axes_shown(csv), csv, 0)
    if (in_mm) put_ends(row[r], f, axes_in_mm(csv), csv, 1)
    for (i = 9; i <= 11; i++) put(f[i] == "-" && csv ? "" : f[i])
    if (n_arcs) put_arc(row[r] in arc_of ? arc_of[row[r]] : "", csv)
}

function put(text) { cell[++n_cells] = text }

# Both ends of a thing, and its depth.
function put_ends(i, f, shown, csv, as_mm,    end, k, axis, value) {
    for (end = 1; end <= 2; end++) for (k = 1; k <= length(shown); k++) {
        axis = substr(shown, k, 1)
        value = axis == "a" ? (end == 1 ? from_a[i] : to_a[i]) : f[3 * end - 2 + index("xyz", axis)]
        put(as_mm ? thousandths(value, axis) : sprintf("%d", value))
    }
    value = depth_of(i, f)
    if (!is_flat) put(as_mm ? thousandths(value, "z") : sprintf("%d", value))
    else if (csv) put("")
}

# The cells that only an arc has: centre and radius, in steps and in mm, then plane and direction. What is no arc has none, and one whose line
# is not known neither. Without z the plane is always that of x and y.
function put_arc(arc, csv,    f, none, known) {
    none = csv ? "" : "-"
    known = split(arc, f, " ") > 1
    put_centre(known, f, csv, none, 0)
    if (in_mm) put_centre(known, f, csv, none, 1)
    if (!is_flat || csv) put(known ? plane_axis(f[6], 1) plane_axis(f[6], 2) : none)
    put(known ? (f[7] < 0 ? "ccw" : "cw") : none)
}

function put_centre(known, f, csv, none, as_mm,    i, a) {
    for (i = 1; i <= 3; i++) {
        a = substr("xyz", i, 1)
        if (!is_flat || csv || i < 3) put(!known ? none : as_mm ? thousandths(f[i], a) : sprintf("%d", f[i]))
    }
    a = plane_axis(f[6], 1)
    if (!known) put(none)
    else if (!as_mm) put(decimals(root_of(f[4], f[5])))
    else put(per[a] == per[plane_axis(f[6], 2)] ? thousandths(root_of(f[4], f[5]), a) : none)
}

# The names of the columns of the text. The mm columns bear the unit in a line above, and degrees in their name.
function fill_heads() {
    n_cells = 0
    put("no.")
    put("what")
    end_heads(axes_shown(0), "a")
    if (in_mm) end_heads(axes_in_mm(0), is_alone ? "a" : "a deg")
    put("record")
    put("pass")
    put("line")
    if (n_arcs) arc_heads()
}

function end_heads(shown, of_a,    end, k, axis) {
    for (end = 1; end <= 2; end++) for (k = 1; k <= length(shown); k++) {
        axis = substr(shown, k, 1)
        put((k > 1 ? "" : end == 1 ? "from " : "to ") (axis == "a" ? of_a : axis))
    }
    if (!is_flat) put("depth")
}

function arc_heads(    times) {
    for (times = 0; times <= in_mm; times++) {
        put("centre x")
        put("y")
        if (!is_flat) put("z")
        put("radius")
    }
    if (!is_flat) put("plane")
    put("turn")
}

# The widths of the columns, of the first rows up to a last one.
function measure_columns(last,    r, c) {
    fill_heads()
    for (c = 1; c <= n_cells; c++) wide[c] = length(cell[c])
    for (r = 1; r <= last; r++) {
        fill_cells(r, 0)
        for (c = 1; c <= n_cells; c++) if (length(cell[c]) > wide[c]) wide[c] = length(cell[c])
    }
}

# The cells as a line of text: numbers stand to the right of their columns, words to the left, and a group of columns a little apart.
function cells_text(    c, text) {
    text = sprintf("%" wide[1] "s  %-" wide[2] "s", cell[1], cell[2])
    for (c = 3; c <= n_cells; c++) text = text sprintf("%" (wide[c] + (begins_group(c) ? 4 : 2)) "s", cell[c])
    return text
}

# How many columns the ends and the depth take, in steps, and in mm.
function columns_of(shown) { return 2 * length(shown) + !is_flat }

# Whether a column is the first of from, to, record, the mm, or the centre.
function begins_group(c,    steps, mm) {
    steps = axes_shown(0)
    mm = axes_in_mm(0)
    c -= 3
    if (c < columns_of(steps)) return c == 0 || c == length(steps)
    c -= columns_of(steps)
    if (in_mm && c < columns_of(mm)) return c == 0 || c == length(mm)
    if (in_mm) c -= columns_of(mm)
    return c == 0 || c == 3 || (in_mm && c == 3 + (is_flat ? 2 : 3) + 1)
}

# The line above the heads that says which columns are steps and which mm.
function units_text(    c, text, of_steps, of_mm, at) {
    of_steps = columns_of(axes_shown(0))
    of_mm = columns_of(axes_in_mm(0))
    at[3] = "steps"
    if (of_mm) at[3 + of_steps] = is_alone ? "degrees" : "mm"
    if (n_arcs) {
        at[6 + of_steps + of_mm] = "steps"
        at[6 + of_steps + of_mm + (is_flat ? 3 : 4)] = "mm"
    }
    text = sprintf("%" (wide[1] + wide[2] + 2) "s", "")
    for (c = 3; c <= n_cells; c++) text = text sprintf("%" (wide[c] + (begins_group(c) ? 4 : 2)) "s", at[c])
    sub(/ +$/, "", text)
    return text
}

function counted(n, one, many) { return sprintf("%d", n) " " (n == 1 ? one : many) }

# The last line: how many there are, and where the tool ends.
function sum_text(    text) {
    if (is_alone) text = counted(n_turns, "turn", "turns")
    else if (is_flat) text = counted(n_of["go"] - n_arcs, "line", "lines")
    else text = counted(n_of["hole"], "hole", "holes") ", " counted(n_of["cut"] - n_arcs - n_turns, "cut", "cuts")
    if (n_arcs) text = text ", " counted(n_arcs, "arc", "arcs")
    if (n_turns && !is_alone) text = text ", " counted(n_turns, "turn", "turns")
    if (!is_flat && is_left) text = text ", tool left down"
    text = text "; end at " sum_places(0) " steps"
    if (!in_mm || axes_in_mm(0) == "") return text
    return text " (" sum_places(1) (is_alone ? "" : " mm") (in_degrees && has_a ? (is_alone ? "" : ", a " thousandths(a, "a")) " degrees" : "") ")"
}

# Where the tool ends; degrees stand behind the mm.
function sum_places(as_mm,    text) {
    if (is_alone) return "a " (as_mm ? thousandths(a, "a") : a)
    text = "x " (as_mm ? thousandths(x, "x") : x) ", y " (as_mm ? thousandths(y, "y") : y)
    if (!is_flat) text = text ", height " (as_mm ? thousandths(z, "z") : z)
    return text (has_a && !as_mm ? ", a " a : "")
}
