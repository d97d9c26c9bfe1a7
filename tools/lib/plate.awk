# Draws the plate seen from above as SVG: the plot, and around it title, legend, notes, scale bar and sizes. Behind follow.awk, scale.awk,
# rows.awk, plot.awk, marks.awk and dial.awk.
#
# Given: the title in the environment variable TITLE; numbers=1 if the rows of the table stand in the picture as well.

END {
    find_rows()
    find_turns()
    fit()
    shown_rows = numbers ? least(n_rows, 60) : 0
    if (shown_rows) measure_columns(shown_rows)
    height = 640 + (numbers ? 60 + 16 * (shown_rows + (n_rows > 60) + in_mm) : 0)
    begin()
    if (is_alone) draw_alone()
    else draw_table()
    legend()
    list_dial()
    list_notes()
    if (!is_alone) bar()
    sizes()
    if (numbers) list_rows()
    print "</svg>"
}

# The plate, and the figures on it.
function draw_table() {
    print "<g transform=\"scale(0.01)\" fill=\"none\">"
    draw_plot()
    print "</g>"
    take_lines()
    if (numbers) draw_numbers()
    draw_turns()
    draw_places()
}

function draw_plot() {
    draw_grooves()
    if (is_flat) draw_lines("go", 180)
    else {
        draw_travel()
        draw_lines("cut", 240)
    }
    draw_dots()
    draw_arrows()
    draw_holes()
    draw_marks()
}

function begin(    title, what) {
    title = clean(ENVIRON["TITLE"])
    what = is_alone ? "The turntable" : "The plate seen from above"
    print "<svg xmlns=\"http://www.w3.org/2000/svg\" version=\"1.1\" width=\"960\" height=\"" height "\" viewBox=\"0 0 960 " height \
        "\" font-family=\"sans-serif\" font-size=\"13\">"
    print "<title>" (title == "" ? what : escaped(title)) "</title>"
    print "<rect width=\"960\" height=\"" height "\" fill=\"#FFFFFF\"/>"
    print "<rect x=\"20\" y=\"50\" width=\"640\" height=\"490\" fill=\"none\" stroke=\"#BBBBBB\"/>"
    write(20, 34, title == "" ? what : escaped(shortened(title, limit ? 40 : 55)), "font-size=\"20\"")
    if (limit) write(940, 34, "not over after 100,000 clock calls", "text-anchor=\"end\" font-size=\"18\" font-weight=\"bold\" fill=\"#B00020\"")
    else if (title != "") write(940, 34, what, "text-anchor=\"end\" fill=\"#555555\"")
    if (!moved) write(340, 245, "no movement", "text-anchor=\"middle\"")
}

function write(x, y, text, style) { print "<text x=\"" x "\" y=\"" y "\"" (style == "" ? "" : " " style) ">" text "</text>" }

# A line of text without control characters; bytes above 127 stay if they are whole characters of UTF-8, and become ? if not.
function clean(text,    i, n, c, more, good) {
    for (i = 1; i < 256; i++) code[sprintf("%c", i)] = i
    good = ""
    for (i = 1; i <= length(text); i++) {
        c = substr(text, i, 1)
        n = code[c]
        if (more > 0 && (n < 128 || n > 191)) return plain(text)
        if (more > 0) more--
        else if (n > 127) more = n < 194 ? 9 : n < 224 ? 1 : n < 240 ? 2 : n < 245 ? 3 : 9
        if (more == 9) return plain(text)
        good = good (n < 32 || n == 127 ? " " : c)
    }
    return more ? plain(text) : good
}

# The same with ? for every byte above 127.
function plain(text,    i, n, good) {
    for (i = 1; i <= length(text); i++) {
        n = code[substr(text, i, 1)]
        good = good (n > 127 ? "?" : n < 32 || n == 127 ? " " : substr(text, i, 1))
    }
    return good
}

# At most so many characters of a text; the bytes 128 to 191 go on with a character.
function shortened(text, n,    i, b) {
    for (i = 1; i <= length(text); i++) {
        b = code[substr(text, i, 1)]
        if (b < 128 || b > 191) n--
        if (n < 0) return substr(text, 1, i - 1) "..."
    }
    return text
}

function escaped(text) {
    gsub(/&/, "\\&amp;", text)
    gsub(/</, "\\&lt;", text)
    gsub(/>/, "\\&gt;", text)
    gsub(/"/, "\\&quot;", text)
    return text
}

# The legend: only what the plot has, one entry below the other.
function legend(    c, s) {
    at_y_now = 66
    if (is_alone) {
        legend_alone()
        return
    }
    if (is_flat && moved && (has_kind("go") || !has_a)) entry_line("movement", "go", 180, "")
    else {
        if (has_kind("go")) entry_line("tool up", "go", 130, " stroke-dasharray=\"500 400\"")
        if (n_of["cut"]) entry_line("cutting", "cut", 240, "")
        if (n_of["hole"]) entry_mark("drilled hole", "hole")
        if (is_left) entry_mark("tool left down at " said(z, "z"), "left")
    }
    if (has_dots) entry_mark("one step", "dot")
    entry_mark("start", "start")
    entry_mark("end", "end")
    entry_mark("origin", "origin")
    if (has_turns) entry_turn("A turns here")
    if (has_places) entry_figure("3", "record that begins here", "fill=\"#555555\"")
    if (numbers && n_rows) entry_figure("3", "row of the table below", "font-weight=\"bold\" fill=\"#B00020\"")
    if (moved) legend_speeds()
    if (n_of["cut"] + n_of["hole"]) legend_depths()
    print "<path d=\"M36 628h30l-7 -4m7 4l-7 4M36 628v-30l-4 7m4 -7l4 7\" stroke=\"#000000\" fill=\"none\"/>"
    write(71, 632, "x")
    write(20, 605, "y")
}

function legend_alone() {
    if (moved) entry_mark("a turn", "sweep")
    entry_mark("A stood here", "stood")
    entry_mark("start", "start")
    entry_mark("end", "end")
    if (moved) legend_speeds()
}

function has_kind(kind,    i) {
    for (i = 1; i <= n_made; i++) if (substr(made[i], 1, length(kind) + 1) == kind " ") return 1
    return 0
}

function entry(text) {
    write(745, at_y_now + 4, text)
    at_y_now += 25
}

function entry_line(text, kind, width, dashes) {
    print "<g transform=\"scale(0.01)\" fill=\"none\">"
    if (kind == "cut") print "<path d=\"M69000 " at_y_now * 100 "h4000\" stroke=\"#" greys[2] "\" stroke-width=\"1100\" stroke-linecap=\"round\"/>"
    print "<path d=\"M69000 " at_y_now * 100 "h4000\" stroke=\"#333333\" stroke-width=\"" width "\"" dashes "/>"
    print "<path d=\"M71550 " at_y_now * 100 "l-900 -380v760z\" fill=\"#333333\"/>"
    print "</g>"
    entry(text)
}

function entry_mark(text, kind) {
    print "<g transform=\"scale(0.01)\" fill=\"none\">"
    if (kind == "hole") print "<g stroke=\"#000000\" stroke-width=\"154\">" circle(71000, at_y_now * 100, 550, greys[2]) "</g>"
    else if (kind == "dot") print "<path d=\"M71000 " at_y_now * 100 "h0\" stroke=\"#333333\" stroke-width=\"440\" stroke-linecap=\"round\"/>"
    else if (kind == "left") mark_left(71000, at_y_now * 100)
    else if (kind == "stood") print "<path d=\"M71000 " at_y_now * 100 "m0 -800v1600\" stroke=\"#333333\" stroke-width=\"160\"/>"
    else if (kind == "sweep") print "<path d=\"M69500 " at_y_now * 100 "q1500 -900 3000 0\" stroke=\"#333333\" stroke-width=\"180\"/><path d=\"M72500 " at_y_now * 100 "l-860 -80l320 -560z\" fill=\"#333333\"/>"
    else if (kind == "start") mark_start(71000, at_y_now * 100)
    else if (kind == "end") mark_end(71000, at_y_now * 100)
    else mark_origin(71000, at_y_now * 100)
    print "</g>"
    entry(text)
}

function entry_turn(text) {
    turn_arrow(71000, at_y_now * 100, 1)
    entry(text)
}

function entry_figure(figure, text, style) {
    write(707, at_y_now + 4, figure, "font-size=\"11\" " style)
    entry(text)
}

function legend_speeds(    c, names) {
    if (has_a && !(1 in used_colour) && !(2 in used_colour) && !(3 in used_colour) && !(4 in used_colour) && !(5 in used_colour)) return
    split("30 to 199;200 to 499;500 to 999;1,000 to 2,499;2,500 to 10,000", names, ";")
    at_y_now += 8
    write(690, at_y_now + 4, "speed, steps per second")
    at_y_now += 20
    for (c = 1; c <= 5; c++) {
        if (!used_colour[c]) continue
        print "<path d=\"M690 " at_y_now "h40\" stroke=\"#" colours[c] "\" stroke-width=\"3\"/>"
        write(745, at_y_now + 4, names[c])
        at_y_now += 18
    }
}

# The shades in use with the depths that they stand for.
function legend_depths(    s, from, to) {
    at_y_now += 8
    write(690, at_y_now + 4, "depth below the surface, " unit)
    at_y_now += 20
    for (s = 1; s <= n_shades; s++) {
        if (!used_shade[s]) continue
        from = int(up_to[s - 1]) + 1
        to = int(up_to[s])
        if (each_depth) from = to
        print "<path d=\"M694 " at_y_now "h32\" stroke=\"#" grey(s) "\" stroke-width=\"11\" stroke-linecap=\"round\"/>"
        write(745, at_y_now + 4, said(from, "z") (from == to ? "" : " to " said(to, "z")))
        at_y_now += 18
    }
}

# What the board refused and how runs ended, as far as there is room, with the meaning of a reply where the line has room for it.
function list_notes(    k, fits, text) {
    if (n_notes + n_sent == 0) return
    at_y_now += 8
    fits = int((638 - at_y_now) / 17)
    if (n_sent) {
        write_note("sent by the program: " escaped(shortened(sent_text, 12)))
        fits--
    }
    for (k = 1; k <= n_notes; k++) {
        if (k > keep_notes || (k == fits && k < n_notes)) {
            write_note("and " (n_notes - k + 1) " more")
            return
        }
        text = note[k] (note_why[k] == "" ? "" : ", " note_why[k])
        write_note(length(text) <= 42 ? text : note[k])
    }
}

function write_note(text) {
    write(690, at_y_now + 4, text, "class=\"note\" font-size=\"12\"")
    at_y_now += 17
}

# The scale bar: 1, 2 or 5 times a power of ten steps or mm, at most 150 units long.
function bar(    one, digit, power, size) {
    one = wide_x * per["x"]
    power = 0
    while (one * ten_to(power) > 150) power--
    while (one * ten_to(power + 1) <= 150) power++
    digit = one * ten_to(power) * 5 <= 150 ? 5 : one * ten_to(power) * 2 <= 150 ? 2 : 1
    size = rounded(one * ten_to(power) * digit)
    print "<path d=\"M20 556v7h" in_units(size) "v-7\" stroke=\"#000000\" stroke-width=\"1.5\" fill=\"none\"/>"
    write(20, 582, decimal(digit, power) " " unit)
}

function ten_to(power,    n) {
    n = 1
    while (power > 0) {
        n *= 10
        power--
    }
    while (power < 0) {
        n /= 10
        power++
    }
    return n
}

# A digit of a power of ten as a number.
function decimal(digit, power,    text) {
    text = digit ""
    while (power > 0) {
        text = text "0"
        power--
    }
    if (power == 0) return text
    while (power < -1) {
        text = "0" text
        power++
    }
    return "0." text
}

# The words below the plot, one line each: sizes, the deepest place, the height at the end, the surface, and the steps of a mm.
function sizes() {
    words_y = 562
    if (is_alone) {
        sizes_alone()
        return
    }
    word("size in x: " said_with_unit(right - left, "x") ", in y: " said_with_unit(high - low, "y"))
    if (deepest < surface && !is_flat) word("deepest: " said_with_unit(surface - deepest, "z") " below the surface")
    if (!is_flat) word("end height: " said_with_unit(z, "z") (is_left ? ", tool left down" : ""))
    if (surface) word("surface " said_with_unit(surface < 0 ? -surface : surface, "z") (surface < 0 ? " below" : " above") " the start")
    if (in_mm) word("steps per mm: " (per_x == per_y && per_y == per_z ? per_x : per_x ", " per_y ", " per_z) (in_degrees && has_a ? "; per degree: " per["a"] : ""))
}

function sizes_alone() {
    word("A from " said_a(lowest_a) " to " said_a(highest_a) (in_degrees ? "" : " steps") ", at the end " said_a(a))
    word(counted(n_all_turns, "turn", "turns"))
    if (in_degrees) word("steps per degree: " per["a"])
}

function word(text) {
    write(is_alone ? 20 : 200, words_y, text)
    words_y += 17
}

# The rows of the table below the picture, in letters so small that they fit: a letter is about six tenths of its size wide.
function list_rows(    r, y, style) {
    fill_heads()
    style = "font-family=\"monospace\" font-size=\"" in_units(least(1100, int(151000 / length(cells_text())))) "\" xml:space=\"preserve\""
    y = 668
    if (!shown_rows) {
        write(20, y, "the table of measures has no row")
        return
    }
    if (in_mm) {
        write(20, y, units_text(), style)
        y += 16
    }
    fill_heads()
    write(20, y, cells_text(), style)
    for (r = 1; r <= shown_rows; r++) {
        y += 16
        fill_cells(r, 0)
        write(20, y, cells_text(), style)
    }
    if (n_rows > 60) write(20, y + 16, "and " (n_rows - 60) " more")
}
