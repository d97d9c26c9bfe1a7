# Draws what stands on the lines of the plot: arrows, holes, the marks of start, end and origins, and small figures that keep clear of each
# other. Behind plot.awk, in whose measure it draws.

# Arrows show the direction in the middle of a line that is long enough, and now and then along short ones. There is at most one in a
# square, larger if there is much to draw, and 200 in all; a way back over the same line has its arrow at a third.
function draw_arrows(    i, c) {
    arrow_square = n_made > 300 ? 6000 : 2400
    for (i = 1; i <= n_made; i++) {
        if (substr(made[i], 1, 3) != "cut" && substr(made[i], 1, 3) != "go ") continue
        corners_of(i)
        if (is_bent) arrow_on_round(colour(speed))
        else arrow_on(across(at_x[1]), down(at_y[1]), across(at_x[n_at]), down(at_y[n_at]), colour(speed))
        if (n_arrows >= 200) break
    }
    for (c = 1; c <= 5; c++) if (arrows[c] != "") print "<path class=\"arrows\" d=\"" arrows[c] "\" fill=\"#" colours[c] "\"/>"
}

function arrow_on(x1, y1, x2, y2, c,    long, way) {
    long = length_of(x1, y1, x2, y2)
    if (long < 2600) {
        arrow_along(x1, y1, x2, y2, c, long)
        return
    }
    along = 0
    way = x1 " " y1 " " x2 " " y2
    if (way in has_way) return
    has_way[way] = 1
    if (n_at > 2) arrow_on_step(c)
    else if (!arrow_at(x1, y1, x2, y2, 2, c) && long >= 5000) arrow_at(x1, y1, x2, y2, 3, c)
}

# Where steps are drawn, the arrow lies on the piece in the middle, or on one beside it.
function arrow_on_step(c,    k) {
    k = int(n_at / 2)
    if (arrow_on_piece(k, c) || arrow_on_piece(k - 1, c)) return
    arrow_on_piece(k + 1, c)
}

function arrow_on_piece(k, c) {
    if (k < 1 || k >= n_at) return 0
    return arrow_at(across(at_x[k]), down(at_y[k]), across(at_x[k + 1]), down(at_y[k + 1]), 2, c)
}

# On a round way the arrow lies in the middle of its length, along the steps before and behind it; one that is short is as other short ways.
function arrow_on_round(c,    k, long, half, a, b) {
    for (k = 1; k < n_at; k++) long += piece(k, k + 1)
    if (long < 2600) {
        arrow_along(across(at_x[1]), down(at_y[1]), across(at_x[n_at]), down(at_y[n_at]), c, long)
        return
    }
    along = 0
    for (k = 1; k < n_at - 1 && half + piece(k, k + 1) < long / 2; k++) half += piece(k, k + 1)
    if (draws_steps) {
        if (!arrow_on_piece(k, c) && !arrow_on_piece(k - 1, c)) arrow_on_piece(k + 1, c)
        return
    }
    for (a = k; a > 1 && piece(a, k) < 300; a--) continue
    for (b = k + 1; b < n_at && piece(k, b) < 300; b++) continue
    arrow_at(across(at_x[a]), down(at_y[a]), across(at_x[b]), down(at_y[b]), 2, c)
}

# How far two corners lie apart.
function piece(k, m) { return length_of(across(at_x[k]), down(at_y[k]), across(at_x[m]), down(at_y[m])) }

# Short ways that follow each other: an arrow each 100 units, in the direction of the last 50.
function arrow_along(x1, y1, x2, y2, c, long) {
    if (along == 0 || x1 != along_x || y1 != along_y) {
        along = tail = 0
        tail_x = x1
        tail_y = y1
    }
    along_x = x2
    along_y = y2
    along += long
    if (along - tail < 5000) return
    if (along >= 10000 && arrow_at(tail_x, tail_y, x2, y2, 1, c)) along = 0.001
    tail = along
    tail_x = x2
    tail_y = y2
}

# An arrowhead at a fraction of a way, if its square has none.
function arrow_at(x1, y1, x2, y2, parts, c,    long, px, py, ux, uy, square) {
    long = length_of(x1, y1, x2, y2)
    if (long < 1) return 0
    ux = (x2 - x1) / long
    uy = (y2 - y1) / long
    px = x1 + (x2 - x1) / parts + 100 * ux
    py = y1 + (y2 - y1) / parts + 100 * uy
    square = int(px / arrow_square) " " int(py / arrow_square)
    if (square in has_arrow) return 0
    has_arrow[square] = 1
    n_arrows++
    arrows[c] = arrows[c] "M" int(px + 450 * ux + 0.5) " " int(py + 450 * uy + 0.5) \
        "L" int(px - 450 * ux + 380 * uy + 0.5) " " int(py - 450 * uy - 380 * ux + 0.5) \
        "L" int(px - 450 * ux - 380 * uy + 0.5) " " int(py - 450 * uy + 380 * ux + 0.5) "z"
    return 1
}

# Holes: a circle for each place, its shade that of the deepest one there.
function draw_holes(    i, f, n, place, k, s) {
    for (i = 1; i <= n_made; i++) {
        if (substr(made[i], 1, 4) != "hole") continue
        split(made[i], f, " ")
        place = across(f[2]) " " down(f[3])
        if (!(place in hole_depth)) hole_place[++n] = place
        if (surface - f[7] > hole_depth[place]) hole_depth[place] = surface - f[7]
    }
    if (!n) return
    hole_size = size_of_holes(n)
    print "<g class=\"holes\" stroke=\"#000000\" stroke-width=\"" int(hole_size * 0.28 + 0.5) "\">"
    for (k = 1; k <= n; k++) {
        split(hole_place[k], f, " ")
        s = shade(hole_depth[hole_place[k]])
        used_shade[s] = 1
        print circle(f[1], f[2], hole_size, grey(s))
        take(f[1] - hole_size, f[2] - hole_size, f[1] + hole_size, f[2] + hole_size)
    }
    print "</g>"
}

# The radius of the holes: smaller where one stands close to the next.
function size_of_holes(n,    k, f, g, size, apart) {
    size = 550
    for (k = 2; k <= n; k++) {
        split(hole_place[k - 1], f, " ")
        split(hole_place[k], g, " ")
        apart = length_of(f[1], f[2], g[1], g[2])
        size = most(130, least(size, apart * 0.38))
    }
    return int(size)
}

function circle(x, y, radius, fill) { return "<circle cx=\"" x "\" cy=\"" y "\" r=\"" radius "\" fill=\"#" fill "\"/>" }

# The marks, each at a place: origin, start, end, and the tool left down.
function mark_origin(x, y) { print "<path d=\"M" x " " y "m-1300 0h2600m-1300 -1300v2600\" stroke=\"#000000\" stroke-width=\"160\"/>" }
function mark_start(x, y) { print "<path d=\"M" x " " y "m0 -1000l850 1500h-1700z\" fill=\"#117733\" fill-opacity=\"0.7\"/>" }
function mark_end(x, y) { print "<path d=\"M" x " " y "m-950 -950h1900v1900h-1900z\" stroke=\"#CC0000\" stroke-width=\"220\"/>" }
function mark_left(x, y) {
    print "<path class=\"left\" d=\"M" x " " y "m0 -700l700 700l-700 700l-700 -700z\" fill=\"#000000\" stroke=\"#FFFFFF\" stroke-width=\"120\"/>"
}

function draw_marks(    k, f) {
    for (k = 1; k <= n_homes; k++) {
        split(home[k], f, " ")
        mark_origin(across(f[1]), down(f[2]))
        take(across(f[1]) - 1300, down(f[2]), across(f[1]) + 1300, down(f[2]))
        take(across(f[1]), down(f[2]) - 1300, across(f[1]), down(f[2]) + 1300)
    }
    mark_start(across(0), down(0))
    take(across(0) - 300, down(0) - 900, across(0) + 300, down(0))
    take(across(0) - 800, down(0), across(0) + 800, down(0) + 500)
    mark_end(across(x), down(y))
    take(across(x) - 1000, down(y) - 1000, across(x) + 1000, down(y) + 1000)
    if (is_left) mark_left(across(x), down(y))
}

# What small figures keep clear of, in squares of four units.
function take(x1, y1, x2, y2,    i, j) {
    for (i = int(x1 / 400); i <= int(x2 / 400); i++) for (j = int(y1 / 400); j <= int(y2 / 400); j++) taken[i, j] = 1
}

function is_free(x1, y1, x2, y2,    i, j) {
    if (x1 < 2100 || x2 > 65900 || y1 < 5100 || y2 > 53900) return 0
    for (i = int(x1 / 400); i <= int(x2 / 400); i++) for (j = int(y1 / 400); j <= int(y2 / 400); j++) if ((i, j) in taken) return 0
    return 1
}

# Small figures keep clear of all lines too: of a groove as wide as it is, of another line as thin. Of very many lines the first are
# enough.
function take_lines(    i, k, half, last) {
    to_take = 6000
    for (i = 1; i <= n_made && to_take > 0; i++) {
        if (substr(made[i], 1, 3) != "cut" && substr(made[i], 1, 3) != "go ") continue
        corners_of(i)
        half = what == "cut" ? 550 : 0
        last = 1
        for (k = 2; k <= n_at; k++) {
            if (is_bent && k < n_at && piece(last, k) < 400) continue # short pieces of a round way as one
            take_line(across(at_x[last]), down(at_y[last]), across(at_x[k]), down(at_y[k]), half)
            last = k
        }
    }
}

function take_line(x1, y1, x2, y2, half,    n, k, px, py) {
    if ((x1, y1, x2, y2) in has_taken) return
    has_taken[x1, y1, x2, y2] = 1
    n = int(length_of(x1, y1, x2, y2) / 400) + 1
    to_take -= half ? n * 3 : n
    for (k = 0; k <= n; k++) {
        px = x1 + (x2 - x1) * k / n
        py = y1 + (y2 - y1) * k / n
        take(px - half, py - half, px + half, py + half)
    }
}

# Figures near a place, on the first of eight sides that is free, close by or a little farther; nothing if none is. There may be room for
# something in front of them, which begins at figure_x, figure_y.
function figures(text, x, y, style, front,    side, far, w, left_x, top_y) {
    w = width_of(text) * 650 + front
    for (far = 0; far <= 900; far += 900) for (side = 1; side <= 8; side++) {
        left_x = x + (side == 1 || side == 3 ? 700 + far : side == 2 || side == 4 ? -700 - w - far : side < 7 ? -w / 2 : side == 7 ? 1300 + far : -1300 - w - far)
        top_y = y + (side < 3 ? -1500 - far : side < 5 ? 500 + far : side == 5 ? -2200 - far : side == 6 ? 1100 + far : -500)
        if (!is_free(left_x - 200, top_y, left_x + w + 200, top_y + 1000)) continue
        take(left_x - 200, top_y, left_x + w + 200, top_y + 1000)
        figure_x = left_x
        figure_y = top_y
        print "<text x=\"" in_units(left_x + front) "\" y=\"" in_units(top_y + 950) "\" " style ">" text "</text>"
        return 1
    }
    return 0
}

# How many letters a text has; what stands between & and ; is one.
function width_of(text) {
    gsub(/&[^;]*;/, "o", text)
    return length(text)
}

function in_units(n) { return sprintf("%d.%02d", int(n / 100), int(n) % 100) }

# The places of the records at the starts of their movements. Where there are very many, each is shown once.
function draw_places(    k, f, by) {
    for (k = 1; k <= n_begun; k++) {
        by = begun_by[begun[k]]
        if (n_begun > 120 && by in has_place) continue
        split(begun[k], f, " ")
        if (!figures(by, across(f[1]), down(f[2]), "class=\"place\" font-size=\"11\" fill=\"#555555\"")) continue
        has_places = 1
        has_place[by] = 1
    }
}

# The numbers of the rows at their holes and cuts.
function draw_numbers(    r, f, t) {
    for (r = 1; r <= n_rows && r <= 60; r++) {
        split(made[row[r]], f, " ")
        corners_of(row[r])
        for (t = 1; t <= 3; t++) if (number_at(r, f, t == 1 ? 0.5 : t == 2 ? 0.3 : 0.7)) break
    }
}

# A number at a fraction of the way; of a round one, of its corners.
function number_at(r, f, t,    px, py) {
    px = is_bent ? at_x[1 + int((n_at - 1) * t)] : f[2] + (f[5] - f[2]) * t
    py = is_bent ? at_y[1 + int((n_at - 1) * t)] : f[3] + (f[6] - f[3]) * t
    return figures(r, across(px), down(py), "class=\"number\" font-size=\"11\" font-weight=\"bold\" fill=\"#B00020\"")
}
