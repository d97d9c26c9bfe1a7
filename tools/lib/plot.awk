# Draws what lies in the plot: grooves, ways, arrows, holes, marks and small figures. Places are in hundredths of a unit of the picture.
# Behind follow.awk, scale.awk and rows.awk; plate.awk calls it.

BEGIN {
    mid_x = 340
    mid_y = 295
    room_x = 576
    room_y = 426
    split("333333 7B3294 2B5FD9 1B9E77 D55E00", colours, " ")
    split("E6E6E6 D2D2D2 BDBDBD A8A8A8 939393", greys, " ")
}

# The scale: the same length for a step, or for a mm, in x and y, so that all of it fits; a step is at most 40 units wide.
function fit(    scale) {
    scale = least(40 * per["x"], 40 * per["y"])
    if (right > left) scale = least(scale, room_x * per["x"] / (right - left))
    if (high > low) scale = least(scale, room_y * per["y"] / (high - low))
    wide_x = scale / per["x"]
    wide_y = scale / per["y"]
    draws_steps = most(wide_x, wide_y) >= 4
    find_shades()
}

function least(a, b) { return a < b ? a : b }
function most(a, b) { return a > b ? a : b }
function rounded(v) { return int(v * 100 + 0.5) }
function across(v) { return rounded(mid_x + (v - (left + right) / 2) * wide_x) }
function down(v) { return rounded(mid_y - (v - (low + high) / 2) * wide_y) }

# The length of a line.
function length_of(x1, y1, x2, y2) { return root_of(x2 - x1, y2 - y1) }

function colour(speed) { return speed < 200 ? 1 : speed < 500 ? 2 : speed < 1000 ? 3 : speed < 2500 ? 4 : 5 }

# The shades: one for each depth if there are at most five and no cut slopes in z, else five equal parts of the deepest. up_to[1..n_shades]
# are the depths that they reach.
function find_shades(    i, f, k, deep) {
    deep = surface - deepest
    for (i = 1; i <= n_made; i++) {
        if (made[i] ~ /^(go|turn) /) continue
        split(made[i], f, " ")
        if (f[1] == "cut" && slopes[i]) break
        if (!add_depth(surface - f[7])) break
    }
    each_depth = i > n_made
    if (each_depth) return
    n_shades = least(5, deep)
    for (k = 1; k <= n_shades; k++) up_to[k] = deep * k / n_shades
}

# One depth more among those that have a shade, in their order; 0 if there are five already.
function add_depth(depth,    k) {
    for (k = 1; k <= n_shades; k++) if (up_to[k] == depth) return 1
    if (n_shades == 5) return 0
    for (k = ++n_shades; k > 1 && up_to[k - 1] > depth; k--) up_to[k] = up_to[k - 1]
    up_to[k] = depth
    return 1
}

# The shade of a depth, and its grey: few shades are spread over the five greys.
function shade(depth,    s) {
    for (s = 1; s < n_shades && up_to[s] < depth; s++) continue
    return s
}
function grey(s) { return greys[int((s - 0.5) * 5 / n_shades) + 1] }

# The corners of a thing that is drawn: of its pulses if it is round or steps are drawn as they are, else its two ends. at_x, at_y, at_z
# [1..n_at].
function corners_of(i,    f, n, k) {
    n = split(made[i], f, " ")
    what = f[1]
    speed = f[8] + 0
    n_at = 0
    is_bent = i in round_from
    corner_at(f[2], f[3], f[4])
    if (is_bent) {
        for (k = round_from[i]; k <= round_to[i]; k++) if (k == round_to[i] || is_drawn(k)) corner_at(round_x[k], round_y[k], round_z[k])
    } else if (draws_steps) for (k = 12; k < n; k += 3) corner_at(f[k], f[k + 1], f[k + 2])
    if (!(i in closed)) corner_at(f[5], f[6], f[7])
}

function corner_at(x, y, z) {
    at_x[++n_at] = x + 0
    at_y[n_at] = y + 0
    at_z[n_at] = z + 0
}

function path_end(attributes) { print "\" " attributes "/>" }

# Grooves: a wide grey band under each cut, the shallow ones first.
function draw_grooves(    i, k, s) {
    for (i = 1; i <= n_made; i++) {
        if (substr(made[i], 1, 3) != "cut") continue
        corners_of(i)
        for (k = 1; k < n_at; k++) groove(k)
    }
    for (s = 1; s <= 5; s++) {
        if (!n_bands[s]) continue
        print "<path d=\""
        for (k = 1; k <= n_bands[s]; k++) print band[s, k]
        path_end("stroke=\"#" grey(s) "\" stroke-width=\"1100\" stroke-linecap=\"round\" stroke-linejoin=\"round\"")
    }
}

# The groove between two corners, parted where the shade changes.
function groove(k,    a, b, from, to, s, last, step) {
    a = surface - at_z[k]
    b = surface - at_z[k + 1]
    s = shade(a)
    last = shade(b)
    from = 0
    step = last > s ? 1 : -1
    while (s != last) {
        to = (up_to[step > 0 ? s : s - 1] - a) / (b - a)
        add_band(s, k, from, to)
        from = to
        s += step
    }
    add_band(s, k, from, 1)
}

# A part of the groove between two corners, from one fraction of the way to another. On a round way it is joined to the part before.
function add_band(s, k, from, to,    x1, y1, x2, y2, place) {
    if (to == from) return
    x1 = across(at_x[k] + (at_x[k + 1] - at_x[k]) * from)
    y1 = down(at_y[k] + (at_y[k + 1] - at_y[k]) * from)
    x2 = across(at_x[k] + (at_x[k + 1] - at_x[k]) * to)
    y2 = down(at_y[k] + (at_y[k + 1] - at_y[k]) * to)
    place = s " " x1 " " y1 " " x2 " " y2
    if (place in has_band) return
    has_band[place] = 1
    band[s, ++n_bands[s]] = (is_bent && band_end[s] == x1 " " y1 ? "" : "M" x1 " " y1) "L" x2 " " y2
    band_end[s] = x2 " " y2
    used_shade[s] = 1
}

# Ways in the plate, or on a plate without z: solid lines.
function draw_lines(kind, width,    i, k) {
    for (i = 1; i <= n_made; i++) {
        if (substr(made[i], 1, length(kind) + 1) != kind " ") continue
        corners_of(i)
        for (k = 1; k < n_at; k++) add_line(colour(speed), across(at_x[k]), down(at_y[k]), across(at_x[k + 1]), down(at_y[k + 1]))
    }
    for (i = 1; i <= 5; i++) {
        if (!n_lines[i]) continue
        print "<path class=\"" kind "\" d=\""
        for (k = 1; k <= n_lines[i]; k++) print solid[i, k]
        path_end("stroke=\"#" colours[i] "\" stroke-width=\"" width "\" stroke-linecap=\"round\" stroke-linejoin=\"round\"")
    }
}

# A solid line, if it has not been drawn; where it goes on from the last one of its colour, it is joined to it.
function add_line(c, x1, y1, x2, y2,    way) {
    way = c " " x1 " " y1 " " x2 " " y2
    used_colour[c] = 1
    if (is_bent && x1 == x2 && y1 == y2) return
    if (way in has_line || (c " " x2 " " y2 " " x1 " " y1) in has_line) return
    has_line[way] = 1
    solid[c, ++n_lines[c]] = (line_end[c] == x1 " " y1 ? "" : "M" x1 " " y1) "L" x2 " " y2
    line_end[c] = x2 " " y2
}

# Travel with the tool up: dashed. Ways that follow each other are one line, so that the dashes go on over short ones.
function draw_travel(    i, k) {
    for (i = 1; i <= n_made; i++) {
        if (substr(made[i], 1, 3) != "go ") continue
        corners_of(i)
        used_colour[colour(speed)] = 1
        for (k = 1; k < n_at; k++) travel_straight(at_x[k], at_y[k], at_x[k + 1], at_y[k + 1])
    }
    pen_up()
}

# A straight way: only what no earlier travel on the same straight line has covered, so that dashes never fill each other's gaps. The parts
# covered are kept for each straight line as pairs of numbers; beyond 400 numbers they are no more looked at.
function travel_straight(x1, y1, x2, y2,    dx, dy, g, key, from, to, part, n, k) {
    dx = x2 - x1
    dy = y2 - y1
    if (dx == 0 && dy == 0) return
    g = common(dx < 0 ? -dx : dx, dy < 0 ? -dy : dy)
    if (dx < 0 || (dx == 0 && dy < 0)) g = -g
    dx /= g
    dy /= g
    key = dx " " dy " " sprintf("%.0f", dx * y1 - dy * x1 + 0)
    from = dx != 0 ? x1 : y1
    to = dx != 0 ? x2 : y2
    n = split(covered[key], part, " ")
    if (n > 400) {
        travel(x1, y1, x2, y2)
        return
    }
    n_free = 1
    free_from[1] = least(from, to)
    free_to[1] = most(from, to)
    for (k = 1; k < n; k += 2) take_away(part[k] + 0, part[k + 1] + 0)
    covered[key] = joined(part, n, least(from, to), most(from, to))
    draw_free(x1, y1, dx, dy, from, to)
}

function common(a, b,    t) {
    while (b) {
        t = a % b
        a = b
        b = t
    }
    return a
}

# The free parts without one that is covered.
function take_away(a, b,    k, n) {
    n = n_free
    for (k = 1; k <= n; k++) {
        if (b <= free_from[k] || a >= free_to[k]) continue
        if (b < free_to[k]) {
            free_from[++n_free] = b
            free_to[n_free] = free_to[k]
        }
        free_to[k] = most(free_from[k], least(a, free_to[k]))
    }
}

# The covered parts with one more, those that touch made one.
function joined(part, n, a, b,    k, text) {
    for (k = 1; k < n; k += 2) {
        if (part[k] + 0 > b || part[k + 1] + 0 < a) text = text part[k] " " part[k + 1] " "
        else {
            a = least(a, part[k] + 0)
            b = most(b, part[k + 1] + 0)
        }
    }
    return text a " " b
}

# The free parts of a way, in the way's own direction. They are given by x, or by y where x stands still.
function draw_free(x1, y1, dx, dy, from, to,    k, a, b) {
    for (k = 1; k <= n_free; k++) {
        if (free_to[k] <= free_from[k]) continue
        a = from < to ? free_from[k] : free_to[k]
        b = from < to ? free_to[k] : free_from[k]
        if (dx == 0) travel(x1, a, x1, b)
        else travel(a, y1 + (a - from) * dy / dx, b, y1 + (b - from) * dy / dx)
    }
}

# The pen goes from one place to another; it is set down anew where it does not stand, and for another colour.
function travel(x1, y1, x2, y2,    c) {
    c = colour(speed)
    x1 = across(x1)
    y1 = down(y1)
    x2 = across(x2)
    y2 = down(y2)
    if (!pen_down || pen_colour != c || pen_x != x1 || pen_y != y1) {
        pen_up()
        printf "<path class=\"go\" d=\"M%d %d", x1, y1
        pen_down = 1
        pen_colour = c
        pen_length = 0
    }
    printf "L%d %d\n", x2, y2
    pen_length += length_of(x1, y1, x2, y2)
    pen_x = x2
    pen_y = y2
}

# The end of a dashed line. Nine units are a dash and its gap; a line shorter than three of them gets shorter ones.
function pen_up(    dash) {
    if (!pen_down) return
    pen_down = 0
    dash = least(900, most(180, pen_length / 3))
    path_end("stroke=\"#" colours[pen_colour] "\" stroke-width=\"130\" stroke-dasharray=\"" int(dash * 5 / 9) " " int(dash * 4 / 9) "\"")
}

# Where a step is wide enough, a dot for each place that a pulse led to.
function draw_dots(    i, k) {
    if (least(wide_x, wide_y) < 12) return
    for (i = 1; i <= n_made; i++) {
        if (substr(made[i], 1, 3) != "cut" && substr(made[i], 1, 3) != "go ") continue
        corners_of(i)
        for (k = 1; k < n_at; k++) dots_between(k)
    }
    for (i = 1; i <= 5; i++) if (dots[i] != "") {
        has_dots = 1
        print "<path class=\"steps\" d=\"" dots[i]
        path_end("stroke=\"#" colours[i] "\" stroke-width=\"440\" stroke-linecap=\"round\"")
    }
}

# The pulses between two corners are all alike, so the steps are as many as the longer axis has.
function dots_between(k,    n, j, place) {
    n = most(most(at_x[k + 1] - at_x[k], at_x[k] - at_x[k + 1]), most(at_y[k + 1] - at_y[k], at_y[k] - at_y[k + 1]))
    for (j = 1; j <= n; j++) {
        place = across(at_x[k] + (at_x[k + 1] - at_x[k]) * j / n) " " down(at_y[k] + (at_y[k + 1] - at_y[k]) * j / n)
        if (place in has_dot) continue
        has_dot[place] = 1
        dots[colour(speed)] = dots[colour(speed)] "M" place "h0"
    }
}
