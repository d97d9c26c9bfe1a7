# Draws where A stood and how it turned: marks along the way, and a dial. Behind plot.awk and marks.awk, in whose measure it draws; plate.awk
# calls it.
#
# The board counts steps of A and knows no turn. If the steps of a degree are known, the dial is a round one with 0 at its top and goes
# clockwise; if not, it is a gauge from the lowest place of A on its left to the highest on its right.
#
# Made: stood[1..n_stood], the places of A, each once; worked[a], something was made there; lowest_a, highest_a;
#   turning[1..n_turning], the places in x and y where A turned, and turns_at, turn_by, uneven of each.

# A way that was parted at the surface is one turn, from where its first part began.
function find_turns(    i, from) {
    if (!has_a) return
    stands(0)
    for (i = 1; i <= n_made; i++) {
        if (made[i] ~ /^(hole|cut|left) / && from_a[i] == to_a[i]) worked[from_a[i]] = 1
        if (!(i in goes_on)) from = from_a[i]
        if (from == to_a[i] || (i + 1) in goes_on) continue
        stands(to_a[i])
        turns_from(i, to_a[i] - from)
    }
}

function stands(v) {
    if (v in stood_at) return
    stood_at[v] = 1
    stood[++n_stood] = v
    if (v < lowest_a) lowest_a = v
    if (v > highest_a) highest_a = v
}

# A turn belongs to the place where the tool is at its end.
function turns_from(i, by,    f, at) {
    n_all_turns++
    split(made[i], f, " ")
    at = f[5] " " f[6]
    if (!(at in turns_at)) {
        turning[++n_turning] = at
        turn_by[at] = by
    }
    turns_at[at]++
    if (turn_by[at] != by) uneven[at] = 1
}

# So many steps of A, as the picture says them.
function said_a(v,    minus, n) {
    if (!in_degrees) return sprintf("%d", v)
    minus = v < 0 ? "-" : ""
    n = int((v < 0 ? -v : v) * 100 / per["a"] + 0.5)
    return (n == 0 ? "" : minus) hundredths(n) "&#176;"
}

function turn_text(at) {
    if (uneven[at]) return "a: " turns_at[at] " turns"
    return "a " (turn_by[at] > 0 ? "+" : "") said_a(turn_by[at]) (turns_at[at] > 1 ? ", " turns_at[at] " times" : "")
}

# A mark near each place where A turned, as far as there is room; one for all turns at a place.
function draw_turns(    k, f) {
    for (k = 1; k <= n_turning && k <= 60; k++) {
        split(turning[k], f, " ")
        if (!figures(turn_text(turning[k]), across(f[1]), down(f[2]), "class=\"turn\" font-size=\"11\" fill=\"#005F73\"", 1300)) continue
        has_turns = 1
        turn_arrow(figure_x + 550, figure_y + 550, uneven[turning[k]] || turn_by[turning[k]] > 0)
    }
}

# A small round arrow about a place: clockwise for a turn forward.
function turn_arrow(x, y, forward,    side) {
    side = forward ? 1 : -1
    print "<g stroke=\"none\" fill=\"none\"><path d=\"M" in_units(x - 400 * side) " " in_units(y) "a4 4 0 1 " (forward ? 1 : 0) " " 4 * side " 4\" stroke=\"#005F73\" stroke-width=\"1.4\"/>" \
        "<path d=\"M" in_units(x - 380 * side) " " in_units(y + 400) "l" 4.4 * side " -3v6z\" fill=\"#005F73\"/></g>"
}

# ---- the dial

# The angle of a place of A on the dial, in degrees clockwise from the top.
function angle_of(v) {
    if (in_degrees) return v / per["a"]
    return highest_a == lowest_a ? 0 : -135 + 270 * (v - lowest_a) / (highest_a - lowest_a)
}

# The sine of degrees, by its series, since an awk may have been built without sin. It is as exact as is drawn.
function sine(degrees,    t, term, sum, k) {
    degrees -= 360 * int(degrees / 360)
    if (degrees > 180) degrees -= 360
    if (degrees < -180) degrees += 360
    if (degrees > 90) degrees = 180 - degrees
    if (degrees < -90) degrees = -180 - degrees
    t = degrees * 3.14159265358979 / 180
    term = sum = t
    for (k = 2; k < 16; k += 2) {
        term = -term * t * t / (k * (k + 1))
        sum += term
    }
    return sum
}
function cosine(degrees) { return sine(degrees + 90) }

# A point of the dial, so far from its centre.
function dial_x(angle, far) { return rounded(dial_mid_x + far * sine(angle)) }
function dial_y(angle, far) { return rounded(dial_mid_y - far * cosine(angle)) }
function dial_point(angle, far) { return dial_x(angle, far) " " dial_y(angle, far) }

# An arc about the dial's centre, from one angle to another, at most once around; in two parts, for one alone could not be a full one.
function dial_arc(from, to, far,    half) {
    if (to - from > 360) to = from + 360
    if (to - from < -360) to = from - 360
    half = "A" far * 100 " " far * 100 " 0 0 " (to > from ? 1 : 0) " "
    return "M" dial_point(from, far) half dial_point((from + to) / 2, far) half dial_point(to, far)
}

function draw_dial(x, y, far, size) {
    dial_mid_x = x
    dial_mid_y = y
    print "<g class=\"dial\" transform=\"scale(0.01)\" fill=\"none\">"
    print "<path d=\"" (in_degrees ? dial_arc(0, 360, far) : dial_arc(-135, 135, far)) "\" stroke=\"#BBBBBB\" stroke-width=\"150\"/>"
    if (size > 1) draw_sweeps(far)
    else draw_rings(far)
    draw_stands(far, size)
    print "</g>"
}

# Where the tool was in the plate while A turned.
function draw_rings(far,    i) {
    for (i = 1; i <= n_made; i++) {
        if (made[i] !~ /^cut / || from_a[i] == to_a[i]) continue
        print "<path class=\"ring\" d=\"" dial_arc(angle_of(from_a[i]), angle_of(to_a[i]), far) "\" stroke=\"#" greys[4] "\" stroke-width=\"500\"/>"
    }
}

# How A turned, in the colours of the speeds: forward on an outer line, back on an inner one.
function draw_sweeps(far,    i, key) {
    for (i = 1; i <= n_made; i++) {
        if (from_a[i] == to_a[i]) continue
        split(made[i], part, " ")
        used_colour[colour(part[8])] = 1
        key = colour(part[8]) " " from_a[i] " " to_a[i]
        if (key in has_sweep || ++n_sweeps > 200) continue
        has_sweep[key] = 1
        sweep(angle_of(from_a[i]), angle_of(to_a[i]), far - (to_a[i] > from_a[i] ? 16 : 28), colours[colour(part[8])])
    }
}

# An arc, with an arrowhead if there is room for one. It ends a little before its place, so that each has its own.
function sweep(from, to, far, ink,    way, tip, back) {
    way = to > from ? 1 : -1
    tip = to - way * least(2, (to - from) * way / 8)
    print "<path class=\"sweep\" d=\"" dial_arc(from, tip, far) "\" stroke=\"#" ink "\" stroke-width=\"180\"/>"
    if ((to - from) * way * far < 800) return
    back = tip - way * 500 / far
    print "<path d=\"M" dial_point(tip, far) "L" dial_point(back, far + 4) "L" dial_point(back, far - 4) "z\" fill=\"#" ink "\"/>"
}

# A line across the ring where A stood, and a hole where something was made; then the start and the end.
function draw_stands(far, size,    k, at, long) {
    long = 4 * size
    for (k = 1; k <= n_stood && k <= 720; k++) {
        at = angle_of(stood[k])
        print "<path class=\"stood\" d=\"M" dial_point(at, far - long) "L" dial_point(at, far + long) "\" stroke=\"#333333\" stroke-width=\"160\"/>"
    }
    for (k = 1; k <= n_stood && k <= 720; k++) {
        at = angle_of(stood[k])
        if (stood[k] in worked) print "<g stroke=\"#000000\" stroke-width=\"110\">" circle(dial_x(at, far), dial_y(at, far), 350, greys[2]) "</g>"
    }
    if (size < 2) return
    mark_start(dial_x(angle_of(0), far), dial_y(angle_of(0), far))
    mark_end(dial_x(angle_of(a), far), dial_y(angle_of(a), far))
}

# The places beside their lines, outside the ring, as far as there is room: the start and the end, then the others, of very many each fifth
# or tenth.
function label_stands(far,    k, each) {
    each = n_stood <= 36 ? 1 : n_stood <= 150 ? 5 : 10 * int(n_stood / 300 + 1)
    label_stand(0, far)
    label_stand(a, far)
    for (k = 1; k <= n_stood; k += each) label_stand(stood[k], far)
}

function label_stand(v, far,    at, text, w, x, y) {
    at = angle_of(v)
    text = said_a(v)
    w = 700 * width_of(text)
    x = dial_x(at, far + 22) - w / 2 + sine(at) * w / 2
    y = dial_y(at, far + 22) - 500
    if (!is_free(x - 200, y, x + w + 200, y + 1000)) return
    take(x - 200, y, x + w + 200, y + 1000)
    print "<text x=\"" in_units(x) "\" y=\"" in_units(y + 950) "\" class=\"stands\" font-size=\"12\">" text "</text>"
}

# With A alone the dial is the picture.
function draw_alone() {
    draw_dial(mid_x, mid_y + 5, 160, 2)
    label_stands(160)
    write(mid_x, mid_y, "a", "text-anchor=\"middle\" font-size=\"20\" fill=\"#555555\"")
    write(mid_x, mid_y + 22, in_degrees ? "degrees" : "steps", "text-anchor=\"middle\" fill=\"#555555\"")
}

# In the list at the side: the dial and what it shows; only in words where there is no room for it.
function list_dial(    fits) {
    if (!has_a || is_alone) return
    at_y_now += 8
    fits = at_y_now + 112 + (n_notes + n_sent ? 34 : 0) <= 638
    write(690, at_y_now + 4, "where A stood, " (in_degrees ? "degrees" : "steps") (fits ? "" : ": " said_a(lowest_a) " to " said_a(highest_a)))
    at_y_now += 17
    if (!fits) return
    draw_dial(735, at_y_now + 44, 34, 1)
    write(790, at_y_now + 22, "start " said_a(0))
    write(790, at_y_now + 40, "end " said_a(a))
    write(790, at_y_now + 58, counted(n_all_turns, "turn", "turns"))
    if (lowest_a < least(0, a) || highest_a > most(0, a)) write(790, at_y_now + 76, "from " said_a(lowest_a) " to " said_a(highest_a))
    at_y_now += 90
}
