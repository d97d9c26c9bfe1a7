# What follow.awk keeps of circles, and plot.awk draws of them. On a straight way one axis moves at every pulse; where two pulses that follow
# each other have no axis in common, the way is round.
#
# Kept: round_from[i] and round_to[i] of a thing made[i] that is round, the first and the last of its points round_x, round_y, round_z: where
#   its direction changes, but for those closer to the last one than half a unit of the picture can be; closed[i], if it came back to
#   its first point: from there on it repeats itself, and no more is kept.

function round_begins() { is_round = is_closed = 0 }

# Whether a pulse has no axis in common with the last one.
function turns_round() { return is_round || !(dx && last_dx || dy && last_dy || dz && last_dz || da && last_da) }

# The direction changes here.
function round_corner() {
    if (is_closed) return
    if (!is_round) {
        is_round = 1
        first_round = n_round + 1
    } else if (x == round_x[first_round] && y == round_y[first_round] && z == round_z[first_round]) is_closed = 1
    else if (!is_apart(x - round_x[n_round], right - left, 1152) && !is_apart(y - round_y[n_round], high - low, 852)) return
    n_round++
    round_x[n_round] = x
    round_y[n_round] = y
    round_z[n_round] = z
}

function is_apart(way, extent, parts) { return way * parts > extent || -way * parts > extent }

# The way is kept as the thing made[i].
function keep_round(i) {
    if (!is_round) return
    round_from[i] = first_round
    round_to[i] = n_round
    if (is_closed) closed[i] = 1
}

# Whether a point is drawn: where steps are small, only if it is half a unit from the last one that is.
function is_drawn(k) {
    return draws_steps || is_apart(round_x[k] - at_x[n_at], 1, 2 * wide_x) || is_apart(round_y[k] - at_y[n_at], 1, 2 * wide_y)
}

# A record that sets the plane or the direction of circles. At the end of the run the state says the same.
function setting(from) {
    if (circle_at[from] ~ /^e/) plane = substr(circle_at[from], 3) + 0
    if (circle_at[from] ~ /^f/) direction = substr(circle_at[from], 3) + 0
}

# An arc that begins here: its centre lies by its start from here.
function arc_from(circle,    u, v) {
    if (!is_arc(circle)) return ""
    u = arc_part[5]
    v = arc_part[6]
    return (plane < 2 ? x - u : x) " " (plane == 0 ? y - v : plane == 2 ? y - u : y) " " (plane > 0 ? z - v : z) " " u " " v " " plane " " direction
}

# A circle and the A axis have words of their own where they are short.
function why_refused(text, storing,    circle) {
    circle = circle_line(line_text[line], storing)
    if (text == "3" && !storing && line_text[line] ~ /@0+8$/) return "A takes @07 first"
    if (text == "3" && is_arc(circle)) return "plane with an axis not set"
    if (text == "1" && !storing && is_arc(circle) && arc_fault(0, direction) ~ / the directions are /) return "wrong directions"
    return meaning(text, storing)
}
