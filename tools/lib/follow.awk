# Follows the stream that the program calls prints, and keeps what the table and the tool did. It draws and prints nothing: plate.awk
# and measure.awk do, from what is kept here.
#
# Given: surface, the height of the plate in steps above the start (0 if it is not given); in front of the stream the lines that were sent,
#   each as `A number text`.
# Kept: x y z a, the table counted from the start, by the pulses alone;
#   made[1..n_made], in the order of happening, fields parted by spaces:
#     go, cut or turn x1 y1 z1 x2 y2 z2 speed record pass line, and for a sloping way the corners of its pulses, three numbers each; a turn is a
#     way of A that does not go aside in x and y, with the tool up, and in the plate it is a cut;
#     hole or left x y top x y bottom 0 record pass line; record and pass are - for a movement that was sent as a line;
#   from_a[i], to_a[i] of a thing made[i]: where A stood at its ends; goes_on[i] if it goes on with the way before it, parted from it at the
#   surface;
#   lowest_of[i], slopes[i] of a way made[i]: its lowest z, and whether z changes on it; arc_of[i] if it is an arc: centre in x, y and z, start
#     from there on both axes of its plane, plane, direction; or ? if its line is not known; the points of a round way are in round.awk;
#   left right low high, the extent in x and y; deepest, the lowest z in the plate; has_x, has_z, has_a, whether x, z and A were ever set;
#   moved, any pulse;
#   home[1..n_homes], places that were the origin; begun[1..n_begun], places where records began to move, and begun_by[place];
#   note[1..n_notes], what the board refused and how runs ended, and note_why[1..n_notes], what that means; sent_text, the characters that
#   programs sent; limit, the last run was not over when the clock calls were. Behind
#   state.awk, replies.awk, turns.awk and circles.awk.

BEGIN {
    surface += 0
    x = y = z = a = left = right = low = high = deepest = bottom = off_x = off_y = has_x = has_z = has_a = moved = limit = n_made = n_notes = 0
    top = surface > 0 ? surface : 0
    low_record = low_pass = low_line = "-"
    low_a = 0
    keep_notes = 60
    keep_sent = 40
    record = pass = "-"
    origin_at(0, 0)
}

/^A / { line_text[$2] = substr($0, length($2) + 4); next }
$0 == "B -" { next }
$0 == "Q over" { limit = 0; next }
$0 == pulse { count++; fresh = 1; next }
/^C Pulse/ {
    pulses(count)
    pulse = $0
    count = 1
    fresh = 1
    dx = sign(substr($3, 1, 1))
    dy = sign(substr($3, 2, 1))
    dz = sign(substr($3, 3, 1))
    da = sign(substr($3, 4, 1))
    speed = $4
    next
}
/^T / { tick(); fresh = 0; next }
{
    pulses(count)
    count = fresh = 0
}
/^C / { answer = $2; byte = $3; next }
/^N / { line = $2; limit = 0; next }
/^B / { reply($2); next }
/^S / { state(); limit = 0; next }
$0 == "Q more" { limit = 1; next }

END { # awk runs the ENDs in the order of the files, so this one comes before those that draw and print
    pulses(count)
    close_way()
    if (z < surface) {
        is_left = 1
        if (bottom < top) add_stay("left")
    }
    if (running && !limit) still_running()
}

function sign(c) { return c == "+" ? 1 : c == "-" ? -1 : 0 }

# A line T: behind a pulse, that pulse is the first of its phase, and of a record if the places before and after the call differ; behind
# another answer it says what is now at work.
function tick() {
    if (fresh) {
        pulses(count - 1)
        close_way()
        run_is($3)
        if ($3 == "Direct") begin_line()
        else if ($5 != $7) begin_record($5 + 0)
        pulses(1)
    } else {
        run_is($3)
        answered($3, $5 + 0)
    }
    count = 0
    origin_at($9 + off_x, $10 + off_y)
}

# What an answer that is no pulse was, and the record's place that it came to. A movement without a step is a pass of its record as well.
function answered(job, from) {
    if (answer == "Done") {
        passes[from]++
        setting(from)
    }
    if (answer != "Send") return
    if (job == "Idle") {
        run_is("Ready") # it may have ended with its first call
        end_run(sprintf("%c", byte + 0))
    } else sent(sprintf("%c", byte + 0))
}

# A phase of a movement that was sent as a line.
function begin_line() {
    record = pass = "-"
    arc = arc_from(circle_line(line_text[run_line], 0))
}

# The first phase of a record's movement begins a pass.
function begin_record(place,    at) {
    record = place
    pass = ++passes[place]
    arc = arc_from(circle_at[place])
    at = x " " y
    if (!(at in begun_by)) {
        begun[++n_begun] = at
        begun_by[at] = place
    } else if (index("," begun_by[at] ",", "," place ",") == 0 && length(begun_by[at]) < 24)
        begun_by[at] = begun_by[at] "," place
}

# A job is seen at work; where none was, this line of the file began it.
function run_is(job) {
    if (job == "Idle" || job == "Storing" || running) return
    close_way()
    running = job == "Direct" ? "movement" : "run"
    run_line = line
    split("", passes)
}

# The end of what ran, by a reply, or by none for a reset. The 0 of a movement that was sent as a line is not worth a note.
function end_run(by) {
    if (running == "run" || by != "0") add_note(running " of line " run_line " ended " (by == "" ? "by a reset" : "with " by), why_ended(by))
    running = ""
}

function why_ended(by) { return by == "F" ? "a break" : by == "9" ? "out of range" : by == "3" ? "axis not set" : by == "1" ? "wrong way" : "" }

function still_running() {
    if (standing) add_note(running " of line " run_line " stands stopped", "")
    else if (job_now == "Wait") add_note("run of line " run_line " waits for a character", "")
    else add_note(running " of line " run_line " is not over", "")
}

# A reply to a byte. An F says stop or break; the state behind it tells which. A 0 while storing is that of a record.
function reply(text) {
    if (text == "F") held = 1
    else if (refuses(text)) add_note("line " line ": " text, why_refused(text, job_now == "Storing"))
    else if (text == "0" && job_now == "Storing") keep_circle(records, line_text[line])
}

# A line S: what is at work, and where the positions and the origin lie on the table.
function state(    job, at) {
    job = $behind("job")
    standing = $behind("standing") + 0
    if (held && standing) add_note("line " line ": F", "stopped")
    if (job != "Idle" && job != "Storing") run_is(job)
    else if (running && held) end_run("F")
    else if (running) end_run("")
    held = 0
    job_now = job
    records = $behind("records") + 0
    plane = $behind("plane") + 0
    direction = $behind("direction") + 0
    axes = $behind("axes") + 0
    if (axes % 8) has_x = 1
    if (axes % 8 == 7) has_z = 1
    if (is_turning(axes)) has_a = 1
    at = behind("position")
    off_x = x - $at
    off_y = y - $(at + 1)
    at = behind("origin")
    origin_at($at + off_x, $(at + 1) + off_y)
}

function add_note(text, why) {
    n_notes++
    if (n_notes > keep_notes) return
    note[n_notes] = text
    note_why[n_notes] = why
}

function sent(character) {
    n_sent++
    if (n_sent <= keep_sent) sent_text = sent_text character
}

function origin_at(ox, oy) {
    if (n_homes && ox == home_x && oy == home_y) return
    home_x = ox
    home_y = oy
    widen(ox, oy)
    if ((ox, oy) in homes) return
    homes[ox, oy] = 1
    home[++n_homes] = ox " " oy
}

function widen(px, py) {
    if (px < left) left = px
    if (px > right) right = px
    if (py < low) low = py
    if (py > high) high = py
}

# The next n pulses alike, parted where the tool comes to the surface: a pulse is in the plate if either of its ends is.
function pulses(n,    k) {
    if (n < 1) return
    moved = 1
    if (dz == 0) {
        stretch(n, z < surface)
        return
    }
    k = dz < 0 ? z - surface : surface - z
    if (k > n) k = n
    if (k < 0) k = 0
    stretch(k, dz > 0)
    stretch(n - k, dz < 0)
}

# Pulses alike, all in the plate or none.
function stretch(n, inside,    was_open) {
    if (n < 1) return
    if (!open || inside != cuts) {
        was_open = open
        close_way()
        open_way(inside)
        parted = was_open
    }
    if (!aside && (dx || dy || da)) {
        aside = 1
        leaves_at = lowest
    }
    if (dx || dy) shifts = 1
    if (dz) slope = 1
    corner()
    x += n * dx
    y += n * dy
    z += n * dz
    a += n * da
    widen(x, y)
    if (z < lowest) lowest = z
    if (z < deepest && inside) deepest = z
}

# A corner of the way is kept where the direction changes. Beyond 160 steps both ways no step of a straight way is wide enough to be drawn,
# and none is kept. Where A alone steps, the tool stays where it is.
function corner() {
    if (!dx && !dy && !dz) return
    if (headed && dx == last_dx && dy == last_dy && dz == last_dz) return
    if (headed && turns_round()) round_corner()
    else if (headed && n_corners < 600 && (right - left <= 160 || high - low <= 160)) {
        n_corners++
        corners = corners " " x " " y " " z
    } else if (headed) n_corners = 601
    headed = 1
    last_dx = dx
    last_dy = dy
    last_dz = dz
    last_da = da
}

function open_way(inside) {
    open = 1
    cuts = inside
    way_speed = speed
    aside = shifts = slope = 0
    x1 = x
    y1 = y
    a1 = a
    z1 = lowest = z
    corners = ""
    n_corners = headed = 0
    round_begins()
}

# The way since the phase began, or since the tool came to the surface. One that goes aside is a line, as one of A is on the work that it
# turns; one that does not is down or up.
function close_way() {
    if (!open) return
    open = 0
    if (!aside) {
        upright()
        return
    }
    if (bottom < top && bottom < leaves_at) add_stay("hole")
    made[++n_made] = (cuts ? "cut" : shifts ? "go" : "turn") " " x1 " " y1 " " z1 " " x " " y " " z " " way_speed " " by_whom() (n_corners < 601 ? corners : "")
    from_a[n_made] = a1
    to_a[n_made] = a
    if (parted) goes_on[n_made] = 1
    lowest_of[n_made] = lowest
    slopes[n_made] = slope
    if (arc != "" || is_round) arc_of[n_made] = arc == "" ? "?" : arc
    keep_round(n_made)
    top = bottom = z
}

# Down or up at one place. A hole is where the tool went deeper than it came and than it goes on: top is the height at which it came, or
# the surface, and bottom the lowest since.
function upright() {
    if (!cuts) {
        top = bottom = z
        return
    }
    if (z < bottom) {
        bottom = z
        low_record = record
        low_pass = pass
        low_line = run_line
        low_a = a
    }
    if (z < surface) return
    if (bottom < top) add_stay("hole")
    top = bottom = z
}

function by_whom() { return record " " pass " " run_line }

# A hole at the place where the tool stands or stood last, or the tool left in the plate. A way aside that has just ended began there.
function add_stay(what,    px, py) {
    px = aside ? x1 : x
    py = aside ? y1 : y
    made[++n_made] = what " " px " " py " " top " " px " " py " " bottom " 0 " low_record " " low_pass " " low_line
    from_a[n_made] = to_a[n_made] = low_a
}
