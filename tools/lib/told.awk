# What the board did, for a person, under each line of the file that it answers, behind state.awk, replies.awk, turns.awk, circles.awk and
# fault.awk: awk .. -f told.awk LINES STREAM. LINES is what sent.awk wrote of the file, STREAM what `calls` printed. -v scale="x y z a": the
# steps of a mm on each axis and of a degree, without a or empty; -v pulses=1 shows every pulse.
BEGIN {
    split(scale, per, " ")
    split("x y z a", axis, " ")
    axes = 0
    job = "Idle"
}

FNR == NR {
    text[$1] = substr($0, length($1) + 2)
    if (length(text[$1]) > width) width = length(text[$1])
    if (width > 40) width = 40
    next
}

# A pulse waits for the line behind it, which may say that it begins a phase.
held != "" && $1 != "T" { step() }
$1 == "N" { mark($2) }
$1 == "B" && $2 != "-" { reply(substr($0, 3)) }
$1 == "C" && $2 == "Pulse" { held = $3; rate = $4 }
$1 == "C" && $2 != "Pulse" { answer = $2; value = $3 }
$1 == "T" { told($3, $5, $7, $9 " " $10 " " $11 " " $12) }
$1 == "Q" { unfinished = $2 == "more" }
$1 == "L" { say("  " ($2 ~ /^(G|102|103|106)$/ ? "refused " : "") $2) }
$1 == "S" { state() }

END {
    mark("")
    if (unfinished) print "not over after 100,000 clock calls: no more is sent"
    print "end: " place(at[1], at[2], at[3]) (is_turning(axes) ? turned(at[4]) : "")
}

# The next line of the file begins.
function mark(number) {
    settle()
    if (current != "" && !headed) head("")
    current = number
    headed = 0
    storing = job == "Storing"
    if (number != "" && running() && text[number] !~ /^(clock|list|ports|stop|break|reset|byte)/) head("dropped: something runs")
}

function running() {
    return !standing && job != "Idle" && job != "Storing" && job != "Wait"
}

# The line with its number, and what it is answered.
function head(words, shown) {
    shown = sprintf("%4d  %s", current, text[current])
    if (words != "") {
        while (length(shown) < width + 6) shown = shown " "
        shown = shown "  " words
    }
    print shown
    headed = 1
}

# Something that happened under the line.
function say(words) {
    settle()
    if (!headed) head("")
    print "        " words
}

function reply(sent, words) {
    settle()
    words = sent
    if (length(sent) == 19 || length(sent) == 25) words = sent "  " positions(sent)
    else if (refuses(sent)) words = sent "  " reason(sent)
    else if (sent == "0" && storing && text[current] !~ /^9/) words = sent "  record " stored()
    if (headed) say(words)
    else head(words)
    if (names_fault(sent)) explain(sent)
}

# The place of the record that has just been stored; it is kept with its line of the file.
function stored() {
    keep_record(records, current, text[current])
    keep_circle(records, text[current])
    return records
}

# Under a program that was refused at its end line: more about the fault, and what to do.
function explain(sent, more) {
    more = fault_found(sent, records)
    if (more != "") say(more)
    say("the store is empty now: mend the program and send all of it again")
}

function reason(sent, words) {
    words = circle_refused(sent, circle_line(text[current], storing), storing, plane, direction)
    if (words == "") words = turn_refused(sent, text[current], storing, axes, store_axes)
    if (words != "") return words
    if (sent == "F") return text[current] ~ /^(break|byte 0*255)/ ? "ended" : "stopped, and stands"
    if (names_fault(sent)) return fails(sent)
    if (sent == "G" && storing) return meaning(sent, storing) ", and the store is empty now"
    if (sent == "5" && (!headed || text[current] ~ /[ \t]$/)) return misshapen(text[current], storing) # else only the rest of the line was read
    return meaning(sent, storing)
}

function hex(digits, i, n) {
    for (i = 1; i <= 6; i++) n = n * 16 + index("0123456789ABCDEF", substr(digits, i, 1)) - 1
    return n > 8388607 ? n - 16777216 : n
}

# What P sends: x, y and z, and with four axes a. With A alone it does not say a.
function positions(sent, words) {
    words = place(hex(substr(sent, 2, 6)), hex(substr(sent, 8, 6)), hex(substr(sent, 14, 6)))
    if (length(sent) == 25) return words turned(hex(substr(sent, 20, 6)))
    return words (is_turning(axes) ? ", and not where a is" : "")
}

# A place, or with signs a distance: each axis in steps, and in mm or degrees where their steps are known.
function place(x, y, z) {
    return "x " x mm(x, 1) ", y " y mm(y, 2) ", z " z mm(z, 3)
}
function turned(a) {
    return ", a " a mm(a, 4)
}
function mm(n, i, shown) {
    if (per[i] == "" || n == 0) return ""
    shown = sprintf("%.3f", n / per[i] + (n > 0 ? 1e-9 : -1e-9))
    sub(/0+$/, "", shown)
    sub(/\.$/, "", shown)
    return " (" shown (i == 4 ? " degrees)" : " mm)")
}

# The pulse that waits is made. A movement that was held goes on with it.
function step(i, sign) {
    if (open == 2) open = 1
    for (i = 1; i <= 4; i++) {
        sign = substr(held, i, 1)
        sign = sign == "+" ? 1 : sign == "-" ? -1 : 0
        way[i] += sign
        at[i] += sign
    }
    made++
    if (pulses) {
        if (!named) under(movement(what, pass, pass) ":")
        named = 1
        print "          " substr(held, 1, is_turning(axes) ? 4 : 3) " " rate
    }
    speed = rate
    held = ""
}

# The job after a call, the next record's place before and after it, and the origin. Behind a pulse they say that it begins a phase, and if the
# places differ, that it begins a record.
function told(now, from, next_place, origin, was) {
    was = job
    works(now)
    if (held != "") {
        if (open && from == next_place) phase()
        else begin(from)
        step()
    } else answered(was, from, next_place, origin)
    home = origin
    if (now == "Idle") idle()
}

# The job at work; one that was sent as a line began under this line.
function works(now) {
    if (now == "Direct" && job != "Direct") sent_line = current
    job = now
}

# Nothing runs: the passes of the next run are counted anew.
function idle() {
    settle()
    open = 0
    split("", passes)
    split("", settings)
}

function begin(from) {
    close_movement()
    show_pause()
    open = 1
    named = 0
    what = job == "Direct" ? "direct" : from
    pass = ++passes[what]
    arc = job == "Direct" ? circle_line(text[sent_line], 0) : circle_at[from]
    arc_plane = plane
    arc_direction = direction
}

# A phase of the movement is over, or as much of it as was made under this line. A circle is one phase.
function phase(i, words, is_back) {
    if (made == 0) return
    for (i = 1; i <= 4; i++) {
        if (way[i] != 0) words = words (words == "" ? "" : ", ") axis[i] " " (way[i] > 0 ? "+" : "") way[i] mm(way[i], i)
        way[i] = 0
    }
    is_back = words == ""
    if (is_back) words = "back where it began"
    if (is_arc(arc)) phases = arc_words(made, is_back, radius(arc_part[5], arc_part[6]), arc_direction, arc_plane, speed) ": " words
    else phases = phases (phases == "" ? "" : "; ") words " at " speed
    made = 0
}

# In mm only if both axes have the same steps.
function radius(u, v, size, i) {
    size = root_of(u, v)
    i = index("xyz", plane_axis(arc_plane, 1))
    return decimals(size) (per[i] == per[index("xyz", plane_axis(arc_plane, 2))] ? mm(size, i) : "")
}

# The movement is over, or as far as it shows under this line. Equal passes that follow each other are one line.
function close_movement() {
    if (open == 1) {
        phase()
        if (kept && what != "direct" && what == kept_what && phases == kept_phases && pass == kept_last + 1) kept_last = pass
        else {
            show_kept()
            kept = !pulses
            kept_what = what
            kept_phases = phases
            kept_first = kept_last = pass
        }
        phases = ""
    }
    open = 0
}

function movement(record, first, last) {
    if (record == "direct") return "moves"
    return "record " record (first == last ? ", pass " first : ", passes " first " to " last)
}

function show_kept() {
    if (kept) under(movement(kept_what, kept_first, kept_last) ": " kept_phases)
    kept = 0
}

function show_pause() {
    if (pauses) under("record " pause_record ": a pause of " pauses / 10 " s")
    pauses = 0
}

# Whatever is not printed yet. A movement under way is held, and may go on under the next line.
function settle(was) {
    was = open
    close_movement()
    show_kept()
    show_pause()
    if (was) open = 2
    named = 0
}

function under(words) {
    if (!headed) head("")
    print "        " words
}

# An answer without a pulse, and the job before it. A delay's first pause has its record's place behind `from`, the others the next one.
function answered(was, from, next_place, origin) {
    close_movement()
    if (answer == "Pause") {
        show_kept()
        if (pause_record != next_place - 1) show_pause()
        pause_record = next_place - 1
        pauses++
    } else if (answer == "Send") {
        value = sprintf("%c", value + 0)
        say(job == "Idle" ? value "  " ending(was, from) : "record " from " sends " value)
    } else if (answer == "Done") {
        passes[from]++ # a movement without a step is a pass of its record too
        show_pause()
        if (origin != home) say("record " from ": the origin is moved here")
        setting(from)
    }
}

# A record that sets the plane or the direction of the circles behind it. In a loop it is told once.
function setting(from, part, words) {
    if (circle_at[from] !~ /^[ef]/) return
    split(circle_at[from], part, " ")
    if (part[1] == "e") plane = part[2]
    else direction = part[2]
    words = part[1] == "e" ? "plane " plane_axis(plane, 1) ", " plane_axis(plane, 2) : turn_words(direction)
    if (settings[from] == "") say("record " from ": " words)
    settings[from] = words
}

function ending(was, from, words) {
    if (value == "0") return was == "Direct" ? "the movement is made" : "the program has reached its end"
    words = circle_refused(value, circle_at[from], 0, plane, direction)
    if (words != "") return "record " from ": " words ": the program ends"
    if (value == "9") return "the next movement would leave the range of positions: the program ends"
    if (value == "3") return "a plane needs an axis that is not set: the program ends"
    if (value == "1") return "the directions of a circle do not fit its start: the program ends"
    return "the store cannot be read: the program ends, and the store is empty now"
}

# The state behind a line.
function state(i, p) {
    settle()
    axes = $behind("axes") + 0
    store_axes = $behind("store_axes") + 0
    p = behind("position")
    for (i = 1; i <= 4; i++) at[i] = $(p + i - 1)
    p = behind("origin")
    home = $p " " $(p + 1) " " $(p + 2) " " $(p + 3)
    works($behind("job"))
    standing = $behind("standing")
    records = $behind("records")
    plane = $behind("plane")
    direction = $behind("direction")
    if (text[current] ~ /^clock/ && !headed) say("nothing to do")
    if (job == "Wait") say("it waits for a character")
    if (running() && text[current] ~ /^clock/) say("it is still running")
    if (job == "Idle" && !standing) idle()
    unfinished = 0
}
