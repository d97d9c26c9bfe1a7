# What the check at the end line of a program has found, in words. Behind replies.awk, for told.awk, stored.awk and join.awk, which tell of
# every stored record.
#
# Kept: line_of[place], the line of the file that stored the record; back_to[place] of a loop, the first place of its range;
#   leads_to[place] of a jump or a wait. What a record says is read from its line; one that was sent byte by byte is in neither.

function keep_record(place, number, line, part) {
    line_of[place] = number
    delete back_to[place]
    delete leads_to[place]
    if (line !~ /^[23] ?-?[0-9]+, ?-?[0-9]+$/) return
    split(substr(line, 2), part, ",")
    if (line ~ /^3/ && part[1] + 0 > 0) back_to[place] = place + part[2]
    else leads_to[place] = place + part[2]
}

function record_at(place) {
    return "record " place (place in line_of ? " (line " line_of[place] ")" : "")
}

# The record that a reply names, and what is wrong there.
function fails(reply) {
    return meaning("G", 1) " at " record_at(substr(reply, 3) + 0) ": " fault_at(substr(reply, 2, 1))
}

function fault_at(letter) {
    if (letter == "a") return "it leads outside the program"
    if (letter == "b") return "its loop starts before the first record"
    if (letter == "c") return "its loop and an earlier one overlap"
    if (letter == "d") return "more than seven loops hold it"
    return "it leads into a loop, or out of one"
}

# More about the fault that a reply names, in a program of so many records, and how to mend it; nothing where the lines do not show it.
function fault_found(reply, count, letter, place) {
    letter = substr(reply, 2, 1)
    place = substr(reply, 3) + 0
    if (letter == "a") return leads_outside(place, count)
    if (letter == "b") return starts_early(place)
    if (letter == "c") return crosses(place)
    if (letter == "d") return held_often(place, count)
    return leads_across(place, count)
}

function leads_outside(place, count) {
    if (!(place in leads_to)) return ""
    return "its offset " (leads_to[place] - place) " leads from place " place " to place " leads_to[place] "; it may lead to places 0 to " count ", the last of them is the end place"
}

function starts_early(place) {
    if (!(place in back_to)) return ""
    return "it goes back " (place - back_to[place]) (place - back_to[place] == 1 ? " record" : " records") ", and " records_before(place)
}

function records_before(place) {
    if (place == 0) return "none stands before it: put what it repeats in front of it"
    return place (place == 1 ? " stands" : " stand") " before it: let it go back " place " at most"
}

function crosses(place, i) {
    if (!(place in back_to)) return ""
    for (i = place - 1; i >= 0; i--)
        if (i in back_to && back_to[i] < back_to[place] && back_to[place] <= i)
            return "it repeats " range_of(place) ", and " record_at(i) " repeats " range_of(i) ": let one hold the other, or let them stand apart"
    return ""
}

# The places that a loop holds; before the first record there is none.
function first_of(place) {
    return back_to[place] < 0 ? 0 : back_to[place]
}

function range_of(place) {
    return "records " first_of(place) " to " place
}

function holds(i, place) {
    return i in back_to && back_to[i] <= place && place <= i
}

function held_often(place, count, i, n, first, last) {
    for (i = place; i < count; i++) if (holds(i, place)) {
        if (++n == 1) first = i
        last = i
    }
    if (n < 8) return ""
    return n " loops hold it, the first is " record_at(first) ", the last is " record_at(last) ": take one away, or let one start behind it"
}

# The first loop that holds only one of the record and its target; the end place lies in none.
function leads_across(place, count, to, i) {
    if (!(place in leads_to)) return ""
    to = leads_to[place]
    for (i = 0; i < count; i++) {
        if (!holds(i, place) && to < count && holds(i, to)) return "it leads to place " to " in " loop_at(i) ": let it lead to a place before that loop or behind it, or stand in it too"
        if (holds(i, place) && (to == count || !holds(i, to))) return "it stands in " loop_at(i) ", and leads out of it to place " to ": let it lead to a place from " first_of(i) " to " i
    }
    return ""
}

function loop_at(i) {
    return "the loop of " record_at(i) ", which holds " range_of(i)
}
