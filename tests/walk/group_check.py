"""The check at the end line: each fault with its letter and the place that is named, and what lies just inside."""
from case import R, case, lines, refused_at_9, store


def checked(name, why, good, bad):
    """Programs that pass, then programs that are refused, each behind its reply; a refused one leaves the store empty."""
    given, printed = lines("@01"), R("0")
    for records in good:
        more, said = store(*records)
        given, printed = given + more, printed + said
    for reply, records in bad:
        more, said = refused_at_9(reply, *records)
        given, printed = given + more + lines("@0S"), printed + said + R("8")
    case(name, why, given, printed)


def loops(*offsets):
    """Loops one behind the other, each going back so many records."""
    return ["3 1,-%d" % back for back in offsets]


def from_one_place(count, first=1):
    """So many loops one behind the other, all of which start at the same place, `first` records before the first of them."""
    return loops(*range(first, first + count))


checked("check_jump_target", "a: a jump's target is from 0 to the end place: 2 of two records passes, 3 does not",
        [["3 0,2", "133"], ["133", "3 0,1"], ["133", "3 0,-1"], ["3 0,0"]],
        [("Ga0000", ["3 0,3", "133"]), ("Ga0001", ["133", "3 0,2"]), ("Ga0001", ["133", "3 0,-2"]), ("Ga0000", ["3 0,-1"]),
         ("Ga0000", ["3 0,32767"]), ("Ga0000", ["3 0,-32768"])])

checked("check_wait_target", "a: the same for a wait",
        [["233,2", "134"], ["134", "233,-1"], ["233,0"]],
        [("Ga0000", ["233,3", "134"]), ("Ga0001", ["134", "233,-2"]), ("Ga0000", ["233,-1"]), ("Ga0000", ["233,2"])])

checked("check_range_start", "b: a range starts at 0 or later",
        [["133", "3 1,-1"], ["133", "134", "3 1,-2"]],
        [("Gb0000", ["3 1,-1"]), ("Gb0001", ["133", "3 1,-2"]), ("Gb0002", ["133", "134", "3 1,-3"]), ("Gb0001", ["133", "3 1,-32768"])])

checked("check_overlap", "c: two ranges overlap with neither holding the other; 3 2,-1 directly after 3 25,-1 is refused",
        [["133", "3 25,-1", "3 2,-2"], ["133", "134", "3 1,-1", "3 1,-3"], ["133", "3 1,-1", "134", "3 1,-1"],
         ["133", "3 1,-1", "134", "3 1,-3"]],
        [("Gc0002", ["133", "3 25,-1", "3 2,-1"]), ("Gc0004", ["133", "134", "3 1,-2", "135", "3 1,-3"]),
         ("Gc0003", ["133", "134", "3 1,-2", "3 1,-1"]), ("Gc0004", ["133", "134", "3 1,-1", "135", "3 1,-2"])])

seven = ["133"] + from_one_place(7)
checked("check_depth", "d: seven ranges may hold one place, eight may not",
        [seven, seven + ["134", "3 1,-1"]],
        [("Gd0000", seven + ["3 1,-8"]), ("Gd0001", ["134"] + seven + ["3 1,-9"])])

checked("check_jump_into_a_loop", "e: a jump and its target lie in the same ranges: not to a loop's start, body or record from outside",
        [["3 0,3", "133", "3 1,-1"], ["3 0,4", "133", "3 1,-1", "134"]],
        [("Ge0000", ["3 0,1", "133", "3 1,-1"]), ("Ge0000", ["3 0,2", "133", "3 1,-1"]), ("Ge0000", ["3 0,2", "133", "134", "3 1,-2"]),
         ("Ge0002", ["133", "3 1,-1", "3 0,-1"]), ("Ge0002", ["133", "3 1,-1", "3 0,-2"])])

checked("check_jump_out_of_a_loop", "e: nor out of one, be it to the end place",
        [["3 0,1", "3 1,-1"], ["133", "3 0,1", "3 1,-2"], ["133", "3 0,-1", "3 1,-2"]],
        [("Ge0000", ["3 0,2", "3 1,-1"]), ("Ge0000", ["3 0,2", "3 1,-1", "133"]), ("Ge0002", ["133", "134", "3 0,-2", "3 1,-2"])])

checked("check_jump_between_nested", "e: outer and inner range are different ranges",
        [["133", "3 0,3", "134", "3 1,-1", "135", "3 1,-5"]],
        [("Ge0000", ["3 0,1", "134", "3 1,-1", "135", "3 1,-4"]), ("Ge0001", ["133", "3 0,3", "3 1,-2", "135", "3 1,-4"])])

checked("check_wait_and_ranges", "e: the same for a wait, whatever character comes",
        [["233,1", "3 1,-1"], ["233,3", "134", "3 1,-1"]],
        [("Ge0000", ["233,2", "3 1,-1"]), ("Ge0000", ["233,1", "134", "3 1,-1"]), ("Ge0002", ["134", "3 1,-1", "233,-1"])])

more, said = refused_at_9("Ga0001", "133", "3 0,9")
kept, said_kept = store("134")
case("check_empties_the_store", "a program failing its check leaves the store empty; the board goes on",
     lines("@01") + kept + more + lines("@0S", "@0P", "@0i", "135", "9", "@0S"),
     R("0") + said_kept + said + R("8", "0" + "0" * 18, "0", "0", "0", "#", "0"))

# Which place is named.

checked("named_targets", "a: of several targets outside the first is named, of jumps and waits alike, also inside a loop",
        [["3 0,3", "233,2", "133"]],
        [("Ga0000", ["3 0,9", "3 0,9", "233,9"]), ("Ga0001", ["3 0,1", "233,9", "3 0,9"]), ("Ga0002", ["133", "134", "233,3", "3 0,2"]),
         ("Ga0003", ["133", "3 0,1", "3 0,2", "233,-4"]), ("Ga0001", ["133", "3 0,9", "3 1,-2"]), ("Ga0001", ["133", "233,-2", "3 1,-2"]),
         ("Ga0002", ["133", "3 1,-1", "3 0,-3"])])

checked("named_range_starts", "b: of several ranges that start below 0 the first is named, be it the inner or the outer one",
        [["133", "134", "3 1,-2", "3 1,-3"]],
        [("Gb0002", ["133", "134", "3 1,-3", "3 1,-4"]), ("Gb0003", ["133", "134", "3 1,-2", "3 1,-4"]), ("Gb0001", ["133", "3 1,-9", "3 1,-9"]),
         ("Gb0000", ["3 1,-1", "3 1,-1"]), ("Gb0004", ["133", "3 1,-1", "134", "3 1,-1", "3 1,-5"])])

checked("named_later_loop", "c: of two overlapping loops the later one is named, of three the later of each pair and the smallest of these",
        [["133", "134", "3 1,-1", "3 1,-3", "3 1,-4"]],
        [("Gc0003", ["133", "134", "3 1,-1", "3 1,-1"]),
         # 0 to 2, 1 to 4, 3 to 6: each overlaps the next
         ("Gc0004", ["133", "134", "3 1,-2", "135", "3 1,-3", "136", "3 1,-3"]),
         # 0 to 2 and 1 to 6 overlap; 3 to 4 lies inside the latter
         ("Gc0006", ["133", "134", "3 1,-2", "135", "3 1,-1", "136", "3 1,-5"]),
         # 0 to 2, 3 to 4, 4 to 5: the last two overlap
         ("Gc0005", ["133", "134", "3 1,-2", "135", "3 1,-1", "3 1,-1"]),
         # 1 to 2 and 2 to 3 overlap, and 0 to 4 holds both
         ("Gc0003", ["133", "134", "3 1,-1", "3 1,-1", "3 1,-4"]),
         # 0 to 3 is overlapped by 1 to 5 and by 2 to 4, and 1 to 5 holds 2 to 4
         ("Gc0004", ["133", "134", "135", "3 1,-3", "3 1,-2", "3 1,-4"]),
         # 2 to 3 is held by 1 to 4, and 3 to 5 overlaps both
         ("Gc0005", ["133", "134", "135", "3 1,-1", "3 1,-3", "3 1,-2"])])

checked("named_held_place", "d: the held place itself is named, be it no loop: a character, a jump, or a loop where only the loops hold it",
        [["134"] + seven, ["133", "134"] + from_one_place(6) + ["3 1,-8"]],
        [("Gd0000", ["133"] + from_one_place(8)), ("Gd0002", ["133", "134", "135"] + from_one_place(8)), ("Gd0000", ["3 0,0"] + from_one_place(8)),
         ("Gd0000", ["233,0"] + from_one_place(9)),
         # starts 7, 6, .. 0 and ends 8, 9, .. 15: only from place 7 on all eight hold a place
         ("Gd0007", ["133"] * 8 + loops(*range(1, 17, 2))),
         # seven start at place 0, the eighth at 1, where one more record lies: from 1 on there are eight, and neither is a loop
         ("Gd0001", ["133", "134", "3 1,-1"] + from_one_place(7, 3))])

checked("named_across_ranges", "e: of several the first is named, a wait as a jump; the end place lies in no range",
        [["233,1", "3 0,-1", "3 1,-2"], ["133", "3 1,-1", "233,1"]],
        [("Ge0000", ["3 0,3", "233,2", "3 1,-2"]), ("Ge0001", ["233,1", "233,2", "3 1,-2"]), ("Ge0002", ["133", "3 1,-1", "233,-1", "3 0,-3"]),
         ("Ge0001", ["133", "233,1", "134", "3 1,-1"]), ("Ge0003", ["133", "134", "3 1,-1", "233,-1", "3 1,-4"]),
         ("Ge0000", ["233,2", "134", "3 1,-1", "3 1,-3"])])

DEEP = from_one_place(8)
checked("named_smallest_place", "whatever the letters are, the smallest place is named: each letter in front of each other one",
        [],
        [("Ga0000", ["3 0,9", "3 1,-2"]), ("Ga0000", ["3 0,9", "133", "3 1,-1", "3 1,-1"]), ("Ga0000", ["3 0,99", "133"] + DEEP),
         ("Ga0000", ["3 0,9", "3 0,1", "133", "3 1,-1"]),
         ("Gb0000", ["3 1,-1", "3 0,9"]), ("Gb0001", ["133", "3 1,-2", "134", "3 1,-1", "3 1,-1"]), ("Gb0000", ["3 1,-1", "133"] + DEEP),
         ("Gb0001", ["133", "3 1,-2", "3 0,1", "134", "3 1,-1"]),
         ("Gc0002", ["133", "3 1,-1", "3 1,-1", "3 0,9"]), ("Gc0002", ["133", "3 1,-1", "3 1,-1", "3 1,-4"]),
         ("Gc0002", ["133", "3 1,-1", "3 1,-1", "134"] + DEEP), ("Gc0002", ["133", "3 1,-1", "3 1,-1", "3 0,-1"]),
         ("Gd0000", ["133"] + DEEP + ["3 0,9"]), ("Gd0000", ["133"] + DEEP + ["3 1,-99"]), ("Gd0000", ["133"] + DEEP + ["3 1,-1"]),
         ("Gd0000", ["133"] + DEEP + ["3 0,-1"]),
         ("Ge0000", ["3 0,1", "133", "3 1,-1", "3 0,9"]), ("Ge0000", ["3 0,1", "133", "3 1,-1", "3 1,-4"]),
         ("Ge0000", ["3 0,1", "133", "3 1,-1", "3 1,-1"]), ("Ge0000", ["3 0,1", "133"] + DEEP)])

checked("named_earlier_letter", "at one place the earlier letter is named: a before d, b before d, c before d, d before e; a target outside is a alone",
        [],
        [("Ga0000", ["3 0,99"] + DEEP), ("Ga0001", ["133", "233,-2"] + DEEP), ("Ga0000", ["3 0,3", "3 1,-1"]), ("Ga0000", ["233,-1", "3 1,-1"]),
         ("Gb0000", ["3 1,-1"] + from_one_place(7)), ("Gb0002", ["133", "134", "3 1,-3"] + from_one_place(7)),
         ("Gc0002", ["133", "3 1,-1", "3 1,-1"] + from_one_place(7)),
         ("Gd0000", ["3 0,9"] + DEEP), ("Gd0001", ["133", "233,-1"] + DEEP), ("Gd0001", ["133", "3 0,9"] + DEEP)])

checked("named_below_zero", "a range that starts below 0 holds the places from 0 on all the same: for e and d of smaller places than its own, which is b",
        [],
        [("Ge0000", ["3 0,3", "z0", "3 1,-5"]), ("Ge0001", ["133", "233,2", "3 1,-9"]), ("Gb0002", ["3 0,1", "z0", "3 1,-5"]), ("Gb0002", ["3 0,2", "z0", "3 1,-5"]),
         ("Ge0000", ["233,3", "z0", "3 1,-32768", "134"]), ("Ge0001", ["3 0,1", "3 0,3", "3 1,-3", "3 1,-4"]),
         ("Gd0000", seven + ["3 1,-9"]), ("Gd0000", ["133"] + from_one_place(8, 2)), ("Gb0001", ["133"] + from_one_place(7, 2)),
         ("Gb0008", seven[:-1] + ["134", "3 1,-32768"]),
         ("Gd0001", ["134"] + seven + ["3 1,-10"])])

checked("named_digits", "the place has four digits: of two and of three digits it has zeros in front",
        [["133"] * 120],
        [("Ga0009", ["133"] * 9 + ["3 0,2"]), ("Ga0010", ["133"] * 10 + ["3 0,2"]), ("Gb0042", ["133"] * 42 + ["3 1,-43"]),
         ("Gc0087", ["133"] * 85 + ["3 1,-2", "134", "3 1,-2", "3 1,-90"]),
         ("Gd0099", ["133"] * 100 + DEEP), ("Ge0100", ["133"] * 99 + ["3 1,-9", "233,-3", "134"]), ("Ga0109", ["133"] * 109 + ["233,-110"])])

checked("named_full_targets", "a program of 1,000 records: the end place 1000 is a target, 1001 is not; the last record may be a wait",
        [["133"] * 999 + ["3 0,1"]],
        [("Ga0999", ["133"] * 999 + ["3 0,2"]), ("Ga0999", ["133"] * 999 + ["233,-1000"]), ("Ga0000", ["3 0,1001"] + ["133"] * 999),
         ("Ge0999", ["133"] * 998 + ["3 1,-1", "3 0,-1"]), ("Ge0999", ["133"] * 997 + ["3 1,-1", "134", "233,-2"])])

checked("named_full_ranges", "a program of 1,000 records: a range of all of them passes, one more is b; 992 is the last place that eight loops can hold",
        [["133"] * 999 + ["3 1,-999"]],
        [("Gb0999", ["133"] * 999 + ["3 1,-1000"]), ("Gc0999", ["133"] * 998 + ["3 1,-998", "3 1,-1"]), ("Gc0999", ["133"] * 500 + ["3 1,-1"] + ["134"] * 498 + ["3 1,-499"]),
         ("Gd0991", ["133"] * 992 + DEEP), ("Gd0992", ["133"] * 992 + ["3 1,-1"] + from_one_place(7))])

more, said = refused_at_9("Gc0002", "133", "3 25,-1", "3 2,-1")
kept, said_kept = store("134")
case("named_and_bare", "G from S is one character, also directly before and after a refusal with letter and place; then the store is empty: 8",
     lines("@01") + kept + lines("@03", "@0S", "@0S") + more + lines("@0S", "@01", "@0S") + kept + lines("@07", "@0S", "@01", "@0S"),
     R("0") + said_kept + R("0", "G", "G") + said + R("8", "0", "8") + said_kept + R("0", "G", "0", '"', "0"))

more, said = refused_at_9("Ga0001", "133", "3 0, 5", "134")
case("named_then_mended", "after the refusal lines are direct ones again; the program mended and sent whole is run",
     lines("@01") + more + lines("9", "134", "@0P") + lines("@0i", "133", "3 0, 2", "134", "9", "@0S"),
     R("0") + said + R("5", "5", "0" + "0" * 18) + R("0", "0", "0", "0", "0", "!", "0"))

given = lines("@01", "@0i", "133", "3 0,5", "132", "x", "3 0,-2", "9", "@0S")
case("named_by_stored_places", "refused records have no place: the place is that among the records that are stored",
     given, R("0", "0", "0", "0", "1", "5", "0", "Ga0001", "8"))
