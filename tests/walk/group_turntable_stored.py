"""The A axis in programs: storing under 8 and 15, running, and stores of other axes."""
from case import P, R, T, all_reply, case, lines, store

S = lines("@0S")
FOUR = lines("@07", "@08")


def a(steps, speed=900):
    """The pulses of A."""
    return P([0, 0, 0, steps], speed)


def ran(name, why, records, printed, axes=FOUR, end="0 0 0 0", before=b"", said=[], then=b""):
    """A program stored under the axes and started once, after some lines and their replies."""
    given, zeros = store(*records)
    case(name, why, axes + given + before + S + then, ["R 0"] * axes.count(b"\r") + zeros + said + printed, end)


ran("turntable_program", "four axes in a program: phases, n8 and the target from A's origin, 3D from the next record on",
    ["0 1,600,1,700,1,800,1,900", "n8", "m 0,600,0,700,0,800,2,900", "z1", "0 1,30,0,40,-1,50,-1,60", "n 7", "m0,30,0,40,0,50,-2,60"],
    P([1, 1, 0, 0], 600) + P([0, 0, 1, 0], 800) + a(1) + P([-1, -1, 0, 0], 600) + P([0, 0, -1, 0], 800) + a(2) + P([1, 0, -1, -1], 30) + a(-3, 30) + ["R 0"], end="1 0 -1 -1")

ran("turntable_program_alone", "A alone in a program, at its own speed in 2.5D and in 3D",
    ["0 2,600", "n8", "m-1,700", "z 1", "0 1,800", "133"], a(2, 600) + a(-1, 700) + a(1, 800) + R("!", "0"), lines("@08"), "0 0 0 2")

ran("turntable_loop", "a movement of A in a loop, between other records",
    ["0 0,600,0,700,0,800,1,900", "1 64", "3 2,-2"], (a(1) + ["R @"]) * 3 + ["R 0"], end="0 0 0 3")

ran("turntable_program_again", "what a program has set stays: A's origin and 3D; started again it goes on from there",
    ["m 0,600,0,700,0,800,1,900", "n8", "z1"], a(1) + ["R 0"] + a(1, 600) + ["R 0"], end="0 0 0 2", then=S)

ran("turntable_program_without_pulse", "a movement without a distance takes its call and no pulse",
    ["0 0,600,0,700,0,800,0,900", "m0,30,0,30,0,30,0,30"], ["R 0"])

ran("turntable_program_nine", "9 where A would end outside 24 bits, when the record is run: no pulse of it, and the store is kept",
    ["0 0,600,0,700,0,800,1,900", "0 1,600,0,700,0,800,8388607,900"], a(1) + R("9", "0") + a(1) + ["R 9"], end="0 0 0 1", then=lines("@0N8") + S)

ran("turntable_program_nine_alone", "the same with A alone, by its origin",
    ["0 1,600", "n8", "m8388607,600"], a(1, 600) + ["R 9"], lines("@08"), "0 0 0 1")

ran("turntable_circle_stored", "arcs in a program of four axes: in every plane, with A elsewhere",
    ["0 0,600,0,700,0,800,-1,900", "f-1", "y2,600,0,2,0,-1,1", "e2", "f0", "y2,700,0,0,1,1,-1"],
    a(-1) + T("y+ x-", axes="xyza") + T("y+ z-", 700, "xyza") + ["R 0"], end="-1 2 -1 -1")

ran("turntable_circle_stored_alone", "a stored y meets 3 when it is run with A alone, in every plane, also of no length; e and f are taken",
    ["133", "e1", "f -1", "y0,600,0,1,0,-1,1", "134"], R("!", "3", "0", "!", "3"), lines("@08"), then=lines("@0e0") + S)

case("turntable_storing_refusals", "while storing under four axes: 7, 3, 1 and D as for lines; the target of A need not be 0; an axes line is 5",
     FOUR + lines("@0i", "0 1,600", "0 1,600,1,600,1,600", "m 1,600,1,600,1,600,1,600,1", "n9", "n15", "n0", "n16", "n8,8", "0 0,600,0,600,0,600,8388608,600", "m 0,600,0,600,0,600,-8388609,29",
                  "0 0,600,0,600,0,600,0,29", "m 0,600,0,600,0,600,8388607,600", "n8", "n7", "n1", "@08", "@0n8", "9"),
     R("0", "0", "0", "7", "7", "7", "3", "3", "3", "3", "7", "1", "1", "D", "0", "0", "0", "0", "5", "5", "0"), "0 0 0 0")

case("turntable_storing_alone", "while storing with A alone: two numbers, and n takes 8 alone",
     lines("@08", "@0i", "0 1,600,1,600", "0 1", "0 1,600,1,600,1,600,1,600", "n1", "n7", "n9", "n 8", "0 8388608,29", "m-8388608,29", "m-8388608,30", "9", "@0P"),
     R("0", "0", "7", "7", "7", "3", "3", "3", "0", "1", "D", "0", "0", "0" + "0" * 18), "0 0 0 0")

case("turntable_storing_three", "while storing with three axes: n does not take 8, and an absolute z2 must be 0",
     lines("@07", "@0i", "n8", "m0,600,0,600,0,600,1,600", "9"), R("0", "0", "3", "1", "0"))

case("turntable_storing_changes_nothing", "records of A change nothing while they are stored",
     FOUR + lines("@0A0,600,0,600,0,600,2,600", "@0i", "n8", "z1", "9", "@0M0,600,0,600,0,600,0,900"), R("0", "0") + a(2, 600) + R("0", "0", "0", "0", "0") + a(-2) + ["R 0"], "0 0 0 0")

given, zeros = store("0 1,600,0,700,0,800,1,900")
case("turntable_start_under_four", "a program of three axes is G under four, 8 behind 7 keeps it; under 7 it runs again",
     lines("@07") + given + lines("@08", "@0S", "@08", "@0S", "@07", "@0S"), ["R 0"] + zeros + R("0", "G", "0", "G", "0") + P([1, 0, 0], 600) + P([0, 0, 1], 900) + ["R 0"], "1 0 1")

case("turntable_start_under_three", "a program of four axes is G under three, under A alone and under others; under four it runs again",
     FOUR + given + lines("@07", "@0S", "@01", "@0S", "@03", "@0S") + b"\xfe" + lines("@0S", "@08", "@0S", "@07", "@08", "@0S"),
     R("0", "0") + zeros + R("0", "G", "0", "G", "0", "G", "4", "0", "G", "0", "0") + P([1, 0, 0, 0], 600) + a(1) + ["R 0"], "1 0 0 1")

given, zeros = store("0 1,600")
case("turntable_start_alone", "a program of A alone is G under 1 and under four; one of x is G with A alone; an empty one is 8 before G",
     lines("@08") + given + lines("@01", "@0S", "@07", "@08", "@0S") + b"\xfe" + lines("@08", "@0S", "@01") + given + lines("@0S") + b"\xfe" + lines("@08", "@0S", "@0k", "@0S"),
     ["R 0"] + zeros + R("0", "G", "0", "0", "G", "0") + a(1, 600) + R("0", "0") + zeros + P([1, 0, 0], 600) + R("0", "0", "G", "0", "8"), "0 0 0 0")

ran("turntable_wait_and_break", "a wait between movements of A; a break in it keeps the positions reached",
    ["0 0,600,0,700,0,800,1,900", "2 33,-1", "0 0,600,0,700,0,800,-3,900"], a(1) + a(1) + a(-3) + ["R 0"] + a(1) + ["R F", "R 0000000000000000000000000"], then=b"!x" + S + b"\xff" + lines("@0P"))

ran("turntable_reset_keeps_the_program", "a reset keeps a program of four axes; it is started under four again",
    ["0 0,600,0,700,0,800,2,900"], a(2) + R("0", "4", "0", "0") + a(2) + ["R 0"], end="0 0 0 2", then=b"\xfe" + S + FOUR + S)

ran("turntable_named", "the check at the end line is the same under four axes: an empty program passes",
    [], R("8"), end="0 0 0 0")

given, _ = store("0 0,600,0,700,0,800,2,900", "3 1,-2")
case("turntable_check", "a fault is named in a program of four axes too, and the store is emptied", FOUR + given + S, R("0", "0", "0", "0", "0", "Gb0001", "8"), "0 0 0 0")
