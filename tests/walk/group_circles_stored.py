"""Circles in programs: storing, running, and the three ways in which an arc ends a program."""
from case import P, R, T, all_reply, case, lines, store

S = lines("@0S")


def ran(name, why, records, printed, axes="3", end="0 0 0", before=b"", said=[], then=b""):
    """A program stored under the axes and started once, after some lines and their replies."""
    given, zeros = store(*records)
    case(name, why, lines("@0" + axes) + given + before + S + then, ["R 0"] + zeros + said + printed, end)


ran("circle_program", "e and f set the plane and the direction; arcs follow each other without a call between; one of no length makes no pulse",
    ["f-1", "y4,600,0,2,0,-1,1", "y 0, 30, 0, 5, 5, -1, 1", "e2", "f 0", "y3,700,0,0,-1,-1,1", "133"],
    T("y+ x- y+ x-") + T("y- z+ z+", 700) + R("!", "0"), "7", "-2 1 2")

ran("circle_loop", "an arc in a loop: each pass makes the same pulses, from where the last one ended, and no circle comes of it",
    ["y2,600,0,0,1,1,-1", "3 3,-1"], T("x+ y-") * 4 + ["R 0"], "3", "4 -4 0")

ran("circle_plane_after_a_program", "the plane and the direction that a program set stay after it",
    ["e1", "f-1"], ["R 0"] + T("z+ x-") + ["R 0"], "7", "-1 0 1", then=lines("@0y2,600,0,2,0,-1,1"))

ran("circle_plane_before_a_program", "those set by lines count in a program; storing has not changed them",
    ["y1,600,0,2,0,-1,1", "f0", "y1,600,0,2,0,-1,-1"], T("z+ z-") + ["R 0"], "7", "0 0 0", lines("@0e2", "@0f-1"), R("0", "0"))

ran("circle_ended_by_3", "a plane that needs an axis which is not set: 3 in place of the arc, also where its directions would be wrong and with no length; the program can be started again",
    ["133", "e2", "y1,600,0,4000000,4000000,1,1", "134"], R("!", "3", "!", "3"), then=S)

ran("circle_ended_by_3_one_axis", "under one axis every plane is 3", ["y0,600,0,1,0,-1,-1"], R("3", "0", "3", "0", "3"), "1", then=lines("@0e1", "@0S", "@0e2", "@0S"))

ran("circle_ended_by_1", "directions that do not fit the direction then set: 1, also where 9 would follow, and with no length",
    ["f-1", "y0,600,0,2,0,-1,1", "y1,600,0,4000000,4000000,1,-1"], R("1"))

ran("circle_ended_by_1_behind_the_first_pulse", "the direction of an axis that does not move at the start",
    ["y1,600,0,2,0,-1,-1", "y0,600,0,2,0,1,-1", "133"], T("y-") + ["R 1"], "3", "0 -1 0")

ran("circle_ended_by_9", "the circle leaves 24 bits from where the program has come to: 9, no pulse of it, and the positions reached stay",
    ["y0,600,0,4000000,1805513,1,-1", "0-1,600,0,600", "y1,600,0,4000000,1805513,1,-1", "133"], P([-1, 0, 0], 600) + R("9", "0FFFFFF000000000000"), "3", "-1 0 0", then=lines("@0P"))

ran("circle_wait_and_jump", "jumps, waits and delays beside arcs", ["233,2", "133", "y1,600,0,0,1,1,-1", "5 2", "3 0,2", "y1,600,0,0,1,1,-1", "y1,600,0,0,-1,-1,1"],
    T("x+ x-") + ["R 0"], then=b"!")

given, said = all_reply("5", "E0", "F0", "Y0,600,0,1,0,1,1", "e ", "e0 ", "f  0", "f-", "y0,600,0,1,0,1,1 ", "y0,600,0,1,0,1, ", "@0e0", "@0y", "e0,", "y0 600")
seven, count = all_reply("7", "e", "e0,0", "e9,9", "f", "f9,9", "y", "y0,600,0,1,0,1", "y9999999,0,0,0,0,0", "y0,600,0,1,0,1,1,1")
one, wrong = all_reply(
    "1", "e3", "e-1", "f1", "f-2", "y-1,29,0,1,0,1,1", "y8388608,29,0,1,0,1,1", "y0,29,8388608,1,0,1,1", "y0,29,-8388609,1,0,1,1", "y0,29,0,4000001,0,1,1", "y0,29,0,1,-4000001,1,1",
    "y0,29,0,0,0,1,1", "y0,29,0,-0,-0,1,1", "y0,29,0,1,0,0,1", "y0,29,0,1,0,1,0", "y0,29,0,1,0,2,1", "y0,29,0,1,0,1,-2")
case("circle_storing_refusals", "while storing 5, 7, 1, D: large letters are 5, directions are 1 or -1; nothing is stored",
     lines("@01", "@0i") + given + seven + one + lines("y0,29,0,1,0,1,1", "y0,10001,0,1,0,1,1", "9", "@0S"), R("0", "0") + said + count + wrong + R("D", "D", "0", "8"))

case("circle_storing_any_axes", "e and f are stored with any plane and direction, and a y whose plane or directions do not fit; the ends of all ranges are accepted",
     lines("@01", "@0i", "e0", "e 1", "e2", "f0", "f -1", "f-0", "y0,30,8388607,4000000,-4000000,1,1", "y8388607,10000,-8388608,-4000000,4000000,-1,-1", "y 1, 600, 0, 1, 0, 1, -1",
           "y01,0600,-0,-01,00,-01,1", "9"), R(*["0"] * 13))

case("circle_storing_full", "an arc takes 32 bytes: 512 of them fill the store, the next record is 6; D comes before 6",
     lines("@03", "@0i", *["y0,600,0,1,0,-1,-1"] * 512, "y0,600,0,1,0,-1,-1", "e0", "y0,29,0,1,0,-1,-1", "f1", "9", "@0S"), R(*["0"] * 514, "6", "6", "D", "1", "0", "0"))
