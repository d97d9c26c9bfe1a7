"""Circles by lines: planes, directions, arcs and their refusals. The pulses are worked out by hand from the rule."""
from case import R, T, all_reply, case, lines

case("circle_example", "from (2,0) counter-clockwise: y+, x-, y+, x-, at the speed sent",
     lines("@07", "@0f-1", "@0y4,600,0,2,0,-1,1"), R("0", "0") + T("y+ x- y+ x-") + ["R 0"], "-2 2 0")

case("circle_clockwise", "from (2,0) clockwise, which is the direction after axes are set: y-, x-, y-, x-",
     lines("@03", "@0y4,30,0,2,0,-1,-1", "@0P"), ["R 0"] + T("y- x- y- x-", 30) + R("0", "0FFFFFEFFFFFE000000"), "-2 -2 0")

case("circle_planes", "plane 0 is x with y, 1 is x with z, 2 is y with z; two pulses from (0,2) in each, both ways round",
     lines("@07", "@0e0", "@0y2,100,0,0,2,1,-1", "@0e1", "@0y2,200,0,0,2,1,-1", "@0e2", "@0y2,300,0,0,2,1,-1",
           "@0f-1", "@0y2,400,0,0,2,-1,-1", "@0e1", "@0y2,500,0,0,2,-1,-1", "@0e0", "@0y2,600,0,0,2,-1,-1"),
     R("0", "0") + T("x+ y-", 100) + R("0", "0") + T("x+ z-", 200) + R("0", "0") + T("y+ z-", 300) +
     R("0", "0") + T("y- z-", 400) + R("0", "0") + T("x- z-", 500) + R("0", "0") + T("x- y-") + ["R 0"], "0 -2 -4")

case("circle_once_round", "8 pulses at radius 1 and 16 at radius 2 come back to the start; the next arc begins where the last one ended",
     lines("@03", "@0y8,600,0,0,1,1,-1", "@0f-1", "@0y16,700,0,2,0,-1,1", "@0y17,800,0,2,0,-1,1"),
     ["R 0"] + T("x+ y- y- x- x- y+ y+ x+") + R("0", "0") + T("y+ x- y+ x- x- y- x- y- y- x+ y- x+ x+ y+ x+ y+", 700) +
     ["R 0"] + T("y+ x- y+ x- x- y- x- y- y- x+ y- x+ x+ y+ x+ y+ y+", 800) + ["R 0"], "0 1 0")

case("circle_ties", "from (3,4) both moves come 7 from 25: the first axis; so again at (4,-3). From (1,2) and (2,1) both come 3 from 5",
     lines("@07", "@0y12,600,0,3,4,1,-1", "@0y1,600,0,1,2,1,-1", "@0e2", "@0y1,600,0,1,2,1,-1", "@0f-1", "@0y1,600,0,2,1,-1,1", "@0y1,600,0,-2,-1,1,-1"),
     ["R 0"] + T("x+ y- y- x+ y- y- y- y- x- y- x- y-") + ["R 0"] + T("x+") + R("0", "0") + T("y+") + R("0", "0") + T("y-") + ["R 0"] + T("y+") + ["R 0"],
     "1 -7 0")

case("circle_start_value", "the distance is that from the start's value, 8 from (2,2), and not from the present one: the second pulse is x, since 10 is closer to 8 than 4 is, though 4 is closer to the present 5",
     lines("@03", "@0y5,600,0,2,2,1,-1"), ["R 0"] + T("y- x+ y- y- x-") + ["R 0"], "0 -3 0")

case("circle_smallest", "from (0,1), (0,-1), (1,0) and (-1,0), three pulses clockwise and three counter-clockwise",
     lines("@03", "@0y3,600,0,0,1,1,-1", "@0y3,600,0,0,-1,-1,1", "@0y3,600,0,1,0,-1,-1", "@0y3,600,0,-1,0,1,1", "@0f-1",
           "@0y3,600,0,0,1,-1,-1", "@0y3,600,0,0,-1,1,1", "@0y3,600,0,1,0,-1,1", "@0y3,600,0,-1,0,1,-1"),
     ["R 0"] + T("x+ y- y-") + ["R 0"] + T("x- y+ y+") + ["R 0"] + T("y- x- x-") + ["R 0"] + T("y+ x+ x+") + R("0", "0") +
     T("x- y- y-") + ["R 0"] + T("x+ y+ y+") + ["R 0"] + T("y+ x- x-") + ["R 0"] + T("y- x+ x+") + ["R 0"])

case("circle_no_length", "an arc of no length sends 0 in the reply to its line; it meets 3, 1, D and 9 as others do",
     lines("@03", "@0y0,600,0,2,0,-1,-1", "@0y-0,600,0,2,0,-1,-1", "@0y0,600,0,2,0,1,-1", "@0y0,600,0,2,0,-1,1", "@0y0,600,0,0,0,-1,-1", "@0y0,29,0,2,0,-1,-1",
           "@0y0,600,0,4000000,4000000,1,-1", "@0e1", "@0y0,600,0,2,0,-1,-1", "@0P"),
     R("0", "0", "0", "1", "1", "1", "D", "9", "0", "3", "0000000000000000000"))

case("circle_refusals_in_order", "5, 4, 7, 3, 1, D, 9: each line has what comes later wrong in it too, but the last",
     lines("@0y1,29,0,0,0,0,0,", "@0y1,29,0,0,0,0", "@03", "@0e1", "@0y1,29,0,0,0,0", "@0y1,29,0,0,0,0,0,0", "@0y", "@0y1,29,0,0,0,0,0", "@0e0",
           "@0y1,29,0,4000001,4000000,1,-1", "@0y1,29,0,4000000,4000000,1,1", "@0y1,29,0,4000000,4000000,1,-1", "@0y1,600,0,4000000,4000000,1,-1", "@0y1,600,0,2,0,-1,-1"),
     R("5", "4", "0", "0", "7", "7", "7", "3", "0", "1", "1", "D", "9") + T("y-") + ["R 0"], "0 -1 0")

given, said = all_reply(
    "1", "@0y-1,30,0,1,0,-1,-1", "@0y8388608,30,0,1,0,-1,-1", "@0y0,30,8388608,1,0,-1,-1", "@0y0,30,-8388609,1,0,-1,-1", "@0y0,30,0,4000001,0,-1,-1",
    "@0y0,30,0,-4000001,0,1,1", "@0y0,30,0,0,4000001,1,-1", "@0y0,30,0,0,-4000001,-1,1", "@0y0,30,0,0,0,1,1", "@0y0,30,0,-0,0,-1,-1", "@0y0,30,0,1,0,0,-1",
    "@0y0,30,0,1,0,-1,0", "@0y0,30,0,1,0,-2,-1", "@0y0,30,0,1,0,-1,99999999")
right, zeros = all_reply(
    "0", "@0y0,30,8388607,1,0,-1,-1", "@0y0,30,-8388608,1,0,-1,-1", "@0y0,10000,0,4000000,0,-1,-1", "@0y0,30,0,-4000000,0,1,1", "@0y0,30,0,0,4000000,1,-1",
    "@0y0,30,0,0,-4000000,-1,1")
speeds, slow = all_reply("D", "@0y0,29,0,1,0,-1,-1", "@0y0,10001,0,1,0,-1,-1", "@0y0,-30,0,1,0,-1,-1", "@0y5,0,0,1,0,-1,-1")
case("circle_ranges", "arc length 0 to 8,388,607, D in 24 bits, starts within 4,000,000 and not both 0, directions 1 or -1, speeds 30 to 10,000",
     lines("@07") + given + right + speeds, ["R 0"] + said + zeros + slow)

WAYS = ("1,1", "1,-1", "-1,1", "-1,-1")


def directions(start, wanted):
    """An arc of no length with each pair of directions: one of them is right."""
    return lines(*["@0y0,600,0,%s,%s" % (start, w) for w in WAYS]), R(*["0" if w == wanted else "1" for w in WAYS])


CLOCKWISE = [("3,5", "1,-1"), ("-3,5", "1,1"), ("-3,-5", "-1,1"), ("3,-5", "-1,-1"), ("4,0", "-1,-1"), ("-4,0", "1,1"), ("0,4", "1,-1"), ("0,-4", "-1,1")]
COUNTER = [("3,5", "-1,1"), ("-3,5", "-1,-1"), ("-3,-5", "1,-1"), ("3,-5", "1,1"), ("4,0", "-1,1"), ("-4,0", "1,-1"), ("0,4", "-1,-1"), ("0,-4", "1,1"), ("1,5", "-1,1")]
asked = [directions(*pair) for pair in CLOCKWISE]
back = [directions(*pair) for pair in COUNTER]
case("circle_directions", "the two directions are those at the start, and behind the first pulse for an axis that does not move there; all others are 1. From (1,5) "
     "counter-clockwise y is to go up, although it first goes down, behind x = 0",
     lines("@03") + b"".join(g for g, _ in asked) + lines("@0f-1") + b"".join(g for g, _ in back),
     ["R 0"] + [r for _, s in asked for r in s] + ["R 0"] + [r for _, s in back for r in s])

case("circle_planes_and_axes", "y is 3 where its plane needs an axis that is not set; e is accepted all the same",
     lines("@01", "@0y0,600,0,1,0,-1,-1", "@0e1", "@0y0,600,0,1,0,-1,-1", "@0e2", "@0y0,600,0,1,0,-1,-1", "@03", "@0y0,600,0,1,0,-1,-1", "@0e1", "@0y0,600,0,1,0,-1,-1",
           "@0e2", "@0y0,600,0,1,0,-1,-1", "@0e0", "@0y0,600,0,1,0,-1,-1", "@07", "@0y0,600,0,1,0,-1,-1", "@0e1", "@0y0,600,0,1,0,-1,-1", "@0e2", "@0y0,600,0,1,0,-1,-1"),
     R("0", "3", "0", "3", "0", "3", "0", "0", "0", "3", "0", "3", "0", "0", "0", "0", "0", "0", "0", "0"))

case("circle_plane_lines", "e takes 0 to 2 and f 0 or -1: 5 for the shape and for large letters, 4 without axes, 7 for the count, 1 for the number; what is refused changes nothing",
     lines("@0E0", "@0F0", "@0Y0,600,0,1,0,-1,-1", "@0e ", "@0e9", "@0f9,9", "@0y", "@07", "@0e 2", "@0f -1", "@0e", "@0e1,1", "@0e3", "@0e-1", "@0e99999999",
           "@0f", "@0f0,0", "@0f1", "@0f-2", "@0E1", "@0F0", "@0Y1,600,0,2,0,-1,-1", "@0e1 ", "@0f0,", "@0y2,600,0,2,0,-1,1", "@0e002", "@0f-01"),
     R("5", "5", "5", "5", "4", "4", "4", "0", "0", "0", "7", "7", "1", "1", "1", "7", "7", "1", "1", "5", "5", "5", "5", "5") + T("z+ y-") + R("0", "0", "0"), "0 -1 1")

case("circle_axes_again", "setting axes gives plane 0, clockwise, also to the same axes; refused axes do not",
     lines("@07", "@0e2", "@0f-1", "@09", "@07,7", "@0y1,600,0,2,0,-1,1", "@07", "@0y1,600,0,2,0,-1,1", "@0y1,600,0,2,0,-1,-1", "@0e1", "@0f-1", "@03", "@0y1,700,0,2,0,-1,-1"),
     R("0", "0", "0", "3", "7") + T("z+") + R("0", "0", "1") + T("y-") + R("0", "0", "0", "0") + T("y-", 700) + ["R 0"], "0 -1 0")

case("circle_reset", "a reset gives plane 0, clockwise; a break and a stop when idle do not",
     lines("@07", "@0e1", "@0f-1") + b"\xff\xfd" + lines("@0y1,600,0,2,0,-1,1") + b"\xfe" + lines("@0y1,600,0,2,0,-1,1", "@07", "@0y1,600,0,2,0,-1,-1"),
     R("0", "0", "0") + T("z+") + R("0", "4", "0") + T("y-") + ["R 0"], "0 -1 0")

case("circle_plane_kept", "N, n, z, A, k and storing keep the plane and the direction",
     lines("@07", "@0e1", "@0f-1", "@0N7", "@0n7", "@0z1", "@0A0,600,1,700,0,800,0,900", "@0k", "@0i", "e2", "f0", "9", "@0y1,600,0,2,0,-1,1"),
     R(*["0"] * 6) + ["P .+. 600"] + R(*["0"] * 6) + T("z+") + ["R 0"], "0 1 1")

given, said = all_reply("5", "@0y4 ,600,0,2,0,-1,-1", "@0y4,  600,0,2,0,-1,-1", "@0y4,600,0,2,0,-1,-1 ", "@0y4,600,0,2,0,-1, ", "@0y  4,600,0,2,0,-1,-1", "@0y4,600,0,2,0,- 1,-1",
                        "@0y4,\t600,0,2,0,-1,-1", "@0e 1 ", "@0f -1 ", "@0f- 1", "@0e, 1", "@0y 4 600")
case("circle_spaces", "at most one space behind the letter and behind each comma",
     lines("@03", "@0e 0", "@0f 0", "@0e0, 0", "@0y 1, 600, 0, 2, 0, -1, -1", "@0y1,600, 0,2, 0,-1, -1") + given,
     R("0", "0", "0", "7") + T("y-") + ["R 0"] + T("y-") + ["R 0"] + said, "0 -2 0")

case("circle_nine", "9 if an end of the reach to both sides of the centre leaves 24 bits; the reach is the radius without its fraction, and one more. From 0, start (4000000,1805513) has the centre at -4,000,000 and radius "
     "4,388,607: -8,388,608 is reached; one more in y is 9. On the other side 8,388,607 is reached sooner. Both axes are asked, and short arcs too",
     lines("@03", "@0y0,600,0,4000000,1805513,1,-1", "@0y0,600,0,4000000,1805514,1,-1", "@0y0,600,0,-4000000,1805511,1,1", "@0y0,600,0,-4000000,1805512,1,1",
           "@0y0,600,0,1805513,4000000,1,-1", "@0y0,600,0,1805514,4000000,1,-1", "@0y0,600,0,-1805511,-4000000,-1,1", "@0y0,600,0,-1805512,-4000000,-1,1",
           "@0y1,600,0,4000000,1805514,1,-1", "@0y1,600,0,4000000,1805513,1,-1"),
     R("0", "0", "9", "0", "9", "0", "9", "0", "9", "9") + T("y-") + ["R 0"], "0 -1 0")

case("circle_nine_by_the_position", "one step nearer to the end the same circle is 9, one step farther the next one is not",
     lines("@03", "@0A-1,600,0,600", "@0y0,600,0,4000000,1805513,1,-1", "@0A2,600,0,600", "@0y0,600,0,4000000,1805514,1,-1", "@0y0,600,0,-4000000,1805511,1,1", "@0P"),
     ["R 0", "P -.. 600", "R 0", "R 9", "P +.. 600", "P +.. 600", "R 0", "R 0", "R 9", "R 0000001000000000000"], "1 0 0")

case("circle_3d", "3D is not looked at: plane, speed and pulses are the arc's",
     lines("@07", "@0z1", "@0e2", "@0y4,77,0,2,0,-1,-1"), R("0", "0", "0") + T("z- y- z- y-", 77) + ["R 0"], "0 -2 -2")

case("circle_then_straight", "the centre is the position less the start; straight movement and the origin go on from where an arc ended",
     lines("@03", "@0A3,600,1,700", "@0n3", "@0y3,800,0,0,2,1,-1", "@0M0,600,0,700", "@0y3,900,0,0,2,1,-1", "@0P"),
     ["R 0", "P +.. 600", "P ++. 600", "P +.. 600", "R 0", "R 0"] + T("x+ y- x+", 800) + ["R 0", "P -+. 600", "P -.. 600", "R 0"] + T("x+ y- x+", 900) +
     R("0", "0000005000000000000"), "5 0 0")
