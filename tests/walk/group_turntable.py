"""The A axis by lines: setting and dropping it, movements of four axes and of A alone, n and N, the report, refusals."""
from case import P, R, T, all_reply, case, lines

FOUR = lines("@07", "@08")


def A(*pairs):
    """A relative movement."""
    return "@0A" + ",".join("%d,%d" % pair for pair in pairs)


def M(*pairs):
    return "@0M" + ",".join("%d,%d" % pair for pair in pairs)


def each(x, y, z, a):
    """Four axes, with the speeds 600 to 900."""
    return (x, 600), (y, 700), (z, 800), (a, 900)


def a(steps, speed=900):
    """The pulses of A."""
    return P([0, 0, 0, steps], speed)


case("turntable_behind_three", "8 behind 7 gives four axes: P has 24 digits, pulses have four signs",
     FOUR + lines("@0P", A(*each(0, 0, 0, 2)), "@0P"), R("0", "0", "0" + "0" * 24) + a(2) + R("0", "0" + "000000" * 3 + "000002"), "0 0 0 2")

case("turntable_alone", "8 on a board without axes gives A alone: two numbers, at its own speed; P has 18 digits, of x, y and z",
     lines("@08", "@0A-3,600", "@0P", "@0A1,10000"), ["R 0"] + a(-3, 600) + R("0", "0" + "0" * 18) + a(1, 10000) + ["R 0"], "0 0 0 -2")

case("turntable_again", "8 again keeps four axes, and sets A to 0 alone",
     FOUR + lines(A(*each(1, 2, -1, 4)), "@08", "@0P", A(*each(0, 0, 0, -1))),
     R("0", "0") + P([1, 2, 0, 0], 700) + P([0, 0, -1, 0], 800) + a(4) + R("0", "0", "0000001000002FFFFFF000000") + a(-1) + ["R 0"], "1 2 -1 -1")

case("turntable_alone_again", "8 again keeps A alone, and sets it to 0",
     lines("@08", "@0A2,600", "@0n8", "@08", "@0M1,700", "@0A1,600,1,600", "@08", "@08"), ["R 0"] + a(2, 600) + R("0", "0", "0") + a(1, 700) + R("0", "7", "0", "0"), "0 0 0 0")

case("turntable_behind_one", "8 behind 1 is 3 and changes nothing: positions, origins, 3D and axes stay",
     lines("@01", "@0A2,600", "@0n1", "@08", "@0P", "@0M1,700", "@0A1,600,1,600"),
     ["R 0"] + P([2, 0, 0], 600) + R("0", "0", "3", "0000002000000000000") + P([1, 0, 0], 700) + R("0", "7"), "3 0 0")

case("turntable_behind_two", "8 behind 3 is 3 and changes nothing, the plane and the direction neither",
     lines("@03", "@0z1", "@0f-1", "@08", "@0A0,600,1,700", "@0y1,600,0,2,0,-1,1", "@0A1,600,1,700,1,800,1,900"),
     R("0", "0", "0", "3") + P([0, 1, 0], 600) + ["R 0"] + T("y+") + R("0", "7"), "0 2 0")

wrong = ["@0%d" % v for v in list(range(9, 17)) + [80, -8, 88]]
given, said = all_reply("3", *wrong)
case("turntable_values", "9 to 15 are 3 whatever axes are set, and so are others", given + lines("@01") + given + lines("@03") + given + FOUR[:4] + given + lines("@08") + given + b"\xfe"
     + lines("@08") + given, said + (["R 0"] + said) * 5, "0 0 0 0")

case("turntable_shapes", "an axes line of 8 is read as the others: zeros in front are no matter, a second number is 7, spaces are 5",
     lines("@08,8", "@08, 8", "@0 8", "@08 ", "@08,", "@0000000008", "@008", "@000000008", "@0A1,600"), R("7", "7", "5", "5", "5", "5", "0", "0") + a(1, 600) + ["R 0"], "0 0 0 1")

case("turntable_behind_a_reset", "a reset drops A and sets it to 0: 8 then gives A alone",
     FOUR + lines(A(*each(1, 0, 0, 1)), "@0n8") + b"\xfe" + lines("@0P", "@0A1,600", "@08", "@0M2,600", "@0P"),
     R("0", "0") + P([1, 0, 0, 0], 600) + a(1) + R("0", "0", "0" + "0" * 18, "4", "0") + a(2, 600) + R("0", "0" + "0" * 18), "0 0 0 2")

case("turntable_reset_last", "after a reset the last line has three positions again", FOUR + lines(A(*each(0, 0, 0, 1))) + b"\xfe", R("0", "0") + a(1) + ["R 0"])

case("turntable_dropped_by_three", "7 drops A and sets all four positions and origins to 0, and 2.5D: pulses have three signs, P has 18 digits; 8 behind it finds A at 0",
     FOUR + lines("@0z1", A(*each(1, 1, 1, 1)), "@0n7", "@0n8", "@07", "@0P", A(*each(1, 1, 1, -1)), "@08", M(*each(0, 0, 0, 1)), "@0P"),
     R("0", "0", "0") + P([1, 1, 1, 1], 600) + R("0", "0", "0", "0", "0" + "0" * 18) + P([1, 1, 0], 600) + P([0, 0, 1], 800) + P([0, 0, -1], 900) + R("0", "0")
     + P([-1, -1, 0, 0], 600) + a(1) + R("0", "0" + "000000" * 3 + "000001"), "0 0 0 1")

case("turntable_dropped_by_one_and_two", "1 and 3 drop A too, of four axes or alone; then 8 is 3",
     FOUR + lines("@01", "@0A1,600", "@08") + b"\xfe" + lines("@08", "@0A2,600", "@03", "@0P", "@0A1,600,1,600", "@08", "@0n8"),
     R("0", "0", "0") + P([1, 0, 0], 600) + R("0", "3", "0") + a(2, 600) + R("0", "0", "0" + "0" * 18) + P([1, 1, 0], 600) + R("0", "3", "3"), "1 1 0")

case("turntable_alone_then_three", "7 behind A alone drops it; 8 behind that gives four axes",
     lines("@08", "@0A2,600", "@07", "@08", "@0P", A(*each(0, 0, 1, 0))), ["R 0"] + a(2, 600) + R("0", "0", "0", "0" + "0" * 24) + P([0, 0, 1, 0], 800) + ["R 0"], "0 0 1 0")

case("turntable_keeps_3d", "8 keeps 3D, and the positions and origins of the others",
     lines("@07", "@0z1", A(*each(1, 2, 3, 0)), "@0n7", A(*each(1, 0, 0, 0)), "@08", "@0P", A(*each(1, -1, 1, -1)), M(*each(0, 0, 0, 0))),
     R("0", "0") + P([1, 2, 3], 600) + R("0", "0") + P([1, 0, 0], 600) + R("0", "0", "0000002000002000003000000") + P([1, -1, 1, -1], 600) + ["R 0"]
     + P([-2, 1, -1, 1], 600) + ["R 0"], "1 2 3 0")

case("turntable_keeps_the_plane", "8 keeps the plane and the direction, also again; 7 does not",
     lines("@07", "@0e2", "@0f-1", "@08", "@0y1,600,0,2,0,-1,1", "@08", "@0y1,600,0,2,0,-1,1", "@07", "@0y1,600,0,2,0,-1,1", "@0y1,600,0,2,0,-1,-1"),
     R("0", "0", "0", "0") + T("z+", axes="xyza") + R("0", "0") + T("z+", axes="xyza") + R("0", "0", "1") + T("y-") + ["R 0"], "0 -1 0")

case("turntable_alone_keeps_3d", "8 again keeps 3D with A alone, as the next axes line shows: it gives 2.5D",
     lines("@08", "@0z1", "@08", "@07", A(*each(1, 0, 1, 0))), R("0", "0", "0", "0") + P([1, 0, 0], 600) + P([0, 0, 1], 800) + ["R 0"], "1 0 1")

case("turntable_phases", "2.5D with four axes: x and y at the longer one's speed, x's at a tie, then z, then A, each at its own",
     FOUR + lines(A(*each(2, 2, 1, -1)), A(*each(-1, -2, -1, 2)), A(*each(2, -1, 0, 0))),
     R("0", "0") + P([2, 2, 0, 0], 600) + P([0, 0, 1, 0], 800) + a(-1) + ["R 0"] + P([-1, -2, 0, 0], 700) + P([0, 0, -1, 0], 800) + a(2) + ["R 0"] + P([2, -1, 0, 0], 600) + ["R 0"],
     "3 -1 0 1")

case("turntable_phases_missing", "phases without a distance have no pulse; a movement without any is answered at once",
     FOUR + lines(A(*each(0, 0, 0, 1)), A(*each(0, 0, 2, 0)), A(*each(0, 1, 0, 1)), A(*each(0, 0, 0, 0)), A(*each(1, 0, 0, -2))),
     R("0", "0") + a(1) + ["R 0"] + P([0, 0, 2, 0], 800) + ["R 0"] + P([0, 1, 0, 0], 700) + a(1) + R("0", "0") + P([1, 0, 0, 0], 600) + a(-2) + ["R 0"], "1 1 2 0")

case("turntable_3d", "3D with four axes: all together at the speed of x, also where x has no distance or the shortest",
     FOUR + lines("@0z1", A(*each(4, -2, 1, -3)), A(*each(0, 0, 0, 2)), A(*each(1, 0, 0, 5)), "@0z0", A(*each(1, 0, 0, 1))),
     R("0", "0", "0") + ["P +-.- 600", "P +.+- 600", "P +-.. 600", "P +..- 600"] + ["R 0"] + a(2, 600) + ["R 0"] + ["P ...+ 600"] * 2 + ["P +..+ 600"] + ["P ...+ 600"] * 2
     + R("0", "0") + P([1, 0, 0, 0], 600) + a(1) + ["R 0"], "6 -2 1 5")

case("turntable_alone_3d", "A alone goes at its own speed in 3D too: z is taken and has no effect on it",
     lines("@08", "@0z1", "@0A2,30", "@0M1,40", "@0z0", "@0A1,50", "@0z2"), R("0", "0") + a(2, 30) + ["R 0"] + a(-1, 40) + R("0", "0") + a(1, 50) + R("0", "1"), "0 0 0 2")

case("turntable_absolute", "the fourth number of an absolute movement is a target, counted from A's origin; relative movement does not use it",
     FOUR + lines(A(*each(0, 0, 0, 5)), "@0n8", M(*each(0, 0, 0, 3)), A(*each(0, 0, 0, -1)), M(*each(1, 0, -1, 0)), M(*each(1, 0, -1, 0)), "@0P"),
     R("0", "0") + a(5) + R("0", "0") + a(3) + ["R 0"] + a(-1) + ["R 0"] + P([1, 0, 0, 0], 600) + P([0, 0, -1, 0], 800) + a(-2) + R("0", "0", "0000001000000FFFFFF000005"), "1 0 -1 5")

case("turntable_absolute_3d", "the same in 3D, all together",
     FOUR + lines("@0z1", A(*each(1, 2, 3, 4)), "@0n8", M(*each(0, 0, 0, -4))), R("0", "0", "0") + P([1, 2, 3, 4], 600) + R("0", "0") + P([-1, -2, -3, -4], 600) + ["R 0"], "0 0 0 0")

case("turntable_absolute_alone", "A alone: its one target is counted from its origin",
     lines("@08", "@0A3,600", "@0n8", "@0M2,700", "@0M0,700", "@0M0,700", "@0N8", "@0M-1,800"),
     ["R 0"] + a(3, 600) + R("0", "0") + a(2, 700) + ["R 0"] + a(-2, 700) + R("0", "0", "0") + a(-1, 800) + ["R 0"], "0 0 0 -1")

case("turntable_z2_is_there_without_a", "with three axes the fourth pair is still z2: an absolute one must be 0, a relative one moves z",
     lines("@07", M(*each(0, 0, 0, 1)), A(*each(0, 0, 1, -2)), "@08", M(*each(0, 0, 0, 1))), R("0", "1") + P([0, 0, 1], 800) + P([0, 0, -2], 900) + R("0", "0") + P([0, 0, 1, 0], 800) + a(1) + ["R 0"],
     "0 0 0 1")

for letter in "nN":
    low, fine = all_reply("0", *["@0%s%d" % (letter, m) for m in range(1, 9)])
    high, not_fine = all_reply("3", *["@0%s%d" % (letter, m) for m in [0] + list(range(9, 17)) + [-8, 24]])
    case("turntable_masks_" + {"n": "origin", "N": "zero"}[letter], letter + " with four axes takes 1 to 7, or 8 alone; 9 to 15 are 3", FOUR + low + high + lines("@0%s8,8" % letter, "@0" + letter),
         R("0", "0") + fine + not_fine + R("7", "7"), "0 0 0 0")
    some, none = all_reply("3", *["@0%s%d" % (letter, m) for m in list(range(8)) + list(range(9, 17))])
    case("turntable_alone_masks_" + {"n": "origin", "N": "zero"}[letter], letter + " with A alone takes 8 and nothing else; with three axes it does not take 8",
         lines("@08", "@0%s8" % letter, "@0%s 8" % letter) + some + lines("@07", "@0%s8" % letter, "@0%s7" % letter), R("0", "0", "0") + none + R("0", "3", "0"))

case("turntable_zero_of_a", "N8 sets A's position and origin to 0 and no other's; N7 sets the others'",
     FOUR + lines("@0z1", A(*each(1, 1, 1, 1)), "@0n7", "@0n8", "@0N8", "@0P", M(*each(1, 1, 1, 1)), "@0N7", "@0P", M(*each(0, 0, 0, 0))),
     R("0", "0", "0") + P([1, 1, 1, 1], 600) + R("0", "0", "0", "0", "0000001000001000001000000") + P([1, 1, 1, 1], 600) + R("0", "0", "0" + "000000" * 3 + "000001") + a(-1, 600) + ["R 0"],
     "0 0 0 0")

case("turntable_origin_of_a", "n8 sets A's origin alone, n7 the others'",
     FOUR + lines("@0z1", A(*each(1, 2, 3, 4)), "@0n8", M(*each(1, 2, 3, 0)), M(*each(0, 0, 0, 1)), "@0n7", "@0N8", M(*each(1, 0, 0, 0))),
     R("0", "0", "0") + P([1, 2, 3, 4], 600) + R("0", "0", "0") + P([-1, -2, -3, 1], 600) + R("0", "0", "0") + P([1, 0, 0, 0], 600) + ["R 0"], "1 0 0 0")

case("turntable_report", "P with four axes: A's six digits come last, two's complement; with A alone they are not sent",
     FOUR + lines(A(*each(-2, 0, 1, -2)), "@0P") + b"\xfe" + lines("@08", "@0A-2,600", "@0P", "@0P1"),
     R("0", "0") + P([-2, 0, 0, 0], 600) + P([0, 0, 1, 0], 800) + a(-2) + R("0", "0FFFFFE000000000001FFFFFE", "0") + a(-2, 600) + R("0", "0" + "0" * 18, "7"), "0 0 0 -2")

case("turntable_counts", "four axes take eight numbers, A alone takes two: all other counts are 7",
     FOUR + lines(*["@0%s%s" % (c, ",".join(["30"] * n)) for c in "AM" for n in (0, 1, 2, 4, 6, 7, 9, 10)], "@0A30,30,30,30,30,30,30,30") + b"\xfe"
     + lines("@08", *["@0%s%s" % (c, ",".join(["30"] * n)) for c in "AM" for n in (0, 1, 3, 4, 8)]),
     R("0", "0", *["7"] * 16) + P([30, 30, 0, 0], 30) + P([0, 0, 30, 0], 30) + a(30, 30) + R("0", "0", *["7"] * 10), "0 0 0 0")

case("turntable_ranges", "a distance or target of A outside 24 bits is 1, its speed outside 30 to 10,000 is D, used or not; all of 1 comes before D",
     FOUR + lines(A(*each(0, 0, 0, 8388608)), M(*each(0, 0, 0, -8388609)), A((0, 30), (0, 30), (0, 30), (0, 29)), M((0, 30), (0, 30), (0, 30), (0, 10001)), A((0, 29), (0, 30), (0, 30), (8388608, 30)),
                  A((0, 30), (0, 30), (0, 29), (0, 30)), "@0z1", A((0, 30), (0, 30), (0, 30), (0, 29)), A((0, 30), (0, 10000), (0, 30), (0, 10000))) + b"\xfe"
     + lines("@08", "@0A8388608,29", "@0A-8388609,30", "@0M8388608,600", "@0A0,29", "@0A0,10001", "@0M0,30"),
     R("0", "0", "1", "1", "D", "D", "1", "D", "0", "D", "0", "0", "1", "1", "1", "D", "D", "0"), "0 0 0 0")

case("turntable_nine", "9 where A would end outside 24 bits, by a distance or by its origin and a target; D comes before it; nothing has moved",
     FOUR + lines(A(*each(0, 0, 0, 1)), A(*each(1, 0, 0, 8388607)), "@0n8", M(*each(1, 0, 0, 8388607)), A((1, 600), (0, 600), (0, 600), (8388607, 29)), "@0z1", A(*each(1, 0, 0, 8388607)), "@0z0",
                  A(*each(0, 0, 0, -2)), A(*each(0, 0, 0, -8388608)), "@0n8", M(*each(0, 0, 1, -8388608)), "@0P"),
     R("0", "0") + a(1) + R("0", "9", "0", "9", "D", "0", "9", "0") + a(-2) + R("0", "9", "0", "9", "0" + "000000" * 3 + "FFFFFF"), "0 0 0 -1")

case("turntable_nine_of_z", "z's end is a resting point as before, whatever A does; A's number is not added to it",
     FOUR + lines(A(*each(0, 0, 1, 0)), A(*each(0, 0, 8388607, -1)), M(*each(0, 0, 0, 2))), R("0", "0") + P([0, 0, 1, 0], 800) + R("0", "9") + P([0, 0, -1, 0], 800) + a(2) + ["R 0"], "0 0 0 2")

case("turntable_nine_alone", "A alone: 9 at its ends",
     lines("@08", "@0A1,600", "@0A8388607,600", "@0n8", "@0M8388607,600", "@0A-2,600", "@0A-8388608,600"), ["R 0"] + a(1, 600) + R("0", "9", "0", "9") + a(-2, 600) + R("0", "9"), "0 0 0 -1")

case("turntable_refusals_in_order", "5, 4, 7, 3, 1, D, 9 in this order, for lines that would have several",
     lines("@0n8,", "@0n8,8", "@0A1", "@08") + lines("@0n8,", "@0n9,9", "@0n9", "@0A1,29,", "@0A8388608", "@0A8388608,29", "@0A8388607,29", "@0y1,29", "@0y1,29,0,0,0,1,1"),
     R("5", "4", "4", "0", "5", "7", "3", "5", "7", "1", "D", "7", "3"), "0 0 0 0")

case("turntable_no_axes", "without axes n and N of 8 are 4; 9 to 15 as axes set none", lines("@0n8", "@0N8", "@015", "@0A1,600", "@0P"), R("4", "4", "3", "4", "0" + "0" * 18))

case("turntable_circle", "arcs with four axes are as with three; A stays where it is, and its sign is there",
     FOUR + lines(A(*each(0, 0, 0, 3)), "@0f-1", "@0y4,600,0,2,0,-1,1", "@0e1", "@0f0", "@0y3,700,0,0,-1,-1,1", "@0e2", "@0y1,600,0,2,0,-1,-1", "@0P"),
     R("0", "0") + a(3) + R("0", "0") + T("y+ x- y+ x-", axes="xyza") + R("0", "0", "0") + T("x- z+ z+", 700, "xyza") + R("0", "0") + T("z-", axes="xyza")
     + R("0", "0FFFFFD000002000001000003"), "-3 2 1 3")

case("turntable_circle_alone", "with A alone e and f are taken and every plane of a y is 3, before 1, D and 9",
     lines("@08", "@0e0", "@0f-1", "@0y0,600,0,1,0,-1,1", "@0e1", "@0y9,29,0,0,0,1,1", "@0e2", "@0y1,600,0,4000000,4000000,1,1", "@0e3", "@0f1"),
     R("0", "0", "0", "3", "0", "3", "0", "3", "1", "1"), "0 0 0 0")

case("turntable_spaces", "spaces behind commas and a letter are as ever", FOUR + lines("@0A 1, 600, 0, 700, 0, 800, 1, 900", "@0a0,600,0,700,0,800,-1,900", "@0m 0,600, 0,700,0, 800,1,900"),
     R("0", "0") + P([1, 0, 0, 0], 600) + a(1) + ["R 0"] + a(-1) + ["R 0"] + P([-1, 0, 0, 0], 600) + a(1) + ["R 0"], "0 0 0 1")
