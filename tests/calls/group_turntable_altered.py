"""The A axis and a host: what 103 asks of it, the plan of a movement, its ends, and runs under other axes than the board's."""
from case import BREAK, byte, case, clock, entries, filled, host, line, lines, listed, nothing, pulses, refused, sends, state, stop, store, text, turns, where, wrong

ZERO = sends("0")
FOUR = lines("0", "@07", "@08")
ALONE = line("@08", "0")


def a(steps, speed=900):
    """The pulses of A."""
    return pulses([0, 0, 0, steps], speed)


def tried(rows):
    """Each field set wrong and right again."""
    return [part for name, bad, good in rows for part in (host("H %s %d" % (name, bad)), refused(103, "C 1"), refused(103), refused(103, "L"), host("H %s %d" % (name, good)), text("1"))]


case("turntable_axes_refused", "103: of all axes only 0, 1, 3, 7, 8 and 15 are right",
     *[part for axes in list(range(19)) + [24, 128, 135, 143, 255]
       for part in (host("H axes %d" % axes), nothing() if axes in (0, 1, 3, 7, 8, 15) else refused(103, "C 1") + refused(103, "B 254") + refused(103, "L"))])

case("turntable_store_axes_refused", "the same of the store's axes, whatever the board's are",
     *[part for axes in list(range(19)) + [24, 128, 135, 143, 255]
       for part in (host("H axes %d" % (15 if axes % 2 else 1), "K 0 0 %d" % axes), nothing() if axes in (0, 1, 3, 7, 8, 15) else refused(103, "C 1") + refused(103, "B 254") + refused(103, "L"))])

case("turntable_position_refused", "A's position and origin outside 24 bits are 103 whether it is set or not",
     *[part for axes in (0, 1, 3, 7, 8, 15) for part in [host("H axes %d" % axes)] + tried([("a", 8388608, 8388607), ("a", 4286578687, -8388608), ("oa", 8388608, 0), ("oa", 4000000000, 8388607)])])

ROWS = [("a", 1, 0), ("a", -1, 0), ("a", 8388608, 0), ("oa", 8388608, -8388608), ("starta", 2, 0), ("starta", 8388608, 0), ("firsta", 1, 0), ("firsta", -1, 0), ("firsta", 8388608, 0), ("seconda", 8388608, 0),
        ("thirda", 8388608, 8388607), ("thirda", 4286578687, -8388608), ("speed3", 29, 30), ("speed3", 10001, 900), ("phase", 2, 0), ("axes", 14, 15)]
case("turntable_movement_refused", "a movement of four axes after the first of its 5 pulses: A's points, its position and its speed are asked as the others' are",
     FOUR, line("@0A2,600,0,700,1,800,2,900"), clock("Pulse +... 600"), *tried(ROWS), host("H thirda 2"), clock("Pulse +... 600", "Pulse ..+. 800", *a(2), ZERO), where(2, 0, 1, 2))

ROWS = [("made", 3, 1), ("made", 2, 1), ("made", 0, 1), ("phase", 1, 2), ("phase", 0, 2), ("phase", 3, 2), ("a", 2, 1), ("a", 0, 1), ("x", 1, 0), ("z", 8388608, 0), ("speed1", 29, 30), ("speed2", 10001, 10000),
        ("speed3", 0, 600), ("seconda", 1, 0), ("firstx", 8388608, 0), ("startz", 4286578687, 0)]
case("turntable_alone_refused", "A alone in 2.5D is the third phase: after the first of its 2 pulses",
     ALONE, line("@0A2,600"), clock(*a(1, 600)), *tried(ROWS), clock(*a(1, 600), ZERO), state(axes=8, position=(0, 0, 0, 2)))

case("turntable_alone_refused_3d", "A alone in 3D is the first phase",
     ALONE, line("@0z1", "0"), line("@0A2,600"), clock(*a(1, 600)), *tried([("phase", 1, 0), ("phase", 2, 0), ("firsta", -4, 2), ("starta", -1, 0), ("a", 0, 1), ("seconda", 8388608, 2)]), clock(*a(1, 600), ZERO),
     state(axes=8, position=(0, 0, 0, 2), three=1))

case("turntable_plan_flat", "2.5D: z's end has A at its start; with A's second point set to 1 it moves with z, and from there to its last point",
     FOUR, line("@0A1,600,0,700,1,800,2,900"), host("H seconda 1", "H thirda -1"), clock("Pulse +... 600", "Pulse ..++ 800", *a(-2), ZERO), where(1, 0, 1, -1))

case("turntable_plan_3d", "3D: the three points are one and the three speeds are x's; points that the host sets make phases of them",
     FOUR, line("@0z1", "0"), line("@0A1,600,0,700,0,800,1,900"), host("H secondz 1", "H thirdz 1", "H thirda 2"), clock("Pulse +..+ 600", "Pulse ..+. 600", *a(1, 600), ZERO), where(1, 0, 1, 2))

case("turntable_plan_alone", "A alone: its start, first and second point are one, and the three speeds are its own",
     ALONE, line("@0A2,77"), host("H firstx 1", "H secondx 1", "H thirdx 1", "H seconda 1"), clock("Pulse +... 77", *a(2, 77), ZERO), state(axes=8, position=(1, 0, 0, 2)), line("@0z1", "0"), line("@0A1,78"),
     host("H secondx 2", "H thirdx 2", "H thirda 4"), clock(*a(1, 78), "Pulse +... 78", *a(1, 78), ZERO), state(axes=8, position=(2, 0, 0, 4), three=1))

case("turntable_plan_speeds", "2.5D with four axes: the second speed is z's and the third is A's, as the host may set them",
     FOUR, line("@0A1,600,1,700,1,800,1,900"), host("H speed2 55", "H speed3 66"), clock("Pulse ++.. 600", "Pulse ..+. 55", *a(1, 66), ZERO), ALONE, line("@07", "0"), line("@08", "0"), line("@0A0,600,2,700,0,800,1,900"),
     host("H speed1 44"), clock("Pulse .+.. 44", "Pulse .+.. 44", *a(1), ZERO))

case("turntable_phase_before_the_first_pulse", "A alone in 2.5D, none made: phase 0, 1 or 2 is the same; the first pulse is the third phase's",
     ALONE, line("@0A1,600"), host("H phase 2"), clock(*a(1, 600), ZERO), line("@0A1,600"), host("H phase 1"), clock(*a(1, 600)), host("H made 0", "H a 1", "H phase 0"), clock(*a(1, 600), ZERO))

case("turntable_rests_where_it_is", "A elsewhere while it is not set: movements leave it, P does not send it, n7 and N7 do not change it; in a movement under way it must stay",
     line("@07", "0"), host("H a 5", "H oa -5"), line("@0A2,600,0,700,0,800,0,900"), clock("Pulse +... 600"), host("H a 6"), refused(103, "C 1"), host("H a 5"), clock("Pulse +... 600", ZERO), where(2, 0, 0),
     lines("0", "@0n7", "@0N7"), state(axes=7, position=(0, 0, 0, 5), origin=(0, 0, 0, -5)), line("@0n8", "3"), line("@0N8", "3"), line("@0z1", "0"), line("@0M1,600,1,700,1,800,0,900"), clock("Pulse +++. 600", ZERO),
     state(axes=7, position=(1, 1, 1, 5), origin=(0, 0, 0, -5), three=1), line("@08", "0"), state(axes=15, position=(1, 1, 1, 0), three=1))

case("turntable_others_rest", "x, y and z elsewhere while A alone is set: its movements leave them, and they must stay",
     ALONE, host("H x 1", "H y 2", "H z 3"), line("@0A1,600"), clock(*a(1, 600)), host("H y 1"), refused(103, "C 1"), host("H y 2"), clock(ZERO), line("@0n8", "0"), line("@0M1,600"), clock(*a(1, 600), ZERO),
     where(1, 2, 3), state(axes=8, position=(1, 2, 3, 2), origin=(0, 0, 0, 1)))

case("turntable_ends", "9 exactly where A would end outside 24 bits, in 2.5D and in 3D, of four axes and alone",
     FOUR, *[part for three in (0, 1)
             for part in (line("@0z%d" % three, "0"), host("H a 8388607"), line("@0A0,600,0,700,0,800,1,900", "9"), line("@0A0,600,0,700,0,800,-1,900"), clock(*a(-1, 600 if three else 900), ZERO),
                          line("@0A0,600,0,700,0,800,2,900", "9"), line("@0A0,600,0,700,0,800,1,900"), clock(*a(1, 600 if three else 900), ZERO), host("H a -8388608"),
                          line("@0A0,600,0,700,0,800,-1,900", "9"), line("@0A0,600,0,700,0,800,0,900", "0"))],
     host("H axes 8"), line("@0A-1,600", "9"), line("@0A1,600"), clock(*a(1, 600), ZERO), line("@0A-1,600"), clock(*a(-1, 600), ZERO), state(axes=8, position=(0, 0, 0, -8388608), three=1))

case("turntable_ends_by_the_origin", "A's target is counted from its origin, and only the sum is asked; the way may be longer than any number of a line",
     FOUR, host("H oa 8388607"), line("@0M0,600,0,700,0,800,1,900", "9"), host("H a 8388606"), line("@0M0,600,0,700,0,800,0,900"), clock(*a(1), ZERO), host("H oa -8388608"), line("@0M0,600,0,700,0,800,-1,900", "9"),
     line("@0M0,600,0,700,0,800,0,900"), clock(*a(-2)), byte(BREAK, "F"), where(0, 0, 0, 8388605), host("H oa 0", "H a -8388608"), line("@0z1", "0"), line("@0M1,600,0,700,0,800,8388607,900"), clock(*a(1, 600)),
     host("H made 8388607", "H a -1"), clock("Pulse +..+ 600"), host("H made 16777214", "H a 8388606"), clock(*a(1, 600), ZERO), where(1, 0, 0, 8388607))

case("turntable_run_by_the_stores_axes", "a run goes by the store's axes: four while the board has three, and n8 in it too",
     FOUR, store("0 1,600,0,700,0,800,1,900", "n8", "m 0,600,0,700,0,800,1,900"), line("@0S"), clock("Pulse +... 600"), host("H axes 7"), clock(*a(1), "Done", "Pulse -... 600", *a(1), ZERO), where(0, 0, 0),
     state(axes=7, position=(0, 0, 0, 2), origin=(0, 0, 0, 1), held=(80, 3, 15)))

case("turntable_run_of_three_axes", "and three while the board has four, or A alone: z2 moves and A rests",
     line("@07", "0"), store("0 1,600,0,700,0,800,1,900", "0 0,600,0,700,0,800,-1,900"), line("@0S"), clock("Pulse +... 600"), host("H axes 15"), clock("Pulse ..+. 900"), host("H axes 8"), clock("Pulse ..-. 900", ZERO),
     state(axes=8, position=(1, 0, 0, 0), held=(72, 2, 7)))

case("turntable_run_of_a_alone", "A alone while the board has none; under other axes of the store its records can't be read",
     ALONE, store("0 1,600", "0 1,700", "0 1,800"), line("@0S"), clock(*a(1, 600)), host("H axes 0"), clock(*a(1, 700)), host("K 36 3 15"), clock(sends("G")), state(position=(0, 0, 0, 2)), host("K 36 3 1", "H axes 1"),
     line("@0S"), clock("Pulse +... 600", "Pulse +... 700", "Pulse +... 800", ZERO))

case("turntable_readable", "readable by the store's axes: counts, the masks of n, and an absolute fourth number",
     FOUR, store("0 1,600,0,700,0,800,1,900", "m 0,600,0,700,0,800,1,900", "n8", "n7"), host("K 36 1 7"), listed("01,600,0,700,0,800,1,900", "9"), host("K 72 2 7"), listed("G"), host("K 72 2 15"),
     listed("01,600,0,700,0,800,1,900", "m0,600,0,700,0,800,1,900", "9"), host("K 36 1 8"), listed("G"), host("K 80 3 15"), host("W 76 9"), listed("G"), host("W 76 15"), listed("G"), host("W 76 0"), listed("G"),
     host("W 76 8"), listed("01,600,0,700,0,800,1,900", "m0,600,0,700,0,800,1,900", "n8", "9"), host("W 32 29", "W 33 0"), listed("G"), host("W 32 30"),
     listed("01,600,0,700,0,800,1,30", "m0,600,0,700,0,800,1,900", "n8", "9"), host("W 30 128"), listed("G"))

case("turntable_filled", "the table is filled by the store's axes, 8 and 15 too",
     FOUR, store("133", "0 1,600,0,700,0,800,1,900", "n8"), host("T 0 9", "T 1 9", "T 2 9"), filled(), entries(0, 0, 8, 44), host("T 1 9", "K 52 3 7"), filled("G"), host("K 52 3 8"), filled("G"), host("K 44 2 7"), filled(),
     entries(1, 8), ALONE, line("@07", "0"), host("H axes 8"), store("0 1,600", "n8"), host("T 1 9"), filled(), entries(0, 0, 12), host("K 12 1 9"), filled("G"), host("K 12 1 16"), filled("G"))

case("turntable_check_at_the_end", "at 9 the store is read by its axes: a mask that four axes don't have is a bare G, 8 is accepted",
     FOUR, line("@0i", "0"), line("n8", "0"), host("W 4 9"), line("9", "G"), line("@0i", "0"), line("n8", "0"), host("W 4 7"), line("9", "0"), listed("n7", "9"))

case("turntable_names", "names of A for the host: points are there while a straight movement is under way; numbers that they can't hold are wrong",
     wrong("H starta 0", "H thirda 0", "H b 0", "H o 0", "H a -8388609", "H a 4286578688", "H oa -8388609", "H oa 4286578688", "H aa 0", "H A 0"), host("H a 4286578687", "H oa 4286578687"),
     state(position=(0, 0, 0, 4286578687), origin=(0, 0, 0, 4286578687)), refused(103, "C 1"), host("H a 0", "H oa 0"), FOUR, line("@0y2,600,0,2,0,-1,-1"), wrong("H starta 0", "H firsta 0"), clock(*turns("y- x-"), ZERO),
     line("@0A0,600,0,700,0,800,1,900"), host("H starta 0", "H firsta 0", "H seconda 0", "H thirda 2"), wrong("H fourtha 0", "H thirda 4286578688"), clock(*a(2), ZERO), wrong("H thirda 0"))

case("turntable_altered_standing", "A's last point altered while it stands: it goes on to the new one",
     ALONE, line("@0A3,600"), clock(*a(1, 600)), stop, host("H thirda 2"), nothing(), line("@0S"), clock(*a(1, 600), ZERO), state(axes=8, position=(0, 0, 0, 2)))
