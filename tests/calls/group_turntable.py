"""The A axis: what axes lines change, stops and breaks in its pulses, programs of four axes and of A alone."""
from case import BREAK, RESET, byte, case, clock, host, line, lines, listed, no_stop, nothing, pulses, refused, report, run, sends, state, stop, store, text, turns, where

ZERO = sends("0")
FOUR = lines("0", "@07", "@08")
ALONE = line("@08", "0")
SET = host("H x 1", "H y 2", "H z 3", "H a 4", "H ox 5", "H oy 6", "H oz 7", "H oa 8", "H plane 2", "H turn -1")
WAS = dict(position=(1, 2, 3, 4), origin=(5, 6, 7, 8), turn=(2, -1))


def a(steps, speed=900):
    """The pulses of A."""
    return pulses([0, 0, 0, steps], speed)


case("turntable_adds_a_only", "8 with none, three, A alone or four axes: A's position and origin become 0, and nothing else changes but the axes",
     SET, state(**WAS),
     *[part for before, after in ((0, 8), (7, 15), (8, 8), (15, 15)) for three in (0, 1)
       for part in (host("H axes 7"), line("@0z%d" % three, "0"), line("@0B0,9", "0"), host("H axes %d" % before), SET, line("@08", "0"),
                    state(axes=after, position=(1, 2, 3, 0), origin=(5, 6, 7, 0), three=three, output=9, turn=(2, -1)))])

case("turntable_refused_changes_nothing", "8 with one or two axes is 3, and so are 9 to 15 with any: nothing changes",
     SET, *[part for axes in (1, 3) for part in (host("H axes %d" % axes), line("@0z1", "0"), line("@08", "3"), line("@015", "3"), state(axes=axes, three=1, **WAS))],
     *[part for axes in (0, 7, 8, 15) for part in (host("H axes %d" % axes), lines("3", "@09", "@010", "@011", "@012", "@013", "@014", "@015"), state(axes=axes, three=1, **WAS))])

case("turntable_others_drop_a", "1, 3 and 7 set all four positions and origins to 0, 2.5D, plane 0 and clockwise, whatever axes were set",
     *[part for axes in (1, 3, 7) for before in (0, 7, 8, 15)
       for part in (host("H axes 7"), line("@0z1", "0"), SET, host("H axes %d" % before), line("@0%d" % axes, "0"), state(axes=axes))])

case("turntable_store_is_kept", "8 keeps the store and what it was written under", line("@07", "0"), store("133"), line("@08", "0"), state(axes=15, held=(8, 1, 7)), line("@0S", "G"), listed("133", "9"),
     line("@0i", "0"), state(axes=15, held=(0, 0, 15), job="Storing"), line("@08", "5"), line("0 1,600,1,600,1,600,1,600", "0"), line("9", "0"), state(axes=15, held=(36, 1, 15)))

case("turntable_masks", "n8 and N8 change A alone, n7 and N7 the others; 9 is 3 and changes nothing",
     FOUR, SET, line("@0n8", "0"), state(axes=15, position=(1, 2, 3, 4), origin=(5, 6, 7, 4), turn=(2, -1)), line("@0n7", "0"), state(axes=15, position=(1, 2, 3, 4), origin=(1, 2, 3, 4), turn=(2, -1)), SET,
     line("@0n9", "3"), line("@0N15", "3"), state(axes=15, **WAS), line("@0N8", "0"), state(axes=15, position=(1, 2, 3, 0), origin=(5, 6, 7, 0), turn=(2, -1)), SET, line("@0N7", "0"),
     state(axes=15, position=(0, 0, 0, 4), origin=(0, 0, 0, 8), turn=(2, -1)), SET, host("H axes 8"), line("@0n8", "0"), line("@0N7", "3"), state(axes=8, position=(1, 2, 3, 4), origin=(5, 6, 7, 4), turn=(2, -1)))

case("turntable_report", "P has 24 digits with four axes, else 18, whatever A's position is; the reply buffer is as long as ever",
     SET, *[part for axes in (0, 1, 3, 7, 8) for part in (host("H axes %d" % axes), where(1, 2, 3))], host("H axes 15", "H a -8388608"), where(1, 2, 3, -8388608), host("H a 8388607"), where(1, 2, 3, 8388607),
     text("@0P"), host("R 31"), refused(101, "B 13"), host("R 32"), byte(13, report(1, 2, 3, 8388607)))

FLAT = pulses([2, -1], 600) + pulses([0, 0, 1], 800) + a(-2)
FLAT_AT = [(0, 0, 0, 0), (1, -1, 0, 0), (2, -1, 0, 0), (2, -1, 1, 0), (2, -1, 1, -1), (2, -1, 1, -2)]
for k, at in enumerate(FLAT_AT):
    case("turntable_stop_after_%d" % k, "2.5D, four axes, phases of 2, 1 and 2 pulses: a stop after %d of 5 holds; the rest is made after S" % k,
         FOUR, line("@0A2,600,-1,700,1,800,-2,900"), clock(*FLAT[:k]) if k else [], stop, nothing(2), where(*at), line("@08", "W"), line("@0n8", "W"), no_stop, line("@0S"), clock(*FLAT[k:], ZERO), nothing(),
         where(2, -1, 1, -2))

SPACE = ["Pulse +..+ 600", "Pulse .-.+ 600", "Pulse +..+ 600"]
SPACE_AT = [(0, 0, 0, 0), (1, 0, 0, 1), (1, -1, 0, 2), (2, -1, 0, 3)]
for k, at in enumerate(SPACE_AT):
    case("turntable_stop_3d_after_%d" % k, "3D, four axes, one phase of 3 pulses at the x speed: a stop after %d of them" % k,
         FOUR, line("@0z1", "0"), line("@0A2,600,-1,700,0,800,3,900"), clock(*SPACE[:k]) if k else [], stop, nothing(2), where(*at), no_stop, line("@0s"), clock(*SPACE[k:], ZERO), nothing(), where(2, -1, 0, 3))

case("turntable_stop_everywhere", "stops between all calls of a program of four axes: the same pulses, none lost and none doubled",
     FOUR, store("0 2,600,-1,700,1,800,-2,900", "n8", "m 2,600,-1,700,1,800,1,900"), line("@0S"), *[part for answer in FLAT + ["Done"] + a(1) + [ZERO] for part in (stop, nothing(), line("@0S"), clock(answer))],
     no_stop, where(2, -1, 1, -1))

case("turntable_stop_alone", "A alone: stops before, between and behind its pulses",
     ALONE, line("@0A2,600"), stop, line("@0S"), clock(*a(1, 600)), stop, state(axes=8, position=(0, 0, 0, 1), job="Direct", standing=1), line("@08", "W"), where(0, 0, 0), line("@0S"), clock(*a(1, 600)), stop,
     line("@0S"), clock(ZERO), state(axes=8, position=(0, 0, 0, 2)))

case("turntable_break", "a break among A's pulses keeps the positions reached, of a line and of a program; a stop and a break too",
     FOUR, line("@0A1,600,0,700,0,800,3,900"), clock(*pulses([1], 600), *a(2)), byte(BREAK, "F"), nothing(), where(1, 0, 0, 2), store("0 0,600,0,700,0,800,-3,900"), line("@0S"), clock(*a(-1)), stop,
     byte(BREAK, "F"), state(axes=15, position=(1, 0, 0, 1), held=(36, 1, 15)), line("@0S"), clock(*a(-3), ZERO), where(1, 0, 0, -2))

case("turntable_reset", "a reset among A's pulses drops A and sets it to 0; the program is kept",
     FOUR, store("0 0,600,0,700,0,800,-3,900"), line("@0S"), clock(*a(-1)), byte(RESET), state(held=(36, 1, 15)), nothing(), line("@08", "0"), line("@0S", "G"), line("@07", "0"), line("@08", "0"), line("@0S"),
     clock(*a(-3), ZERO))

case("turntable_run_tells_places", "the first pulse of each phase is told, A's too, and the origin has four numbers",
     FOUR, store("0 2,600,0,700,1,800,2,900", "n8", "0 0,600,0,700,0,800,1,900"), line("@0S"),
     run(99, ("Pulse +... 600", "Moving", 0, 1), "Pulse +... 600", ("Pulse ..+. 800", "Moving", 1, 1), ("Pulse ...+ 900", "Moving", 1, 1), "Pulse ...+ 900", ("Done", "Ready", 1, 2, (0, 0, 0, 2)),
         ("Pulse ...+ 900", "Moving", 2, 3, (0, 0, 0, 2)), (ZERO, "Idle", 3, 0, (0, 0, 0, 2))), state(axes=15, position=(2, 0, 1, 3), origin=(0, 0, 0, 2), held=(80, 3, 15)))

case("turntable_listing", "programs of four axes and of A alone are listed; the target of A is there",
     FOUR, store("0 1,600,-2,700,3,800,-4,900", "m 0,30,0,30,0,30,-5,30", "n 8", "n7"), listed("01,600,-2,700,3,800,-4,900", "m0,30,0,30,0,30,-5,30", "n8", "n7", "9"), byte(RESET), ALONE,
     listed("01,600,-2,700,3,800,-4,900", "m0,30,0,30,0,30,-5,30", "n8", "n7", "9"), store("0 1,600", "m -1, 0700", "n8"), listed("01,600", "m-1,700", "n8", "9"), state(axes=8, held=(32, 3, 8)))

case("turntable_start_under_others", "S with a store of other axes is G and keeps it: every two of 1, 3, 7, 8 and 15",
     line("@01", "0"), store("133"),
     *[part for kept in (1, 3, 7, 8, 15) for board in (1, 3, 7, 8, 15)
       for part in (host("H axes %d" % board, "K 8 1 %d" % kept), line("@0S", "-" if kept == board else "G"), clock(sends("!"), ZERO) if kept == board else nothing(),
                    state(axes=board, held=(8, 1, kept)))])

case("turntable_circle", "an arc with four axes and A at an end of 24 bits: A stays there, stopped and altered too",
     FOUR, host("H a 8388607"), line("@0y4,600,0,2,0,-1,-1"), clock(*turns("y-")), stop, where(0, -1, 0, 8388607), host("H a -8388608"), line("@0S"), clock(*turns("x-")), host("H a 8388608"), refused(103, "C 1"),
     host("H a 5"), clock(*turns("y- x-"), ZERO), where(-2, -2, 0, 5))

case("turntable_circle_alone", "with A alone a y is 3, of a line at once and of a program when it is run; the store's axes decide",
     ALONE, line("@0y1,600,0,2,0,-1,-1", "3"), store("133", "y1,600,0,2,0,-1,-1"), line("@0S"), clock(sends("!"), sends("3")), state(axes=8, held=(40, 2, 8)), line("@0S"), clock(sends("!")),
     host("K 40 2 15"), clock(*turns("y-"), ZERO), line("@0S", "G"), host("H axes 15"), line("@0S"), clock(sends("!")), host("K 40 2 8"), clock(sends("3")), state(axes=15, position=(0, -1, 0, 0), held=(40, 2, 8)))
