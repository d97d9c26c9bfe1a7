"""Arcs call by call: stops, breaks, resets, states, listings, programs. The pulses are worked out by hand from the rule."""
from case import BREAK, RESET, byte, case, clock, host, line, lines, listed, no_stop, nothing, report, run, sends, state, stop, store, text, turns, where

ZERO = sends("0")
ROUND = turns("y+ x- y+ x- x-")  # counter-clockwise from (2,0)
AT = [(0, 0, 0), (0, 1, 0), (-1, 1, 0), (-1, 2, 0), (-2, 2, 0), (-3, 2, 0)]
BACK = dict(turn=(0, -1))
go = line("@03", "0") + line("@0f-1", "0") + line("@0y5,600,0,2,0,-1,1")

for k in (0, 2, 5):
    case("circle_stop_after_%d" % k, "an arc of 5 pulses stopped after %d of them: the rest is made after S, as if it had never stood" % k,
         go, clock(*ROUND[:k]) if k else [], stop, nothing(2), where(*AT[k]), no_stop, line("@0S"), clock(*ROUND[k:], ZERO), nothing(), where(-3, 2, 0))

case("circle_stop_everywhere", "stops between all calls: the same pulses, none lost and none doubled",
     go, *[part for answer in ROUND + [ZERO] for part in (stop, nothing(), line("@0S"), clock(answer))], no_stop, where(-3, 2, 0))

case("circle_lines_when_it_stands", "while an arc stands e, f and y are W, right or wrong, and 5 for their shape; nothing changes",
     go, clock(*ROUND[:3]), stop, state(axes=3, position=AT[3], job="Direct", standing=1, **BACK),
     lines("W", "@0e1", "@0e9", "@0e", "@0f0", "@0f 5", "@0y1,600,0,1,0,-1,1", "@0y", "@0y0, 0, 0, 0, 0, 0, 0", "@03"),
     lines("5", "@0E0", "@0F0", "@0Y1,600,0,1,0,-1,-1", "@0e ", "@0f1,", "@0y1,  600", "e0", "y1,600,0,1,0,-1,-1"),
     state(axes=3, position=AT[3], job="Direct", standing=1, **BACK), line("@0S"), clock(*ROUND[3:], ZERO), state(axes=3, position=AT[5], **BACK))

case("circle_dropped_while_running", "bytes while an arc runs are dropped, e, f and y too",
     go, clock(*ROUND[:1]), line("@0f0"), line("@0e1"), clock(*ROUND[1:2]), line("@0y1,600,0,1,0,-1,1"), line("@0P"), clock(*ROUND[2:], ZERO), state(axes=3, position=AT[5], **BACK))

case("circle_no_length_is_over", "an arc of no length is over in the reply to its line: nothing to stop, no call",
     line("@07", "0"), line("@0y0,600,0,2,0,-1,-1", "0"), no_stop, nothing(), byte(BREAK), state(axes=7))

case("circle_break", "a break ends an arc that runs or stands: F; the position reached, the plane and the direction stay",
     line("@07", "0"), line("@0e2", "0"), line("@0f-1", "0"), line("@0y9,600,0,2,0,-1,1"), clock(*turns("z+ y-")), byte(BREAK, "F"), state(axes=7, position=(0, -1, 1), turn=(2, -1)), nothing(),
     line("@0y9,700,0,2,0,-1,1"), clock(*turns("z+", 700)), stop, byte(BREAK, "F"), byte(BREAK), state(axes=7, position=(0, -1, 2), turn=(2, -1)), line("@0S", "8"))

case("circle_reset", "a reset ends an arc and gives plane 0, clockwise; so do axes; a break when idle does not",
     line("@07", "0"), line("@0e1", "0"), line("@0f-1", "0"), byte(BREAK), state(axes=7, turn=(1, -1)), line("@0y9,600,0,2,0,-1,1"), clock(*turns("z+")), byte(RESET), nothing(), state(),
     line("@07", "0"), line("@0e1", "0"), line("@0f-1", "0"), line("@09", "3"), state(axes=7, turn=(1, -1)), line("@07", "0"), state(axes=7), line("@0e2", "0"), line("@03", "0"), state(axes=3))

case("circle_program_stopped", "a program of arcs stopped before, in and behind them",
     line("@07", "0"), store("e1", "f-1", "y2,600,0,2,0,-1,1", "f0", "y2,700,0,0,1,1,-1"), line("@0S"), stop, line("@0S"), clock("Done", "Done"), stop,
     state(axes=7, held=(88, 5, 7), job="Ready", standing=1, turn=(1, -1)), line("@0f0", "W"), line("@0S"), clock(*turns("z+")), stop,
     state(axes=7, position=(0, 0, 1), held=(88, 5, 7), job="Moving", standing=1, turn=(1, -1)), line("@0S"), clock(*turns("x-")), stop, nothing(), line("@0S"), clock("Done"), stop, line("@0S"),
     clock(*turns("x+ z-", 700), ZERO), state(axes=7, held=(88, 5, 7), turn=(1, 0)))

case("circle_run_told", "behind the first pulse of an arc is told where the run has come to, and not behind its later ones",
     line("@03", "0"), store("f-1", "y3,600,0,2,0,-1,1", "y0,600,0,2,0,-1,1", "y1,700,0,0,1,-1,-1"), line("@0S"),
     run(99, ("Done", "Ready", 0, 1), (turns("y+")[0], "Moving", 1, 2), *turns("x- y+"), ("Done", "Ready", 2, 3), (turns("x-", 700)[0], "Moving", 3, 4), (ZERO, "Idle", 4, 0)),
     line("@0y2,600,0,2,0,-1,1"), run(99, (turns("y+")[0], "Direct", 0, 0), *turns("x-"), (ZERO, "Idle", 0, 0)))

case("circle_ended_by_3", "3 in place of an arc whose plane does not fit: one call; idle, with store and positions as they were",
     line("@03", "0"), store("133", "e1", "y1,600,0,4000000,4000000,1,1"), line("@0S"), run(9, (sends("!"), "Ready", 0, 1), ("Done", "Ready", 1, 2), (sends("3"), "Idle", 2, 0)),
     state(axes=3, held=(48, 3, 3), turn=(1, 0)), nothing(), listed("133", "e1", "y1,600,0,4000000,4000000,1,1", "9"), line("@0S"), clock(sends("!"), "Done", sends("3")))

case("circle_ended_by_1", "1 for directions that the rule does not give; 9 would follow",
     line("@03", "0"), store("y1,600,0,2,0,-1,-1", "y0,600,0,4000000,4000000,-1,1"), line("@0S"), clock(*turns("y-"), sends("1")), nothing(), state(axes=3, position=(0, -1, 0), held=(64, 2, 3)),
     line("@0f-1", "0"), line("@0S"), clock(sends("1")), nothing(), state(axes=3, position=(0, -1, 0), held=(64, 2, 3), **BACK))

case("circle_ended_by_9", "9 for a circle that leaves 24 bits, also with no length; from another position the same program goes on",
     line("@03", "0"), store("133", "y0,600,0,1,0,-1,-1", "y1,600,0,1,0,-1,-1"), host("H x 8388607"), line("@0S"), clock(sends("!"), sends("9")), nothing(),
     state(axes=3, position=(8388607, 0, 0), held=(72, 3, 3)), host("H x 8388606"), line("@0S"), clock(sends("!"), "Done", *turns("y-"), ZERO), where(8388606, -1, 0))

case("circle_axes_of_the_store", "the store's axes decide whether a plane fits, not the board's; with none e and f run and a y is 3; they are listed as z is",
     line("@03", "0"), store("e1", "y1,600,0,2,0,-1,-1"), line("@0S"), host("H axes 7"), clock("Done", sends("3")), host("K 40 2 7"), line("@0S"), host("H axes 1"), clock("Done", *turns("z-"), ZERO),
     host("H axes 7"), line("@0S"), host("K 40 2 0"), listed("e1", "y1,600,0,2,0,-1,-1", "9"), clock("Done", sends("3")), state(axes=7, position=(0, 0, -1), held=(40, 2, 0), turn=(1, 0)))

SHOWN = ["e1", "f0", "f0", "y131071,30,-8388608,-4000000,4000000,1,-1", "e0", "9"]
case("circle_listing", "code and numbers with commas, no space, no needless zeros; the bytes are those of the numbers: e at 0, f at 8 and 16, y at 24 with its numbers from 28 on, e at 56",
     line("@01", "0"), store("e 2", "f -1", "f-0", "y 08388607, 030, -8388608,-4000000, 4000000, 01,-1", "e00"),
     listed("e2", "f-1", "f0", "y8388607,30,-8388608,-4000000,4000000,1,-1", "e0", "9"), state(axes=1, held=(64, 5, 1)),
     host("W 4 1", "W 12 0", "W 13 0", "W 14 0", "W 15 0", "W 30 1"), listed(*SHOWN),
     *[part for at, bad, good in ((4, 3, 1), (6, 128, 0), (12, 1, 0), (26, 89, 121), (27, 6, 7), (27, 8, 7), (31, 1, 0), (32, 29, 30), (39, 254, 255), (43, 254, 255), (48, 0, 1), (48, 2, 1), (52, 254, 255), (55, 0, 255))
       for part in (host("W %d %d" % (at, bad)), listed("G"), host("W %d %d" % (at, good)), listed(*SHOWN))])

case("circle_damage", "a number of an arc that is no longer right is G when its record is run; a direction that is another is 1, a start that is another goes its own way",
     line("@03", "0"), store("y2,600,0,0,1,1,-1"), line("@0S"), host("W 4 1"), clock(*turns("x+"), ZERO), host("W 20 2"), line("@0S"), clock(*turns("x+"), ZERO), host("W 24 255", "W 25 255", "W 26 255", "W 27 255"),
     line("@0S"), clock(sends("1")), state(axes=3, position=(2, 0, 0), held=(32, 1, 3)), host("W 24 0", "W 25 0", "W 26 0", "W 27 0"), line("@0S"), clock(sends("G")), state(axes=3, position=(2, 0, 0)))

case("circle_nine_at_every_end", "centre and radius 5 plus one at each end of 24 bits, on both axes of each plane: what reaches the end is accepted, one farther is 9",
     line("@07", "0"),
     *[part for plane, axes in enumerate(("xy", "xz", "yz")) for which, (name, start) in enumerate(zip(axes, (3, 4)))
       for part in [line("@0e%d" % plane, "0")] + [step for centre, reply in ((8388601, "0"), (8388602, "9"), (-8388602, "0"), (-8388603, "9"))
                                                    for step in (host("H %s %d" % (name, centre + start)), line("@0y0,600,0,3,4,1,-1", reply))] + [host("H %s 0" % name)]],
     state(axes=7, turn=(2, 0)))

case("circle_round_at_an_end", "a circle of radius 2 whose square reaches 8,388,607 goes round and comes back; one step farther it is 9",
     line("@03", "0"), host("H x 8388605", "H y -8388605"), line("@0y16,600,0,1,0,-1,-1"), clock(*turns("y- x- x- y+ y+ x+ x+ y- y- x- x- y+ y+ x+ x+ y-"), ZERO),
     where(8388605, -8388605, 0), host("H x 8388604"), line("@0y16,600,0,2,0,-1,-1"), byte(BREAK, "F"), host("H x 8388607"), line("@0y16,600,0,2,0,-1,-1", "9"), host("H y -8388606", "H x 0"),
     line("@0y0,600,0,0,-1,-1,1", "0"), host("H y -8388607"), line("@0y0,600,0,0,-1,-1,1", "0"), host("H y -8388608"), line("@0y0,600,0,0,-1,-1,1", "9"))
