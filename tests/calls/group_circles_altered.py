"""What 103 asks of an arc under way, what it does not ask, and the fields of an arc that a host may set."""
from case import BREAK, byte, case, clock, host, line, listed, nothing, refused, run, sends, state, stop, store, text, turns, where, wrong, x

ZERO = sends("0")
# clockwise from (3,4) round (-3,-4), at most 6 from it on each axis: the tie at the start goes to x, then y twice, x
go = line("@07", "0") + line("@0y9,600,0,3,4,1,-1") + clock(*turns("x+"))

ROWS = [("arcspeed", 29, 30), ("arcspeed", 10001, 10000), ("arcspeed", 0, 600), ("arcspeed", 65535, 600), ("start1", 4000001, 3), ("start1", -4000001, 3), ("start1", 4286578687, 3),
        ("start2", 4000001, 4), ("start2", -4000001, 4), ("start2", -8388608, 4), ("made", 10, 1), ("made", 4294967295, 1), ("length", 0, 9), ("x", 4, 1), ("x", -10, 1), ("y", 3, 0), ("y", -11, 0),
        ("x", 8388608, 1), ("centre1", 8388607, -3), ("centre1", 8388608, -3), ("centre2", 8388602, -4), ("centre2", 4286578687, -4), ("centre2", -8388608, -4)]
case("circle_refused", "a speed, a start, a pulse number or a point that is wrong is 103, and none when it is right again",
     go, *[part for name, bad, good in ROWS for part in (host("H %s %d" % (name, bad)), refused(103, "C 1"), refused(103), host("H %s %d" % (name, good)), text("1"))],
     clock(*turns("y- y- x+")), byte(BREAK, "F"), state(axes=7, position=(2, -2, 0)))

case("circle_refused_pairs", "the start (0,0), the point at the centre, and a centre whose square leaves 24 bits on either side of either axis",
     go, host("H start1 0", "H start2 0"), refused(103, "C 1"), host("H start2 4", "H start1 3"), host("H x -3", "H y -4"), refused(103, "C 1"), host("H y -3"), clock(*turns("x+")), host("H x -3", "H y -4"),
     refused(103, "L"), host("H x 1", "H y 0"), text("1"),
     *[part for name, axis in (("centre1", "x"), ("centre2", "y")) for bad, good in ((8388602, 8388601), (-8388603, -8388602))
       for part in (host("H %s %d" % (name, bad), "H %s %d" % (axis, bad)), refused(103, "C 1"), host("H %s %d" % (name, good), "H %s %d" % (axis, good)), text("1"),
                    host("H %s %d" % (name, -3 if axis == "x" else -4), "H %s %d" % (axis, 1 if axis == "x" else 0)))],
     clock(*turns("y-")), byte(BREAK, "F"))

case("circle_refused_standing", "the same while it stands, and for an arc of a program",
     line("@03", "0"), store("y2,600,0,3,4,1,-1"), line("@0S"), clock(*turns("x+")), stop, host("H made 3"), refused(103, "C 1"), refused(103, "B 255"), host("H made 2"), nothing(), host("H x -3", "H y -4"),
     refused(103, "B 13"), host("H x 4", "H y 0"), refused(103, "L"), host("H x 3"), nothing(), listed("y2,600,0,3,4,1,-1", "9"), line("@0S"), clock(ZERO), where(3, 0, 0))

case("circle_not_refused", "not 103: a length that no line can send, a position that the pulse number does not give, a plane whose axis is not set",
     go, host("H length 4294967295", "H made 4294967293"), clock(*turns("y- y-"), ZERO), line("@0y9,600,0,3,4,1,-1"), host("H length 8388608"), clock(*turns("x+")), host("H made 0"), clock(*turns("y-")),
     host("H made 7"), clock(*turns("y-")), host("H axes 1"), clock(*turns("x+")), host("H axes 0"), clock(*turns("y-")), host("H axes 7"), byte(BREAK, "F"))

case("circle_altered_point", "from another point of the square the rule goes on with the start's value: from a corner towards the circle, from beside the centre away from it",
     line("@03", "0"), line("@0y99,600,0,3,4,1,-1"), host("H x 3", "H y 2"), clock(*turns("y- y- y-")), host("H x -2", "H y -4"), clock(*turns("y- y- y- y- y- x-")), byte(BREAK, "F"))

case("circle_altered_arc", "another plane, direction, centre, start, speed and length: the arc goes on by them, the board's own plane and direction stay",
     line("@07", "0"), line("@0y4,600,0,2,0,-1,-1"), host("H arcplane 2", "H arcturn -1", "H centre1 10", "H centre2 -1", "H start1 3", "H start2 4", "H arcspeed 77", "H length 9", "H made 7"),
     refused(103, "C 1"), host("H y 15", "H z -1"), clock(*turns("z+ z+", 77), ZERO), state(axes=7, position=(0, 15, 1)))

case("circle_own_turn", "an arc under way keeps its plane and direction when the host sets the board's; a later one goes by those",
     line("@07", "0"), line("@0y5,600,0,2,0,-1,-1"), clock(*turns("y-")), host("H plane 1", "H turn -1"), clock(*turns("x-")), stop, state(axes=7, position=(-1, -1, 0), job="Direct", standing=1, turn=(1, -1)),
     host("H plane 2"), line("@0S"), clock(*turns("y- x- x-"), ZERO), state(axes=7, position=(-3, -2, 0), turn=(2, -1)), line("@0y2,600,0,2,0,-1,-1", "1"), line("@0y2,600,0,2,0,-1,1"),
     clock(*turns("z+ y-"), ZERO), where(-3, -3, 1))

case("circle_board_fields", "plane and direction can always be set: idle, storing, waiting, without axes; other values are wrong lines",
     host("H plane 2", "H turn -1"), state(turn=(2, -1)), wrong("H plane 3", "H plane -1", "H turn 1", "H turn -2", "H plane", "H Plane 1", "H turn 0 0"), state(turn=(2, -1)),
     line("@07", "0"), state(axes=7), host("H turn -1"), line("@0i", "0"), host("H plane 1"), line("233,1", "0"), line("9", "0"), line("@0S"), clock("Done"), host("H plane 2", "H turn 0"),
     state(axes=7, held=(12, 1, 7), job="Wait", turn=(2, 0)), byte(33), clock(ZERO), line("@0y1,600,0,2,0,-1,-1"), clock(*turns("z-"), ZERO))

OF_AN_ARC = ["H arcplane 0", "H arcturn 0", "H centre1 0", "H centre2 0", "H start1 1", "H start2 1", "H arcspeed 30", "H length 1"]
OF_A_LINE = ["H phase 0", "H speed1 30", "H speed2 30", "H speed3 30", "H startx 0", "H firsty 0", "H secondz 0", "H thirdx 0"]
case("circle_fields", "the fields of an arc are there only while one is under way, those of a straight movement only while such a one is; made is there for both",
     wrong(*OF_AN_ARC, "H made 0"), line("@03", "0"), line("@0A2,600,0,600"), wrong(*OF_AN_ARC), host("H made 0"), clock(*x(2), ZERO), wrong(*OF_AN_ARC), line("@0y2,600,0,2,0,-1,-1"),
     wrong(*OF_A_LINE), host("H made 0"), clock(*turns("y- x-"), ZERO), wrong(*OF_AN_ARC, "H made 0"), store("5 2", "y1,600,0,2,0,-1,-1"), line("@0S"), clock("Pause"), wrong(*OF_AN_ARC),
     clock("Pause", *turns("y-")), stop, host("H length 2"), line("@0S"), clock(*turns("x-"), ZERO), where(0, -2, 0))

case("circle_field_values", "a value that its place can't hold makes the line wrong and changes nothing; the largest and smallest are held, and are 103",
     go, wrong("H arcplane 3", "H arcplane -1", "H arcturn 1", "H arcturn -2", "H centre1 -8388609", "H centre2 4286578688", "H start1 -8388609", "H start2 4286578688", "H arcspeed 65536",
               "H arcspeed -1", "H length 4294967296", "H length -1", "H made 4294967296", "H centre3 0", "H start0 0", "H centre 0", "H centrex 0", "H length 1 1", "H arcplane"),
     clock(*turns("y-")), *[part for some, back in (("centre1 4286578687", "centre1 -3"), ("centre2 -8388608", "centre2 -4"), ("start1 -8388608", "start1 3"), ("start2 4286578687", "start2 4"),
                                                  ("arcspeed 65535", "arcspeed 600"), ("made 4294967295", "made 2")) for part in (host("H " + some), refused(103, "C 1"), host("H " + back), text("1"))],
     host("H length 4294967295", "H arcplane 1", "H arcplane 0", "H arcturn -1", "H arcturn 0"), clock(*turns("y- x+")), byte(BREAK, "F"))

case("circle_made_tells", "made decides what is a first pulse: T stands behind a pulse after which it is 1",
     line("@03", "0"), line("@0y9,600,0,2,0,-1,-1"), run(1, (turns("y-")[0], "Direct", 0, 0), end="more"), run(1, *turns("x-"), end="more"), host("H made 0"),
     run(1, (turns("y-")[0], "Direct", 0, 0), end="more"), host("H made 8", "H place 7"), run(9, *turns("x-"), (ZERO, "Idle", 7, 0)))

case("circle_refused_when_told", "a Q whose call is refused ends there; an arc made right again goes on", go, host("H x 9"), [("Q 5", ["C 103", "Q over"])], host("H x 1"), run(1, *turns("y-"), end="more"),
     host("M 0"), [("Q 1", ["C 102", "Q over"])], host("U 999"), refused(104, "C 1"), host("H made 10", "U 999"), refused(103, "C 1"), host("H made 2"), clock(*turns("y-")), byte(BREAK, "F"))
