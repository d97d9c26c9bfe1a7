"""Q, which makes clock calls until one is quiet and tells places; E, which may end the script; N, which marks."""
from case import case, BREAK, byte, clock, host, line, no_stop, nothing, run, sends, state, stop, store, told, where, wrong

ZERO = sends("0")
STEP = "Pulse +... 600"
MIXED = line("@01", "0") + store("133", "0 2,600", "5 2") + line("@0S")  # records of 8, 12 and 8 bytes
# six calls: a character, two pulses, two pauses, the 0
ALL = [(sends("!"), "Ready", 0, 1), (STEP, "Moving", 1, 2), STEP, ("Pause", "Delay", 2, 3), ("Pause", "Ready", 3, 3), (ZERO, "Idle", 3, 0)]
HELD = (28, 3, 1)

case("run_until_quiet", "every answer but the nothing that ends it; T behind the first pulse of a phase and behind all that is no pulse",
     MIXED, run(100000, *ALL), state(axes=1, position=(2, 0, 0), held=HELD), run(100000), nothing(), where(2, 0, 0))

case("run_at_most", "no more than n calls: the call tried after them is not kept, and the next Q goes on exactly there",
     MIXED, run(1, *ALL[:1], end="more"), state(axes=1, held=HELD, job="Ready"), run(1, *ALL[1:2], end="more"),
     state(axes=1, position=(1, 0, 0), held=HELD, job="Moving"), run(2, *ALL[2:4], end="more"), state(axes=1, position=(2, 0, 0), held=HELD, job="Delay"),
     clock("Pause"), run(0, end="more"), state(axes=1, position=(2, 0, 0), held=HELD, job="Ready"), run(2, *ALL[5:]), nothing())

case("run_exactly_enough", "n calls that are just enough: the call tried after them answers nothing, so it is over; one fewer is more",
     MIXED, run(6, *ALL), line("@0S"), run(5, *ALL[:5], end="more"), run(1, *ALL[5:]), line("@0A1,600"), run(2, (STEP, "Direct", 0, 0), (ZERO, "Idle", 0, 0)),
     line("@0A1,600"), run(1, (STEP, "Direct", 0, 0), end="more"), run(1, (ZERO, "Idle", 0, 0)), store("233,1"), line("@0S"), run(1, ("Done", "Wait", 0, 1)),
     byte(33), run(1, (ZERO, "Idle", 1, 0)))

case("run_zero", "Q 0 keeps no call: over when idle, storing, standing and waiting, more when something runs, however often it is asked",
     run(0), line("@01", "0"), line("@0i", "0"), run(0), line("0 2,600", "0"), line("233,1", "0"), line("9", "0"), run(0), line("@0S"), run(0, end="more"), run(0, end="more"),
     state(axes=1, held=(24, 2, 1), job="Ready"), clock(STEP), run(0, end="more"), stop, run(0), line("@0S"), run(0, end="more"), clock(STEP, "Done"), run(0),
     state(axes=1, position=(2, 0, 0), held=(24, 2, 1), job="Wait"), byte(33), run(0, end="more"), clock(ZERO), run(0))

case("run_lent", "M and R are for the first call of Q, with Q 0 for the one that is tried; a refused call is printed, ends it and changes nothing",
     MIXED, host("M 0"), run(5, "102"), host("M 16383"), run(0), run(0, end="more"), host("R 0"), run(0, end="more"), host("R 0"), run(1, ALL[0], end="more"),
     byte(64), host("M 16384"), run(1, ALL[1], end="more"), byte(64), state(axes=1, position=(1, 0, 0), held=HELD, job="Moving"), host("M 16385"),
     run(100000, "102"), run(100000, *ALL[2:]), host("M 1"), run(0), run(0), host("M 0"), run(3, "102"), host("M 0", "R 0"), run(0), line("@0P", "0000002000000000000"))

case("run_refused", "103 is printed and ends it, without a T; with Q 0 it is over with nothing printed; mended, it goes on",
     MIXED, run(2, *ALL[:2], end="more"), host("H made 2"), run(9, "103"), run(0), state(axes=1, position=(1, 0, 0), held=HELD, job="Moving"), host("H made 1", "H axes 2"),
     run(1, "103"), run(0), host("H axes 1"), run(0, end="more"), run(9, *ALL[2:]), host("H oy 8388608"), run(9, "103"), host("M 0"), run(9, "102"))

case("run_not_over_ends_the_script", "E after Q more: nothing behind it is run or printed, a wrong line neither",
     MIXED, run(2, *ALL[:2], end="more"), byte(64), wrong("Q -1", "E 1"), state(axes=1, position=(1, 0, 0), held=HELD, job="Moving"),
     host("E", "S", "what", "", "B 255", "Q 1", "N 1", "E", "L", "C 2"))

case("run_over_goes_on", "E does nothing with no Q before it, and if the last Q was over, whatever stood before that; C and a wrong Q are no Q",
     host("E"), MIXED, host("E"), run(1, ALL[0], end="more"), byte(BREAK, "F"), run(0), host("E"), line("@0S"), clock(sends("!")), host("E"), wrong("Q", "Q -1"), host("E"), host("M 0"),
     run(3, "102"), host("E"), run(9, *ALL[1:]), host("E", "E"), state(axes=1, position=(2, 0, 0), held=HELD))

TOUR = ["0 1,600,0,700,2,800,-1,900", "n7", "3 1,-2", "3 0,2", "133", "5 0", "m0,600,0,600,0,600,0,600", "5 1", "z1", "233,-1"]


def pass_of_tour(origin):
    """The movement of record 0: one pulse of x, two of z and one of z back, each the first of its phase but one."""
    return [(STEP, "Moving", 0, 1, origin), ("Pulse ..+. 800", "Moving", 1, 1, origin), "Pulse ..+. 800", ("Pulse ..-. 900", "Moving", 1, 1, origin)]


LAST = (2, 0, 2)
case("run_tells_places", "the places before and after each, and the origin: a loop, n, a jump, no delay, no pulse, a pause, z, a wait and its target",
     line("@07", "0"), store(*TOUR), line("@0S"),
     run(100000, *pass_of_tour((0, 0, 0)), ("Done", "Ready", 1, 2, (1, 0, 1)), ("Done", "Ready", 2, 0, (1, 0, 1)), *pass_of_tour((1, 0, 1)), ("Done", "Ready", 1, 2, LAST),
         ("Done", "Ready", 2, 3, LAST), ("Done", "Ready", 3, 5, LAST), ("Done", "Ready", 5, 6, LAST), ("Done", "Ready", 6, 7, LAST), ("Pause", "Ready", 7, 8, LAST),
         ("Done", "Ready", 8, 9, LAST), ("Done", "Wait", 9, 10, LAST)),
     state(axes=7, position=LAST, origin=LAST, three=1, held=(148, 10, 7), job="Wait"), run(100000), byte(33), run(100000, ("Done", "Ready", 8, 9, LAST), ("Done", "Wait", 9, 10, LAST)),
     byte(34), run(100000, (ZERO, "Idle", 10, 0, LAST)))

case("run_from_behind_a_wait", "an answered wait goes on at its target, another byte at the next record: the call after it says so behind from, though no T before did",
     line("@01", "0"), store("233,2", "134", "0 0,600", "3 1,-3"), line("@0S"), run(100000, ("Done", "Wait", 0, 1)), byte(33),
     run(100000, ("Done", "Ready", 2, 3), ("Done", "Ready", 3, 0), ("Done", "Wait", 0, 1)), state(axes=1, held=(44, 4, 1), job="Wait", loops=1), byte(34),
     run(100000, (sends('"'), "Ready", 1, 2), ("Done", "Ready", 2, 3), ("Done", "Ready", 3, 4), (ZERO, "Idle", 4, 0)), state(axes=1, held=(44, 4, 1)))

case("run_direct", "a movement by a line: job Direct, a T at the first pulse of each phase that has one, and at the 0",
     line("@07", "0"), line("@0A2,600,-1,700,1,800,-2,900"), run(100000, ("Pulse +-.. 600", "Direct", 0, 0), STEP, ("Pulse ..+. 800", "Direct", 0, 0), ("Pulse ..-. 900", "Direct", 0, 0),
                                                                "Pulse ..-. 900", (ZERO, "Idle", 0, 0)),
     line("@0n1", "0"), line("@0A0,600,0,700,0,800,1,900"), run(100000, ("Pulse ..+. 900", "Direct", 0, 0, (2, 0, 0)), (ZERO, "Idle", 0, 0, (2, 0, 0))), line("@0z1", "0"),
     line("@0A1,600,1,700,1,800,5,900"), run(100000, ("Pulse +++. 600", "Direct", 0, 0, (2, 0, 0)), (ZERO, "Idle", 0, 0, (2, 0, 0))), line("@0A0,600,0,700,0,800,5,900", "0"), run(100000),
     where(3, 0, 1))

case("run_standing", "what stands is quiet; after S the pulses left follow, with a T only where a phase begins",
     line("@07", "0"), line("@0A2,600,0,700,1,800,0,900"), stop, run(9), host("E"), line("@0S"), run(1, (STEP, "Direct", 0, 0), end="more"), stop, run(9), line("@0S"),
     run(1, STEP, end="more"), stop, run(0), run(1), state(axes=7, position=(2, 0, 0), job="Direct", standing=1), line("@0S"), run(1, ("Pulse ..+. 800", "Direct", 0, 0), end="more"), stop,
     line("@0S"), run(9, (ZERO, "Idle", 0, 0)), no_stop, store("133", "134"), line("@0S"), run(1, (sends("!"), "Ready", 0, 1), end="more"), stop, run(9), host("E"), line("@0S"),
     run(9, (sends('"'), "Ready", 1, 2), (ZERO, "Idle", 2, 0)))

case("run_ends_by_9_and_g", "the 9 of a movement and the G of a damaged store are answers like others: idle at place 0 after them, the origin kept",
     line("@01", "0"), line("@0A1,600"), run(9, (STEP, "Direct", 0, 0), (ZERO, "Idle", 0, 0)), line("@0n1", "0"), store("133", "0 8388607,600"), line("@0S"),
     run(9, (sends("!"), "Ready", 0, 1, (1, 0, 0)), (sends("9"), "Idle", 1, 0, (1, 0, 0))), host("W 0 0"), line("@0S"), run(9, (sends("G"), "Idle", 0, 0, (1, 0, 0))),
     state(axes=1, position=(1, 0, 0), origin=(1, 0, 0)))

case("run_without_end", "a jump back and a loop of many passes are cut at n, and a break ends them; then Q is over",
     line("@01", "0"), store("133", "3 0,-1"), line("@0S"), run(5, *[(sends("!"), "Ready", 0, 1), ("Done", "Ready", 1, 0)] * 2, (sends("!"), "Ready", 0, 1), end="more"), byte(BREAK, "F"),
     run(5), host("E"), store("133", "3 32767,-1"), line("@0S"), run(2, (sends("!"), "Ready", 0, 1), ("Done", "Ready", 1, 0), end="more"),
     state(axes=1, held=(20, 2, 1), job="Ready", loops=1), byte(BREAK, "F"), run(100000))

case("run_after_the_host", "job, places and origin are told as the state has them, also where the host set them; made 1 again is a first pulse again",
     line("@01", "0"), line("@0A2,600"), host("H place 65535", "H oz -8388608"), run(1, ("Pulse +... 600", "Direct", 65535, 65535, (0, 0, -8388608)), end="more"), host("H x 0", "H made 0"),
     run(1, ("Pulse +... 600", "Direct", 65535, 65535, (0, 0, -8388608)), end="more"), run(9, STEP, (ZERO, "Idle", 65535, 0, (0, 0, -8388608))), host("H oz 0"), store("133", "134", "135"),
     line("@0S"), host("H place 2"), run(1, (sends("#"), "Ready", 2, 3), end="more"), host("H place 4"), run(9, (sends("G"), "Idle", 4, 0)), state(axes=1, position=(2, 0, 0)))

case("marks", "N prints its number as numbers are printed, and is no call: what M lent is still there",
     [("N 0", ["N 0"]), ("N 4294967295", ["N 4294967295"]), ("N 0000000012", ["N 12"]), ("N -0", ["N 0"])], wrong("N", "N ", "N -1", "N 4294967296", "N 00000000012", "N 1 2", "N x", "n 1"),
     host("M 0"), [("N 7", ["N 7"])], run(1, "102"), line("@01", "0"), line("@0A1,600"), run(0, end="more"), [("N 8", ["N 8"])], host("E", "N 9"))

case("run_wrong_lines", "n is from 0 to 4,294,967,295, in at most ten digits; E stands alone; a wrong line runs nothing",
     line("@01", "0"), line("@0A1,600"), wrong("Q", "Q ", "Q -1", "Q 4294967296", "Q 00000000001", "Q 1 1", "Q  1", "Q 1 ", "q 1", "Q x", "E 0", "E ", "e", " E", "T", "Q over"),
     [("Q 0000000001", ["C " + STEP, told("Direct", 0, 0), "Q more"]), ("Q -0", ["Q more"])], run(4294967295, (ZERO, "Idle", 0, 0)), host("E"), where(1, 0, 0))
