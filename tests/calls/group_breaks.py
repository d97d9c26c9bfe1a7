"""Break and reset: while something stands, runs, waits or is in a delay, while storing and when idle."""
from case import case, BREAK, RESET, byte, clock, line, lines, listed, no_stop, nothing, report, sends, state, stop, store, text, where, x

ZERO = sends("0")
ended = byte(BREAK, "F")
no_break = byte(BREAK)
reset = byte(RESET)

case("break_standing", "a break ends what stands: F, the positions reached stay, S finds nothing stopped",
     line("@01", "0"), line("@0A3,600"), clock(*x(2)), stop, ended, state(axes=1, position=(2, 0, 0)), nothing(), no_break, where(2, 0, 0), line("@0S", "8"))

case("break_running", "a break in a running movement: F; the next movement starts where it is",
     line("@01", "0"), line("@0A3,600"), clock(*x(1)), ended, nothing(), where(1, 0, 0), line("@0A-1,700"), clock(*x(-1, 700), ZERO), where(0, 0, 0))

case("break_before_the_first_pulse", "also before the first pulse, and after the last before the 0",
     line("@01", "0"), line("@0A1,600"), ended, nothing(), where(0, 0, 0), line("@0A1,600"), clock(*x(1)), ended, nothing(), where(1, 0, 0))

case("break_program", "a break in a program: F; the store stays and S starts from place 0 with no loop open",
     line("@01", "0"), store("133", "3 5,-1"), line("@0S"), clock(sends("!"), "Done", sends("!")), ended, state(axes=1, held=(20, 2, 1)), nothing(),
     line("@0S"), clock(sends("!"), "Done"), state(axes=1, held=(20, 2, 1), job="Ready", loops=1), ended, state(axes=1, held=(20, 2, 1)))

case("break_standing_program", "a break while a program stands keeps the store",
     line("@01", "0"), store("0 2,600"), line("@0S"), clock(*x(1)), stop, ended, state(axes=1, position=(1, 0, 0), held=(12, 1, 1)), line("@0S"),
     clock(*x(2), ZERO), where(3, 0, 0))

case("break_in_a_wait", "a break ends a wait; the character then is part of a line",
     line("@01", "0"), store("233,1"), line("@0S"), clock("Done"), ended, state(axes=1, held=(12, 1, 1)), byte(33), byte(13, "5"), nothing())

case("break_in_a_delay", "a break ends a delay between its pauses",
     line("@01", "0"), store("5 3"), line("@0S"), clock("Pause"), ended, nothing(), state(axes=1, held=(8, 1, 1)))

case("break_when_storing", "a break while storing does nothing",
     line("@01", "0"), line("@0i", "0"), line("133", "0"), no_break, text("13"), no_break, line("4", "0"), line("9", "0"), listed("133", "134", "9"))

case("break_when_idle", "a break when idle does nothing and keeps the line being gathered",
     no_break, line("@01", "0"), text("@0"), no_break, line("P", report(0, 0, 0)), state(axes=1))

case("break_keeps_the_line", "a line begun while it stands is still there after the break",
     line("@01", "0"), line("@0A2,600"), clock(*x(1)), stop, text("@0"), ended, line("P", report(1, 0, 0)))

case("break_keeps_the_rest", "a break keeps 3D, origins, output and store",
     line("@07", "0"), line("@0z1", "0"), line("@0B0,9", "0"), line("@0A1,600,0,600,0,600,0,600"), clock(*x(1), ZERO), line("@0n7", "0"), store("5 9"),
     line("@0S"), clock("Pause"), ended, state(axes=7, position=(1, 0, 0), origin=(1, 0, 0), three=1, output=9, held=(8, 1, 7)))

case("reset_standing", "a reset while it stands sends nothing and clears axes, positions, output and the movement",
     line("@01", "0"), line("@0B0,5", "0"), line("@0A3,600"), clock(*x(2)), stop, reset, state(), nothing(), no_stop, no_break, line("@0S", "4"))

case("reset_standing_program", "a reset keeps the store: with the axes set again it starts from place 0",
     line("@03", "0"), line("@0z1", "0"), store("133", "0 1,600,1,700"), line("@0S"), clock(sends("!"), "Pulse ++.. 600"), stop, reset, state(held=(28, 2, 3)),
     line("@0S", "4"), line("@03", "0"), line("@0S"), clock(sends("!"), "Pulse ++.. 600", ZERO), where(1, 1, 0))

case("reset_running", "a reset in a running movement",
     line("@01", "0"), line("@0A3,600"), clock(*x(1)), reset, nothing(2), where(0, 0, 0), state())

case("reset_in_a_wait", "a reset in a wait: the byte then is gathered",
     line("@01", "0"), store("233,1"), line("@0S"), clock("Done"), reset, state(held=(12, 1, 1)), byte(33), byte(13, "5"))

case("reset_in_a_delay", "a reset in a delay, with a loop open",
     line("@01", "0"), store("5 2", "3 1,-1"), line("@0S"), clock("Pause", "Pause", "Done", "Pause"),
     state(axes=1, held=(20, 2, 1), job="Delay", loops=1), reset, nothing(), state(held=(20, 2, 1)))

case("reset_when_storing", "a reset ends storing and empties the store being written; its bytes stay",
     line("@01", "0"), line("@0i", "0"), lines("0", "133", "134"), text("13"), reset, state(), listed("9"), line("@0P", report(0, 0, 0)),
     [("K 16 2 1", [])], listed("133", "134", "9"))

case("reset_when_idle", "a reset when idle clears 3D, origins, output and axes, and keeps the store",
     line("@07", "0"), store("133"), line("@0z1", "0"), line("@0B0,255", "0"), line("@0A0,600,2,600,0,600,0,600"),
     clock("Pulse .+.. 600", "Pulse .+.. 600", ZERO), line("@0n2", "0"),
     state(axes=7, position=(0, 2, 0), origin=(0, 2, 0), three=1, output=255, held=(8, 1, 7)), reset, state(held=(8, 1, 7)), listed("133", "9"))

case("reset_clears_the_line", "a reset in a line: what follows is another line; a line over 80 bytes is forgotten too",
     text("@0"), reset, line("P", "5"), text("1" * 90), reset, line("@0P", report(0, 0, 0)))
