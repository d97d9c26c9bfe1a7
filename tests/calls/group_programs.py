"""Stops in a stored program: between records, around a delay's pauses, in a wait and in loops; starting again."""
from case import case, BREAK, byte, clock, line, lines, listed, no_stop, nothing, pulses, sends, state, stop, store, text, where, x

ZERO = sends("0")

RUN = [sends("!")] + x(2) + ["Pause", "Pause"] + [sends('"'), ZERO]
for k in range(len(RUN) + 1):
    held = k not in (4, len(RUN))
    case("stop_program_after_%d" % k,
         "a character, two pulses, two pauses, a character, the 0: a stop after %d calls %s" % (k, "holds" if held else "does nothing"),
         line("@01", "0"), store("133", "0 2,600", "5 2", "134"), line("@0S"), clock(*RUN[:k]) if k else [],
         stop + nothing(2) + line("@0S") if held else no_stop, clock(*RUN[k:]) if RUN[k:] else [], nothing(), where(2, 0, 0))

for tenths, pauses, answer in [(3, 0, "F"), (3, 1, "-"), (3, 2, "-"), (3, 3, "F"), (2, 1, "-"), (2, 2, "F"), (1, 0, "F"), (1, 1, "F")]:
    left = ["Pause"] * (tenths - pauses) + [ZERO]
    case("stop_delay_%d_after_%d" % (tenths, pauses), "a delay of %d pauses: nothing between the first and the last, held before and after" % tenths,
         line("@01", "0"), store("5 %d" % tenths), line("@0S"), clock(*["Pause"] * pauses) if pauses else [], byte(253, answer),
         state(axes=1, held=(8, 1, 1), job="Delay" if answer == "-" else "Ready", standing=int(answer == "F")),
         nothing() + line("@0S") if answer == "F" else line("@0S"), clock(*left), nothing())

case("stop_no_delay", "a delay of no tenths takes one call and has no pause: a stop holds before and after it",
     line("@01", "0"), store("5 0", "133"), line("@0S"), stop, line("@0S"), clock("Done"), stop, nothing(), line("@0S"), clock(sends("!"), ZERO))

case("stop_in_a_wait", "a stop in a wait does nothing: it still waits, and the character still jumps",
     line("@01", "0"), store("233,2", "134", "135"), line("@0S"), clock("Done"), nothing(), no_stop,
     state(axes=1, held=(28, 3, 1), job="Wait"), nothing(), byte(33), clock(sends("#"), ZERO))

case("stop_around_a_wait", "a stop holds before the wait's record and after its byte; other bytes than the character go on",
     line("@01", "0"), store("233,2", "134", "135"), line("@0S"), stop, nothing(), line("@0S"), clock("Done"), byte(34), stop, nothing(), text("!"),
     byte(13, "5"), line("@0S"), clock(sends('"'), sends("#"), ZERO))

case("a_wait_takes_one_byte", "a wait takes the return, @ and 0 as any byte, without a reply; the bytes after it are dropped",
     line("@01", "0"), store("264,0", "133"), line("@0S"), clock("Done"), byte(13), clock(sends("!"), ZERO),
     line("@0S"), clock("Done"), byte(64), clock("Done"), byte(64), text("0P"), clock("Done"), byte(0), byte(13), clock(sends("!"), ZERO),
     line("", "5"))

case("stop_between_records", "n, z, a jump and characters: a stop after each record that has no pulse",
     line("@07", "0"), store("n7", "z1", "3 0,2", "133", "134"), line("@0S"), stop, line("@0S"), clock("Done"), stop, line("@0S"), clock("Done"),
     stop, state(axes=7, three=1, held=(44, 5, 7), job="Ready", standing=1), line("@0S"), clock("Done"), stop, line("@0S"), clock(sends('"')), stop,
     nothing(), line("@0S"), clock(ZERO), nothing())

LOOP = [p for _ in range(3) for p in x(1) + ["Done"]] + [ZERO]
case("loop_stopped_everywhere", "0 1,600 and 3 2,-1: three pulses, whatever stops lie between",
     line("@01", "0"), store("0 1,600", "3 2,-1"), line("@0S"),
     *[part for answer in LOOP for part in (stop, nothing(), line("@0S"), clock(answer))], no_stop, where(3, 0, 0))

case("loop_counters_stay", "what stands keeps its open loops; the end closes them",
     line("@01", "0"), store("133", "3 1,-1", "3 1,-2"), line("@0S"), clock(sends("!"), "Done"), stop,
     state(axes=1, held=(32, 3, 1), job="Ready", standing=1, loops=1), line("@0S"), clock(sends("!"), "Done", "Done", sends("!"), "Done"), stop,
     state(axes=1, held=(32, 3, 1), job="Ready", standing=1, loops=2), line("@0S"), clock(sends("!"), "Done", "Done", ZERO),
     state(axes=1, held=(32, 3, 1)))

case("movements_of_a_program", "a stop between the last pulse of one movement and the first of the next, in 2.5D",
     line("@07", "0"), store("0 1,600,0,700,1,800,0,900", "m0,300,0,400,0,500,0,600"), line("@0S"), clock(*x(1), *pulses([0, 0, 1], 800)), stop,
     state(axes=7, position=(1, 0, 1), held=(72, 2, 7), job="Moving", standing=1), where(1, 0, 1), line("@0S"), clock(*x(-1, 300)), stop, line("@0S"),
     clock(*pulses([0, 0, -1], 500)), stop, line("@0S"), clock(ZERO), where(0, 0, 0))

case("start_again", "S after the end starts at place 0 again and sends no 0; S while standing goes on where it stands",
     line("@01", "0"), store("133", "0 1,600"), line("@0S"), clock(sends("!")), stop, line("@0S"), clock(*x(1), ZERO), line("@0S"), stop, line("@0S"),
     clock(sends("!"), *x(1), ZERO), where(2, 0, 0))

case("start_while_running", "S while a program runs is dropped: it does not start again",
     line("@01", "0"), store("133", "134"), line("@0S"), clock(sends("!")), line("@0S"), clock(sends('"'), ZERO), nothing())

case("standing_lines_of_a_program", "while a program stands k and i are W: its store stays, and it goes on",
     line("@01", "0"), store("133", "134"), line("@0S"), clock(sends("!")), stop, lines("W", "@0k", "@0i", "@03", "@0A1,600"), line("@0S1", "7"),
     listed("133", "134", "9"), line("@0S"), clock(sends('"'), ZERO))

case("nine_after_a_stop", "a movement that would leave 24 bits ends the program with 9, stopped before or not; the store stays",
     line("@01", "0"), store("0 1,600", "0 8388607,600", "133"), line("@0S"), clock(*x(1)), stop, line("@0S"), clock("Send 57"), nothing(),
     state(axes=1, position=(1, 0, 0), held=(32, 3, 1)), no_stop, line("@0S"), stop, line("@0S"), clock(*x(1), "Send 57"), where(2, 0, 0))

case("stop_when_storing", "a stop while storing does nothing: storing goes on, in the middle of a line too",
     line("@01", "0"), line("@0i", "0"), no_stop, text("13"), no_stop, line("3", "0"), nothing(), no_stop,
     state(axes=1, held=(8, 1, 1), job="Storing"), line("9", "0"), no_stop, line("@0S"), clock(sends("!"), ZERO))

case("stop_after_the_program", "after the 0, after 9 and after a break there is nothing to stop",
     line("@01", "0"), store("133"), line("@0S"), clock(sends("!"), ZERO), no_stop, line("@0S"), byte(BREAK, "F"), no_stop, nothing(),
     state(axes=1, held=(8, 1, 1)))

case("other_axes", "S with nothing stopped and axes other than the store's is G; the store stays and runs under its own axes",
     line("@03", "0"), store("133"), line("@01", "0"), line("@0S", "G"), nothing(), no_stop, state(axes=1, held=(8, 1, 3)), line("@03", "0"), line("@0S"),
     clock(sends("!"), ZERO))
