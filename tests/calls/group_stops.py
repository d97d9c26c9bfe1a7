"""Stops in a direct movement: at each place, what is heard then, and going on with exactly the pulses left."""
from case import case, byte, clock, line, lines, no_stop, nothing, pulses, report, sends, state, stop, text, where, x

ZERO = sends("0")
FLAT = pulses([2, -1, 0], 600) + pulses([0, 0, 1], 800) + pulses([0, 0, -2], 900)
FLAT_AT = [(0, 0, 0), (1, -1, 0), (2, -1, 0), (2, -1, 1), (2, -1, 0), (2, -1, -1)]
for k, at in enumerate(FLAT_AT):
    case("stop_flat_after_%d" % k, "2.5D, three phases of 2, 1 and 2 pulses: a stop after %d of 5 holds; the rest is made after S" % k,
         line("@07", "0"), line("@0A2,600,-1,700,1,800,-2,900"), clock(*FLAT[:k]) if k else [],
         stop, nothing(2), where(*at), no_stop, line("@0S"), clock(*FLAT[k:], ZERO), nothing(), where(2, -1, -1))

SPACE = ["Pulse +.+. 600", "Pulse .-+. 600", "Pulse +.+. 600"]
SPACE_AT = [(0, 0, 0), (1, 0, 1), (1, -1, 2), (2, -1, 3)]
for k, at in enumerate(SPACE_AT):
    case("stop_3d_after_%d" % k, "3D, one phase of 3 pulses at the x speed, z2 unused: a stop after %d of them" % k,
         line("@07", "0"), line("@0z1", "0"), line("@0A2,600,-1,700,3,800,5,900"), clock(*SPACE[:k]) if k else [],
         stop, nothing(2), where(*at), no_stop, line("@0s"), clock(*SPACE[k:], ZERO), nothing(), where(2, -1, 3))

case("stop_everywhere", "stops between all calls: the same pulses, none lost and none doubled",
     line("@07", "0"), line("@0A2,600,-1,700,1,800,-2,900"),
     *[part for answer in FLAT + [ZERO] for part in (stop, nothing(), line("@0S"), clock(answer))],
     no_stop, where(2, -1, -1))

case("stop_absolute", "the target from the origin is reached after a stop",
     line("@01", "0"), line("@0A2,600"), clock(*x(2), ZERO), line("@0n1", "0"), line("@0M-3,700"),
     clock(*x(-1, 700)), stop, where(1, 0, 0), line("@0S"), clock(*x(-2, 700), ZERO), where(-1, 0, 0))

case("stop_without_pulse", "a movement without pulse is over in the reply to its line: nothing to stop",
     line("@01", "0"), line("@0A0,600", "0"), no_stop, nothing(), state(axes=1))

case("stop_when_idle", "a stop when idle does nothing, before and after axes are set, and a line being gathered stays",
     no_stop, state(), line("@01", "0"), text("@0"), no_stop, line("P", report(0, 0, 0)), state(axes=1))

case("stop_after_the_end", "after the 0 the movement is over",
     line("@01", "0"), line("@0A1,600"), clock(*x(1), ZERO), no_stop, line("@0S", "8"), state(axes=1, position=(1, 0, 0)))

case("stop_state", "what stands stopped is the movement as it was; the state shows that it stands",
     line("@03", "0"), line("@0A2,600,0,600"), state(axes=3, job="Direct"), stop, state(axes=3, job="Direct", standing=1),
     line("@0S"), state(axes=3, job="Direct"), clock(*x(2)), stop, state(axes=3, position=(2, 0, 0), job="Direct", standing=1),
     line("@0S"), clock(ZERO), state(axes=3, position=(2, 0, 0)))

case("start_twice", "S goes on and sends no 0; a second S while it runs is dropped; after the end S finds nothing stopped",
     line("@01", "0"), line("@0A2,600"), stop, line("@0S"), line("@0S"), clock(*x(2), ZERO), line("@0S", "8"))

case("stop_again_after_start", "stop, S, stop, S with no call between: nothing is lost",
     line("@01", "0"), line("@0A2,600"), clock(*x(1)), stop, line("@0S"), stop, line("@0S"), stop, nothing(), line("@0S"),
     clock(*x(1), ZERO))

case("dropped_while_running", "ordinary bytes while running are dropped, the return too; the same bytes are heard while it stands",
     line("@01", "0"), line("@0A3,600"), line("@0P"), line(""), line("@0k"), clock(*x(1)), byte(0), byte(252), stop,
     where(1, 0, 0), line("", "5"), line("@0S"), line("@0P"), clock(*x(2), ZERO), where(3, 0, 0))

case("spaces_while_running", "spaces and commas while running are dropped as any byte; none of them heads the next line",
     line("@01", "0"), line("@0A3, 600"), text("  , "), clock(*x(1)), line("@0A 1, 600"), text(" "), stop, where(1, 0, 0), line("@0P1, 2", "7"), line("@0S"), text(", "),
     clock(*x(2), ZERO), where(3, 0, 0))

case("half_dropped", "a line half of which came while it ran: the first half is lost, the rest is no line",
     line("@01", "0"), line("@0A2,600"), text("@0"), stop, line("P", "5"), where(0, 0, 0), line("@0S"), text("@0"),
     clock(*x(2), ZERO), line("P", "5"), where(2, 0, 0))

case("half_a_line_when_it_stands", "a line gathered while it stands: clock calls and stops between its bytes change nothing",
     line("@01", "0"), line("@0A2,600"), clock(*x(1)), stop, text("@"), nothing(), text("0"), no_stop, line("P", report(1, 0, 0)),
     text("@0"), nothing(3), line("S"), clock(*x(1), ZERO))

case("long_line_when_it_stands", "80 bytes are a line, W for a right shape; 81 are 5; then S is heard",
     line("@01", "0"), line("@0A1,600"), stop, line("@0A" + "1,23456," * 9 + "1,345", "W"), line("@0A" + "1,23456," * 9 + "1,3456", "5"),
     line("@0P" + " " * 90, "5"), line("@0S"), clock(*x(1), ZERO))

case("ports_when_it_stands", "b answers with the ports given with its return",
     line("@01", "0"), line("@0A1,600"), stop, [("I 1 2 254 255", [])], text("@0b2"), [("I 0 0 16 0", [])], byte(13, "010"),
     line("@0b 3", "000"), line("@0S"), clock(*x(1), ZERO), lines("000", "@0b0", "@0b3"))
