"""The check at `9`: G with a letter and a place, the single G of a store that is not readable, and what a refusal leaves."""
from case import case, RESET, byte, clock, host, line, lines, listed, no_stop, nothing, report, run, sends, state, store, text, where

ZERO = sends("0")
ONE = line("@01", "0")
G = "Send 71"
emptied = line("@0S", "8") + listed("9")
CROSSED = ["133", "3 25,-1", "3 2,-1"]  # 8, 12 and 12 bytes; the ranges are 0 to 1 and 1 to 2


def storing(*records):
    """Storing begun, and these records accepted."""
    return lines("0", "@0i", *records)


def refused(number, call="B 13"):
    return [(call, [call[0] + " %d" % number])]


DEEP = ["133"] + ["3 1,-%d" % k for k in range(1, 9)]
for letter, place, name, records in [("a", 1, "target", ["133", "3 0,5", "134"]), ("a", 2, "wait_target", ["133", "134", "233,-3"]), ("b", 1, "start", ["133", "3 2,-2"]),
                                     ("c", 2, "overlap", CROSSED), ("d", 0, "depth", DEEP), ("e", 0, "jump_across", ["3 0,2", "133", "3 1,-1"]),
                                     ("e", 2, "wait_across", ["133", "3 1,-1", "233,-1"])]:
    case("named_" + name, "letter %s at place %d; the store is empty, storing is over, and the board goes on" % (letter, place),
         ONE, storing(*records), line("9", "G%s%04d" % (letter, place)), state(axes=1), nothing(2), emptied, line("9", "5"), store("134"), line("@0S"), clock(sends('"'), ZERO))

case("named_or_bare", "the same program is refused with letter and place, and with the single G where a host made its store unreadable: a mark, a code, a count, a number, "
     "the bytes or the records in use",
     ONE, storing(*CROSSED), line("9", "Gc0002"), emptied,
     *[part for altered in ("W 0 0", "W 21 44", "W 10 52", "W 23 1", "W 15 128", "K 31 3 1", "K 33 3 1", "K 32 2 1", "K 32 4 1", "K 0 3 1")
       for part in (storing(*CROSSED), host(altered), line("9", "G"), state(axes=1), emptied)],
     storing(*CROSSED), host("W 0 0", "W 0 215"), line("9", "Gc0002"), emptied)

case("bare_before_named", "a store that is not readable is the single G whatever else is wrong, also where the wrong record lies behind the fault",
     ONE, storing("3 0,9", "133"), host("W 12 0"), line("9", "G"), emptied, storing("3 0,9", "133"), line("9", "Ga0000"), emptied,
     storing("133", "3 0,9"), host("W 0 0"), line("9", "G"), emptied, storing(*DEEP), host("W 8 0"), line("9", "G"), emptied)

case("altered_and_named", "a record that a host altered to another right one is checked as it stands: a fault is mended, or made, or becomes another",
     ONE, storing(*CROSSED), host("W 28 254"), line("9", "0"), listed("133", "325,-1", "32,-2", "9"), storing(*CROSSED), host("W 28 253"), line("9", "Gb0002"), emptied,
     storing("133", "3 25,-1", "3 2,-2"), host("W 28 255"), line("9", "Gc0002"), emptied, storing("133", "3 25,-1", "3 2,-2"), host("W 24 0"), line("9", "Ge0002"), emptied,
     storing("133", "3 25,-1", "3 2,-2"), host("W 12 0", "W 16 5", "W 17 0", "W 18 0", "W 19 0"), line("9", "Ga0001"), emptied)

case("named_under_other_axes", "readable and named by the store's axes: a character and a jump are right under any, also under none; a movement of one axis is not under 3",
     ONE, storing("3 0,9", "133"), host("K 20 2 0"), line("9", "Ga0000"), state(axes=1), storing("3 0,9", "133"), host("K 20 2 7"), line("9", "Ga0000"), emptied,
     storing("3 0,9", "0 1,600"), host("K 24 2 3"), line("9", "G"), emptied)

case("named_bare_while_running", "the G that ends a run is one character, whatever is wrong with the program; the same program at 9 is named",
     ONE, store("3 0,1", "133"), line("@0S"), host("W 8 3"), clock(G), nothing(), emptied, storing("3 0,1", "133"), host("W 8 3"), line("9", "Ga0000"), emptied,
     store("133", "3 1,-1"), line("@0S"), host("W 16 254"), run(9, (sends("!"), "Ready", 0, 1), (sends("G"), "Idle", 1, 0)), storing("133", "3 1,-1"), host("W 16 254"),
     line("9", "Gb0001"), emptied)

case("named_bare_from_a_start", "G from S is one character and keeps the program, before and after a refusal that empties the store",
     ONE, store("133"), line("@03", "0"), line("@0S", "G"), line("@0S", "G"), state(axes=3, held=(8, 1, 1)), storing(*CROSSED), line("9", "Gc0002"), line("@0S", "8"),
     store("134"), line("@07", "0"), line("@0S", "G"), state(axes=7, held=(8, 1, 3)))

case("named_needs_32_bytes", "a reply buffer of 31 bytes is 101 at the return of 9, though the reply has six: nothing is checked, storing goes on, and 9 with 32 bytes answers",
     ONE, storing(*CROSSED), text("9"), host("R 31"), refused(101), state(axes=1, held=(32, 3, 1), job="Storing"), host("R 6"), refused(101), host("R 0"), refused(101),
     listed("133", "325,-1", "32,-1", "9"), host("R 32"), byte(13, "Gc0002"), state(axes=1), emptied,
     storing(*CROSSED), text("9"), host("R 31"), refused(101), byte(13, "Gc0002"), emptied, storing(*CROSSED), host("R 31"), refused(101, "B 57"), line("134", "0"), line("9", "Gc0002"), emptied,
     storing(*CROSSED), text("9"), host("R 65536"), byte(13, "Gc0002"), emptied)

case("named_after_refused_calls", "102 and 103 at the return of 9 change nothing either: storing goes on, and 9 answers afterwards",
     ONE, storing(*CROSSED), text("9"), host("M 16383"), refused(102), host("H axes 2"), refused(103), host("R 31", "M 16383"), refused(101), host("M 16383"), refused(102),
     host("H axes 1"), state(axes=1, held=(32, 3, 1), job="Storing"), host("K 32 1001 1"), refused(103), host("K 32 3 1"), byte(13, "Gc0002"), emptied)

case("named_lengths", "replies of 19, six and one byte behind each other have their own length: nothing of a longer one comes along",
     ONE, where(0, 0, 0), storing(*CROSSED), line("9", "Gc0002"), where(0, 0, 0), storing(*CROSSED), line("9", "Gc0002"), line("@0b0", "000"), storing(*CROSSED), host("W 0 0"), line("9", "G"),
     storing("133", "3 0,5"), line("9", "Ga0001"), line("x", "5"), store(), line("@0P", report(0, 0, 0)))

case("named_keeps_the_bytes", "the refusal empties the store and leaves its bytes: with its fields set again the program is there, and behind it the end of a longer one before it",
     ONE, store("133", "134", "135", "136", "137"), storing(*CROSSED), line("9", "Gc0002"), listed("9"), host("K 32 3 1"), listed("133", "325,-1", "32,-1", "9"),
     host("K 40 4 1"), listed("133", "325,-1", "32,-1", "137", "9"), host("K 0 0 0"), store("138"), host("K 8 1 1"), listed("138", "9"), host("K 40 4 1"),
     listed("138", "325,-1", "32,-1", "137", "9"))

case("named_keeps_the_rest", "the refusal changes the store alone: axes, positions, origin, 3D and output stay",
     line("@07", "0"), line("@0A1,600,0,600,0,600,0,600"), clock("Pulse +... 600", ZERO), lines("0", "@0n1", "@0z1", "@0B0,9"), storing("3 0,-1"), line("9", "Ga0000"),
     state(axes=7, position=(1, 0, 0), origin=(1, 0, 0), three=1, output=9))

case("named_and_control_codes", "a stop in the line 9 does nothing; a reset in it ends storing, and nothing is checked",
     ONE, storing("3 0,9"), no_stop, text("9"), no_stop, byte(13, "Ga0000"), no_stop, storing("3 0,9"), text("9"), byte(RESET), byte(13, "5"), state())
