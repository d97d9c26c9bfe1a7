"""101, 102 and 103 in this order; a refused call changes nothing, lends nothing on, and answers its number alone."""
from case import case, byte, clock, host, line, listed, nothing, refused, report, sends, state, stop, store, text, where, wrong, x

ZERO = sends("0")

case("reply_short", "a reply buffer of 31 bytes or none is 101; 32 and more are right; each lent buffer is for one call",
     host("R 31"), refused(101), host("R 0"), refused(101), host("R 1"), refused(101, "B 253"), host("R 32"), byte(64), host("R 33"), byte(48),
     host("R 65536"), byte(80), host("R 31"), refused(101, "B 13"), byte(13, report(0, 0, 0)), host("R 31", "R 32"), line("@0P", report(0, 0, 0)))

case("store_length", "a store not of 16,384 bytes is 102 for a byte, a clock call and the listing",
     host("M 16383"), refused(102), host("M 16385"), refused(102, "B 255"), host("M 0"), refused(102, "C 1"), host("M 65536"), refused(102, "L"),
     host("M 16384"), byte(64), host("M 16384"), nothing(), line("0P", report(0, 0, 0)))

case("order_of_refusals", "101 before 102 before 103",
     host("H axes 2", "R 31", "M 16383"), refused(101), host("M 16383"), refused(102), refused(103), host("R 31"), refused(101),
     host("R 31", "M 1"), refused(102, "C 1"), refused(103, "C 1"), host("M 1"), refused(102, "L"), refused(103, "L"), host("H axes 0"), nothing(), listed("9"))

case("lent_for_one_call", "M and R are used up by the next call, whatever it is; C 0 makes no call; the last M or R counts",
     host("R 0"), nothing(), byte(64), host("R 0"), listed("9"), byte(48), host("R 0", "C 0"), refused(101, "B 80"), byte(80), host("M 0"),
     [("C 3", ["C 102", "C Nothing", "C Nothing"])], host("M 0", "M 16384"), byte(13, report(0, 0, 0)))

case("refused_bytes_are_lost", "a byte refused is not gathered; a refused return ends no line",
     text("@0"), host("R 31"), refused(101, "B 80"), text("P"), host("M 1"), refused(102, "B 13"), byte(13, report(0, 0, 0)))

case("refused_clock_call", "a refused clock call makes no pulse; the pulses are all made after it",
     line("@01", "0"), line("@0A2,600"), host("M 1"), refused(102, "C 1"), clock(*x(1)), host("H x 8388608"), refused(103, "C 1"), host("H x 1"), clock(*x(1), ZERO),
     where(2, 0, 0))

case("refused_control_codes", "stop, reset and break are refused too, and do nothing",
     line("@01", "0"), line("@0A2,600"), clock(*x(1)), host("R 31"), refused(101, "B 253"), host("M 3"), refused(102, "B 254"), host("H len 81"), refused(103, "B 255"),
     refused(103, "B 254"), refused(103, "B 253"), host("H len 0"), state(axes=1, position=(1, 0, 0), job="Direct"), clock(*x(1), ZERO))

case("refused_standing", "refused calls while it stands: S refused does not go on",
     line("@01", "0"), line("@0A2,600"), clock(*x(1)), stop, host("H oz 8388608"), refused(103, "C 1"), refused(103, "B 13"), host("H oz 0"), text("@0S"), host("R 31"),
     refused(101, "B 13"), nothing(), byte(13), clock(*x(1), ZERO))

PLAIN = [("x", 8388608, 8388607), ("y", 4286578687, -8388608), ("z", 8388608, 0), ("ox", 8388608, -8388608), ("oy", 8388608, 8388607), ("oz", 4000000000, 1),
         ("axes", 2, 1), ("axes", 4, 3), ("axes", 255, 7), ("axes", 9, 0), ("depth", 8, 7), ("depth", 255, 0), ("len", 81, 80), ("len", 255, 0)]
case("state_refused", "each plain field just outside is 103 for every call, and just inside is none",
     *[part for name, bad, good in PLAIN for part in (host("H %s %d" % (name, bad)), refused(103), refused(103, "C 1"), refused(103, "L"),
                                                      host("H %s %d" % (name, good)), nothing(), listed("9"))])

case("store_fields_refused", "more than 16,384 bytes or 1,000 records in use, or axes of the store that none can have",
     host("K 16385 0 0"), refused(103), host("K 65535 0 0"), refused(103, "L"), host("K 16384 0 0"), nothing(), host("K 0 1001 0"), refused(103, "C 1"),
     host("K 0 65535 0"), refused(103), host("K 0 1000 0"), nothing(), host("K 0 0 2"), refused(103), host("K 0 0 255"), refused(103), host("K 0 0 4"), refused(103, "C 1"),
     host("K 16384 1000 7"), nothing(), listed("G"), host("K 0 0 0"), listed("9"))

MOVE = [("speed1", 29, 30), ("speed1", 10001, 10000), ("speed2", 0, 30), ("speed3", 65535, 10000), ("phase", 3, 0), ("phase", 255, 0), ("phase", 1, 0), ("made", 3, 1), ("made", 2, 1),
        ("made", 0, 1), ("made", 4294967295, 1), ("x", 2, 1), ("x", 0, 1), ("y", 1, 0), ("z", -1, 0), ("startx", 1, 0), ("firsty", 8388608, 0),
        ("firstx", -2, 2), ("secondz", 4286578687, 0), ("thirdz", 8388608, 0), ("thirdz", 8388608, 8388607), ("thirdz", 8388608, 0)]
case("movement_refused", "a movement of 2 pulses after its first: a speed, a resting point, a pulse number or a position that is wrong is 103, and none when it is right again",
     line("@07", "0"), line("@0A2,600,0,600,0,600,0,600"), clock(*x(1)),
     *[part for name, bad, good in MOVE for part in (host("H %s %d" % (name, bad)), refused(103, "C 1"), refused(103), host("H %s %d" % (name, good)), text("1"))],
     host("H speed1 600"), clock(*x(1), ZERO), where(2, 0, 0))

case("movement_refused_standing", "the same while it stands; and for a program's movement",
     line("@01", "0"), store("0 2,600"), line("@0S"), clock(*x(1)), stop, host("H made 2"), refused(103, "C 1"), host("H made 1"), nothing(), host("H x 2"), refused(103, "B 255"),
     host("H made 2"), nothing(), line("@0S"), clock(ZERO), where(2, 0, 0))

case("no_movement_to_set", "with no movement under way its fields cannot be set: wrong lines that change nothing",
     wrong("H phase 0", "H made 0", "H speed1 30", "H startx 0", "H thirdz 0"), line("@01", "0"), store("5 2"), line("@0S"), clock("Pause"), wrong("H made 0"), clock("Pause", ZERO),
     state(axes=1, held=(8, 1, 1)))

case("wrong_lines", "wrong lines print their number and change nothing; numbers have at most ten digits; lines over 64 bytes are wrong",
     wrong("", "B", "B 256", "B -1", "B 1 2", "B  64", "b 64", "C", "C -1", "C 4294967296", "S 1", "L 1", "K 1 1", "K 65536 0 0", "K 0 65536 0", "K 0 0 256"),
     wrong("H place 65536", "H place -1", "H axes 256", "H over 2", "H x -8388609", "H x 4286578688", "H what 1", "W 16384 0", "W 0 256", "M 65537", "R -1", "I 1 2 3"),
     wrong("B 00000000064", "C 1\r", " C 1", "C 1 ", "B 64" + " " * 61, "0" * 64 + "C 1", "x" * 500), [("B 0000000064", ["B -"])], byte(48), host("C -0"), wrong("S "),
     line("P", report(0, 0, 0)), state())
