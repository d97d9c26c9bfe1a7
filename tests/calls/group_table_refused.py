"""104: a table of another length than 1,000 entries, behind 101, 102 and 103; the listing needs none."""
from case import BREAK, byte, case, clock, entries, filled, host, line, listed, nothing, refused, report, run, sends, state, stop, store, text, where, x

ZERO = sends("0")
ONE = line("@01", "0")

case("table_length", "a table not of 1,000 entries is 104 for a byte, a clock call, a run and the filling; the listing takes no table",
     *[part for n in (0, 1, 999, 1001, 2000) for part in (host("U %d" % n), refused(104), host("U %d" % n), refused(104, "C 1"), host("U %d" % n), refused(104, "F"),
                                                         host("U %d" % n), [("Q 3", ["C 104", "Q over"])], host("U %d" % n), listed("9"))],
     host("U 1000"), byte(64), host("U 1000"), nothing(), host("U 1000"), filled(), line("0P", report(0, 0, 0)))

case("table_order_of_refusals", "101 before 102 before 103 before 104, for a byte; a clock call and a run have no 101",
     host("H axes 2", "R 31", "M 16383", "U 999"), refused(101), host("M 16383", "U 999"), refused(102), host("U 999"), refused(103), host("H axes 0", "U 999"), refused(104),
     host("R 31", "U 1001"), refused(101), host("M 1", "U 1001"), refused(102), host("H axes 2", "R 0", "M 1", "U 0"), refused(102, "C 1"), host("U 0"), refused(103, "C 1"), host("R 0", "M 1", "U 0"),
     [("Q 1", ["C 102", "Q over"])], host("U 0"), [("Q 1", ["C 103", "Q over"])], host("H axes 0", "R 0", "U 0"), refused(104, "C 1"), host("R 0", "U 0"), [("Q 1", ["C 104", "Q over"])], nothing(), state())

case("table_order_for_the_listing", "the listing is refused as before, 102 before 103 before G, whatever table there is",
     ONE, store("133"), host("H axes 2", "K 7 1 1", "M 16383", "U 999"), refused(102, "L"), host("U 999"), refused(103, "L"), host("H axes 1", "U 999"), listed("G"), host("K 8 1 1", "U 0"),
     listed("133", "9"))

case("table_lent_for_one_call", "U is used up by the next call, whatever it is, with M and R; C 0 makes no call; the last U counts",
     host("U 0"), listed("9"), byte(64), host("U 0", "C 0"), refused(104, "B 48"), text("0"), host("U 0"), [("C 3", ["C 104", "C Nothing", "C Nothing"])], host("U 0", "U 1000"), text("P"),
     host("U 999", "M 1"), refused(102, "F"), filled(), host("R 0", "U 999"), refused(104, "F"), byte(13, report(0, 0, 0)), host("U 999"), refused(104, "B 13"), host("R 0"), filled(), text("@"))

case("table_refused_bytes_are_lost", "a byte refused 104 is not gathered; a refused return stores no record and writes no entry",
     ONE, line("@0i", "0"), host("T 0 9", "T 1 9"), text("13"), host("U 999"), refused(104, "B 52"), text("3"), host("U 1001"), refused(104, "B 13"), state(axes=1, job="Storing", held=(0, 0, 1)),
     entries(0, 9, 9), byte(13, "0"), entries(0, 0, 9), text("9"), host("U 0"), refused(104, "B 13"), state(axes=1, job="Storing", held=(8, 1, 1)), byte(13, "0"), listed("133", "9"))

case("table_refused_clock_call", "a clock call refused 104 makes no pulse and runs no record; all are made after it",
     ONE, store("0 2,600", "133"), line("@0S"), host("U 999"), refused(104, "C 1"), clock(*x(1)), host("U 1001"), refused(104, "C 1"), clock(*x(1)), host("U 0"), refused(104, "C 1"), clock(sends("!")),
     host("U 2000"), refused(104, "C 1"), clock(ZERO), host("U 0"), refused(104, "C 1"), nothing(), where(2, 0, 0))

case("table_refused_control_codes", "stop, reset and break are refused 104 too, and do nothing; so are bytes at a wait, or where they would be dropped",
     ONE, store("233,0"), line("@0A2,600"), clock(*x(1)), host("U 999"), refused(104, "B 253"), host("U 999"), refused(104, "B 254"), host("U 999"), refused(104, "B 255"), host("U 999"), refused(104, "B 64"),
     state(axes=1, position=(1, 0, 0), job="Direct", held=(12, 1, 1)), clock(*x(1), ZERO), line("@0S"), clock("Done"), host("U 999"), refused(104, "B 33"), nothing(), byte(33), clock("Done"),
     byte(BREAK, "F"))

case("table_refused_standing", "refused 104 while it stands: S does not go on",
     ONE, line("@0A2,600"), clock(*x(1)), stop, host("U 999"), refused(104, "C 1"), text("@0S"), host("U 999"), refused(104, "B 13"), nothing(), byte(13), clock(*x(1), ZERO))

case("table_refused_run", "the call that Q tries at its end is lent the table with Q 0, else the first call is; refused it is over",
     ONE, store("133", "134"), line("@0S"), host("U 0"), run(0), run(0, end="more"), host("U 0"), [("Q 9", ["C 104", "Q over"])], run(1, (sends("!"), "Ready", 0, 1), end="more"), host("U 1000"),
     run(9, (sends('"'), "Ready", 1, 2), (ZERO, "Idle", 2, 0)))
