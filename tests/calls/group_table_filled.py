"""The table filled from a store that a host kept: F, and its refusals."""
from case import RESET, case, byte, clock, entries, filled, host, line, lines, listed, nothing, refused, sends, state, stop, store, x

ZERO = sends("0")
G = "Send 71"
ONE = line("@01", "0")
MIXED = ONE + store("133", "0 1,600", "3 0,1", "134")  # records at 0, 8, 20 and 32, 40 bytes in all

case("filled_after_a_power_loss", "store and fields kept, the table lost: without filling it the run finds other records, filled it is what it was",
     MIXED, host("T 1 0", "T 2 0", "T 3 0"), line("@0S"), clock(sends("!"), sends("!"), sends("!"), sends("!"), ZERO), filled(), entries(0, 0, 8, 20, 32, 0), line("@0S"),
     clock(sends("!"), *x(1), "Done", sends('"'), ZERO), listed("133", "01,600", "30,1", "134", "9"))

case("filled_behind_the_count", "entries behind the last record stay; of a program of fewer records only theirs are written",
     MIXED, host("T 0 5", "T 1 5", "T 2 5", "T 3 5", "T 4 5", "T 999 5", "K 20 2 1"), filled(), entries(0, 0, 8, 5, 5, 5), entries(999, 5), host("K 40 4 1"), filled(), entries(0, 0, 8, 20, 32, 5), entries(999, 5))

case("filled_not_readable", "G where the part in use is not exactly its records; nothing is written",
     MIXED, host("T 0 5", "T 3 5"),
     *[part for held in ("40 3 1", "40 5 1", "39 4 1", "41 4 1", "32 4 1", "0 4 1", "40 0 1", "40 4 3", "40 4 0", "16384 4 1") for part in (host("K " + held), filled("G"))],
     entries(0, 5, 8, 20, 5), host("K 40 4 1", "W 0 0"), filled("G"), host("W 0 215", "W 34 52"), filled("G"), host("W 34 49", "W 36 32"), filled("G"), entries(0, 5, 8, 20, 5), host("W 36 126"), filled(),
     entries(0, 0, 8, 20, 32, 0))

case("filled_more_than_a_store_holds", "G for more than 16,384 bytes or 1,000 records in use, and not 103; a state refused for something else is filled",
     MIXED, host("T 1 5", "K 16385 4 1"), filled("G"), host("K 65535 65535 1"), filled("G"), host("K 40 1001 1"), filled("G"), host("K 0 1001 1"), filled("G"), host("K 16385 0 1"), filled("G"),
     entries(1, 5), host("K 40 4 1", "H axes 2", "H len 81", "H x 8388608"), refused(103, "C 1"), filled(), entries(1, 8))

case("filled_by_any_axes", "the axes are not asked but by the records: nothing in use is readable under any and writes nothing; a character is right under any",
     MIXED, host("T 0 5"), *[part for axes in (0, 1, 2, 7, 255) for part in (host("K 0 0 %d" % axes), filled())], entries(0, 5), host("K 8 1 2"), filled(), entries(0, 0), host("T 0 5", "K 20 2 2"), filled("G"),
     host("K 20 2 255"), filled("G"), entries(0, 5))

AXES = (0, 1, 2, 3, 4, 5, 6, 7, 8, 9, 10, 11, 12, 13, 14, 15, 16, 17, 23, 24, 25, 128, 136, 254, 255)
FROM_NINE = (9, 11, 13, 15, 17, 23, 25, 255)
WITH_A = (8, 9, 10, 11, 12, 13, 14, 15, 24, 25, 136, 254, 255)
RIGHT = {0: (), 1: (1, 3, 5, 7) + FROM_NINE, 2: (3, 5, 7) + FROM_NINE, 3: (3, 5, 7) + FROM_NINE, 4: (5, 7) + FROM_NINE, 5: (5, 7) + FROM_NINE, 6: (7,) + FROM_NINE, 7: (7,) + FROM_NINE, 8: WITH_A, 9: (), 15: (), 255: ()}
case("filled_n_under_any_axes", "n of 1 to 7 is right under odd axes that are not below it, n8 under those with A's part, whether a board has them or not; others never are",
     ONE, store("n1"), *[part for mask, right in RIGHT.items() for part in [host("W 4 %d" % mask)] + [p for axes in AXES for p in (host("K 8 1 %d" % axes), filled("0" if axes in right else "G"))]])

case("filled_n_and_others", "one n that is wrong under them and nothing is written; a movement is wrong under all that no board has, even where it is A's or x's",
     lines("0", "@07", "@08"), store("n7", "z1", "n8", "n1"), host("T 0 5", "T 1 5", "T 2 5", "T 3 5", "T 4 5", "K 32 4 17"), filled("G"), host("K 32 4 10"), filled("G"), host("K 32 4 14"), filled("G"), entries(0, 5, 5, 5, 5, 5),
     host("K 16 2 17"), filled(), entries(0, 0, 8, 5, 5, 5), host("T 0 5", "T 1 5", "K 32 4 9"), filled(), entries(0, 0, 8, 16, 24, 5), refused(103, "C 1"), refused(103, "L"), host("T 0 5", "K 16 2 5"), filled("G"),
     host("W 4 5"), filled(), entries(0, 0), host("T 0 5", "K 16 2 6"), filled("G"), host("W 4 8", "K 32 4 12"), filled("G"), host("K 24 3 12"), filled(), entries(0, 0), host("K 0 0 0", "H axes 8"), store("n8", "0 1,600"),
     host("T 0 5", "T 1 5", "K 20 2 9"), filled("G"), host("K 20 2 24"), filled("G"), entries(0, 5, 5), host("K 8 1 24"), filled(), entries(0, 0, 5), host("K 20 2 8"), filled(), entries(0, 0, 8))

case("filled_refusals_in_order", "102 before 104 before G; nothing is written",
     MIXED, host("T 1 5", "K 39 4 1", "M 16383", "U 999"), refused(102, "F"), host("U 999"), refused(104, "F"), filled("G"), host("M 0"), refused(102, "F"), host("M 16385", "U 1000"), refused(102, "F"),
     host("M 16384", "U 1001"), refused(104, "F"), host("K 40 4 1", "M 65536"), refused(102, "F"), host("U 2000"), refused(104, "F"), entries(0, 0, 5, 20, 32), host("M 16384", "U 1000"), filled(),
     entries(0, 0, 8, 20, 32))

case("filled_at_any_time", "while it runs, stands, waits or stores: the state is not changed, and the run goes on by the table as it is then",
     MIXED, line("@0S"), clock(sends("!"), *x(1)), host("T 2 0", "T 3 0"), stop, filled(), state(axes=1, position=(1, 0, 0), held=(40, 4, 1), job="Moving", standing=1), line("@0S"),
     clock("Done", sends('"'), ZERO), line("@0i", "0"), line("135", "0"), line("136", "0"), host("T 0 9", "T 1 9", "T 2 9"), filled(), entries(0, 0, 8, 9), state(axes=1, position=(1, 0, 0), held=(16, 2, 1), job="Storing"),
     line("137", "0"), entries(0, 0, 8, 16), line("9", "0"), nothing())

case("filled_after_a_reset", "a reset keeps the store, its fields and the table; the host loses only the table",
     MIXED, byte(RESET), entries(0, 0, 8, 20, 32), host("T 0 65535", "T 1 65535", "T 2 65535", "T 3 65535"), ONE, line("@0S"), clock(G), host("K 40 4 1"), filled(), line("@0S"),
     clock(sends("!"), *x(1), "Done", sends('"'), ZERO))
