"""The table beside the store: what writes its entries, and records found by them, also where a host altered store or table."""
from case import BREAK, RESET, byte, case, clock, entries, host, line, listed, nothing, refused, run, sends, state, stop, store, where, x

ZERO = sends("0")
G = "Send 71"
ONE = line("@01", "0")
emptied = line("@0S", "8") + listed("9")
SENDS = ONE + store("133", "134", "135")  # records of 8 bytes: "!", '"' and "#"
THREE = SENDS + line("@0S")
KEPT = host("T 0 7", "T 1 8", "T 2 9", "T 999 10")
kept = entries(0, 7, 8, 9) + entries(999, 10)

case("table_of_starts", "each stored record writes where it starts, behind its entry nothing is written; the end line writes nothing",
     line("@07", "0"), entries(0, 0, 0), line("@0i", "0"), host("T 0 9", "T 1 9", "T 4 9"), line("133", "0"), entries(0, 0, 9), line("0 1,30,2,31,3,32,4,33", "0"), entries(1, 8, 0),
     line("3 0,1", "0"), line("z1", "0"), entries(0, 0, 8, 44, 56, 9), line("9", "0"), entries(0, 0, 8, 44, 56, 9, 0), entries(999, 0))

case("table_of_refused_records", "a refused record writes no entry: 5, 7, 3, 1, D and 6, for records and for bytes",
     ONE, line("@0i", "0"), KEPT, line("4 1", "5"), line("0 1", "7"), line("n2", "3"), line("132", "1"), line("0 1,29", "D"), line("1" * 81, "5"), kept,
     host("K 16377 1 1"), line("133", "6"), kept, host("K 0 1000 1"), line("133", "6"), kept, host("K 16376 1 1"), line("0 1,600", "6"), kept, line("133", "0"), entries(0, 7, 16376, 9),
     host("K 8 999 1"), line("133", "0"), entries(999, 8), line("133", "6"), entries(997, 0, 0, 8))

case("table_by_the_fields", "an entry's number is the count of records and its value the bytes in use, before the record, as the host set them",
     ONE, line("@0i", "0"), host("K 100 7 1"), line("133", "0"), entries(6, 0, 100, 0), host("K 3 7 1"), line("3 0,1", "0"), entries(6, 0, 3, 0), line("134", "0"), entries(7, 3, 15, 0),
     host("K 16376 999 1"), line("135", "0"), entries(998, 0, 16376), state(axes=1, held=(16384, 1000, 1), job="Storing"))

case("table_kept_when_emptied", "k, i, a reset while storing, a failed check and G empty the store and leave the entries; so do S, stop and break",
     SENDS, KEPT, line("@0k", "0"), kept, host("K 24 3 1"), line("@0S"), stop, kept, byte(BREAK, "F"), kept, line("@0S"), clock(G), kept, line("@0i", "0"), kept, byte(RESET), kept,
     ONE, line("@0i", "0"), line("3 0,9", "0"), entries(0, 0, 8, 9), line("9", "Ga0000"), entries(0, 0, 8, 9), entries(999, 10), byte(RESET), entries(0, 0, 8, 9), entries(999, 10))

case("table_of_a_shorter_program", "a shorter program behind a longer one: entries behind its last stay, and its end place is not looked up",
     SENDS, store("3 0,1"), entries(0, 0, 8, 16, 0), line("@0S"), clock("Done", ZERO), store("136", "3 0,1"), entries(0, 0, 8, 16), line("@0S"), clock("Send 36", "Done", ZERO),
     store("5 0", "3 0,1", "3 0,1"), entries(0, 0, 8, 20), line("@0S"), clock("Done", "Done", "Done", ZERO))

case("table_another_record", "an entry altered to another record's byte: that record runs in its place, and the count stays",
     THREE, host("T 1 16"), clock(sends("!"), sends("#"), sends("#"), ZERO), host("T 0 8", "T 1 0", "T 2 0"), line("@0S"), clock(sends('"'), sends("!"), sends("!"), ZERO),
     listed("133", "134", "135", "9"), entries(0, 8, 0, 0), state(axes=1, held=(24, 3, 1)))

for name, at in [("mark", 9), ("code", 10), ("count", 11), ("number", 12), ("last_byte", 15)]:
    case("table_inside_a_record_at_its_" + name, "an entry altered to a byte inside a record, at its %s: G, and the store is emptied" % name.replace("_", " "),
         THREE, host("T 1 %d" % at), clock(sends("!"), G), nothing(), entries(0, 0, at, 16), emptied)

case("table_outside", "an entry at the end of the part in use or behind it: G, also where a record stands",
     THREE, host("T 0 24"), clock(G), emptied, *[part for at in (25, 16383, 16384, 16385, 65535) for part in (host("K 24 3 1", "T 0 %d" % at), line("@0S"), clock(G), emptied)],
     host("K 16 2 1", "T 0 16"), line("@0S"), clock(G), emptied, host("K 24 2 1"), line("@0S"), clock(sends("#"), sends('"'), ZERO))

case("table_half_outside", "a record that starts in the part in use and does not end there: G; with its last byte in use it runs",
     SENDS, *[part for used in (16, 17, 19, 20, 23) for part in (host("K %d 3 1" % used, "T 0 16"), line("@0S"), clock(G), emptied)], host("K 24 3 1"), line("@0S"),
     clock(sends("#"), sends('"'), sends("#"), ZERO), host("K 23 2 1"), line("@0S"), clock(G), host("K 23 3 1", "T 0 0"), line("@0S"), clock(sends("!"), sends('"'), G), emptied)

case("table_at_the_stores_end", "a record whose last byte is the store's last; a byte later it would not end there",
     ONE, line("@0i", "0"), host("K 16376 0 1"), line("133", "0"), entries(0, 16376), byte(RESET), ONE, host("K 16384 1 1"), line("@0S"), clock(sends("!"), ZERO), host("T 0 16377"), line("@0S"),
     clock(G), host("K 16384 1 1", "T 0 16380"), line("@0S"), clock(G), host("K 16384 1 1", "T 0 16383"), line("@0S"), clock(G), emptied)

case("table_any_byte", "a record stands at any byte that its entry names, also where none was stored: behind the last, or inside the bytes of a damaged one",
     SENDS, host("W 27 215", "W 28 43", "W 29 49", "W 30 1", "W 31 40", "K 35 3 1", "T 1 27"), line("@0S"), clock(sends("!"), "Send 40", sends("#"), ZERO), host("K 34 3 1"), line("@0S"),
     clock(sends("!"), G), host("K 24 3 1", "T 1 4", "W 4 215", "W 5 43", "W 6 49", "W 7 1", "W 8 41", "W 9 0", "W 10 0", "W 11 0", "T 0 16"), line("@0S"),
     clock(sends("#"), "Send 41", sends("#"), ZERO), listed("G"), host("T 0 0"), line("@0S"), clock(G), emptied)

case("table_passed_over", "records that a jump passes over are not looked at: wrong marks, codes and numbers there are met by the listing alone",
     ONE, store("3 0,3", "133", "134", "135"), line("@0S"), host("W 12 0", "W 22 52"), clock("Done", sends("#"), ZERO), listed("G"), line("@0S"), clock("Done"), stop, host("W 0 0", "W 12 1"),
     line("@0S"), clock(sends("#"), ZERO), host("W 28 0"), line("@0S"), clock(G), emptied)

case("table_passed_over_by_a_loop", "nor are those before a loop's start; the loop's own record is read at each pass",
     ONE, store("133", "134", "3 2,-1", "135"), line("@0S"), clock(sends("!"), sends('"'), "Done"), host("W 0 0"), clock(sends('"'), "Done"), host("W 3 9"), clock(sends('"')), host("W 17 0"),
     clock(G), emptied)

case("table_met_at_its_record", "a run meets an altered entry when it comes to its record; set right before, nothing happened",
     THREE, host("T 2 17", "T 0 9"), clock(G), host("K 24 3 1", "T 0 0"), line("@0S"),
     run(9, (sends("!"), "Ready", 0, 1), (sends('"'), "Ready", 1, 2), (G, "Idle", 2, 0)), host("K 24 3 1"), line("@0S"), clock(sends("!")), stop, host("T 0 65535", "T 1 65535"), nothing(),
     host("T 1 8", "T 2 16"), line("@0S"), clock(sends('"'), sends("#"), ZERO), listed("133", "134", "135", "9"))

case("table_not_needed", "pulses, pauses and a wait look up nothing; the next record after them does",
     ONE, store("0 2,600", "5 2", "233,1", "134"), line("@0S"), clock(*x(1)), host("T 0 1", "T 1 65535"), stop, line("@0S"), clock(*x(1)), host("T 1 12"), clock("Pause"), host("T 1 0", "T 2 3"),
     clock("Pause"), host("T 2 20"), clock("Done"), host("T 2 65535", "T 3 65535"), nothing(), byte(33), nothing(0), host("T 3 32"), clock(sends('"'), ZERO), where(2, 0, 0))

case("table_by_places", "offsets and loops go by places, not by bytes: a loop's record found at another place is another place's loop",
     ONE, store("133", "134", "3 1,-1"), host("T 1 16"), line("@0S"), clock(sends("!"), "Done", sends("!"), "Done", "Done", "Done", sends("!"), "Done", "Done", ZERO),
     host("T 0 16", "T 1 8"), line("@0S"), clock(G), emptied, store("3 0,2", "133", "134"), host("T 1 0"), line("@0S"), clock("Done", sends('"'), ZERO), host("T 2 0"), line("@0S"),
     clock("Done", G), emptied)

case("table_end_place", "the end place is not looked up, whatever its entry is; a place above it is G, whatever its entry is",
     SENDS, *[part for at in (0, 16, 24, 65535) for part in (host("T 3 %d" % at), line("@0S"), clock(sends("!"), sends('"'), sends("#"), ZERO))],
     host("T 4 8"), line("@0S"), host("H place 4"), clock(G), emptied)

case("table_end_place_of_1000", "with 1,000 records the end place has no entry: it is reached by going on, and sends 0; so it does by a jump",
     ONE, store("133", "3 0,1"), host("K 20 1000 1", "T 999 8"), line("@0S"), clock(sends("!"), "Done", sends("!")), host("H place 998"), clock(sends("!"), "Done", ZERO),
     state(axes=1, held=(20, 1000, 1)), host("W 16 2"), line("@0S"), host("H place 998"), clock(sends("!"), G), emptied, host("K 20 1000 1"), line("@0S"), host("H place 1000"), clock(ZERO),
     line("@0S"), host("H place 1001"), clock(G), emptied)

case("table_by_the_stores_axes", "the record at the entry's byte must be right under the store's axes",
     ONE, store("133", "0 1,600", "n1"), host("K 28 3 3"), line("@03", "0"), line("@0S"), clock(sends("!"), G), host("K 28 3 3", "T 1 20"), line("@0S"), clock(sends("!"), "Done", "Done", ZERO),
     host("T 1 8", "K 28 3 1"), ONE, line("@0S"), clock(sends("!"), *x(1), "Done", ZERO))

case("table_of_a_used_part_with_a_hole", "fewer records in use than were stored, and found in any order: the listing and the check go by the store alone",
     SENDS, host("T 0 16", "T 1 0", "T 2 0", "K 24 2 1"), line("@0S"), clock(sends("#"), sends("!"), ZERO), listed("G"), host("K 24 3 1"), listed("133", "134", "135", "9"), ONE, line("@0i", "0"),
     line("136", "0"), host("T 0 5"), line("9", "0"), listed("136", "9"), line("@0S"), clock(G), emptied)

case("table_wrong_lines", "entries are 0 to 999 and 0 to 65,535; a wrong line writes nothing",
     [(t, ["?"]) for t in ("T 1000 0", "T 0 65536", "T -1 0", "T 0 -1", "T 0", "T 0 0 0", "T", "V 1000", "V -1", "V", "V 0 0", "U 2001", "U -1", "U", "U 0 0", "F 0", "F ", "t 0 0", "v 0")],
     host("T 0 65535", "T 999 65535"), entries(0, 65535, 0), entries(998, 0, 65535), host("T 0000000000 0000000001", "T -0 1"), entries(0, 1), [("V 0000000999", ["V 65535"])], byte(64), nothing())
