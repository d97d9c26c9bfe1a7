"""A store or a state that a host altered: the run ends with G where the next record can't be read, and goes on elsewhere."""
from case import case, BREAK, byte, clock, entries, host, line, lines, listed, no_stop, nothing, report, sends, state, stop, store, text, where, x

ZERO = sends("0")
G = "Send 71"
emptied = line("@0S", "8") + listed("9")
THREE = line("@01", "0") + store("133", "134", "135") + line("@0S")  # records of 8 bytes: "!", '"' and "#"

case("damage_passed", "a record already passed is not looked at again: its wrong mark is met by the listing, and by the next run",
     THREE, clock(sends("!")), host("W 0 0"), clock(sends('"'), sends("#"), ZERO), nothing(), state(axes=1, held=(24, 3, 1)), listed("G"), line("@0S"), clock(G), nothing(),
     state(axes=1), emptied)

case("damage_ahead", "a wrong mark ahead is met when its record's turn comes", THREE, host("W 17 44"), clock(sends("!"), sends('"'), G), emptied)

for name, at, v in [("code", 2, 57), ("count", 3, 2), ("number", 4, 32), ("number_high", 7, 128), ("second_mark", 1, 215)]:
    case("damage_" + name, "the first record's %s is wrong: G at the first call" % name.replace("_", " "), THREE, host("W %d %d" % (at, v)), clock(G), nothing(), emptied)

case("damage_still_right", "a number altered but in its range is run as it stands", THREE, host("W 4 126", "W 12 33"), clock("Send 126", sends("!"), sends("#"), ZERO), listed("1126", "133", "135", "9"))

case("damage_standing", "damage while it stands is met when it goes on; mended before that, nothing happened",
     THREE, clock(sends("!")), stop, host("W 8 0"), nothing(), host("W 8 215"), line("@0S"), clock(sends('"')), stop, host("W 16 0"), nothing(2), listed("G"),
     state(axes=1, held=(24, 3, 1), job="Ready", standing=1), line("@0S"), clock(G), emptied)

case("damage_in_a_movement", "the pulses of a movement do not read the store: G comes in place of the next record",
     line("@01", "0"), store("0 3,600", "133"), line("@0S"), clock(*x(1)), host("W 12 0"), stop, line("@0S"), clock(*x(2), G), where(3, 0, 0), emptied)

case("damage_in_a_delay", "nor do the pauses of a delay; nor is its own record read when they are over, but the next one",
     line("@01", "0"), store("5 3", "133"), line("@0S"), clock("Pause"), host("W 0 0"), clock("Pause", "Pause", sends("!"), ZERO), host("W 0 215"), line("@0S"), clock("Pause"), host("W 8 0"),
     clock("Pause", "Pause", G), emptied)

case("damage_in_a_wait", "nor does a wait; its character and target are kept", line("@01", "0"), store("233,2", "134", "135"), line("@0S"), clock("Done"), host("W 4 34", "W 8 1"),
     nothing(), byte(33), clock(sends("#"), ZERO))

case("used_less", "the part in use passed: G at the first record that does not lie in it", THREE, host("K 23 3 1"), clock(sends("!"), sends('"'), G), emptied)
case("used_none", "nothing in use and records to run: G", THREE, host("K 0 3 1"), clock(G), emptied)
case("used_more", "the end place is never read: bytes in use behind the last record are met by the listing alone", THREE, host("K 30 3 1"), listed("G"), clock(sends("!"), sends('"'), sends("#"), ZERO))
case("records_less", "fewer records: the end place comes sooner", THREE, host("K 24 2 1"), clock(sends("!"), sends('"'), ZERO), state(axes=1, held=(24, 2, 1)))
case("records_more", "one record more than there are: in its place runs the one that its entry names, here the first, since no record has written it",
     THREE, host("K 24 4 1"), entries(3, 0), clock(sends("!"), sends('"'), sends("#"), sends("!"), ZERO), listed("G"), host("T 3 24"), line("@0S"), clock(sends("!"), sends('"'), sends("#"), G), emptied)
case("records_below_the_place", "fewer records than the place reached: G", THREE, clock(sends("!"), sends('"')), host("K 24 1 1"), clock(G), emptied)
case("store_axes_altered", "the run goes by the store's axes: characters are right under any, a movement of one axis is not under 3",
     line("@01", "0"), store("133", "0 1,600"), line("@0S"), host("K 20 2 3"), clock(sends("!"), G), emptied)

case("place_at_the_end", "the next place set to the end: 0", THREE, clock(sends("!")), host("H place 3"), clock(ZERO), listed("133", "134", "135", "9"))
case("place_beyond", "the next place set beyond the end: G", THREE, host("H place 4"), clock(G), emptied)
case("place_far_beyond", "also as far as it goes, while it stands", THREE, stop, host("H place 65535"), nothing(), line("@0S"), clock(G), emptied)
case("place_back", "the next place set back: the record runs again", THREE, clock(sends("!")), host("H place 0"), clock(sends("!"), sends('"')), host("H place 2"), clock(sends("#"), ZERO))

JUMP = line("@01", "0") + store("3 0,1", "133") + line("@0S")
case("jump_to_the_end", "a jump altered to the end place goes there", JUMP, host("W 8 2"), clock("Done", ZERO))
case("jump_beyond", "one place further is G", JUMP, host("W 8 3"), clock(G), emptied)
case("jump_below", "below 0 is G", JUMP, host("W 8 255", "W 9 255", "W 10 255", "W 11 255"), clock(G), emptied)
case("wait_beyond", "a wait with a target above the end place ends with G in place of its record", line("@01", "0"), store("233,1"), line("@0S"), host("W 8 2"), clock(G), byte(33), byte(13, "5"), emptied)

LOOP = line("@01", "0") + store("133", "3 1,-1") + line("@0S")
case("loop_below", "a loop with a target below 0 ends with G", LOOP, clock(sends("!")), host("W 16 254"), clock(G), emptied)
case("loop_below_at_its_last", "also when it has gone back often enough", LOOP, clock(sends("!"), "Done", sends("!")), host("W 16 254"), clock(G), emptied)
case("loop_number_altered", "an open loop counts what it counted when it opened", LOOP, clock(sends("!"), "Done"), host("W 12 9"), clock(sends("!"), "Done", ZERO))

case("eighth_loop", "with seven loops open an eighth ends the run with G", LOOP, clock(sends("!")), host("H depth 7"), state(axes=1, held=(20, 2, 1), job="Ready", loops=7), clock(G), state(axes=1), emptied)
case("seventh_loop", "with six open a seventh opens, closes and opens again; an eighth inside it is G",
     line("@01", "0"), store("133", "3 1,-1", "3 1,-2"), line("@0S"), clock(sends("!")), host("H depth 6"), clock("Done"), state(axes=1, held=(32, 3, 1), job="Ready", loops=7),
     clock(sends("!"), "Done"), state(axes=1, held=(32, 3, 1), job="Ready", loops=6), clock("Done", sends("!"), G), emptied)
case("eighth_loop_standing", "the same met after a stop", LOOP, clock(sends("!")), stop, host("H depth 7"), nothing(), line("@0S"), clock(G), no_stop, emptied)

case("emptied_bytes_stay", "an emptied store keeps its bytes: with its fields set again it is what it was",
     THREE, host("W 0 0"), clock(G), listed("9"), host("W 0 215", "K 24 3 1"), listed("133", "134", "135", "9"), line("@0k", "0"), listed("9"), host("K 16 2 1"), line("@0S"),
     clock(sends("!"), sends('"'), ZERO))

case("after_g", "after G the board is idle: lines are heard, nothing is stopped or broken, a new program can be stored",
     THREE, host("W 0 0"), clock(G), no_stop, byte(BREAK), where(0, 0, 0), store("136"), line("@0S"), clock("Send 36", ZERO))

case("check_of_a_damaged_store", "9 answers G and empties a store that is not readable",
     line("@01", "0"), line("@0i", "0"), line("133", "0"), host("W 0 0"), line("134", "0"), line("9", "G"), state(axes=1), line("@0i", "0"), line("133", "0"), host("K 8 2 1"),
     line("9", "G"), emptied, line("@0i", "0"), line("133", "0"), host("K 7 1 1"), line("9", "G"), emptied)

case("no_room", "6 for a record beyond 16,384 bytes or 1,000 records; what fits exactly is stored",
     line("@01", "0"), line("@0i", "0"), host("K 16377 9 1"), line("133", "6"), host("K 16376 9 1"), line("0 1,600", "6"), line("133", "0"), line("134", "6"),
     state(axes=1, held=(16384, 10, 1), job="Storing"), host("K 0 1000 1"), line("133", "6"), host("K 0 999 1"), line("133", "0"), line("133", "6"), line("9", "G"), emptied)

case("axes_of_the_store_while_storing", "records are tested by the store's axes", line("@01", "0"), line("@0i", "0"), line("0 1,600,1,600", "7"), line("n2", "3"), host("K 0 0 3"),
     lines("0", "0 1,600,1,600", "n2"), line("0 1,600", "7"), line("9", "0"), listed("01,600,1,600", "n2", "9"))

case("marks_in_numbers", "numbers that hold a mark's bytes: records are found where they were stored, and listed by their lengths",
     line("@01", "0"), store("3 0,2", "0 11223,600", "133"), line("@0S"), stop, line("@0S"), clock("Done"), stop, line("@0S"), clock(sends("!"), ZERO), listed("30,2", "011223,600", "133", "9"))

case("movement_altered", "a movement altered so that its position is still the one its pulse number gives goes on to the new end",
     line("@01", "0"), line("@0A2,600"), clock(*x(1)), stop, host("H firstx 5", "H secondx 5", "H thirdx 5"), nothing(), line("@0S"), clock(*x(4), ZERO), where(5, 0, 0))

case("position_altered", "a host that sets positions and origins of an idle board",
     line("@01", "0"), host("H x 8388607", "H ox -8388608"), line("@0A1,600", "9"), line("@0M0,600"), byte(BREAK, "F"), host("H x -8388608"), line("@0M0,600", "0"), where(-8388608, 0, 0),
     line("@0A-1,600", "9"), line("@0M-1,600", "9"))

case("standing_idle", "the host says that something stands: W for lines, nothing for the clock, S goes on with nothing, break sends F",
     line("@01", "0"), host("H standing 1"), nothing(), no_stop, line("@0k", "W"), where(0, 0, 0), line("@0S"), state(axes=1), nothing(), host("H standing 1"), byte(BREAK, "F"), byte(BREAK),
     state(axes=1))

case("standing_in_a_wait", "a wait made to stand takes no byte; it waits again when it goes on",
     line("@01", "0"), store("233,2", "134", "135"), line("@0S"), clock("Done"), host("H standing 1"), text("!"), byte(13, "5"), state(axes=1, held=(28, 3, 1), job="Wait", standing=1),
     line("@0S"), nothing(), byte(33), clock(sends("#"), ZERO))

case("standing_in_a_delay", "a delay made to stand makes no pause", line("@01", "0"), store("5 2"), line("@0S"), clock("Pause"), host("H standing 1"), nothing(2), no_stop, line("@0S"), clock("Pause", ZERO))

case("standing_while_storing", "storing made to stand: its lines are no records; storing goes on after S",
     line("@01", "0"), line("@0i", "0"), line("133", "0"), host("H standing 1"), line("134", "5"), line("9", "5"), line("@0i", "W"), line("@0S"), line("134", "0"), line("9", "0"), listed("133", "134", "9"))

case("standing_without_axes", "S needs axes also when something stands: 4, and it stands on; W comes before 4",
     line("@01", "0"), line("@0A1,600"), stop, host("H axes 0"), line("@0S", "4"), line("@0A1,600", "W"), where(0, 0, 0), line("@0S1", "4"), nothing(), host("H axes 1"), line("@0S"),
     clock(*x(1), ZERO))

case("stop_taken_away", "the host says that nothing stands: the movement runs on", line("@01", "0"), line("@0A2,600"), clock(*x(1)), stop, host("H standing 0"), line("@0P"), clock(*x(1), ZERO))

case("over_set", "the host says that the line is too long: 5 at its return, and the next line is heard", host("H over 1"), line("@0P", "5"), line("@0P", report(0, 0, 0)))

case("line_cut", "the host makes the line shorter: the bytes before are still there; longer, zeros are part of it",
     text("@0P1"), host("H len 3"), byte(13, report(0, 0, 0)), text("@0P"), host("H len 4"), byte(13, "5"), line("@0P", report(0, 0, 0)))

case("storing_leaves_no_loop", "storing begins with no loop open, also where a host set one in an idle board",
     line("@03", "0"), host("H depth 1", "H place 7"), line("@0i", "0"), state(axes=3, held=(0, 0, 3), job="Storing"))
