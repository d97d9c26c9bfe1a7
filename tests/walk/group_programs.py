"""Storing and running programs."""
from case import P, R, all_reply, case, lines, refused_at_9, store

ONE = lines("@01")
SEVEN = lines("@07")
S = lines("@0S")


def ran(name, why, records, printed, axes="1", end="0 0 0", then=b""):
    """A program stored under the axes and started once."""
    given, said = store(*records)
    case(name, why, lines("@0" + axes) + given + S + then, ["R 0"] + said + printed, end)


given, said = all_reply(
    "5", "", "@0P", "@07", "@0S", "M1,30", "N1", "A1,30", "S", "k", "i", "P", "91", "9 ", "9 1", "9,", "-9", "6", "7 1", "4", "8", "z ",
    "z  1", "z1 ", "z1,", "z,1", "0 ", "0 1,  30", "0 1 ,30", "0 1, ", " 0 1,30", "\n9", "9\n", "3 0,123456789")
case("storing_shapes", "while storing a line is code, at most one space, numbers with at most one space behind each comma; the codes are 0 m n z 3 5 1 2 9",
     ONE + lines("@0i") + given + lines("9"), R("0", "0") + said + ["R 0"])

given, said = all_reply("7", "0", "0 1", "0 1,30,1,30", "m", "m1", "n", "n1,1", "z", "z0,0", "3", "3 1", "3 1,-1,0", "5", "5 1,1", "1",
                        "133,1", "2", "233", "233,1,1")
case("storing_counts", "7: a count that the code doesn't take under one axis",
     ONE + lines("@0i") + given + lines("9"), R("0", "0") + said + ["R 0"])

case("storing_counts_by_axes", "movement takes 2, 4 or 8 numbers by the axes set when storing began",
     lines("@03", "@0i", "00,30", "00,30,0,30", "m0,30,0,30,0,30,0,30", "9", "@07", "@0i", "00,30,0,30", "00,30,0,30,0,30,0,30", "9"),
     R("0", "0", "7", "0", "7", "0", "0", "0", "7", "0", "0"))

given, said = all_reply(
    "1", "z2", "z-1", "3 -1,-1", "3 32768,-1", "3 1,0", "3 1,1", "3 0,32768", "3 0,-32769", "3 1,-32769", "5 -1", "5 65536", "132",
    "1127", "1-33", "232,0", "2127,0", "233,32768", "233,-32769", "0 8388608,30", "0-8388609,30", "m8388608,30", "m9000000,29")
case("storing_ranges", "1: out of range; a loop's offset is at most -1",
     ONE + lines("@0i") + given + lines("9", "@0S"), R("0", "0") + said + R("0", "8"))

case("storing_ranges_at_the_ends", "the ends are accepted; the program is refused at 9 for its targets",
     ONE + lines("@0i", "3 32767,-32768", "3 0,32767", "3 0,-32768", "5 0", "5 65535", "133", "1126", "233,32767", "2126,-32768",
                 "0 8388607,30", "0-8388608,10000", "m8388607,30", "z0", "z1", "n1", "9", "@0S"),
     R("0", "0", *["0"] * 15, "Gb0000", "8"))

case("storing_masks_and_speeds", "n beyond the axes is 3; a speed outside 30 to 10,000 is D; z2 of m must be 0",
     lines("@03", "@0i", "n0", "n4", "n7", "n8", "n-1", "00,29,0,30", "00,30,0,10001", "m0,30,0,0", "9", "@07", "@0i",
           "m0,30,0,30,0,30,1,30", "00,30,0,30,0,30,1,29", "n7", "n8", "9"),
     R("0", "0", "3", "3", "3", "3", "3", "D", "D", "D", "0", "0", "0", "1", "D", "0", "3", "0"))

given, said = all_reply(
    "5", "3 1,  -1", "31,  -1", "3 1 ,-1", "3 1 , -1", "3 1, -1 ", "3 1,-1 ", "3 1, ", "3 1, ,-1", "3 1,, -1", "3 1, -1,", "3 1, -1, ", "3, 1", "3 , 1",
    "3  1, -1", "3 1,\t-1", "3 1, \t-1", "3 1,\xa0-1", "3 1,\n-1", "3 1,\x00-1", "3 1,- 1", "3 1, - 1", "3 1, -", "3 1, +1", "3 1 -1",
    "3 1, -000000001", " 3 1, -1", "0 1,  30", "01 ,30", "m1,  30", "m1 ,30", "m 1, 30 ", "2 33,  1", "233 ,1", "9, ", "9, 1", "9 , 1", "@01, 3")
case("storing_spaces_wrong", "the same spaces and bytes are 5 while storing; nothing is stored",
     ONE + lines("@0i") + given + lines("9", "@0S"), R("0", "0") + said + R("0", "8"))

case("storing_spaces_and_refusals", "7, then 3, then 1, then D, with spaces as without; nothing is stored",
     lines("@03", "@0i", "0 1, 30", "0 9000000, 5, 1", "m0, 30, 0, 30, 0", "n9, 9", "z2, 2", "3 99999, 0, 0", "5 1, 1", "133, 1", "2 32, 1, 1", "n 4",
           "3 1, 0", "3 32768, -1", "3 0, 32768", "2 32, 0", "2 33, -32769", "0 8388608, 29, 0, 30", "m0, 29, -8388609, 30", "0 1, 29, 0, 30",
           "m1, 30, 0, 10001", "9", "@0S"),
     R("0", "0", "7", "7", "7", "7", "7", "7", "7", "7", "7", "3", "1", "1", "1", "1", "1", "1", "1", "D", "D", "0", "8"))

case("refused_record_is_not_stored", "storing goes on after a refusal",
     ONE + lines("@0i", "133", "132", "x", "n7", "134", "9", "@0S"),
     R("0", "0", "0", "1", "5", "3", "0", "0", "!", '"', "0"))

case("storing_line_too_long", "81 bytes are 5 while storing as well",
     ONE + lines("@0i", "z" + "0" * 80, "9" * 81, "133", "9", "@0S"), R("0", "0", "5", "5", "0", "0", "!", "0"))

long = "0 -00000001,00000600,-00000000,00000700,-00000000,00000800,-00000000,00000900"
spaced = [long.replace(",", ", ", n) for n in range(8)]
assert [len(t) for t in spaced] == [77, 78, 79, 80, 81, 82, 83, 84]
case("storing_line_of_80_by_spaces", "spaces count among the 80 bytes while storing too: three make 80, which is stored; the fourth makes it 5",
     SEVEN + lines("@0i", *spaced, "9", "@0S"),
     R("0", "0", "0", "0", "0", "0", "5", "5", "5", "5", "0") + P([-4, 0, 0], 600) + R("0"), "-4 0 0")

ran("simple", "records run from place 0; the end sends 0", ["0 2,600", "0-1,700"],
    P([2, 0, 0], 600) + P([-1, 0, 0], 700) + ["R 0"], end="1 0 0")

ran("sync_characters", "33 and 126 are sent as they are", ["133", "1126", "148"], R("!", "~", "0", "0"))

ran("without_pulse", "movement without pulse, settings and delays print nothing", ["0 0,600", "m0,600", "n1", "z1", "5 0", "5 3"], ["R 0"])

ran("loop_26", "3 25,-1 runs its record 26 times", ["0 1,600", "3 25,-1"], P([26, 0, 0], 600) + ["R 0"], end="26 0 0")

ran("loop_once", "number 1 goes back once", ["133", "3 1,-1"], R("!", "!", "0"))

ran("loop_pattern", "a two-record pattern is repeated whole", ["133", "134", "3 2,-2"], R("!", '"', "!", '"', "!", '"', "0"))

ran("loop_nested", "the inner loop starts afresh at each pass of the outer one", ["133", "3 2,-1", "134", "3 1,-3", "135"],
    R("!", "!", "!", '"', "!", "!", "!", '"', "#", "0"))

ran("loops_same_start", "two ranges that start at one place: 3 passes by 2", ["133", "3 2,-1", "3 1,-2"], R(*["!"] * 6, "0"))

ran("loops_after_each_other", "loops that share no place", ["133", "3 1,-1", "134", "3 2,-1"], R("!", "!", '"', '"', '"', "0"))

ran("loops_seven_deep", "seven loops around one record, each once back: 128 passes",
    ["133"] + ["3 1,-%d" % k for k in range(1, 8)], R(*["!"] * 128, "0"))

ran("jump_five", "3 0,5 at place 0 goes to place 5", ["3 0,5", "133", "134", "135", "136", "137", "138"], R("%", "&", "0"))

ran("jump_to_the_end", "the end place may be a target", ["133", "3 0,2", "134"], R("!", "0"))

ran("jump_back", "3 0,-2 at place 3 goes to place 1, which jumps to the end", ["3 0,2", "3 0,3", "133", "3 0,-2"], R("!", "0"))

ran("jump_in_a_loop", "a jump inside the range, over a record, in both passes", ["133", "3 0,2", "134", "135", "3 1,-4"],
    R("!", "#", "!", "#", "0"))

ran("jump_to_the_loop_record", "the loop's own place lies in its range", ["133", "3 0,2", "134", "3 1,-3"], R("!", "!", "0"))

ran("jump_without_end", "a jump to itself is accepted and runs without end; nothing more is read", ["3 0,0"], ["L 100000"],
    then=lines("@0P"))

ran("delay_and_limit", "65,535 + 34,464 pauses and the 0 are 100,000 calls: over in time",
    ["5 65535", "5 34464"], R("0", "0000000000000000000"), then=lines("@0P"))

ran("delay_beyond_the_limit", "one pause more: the run isn't over after 100,000 calls; nothing more is read",
    ["5 65535", "5 34465"], ["L 100000"], then=lines("@0P"))

ran("limit_in_a_wait", "99,999 pauses and the wait's call are 100,000: a wait is no run that isn't over",
    ["5 65535", "5 34464", "233,1"], R("0"), then=b"!")

ran("limit_for_each_byte", "the limit counts for each byte: two runs of 65,536 calls each", ["5 65535"], R("0", "0"), then=S)

ran("limit_after_pulses", "two pulses, then a jump back and forth without end", ["0 2,600", "3 0,0"], P([2, 0, 0], 600) + ["L 100000"],
    end="2 0 0")

ran("wait_equal", "the character jumps to own place plus offset", ["233,2", "134", "135"], R("#", "0"), then=b"!")

ran("wait_other", "any other byte goes on to the next record", ["233,2", "134", "135"], R('"', "#", "0"), then=b"a")

ran("wait_back", "a wait may jump back, to place 0", ["134", "233,-1", "135"], R('"', '"', '"', "#", "0"), then=b"!!.")

ran("wait_for_itself", "offset 0 waits again", ["233,0", "134"], R('"', "0"), then=b"!!!!x")

ran("wait_takes_one_byte", "text after a wait: its first byte is taken, the rest gathers when the run is over",
    ["264,1"], R("0", "5", "0000000000000000000"), then=lines("@0P", "@0P"))

ran("wait_takes_a_return", "a carriage return answers a wait like any byte", ["233,2", "134"], R('"', "0", "5"), then=b"\r\r")

ran("wait_takes_a_line_feed", "a line feed after the start answers the wait", ["233,2", "134"], R('"', "0", "0000000000000000000"),
    then=b"\n" + lines("@0P"))

ran("wait_takes_a_space", "a space answers a wait like any other byte, and is no part of the next line",
    ["2 33, 2", "134", "135"], R('"', "#", "0", "0000000000000000000"), then=b" " + lines("@0P"))

ran("wait_takes_a_comma", "so does a comma, which may be the character; the space behind it heads the next line, which is 5",
    ["2 44, 2", "134", "135"], R("#", "0", "5", "0000000000000000000"), then=b", " + lines("@0P", "@0P"))

ran("wait_to_the_end", "the end place as a wait's target", ["233,2", "134"], R("0"), then=b"!")

ran("wait_unanswered", "the input ends in a wait", ["133", "234,0"], R("!"))

ran("waits_in_a_loop", "a wait in a loop, answered both ways", ["233,2", "134", "135", "3 1,-3"], R("#", '"', "#", "0"), then=b"!?")

ran("wait_stop", "stop does nothing in a wait, break ends it with F, then nothing runs",
    ["0 1,600", "233,0"], P([1, 0, 0], 600) + R("F", "0000001000000000000"), then=b"\xfd\xff\xff" + lines("@0P"), end="1 0 0")

ran("wait_reset", "reset in a wait sends nothing and keeps the store",
    ["0 1,600", "233,1"], P([1, 0, 0], 600) + R("4", "0") + P([1, 0, 0], 600) + ["R 0"], then=b"\xfe" + lines("@0S", "@01", "@0S") + b"!",
    end="1 0 0")

ran("wait_break_and_again", "after break the program starts at place 0 with no loop open",
    ["133", "234,1", "3 1,-2"], R("!", "F", "!", "!", "0"), then=b"\xff" + S + b"ab")

ran("run_again", "a program may run as often as it is started", ["0 1,600", "3 1,-1"], P([2, 0, 0], 600) + ["R 0"] + P([2, 0, 0], 600) +
    ["R 0"], then=S, end="4 0 0")

ran("settings_in_a_program", "z and n act when run, and stay afterwards",
    ["z1", "0 1,100,0,200,1,300,5,400", "n7", "m-1,100,0,200,0,300,0,400"],
    ["P +.+ 100", "P -.. 100", "R 0", "P +.+ 500", "R 0", "P -.. 600", "R 0"], axes="7", end="0 0 2",
    then=lines("@0A1,500,0,30,1,30,0,30", "@0M-1,600,0,30,1,30,0,30"))

case("storing_changes_nothing_else", "z and n are only stored: the movement after it is 2.5D from the old origin",
     SEVEN + lines("@0A1,100,0,100,0,100,0,100", "@0i", "z1", "n7", "9", "@0M1,600,0,700,1,800,0,900"),
     R("0") + P([1, 0, 0], 100) + R("0", "0", "0", "0", "0") + P([0, 0, 1], 800) + ["R 0"], "1 0 1")

ran("three_d_in_a_program", "z2 rests in 3D and moves in 2.5D",
    ["z1", "00,100,0,200,1,300,1,400", "z0", "00,100,0,200,1,300,1,400"], ["P ..+ 100", "P ..+ 300", "P ..+ 400", "R 0"], axes="7",
    end="0 0 3")

ran("nine_in_a_program", "9 is sent when the record is run, without a pulse of it; the program is kept",
    ["0 1,600", "0 8388607,600", "133"], P([1, 0, 0], 600) + ["R 9"] + P([1, 0, 0], 600) + ["R 9"], then=S, end="2 0 0")

ran("nine_at_z", "z + z1 leaves 24 bits: no pulse of x either", ["00,30,0,30,1,30,0,30", "05,30,0,30,8388607,30,-9,30"],
    ["P ..+ 30", "R 9"], axes="7", end="0 0 1")

ran("marks_in_numbers", "11,223 is stored as D7 2B 00 00: numbers may hold the bytes of a mark",
    ["3 0,3", "0 11223,600", "5 11223", "133", "3 0,2", "0-54313,600", "134"], R("!", '"', "0"))

case("empty_program", "an empty program passes and counts as an empty store", ONE + lines("@0i", "9", "@0S"), R("0", "0", "0", "8"))

case("empty_store", "8 when nothing is stored", ONE + S, R("0", "8"))

first, said1 = store("133")
second, said2 = store("134")
case("store_again", "i empties the store", ONE + first + second + S, ["R 0"] + said1 + said2 + R('"', "0"))

case("store_kept", "a refused i or k keeps the store, k empties it",
     ONE + first + lines("@0i1", "@0k1", "@0S", "@0k", "@0S", "@0k"), ["R 0"] + said1 + R("7", "7", "!", "0", "0", "8", "0"))

case("start_under_other_axes", "G under other axes than those stored under; setting axes keeps the store",
     ONE + first + lines("@03", "@0S", "@07", "@0S", "@01", "@0S"), ["R 0"] + said1 + R("0", "G", "0", "G", "0", "!", "0"))

case("empty_before_other_axes", "8 comes before G", ONE + first + lines("@03", "@0k", "@0S"), ["R 0"] + said1 + R("0", "0", "8"))

case("axes_again_with_a_program", "setting axes sets positions to 0 and keeps store and output",
     ONE + lines("@0B0,170", "@0i", "0 1,600", "9", "@0S", "@01", "@0P", "@0S"),
     R("0", "0", "0", "0", "0") + P([1, 0, 0], 600) + R("0", "0", "0000000000000000000") + P([1, 0, 0], 600) + ["R 0"], "1 0 0")

case("reset_while_storing", "reset ends storing and empties the store being written",
     ONE + lines("@0i", "133") + b"\xfe" + lines("134", "9", "@01", "@0S"), R("0", "0", "0", "5", "5", "0", "8"))

case("reset_keeps_a_program", "reset keeps the store; its axes must be set again",
     ONE + first + b"\xfe" + lines("@0S", "@03", "@0S", "@01", "@0S"), ["R 0"] + said1 + R("4", "0", "G", "0", "!", "0"))

case("reset_in_a_storing_line", "the half line is cleared too", ONE + lines("@0i") + b"13\xfe3\r" + lines("@01", "@0S"),
     R("0", "0", "5", "0", "8"))

case("control_codes_while_storing", "stop and break do nothing while storing, also inside a line",
     ONE + b"@0i\r\xfd\xff13\xfd3\xff\r9\r@0S\r", R("0", "0", "0", "0", "!", "0"))

case("records_1000", "the 1,001st record is 6, after 1; storing goes on and 9 ends it",
     ONE + lines("@0i", *["z0"] * 1000, "z0", "z2", "9", "@0S"), R("0", "0", *["0"] * 1000, "6", "1", "0", "0"))

wide = "00,30,0,30,0,30,0,30"
case("bytes_16384", "455 movements of 36 bytes are 16,380; no record fits in the last four",
     SEVEN + lines("@0i", *[wide] * 455, wide, "z0", "9", "@0S"), R("0", "0", *["0"] * 455, "6", "6", "0", "0"))

case("bytes_16384_exactly", "453 movements (16,308), 8 records of 8 bytes and one of 12 fill the store to the last byte",
     SEVEN + lines("@0i", *[wide] * 453, *["z0"] * 8, "3 0,1", "z0", "9", "@0S"), R("0", "0", *["0"] * 462, "6", "0", "0"))

ran("storing_spaces_and_zeros", "one space after the code, leading zeros and -0 are fine",
    ["0 00000001,0600", "m -0,700", "1 00000033", "5 -0", "2 33,-00", "z 0"],
    P([1, 0, 0], 600) + P([-1, 0, 0], 700) + R("!", "0"), then=b".")

records = ["0 2, 600", "3 2, -1", "m5, 700", "2 33, 2", "134", "3 0, 2", "135"]
spaced, said = store(*records)
plain, _ = store(*[r.replace(", ", ",") for r in records])
did = P([6, 0, 0], 600) + P([-1, 0, 0], 700) + R("0")
case("storing_spaces_behind_commas", "0, m, 3 and 2 with a space behind the comma: the run is that of the same program without, which comes after",
     ONE + spaced + S + b"!" + ONE + plain + S + b"!", ["R 0"] + said + did + ["R 0"] + said + did, "5 0 0")

records = ["0 1, 600, -1, 900, -2, 800, 2, 700", "3 1, -1", "01,600, -1, 900,-2, 800,0,700", "m 0, 100,0, 200, 0,300,0, 400"]
spaced, said = store(*records)
plain, _ = store(*[r.replace(", ", ",") for r in records])
did = P([1, -1, 0], 600) + P([0, 0, -2], 800) + P([0, 0, 2], 700)
did = did + did + P([1, -1, 0], 600) + P([0, 0, -2], 800) + P([-3, 3, 0], 100) + P([0, 0, 2], 300) + R("0")
case("storing_spaces_three_axes", "eight numbers, with a space behind all commas or some, and without",
     SEVEN + spaced + S + plain + S, ["R 0"] + said + did + said + did)

given, said = refused_at_9("Ga0001", "133", "3 0, 2")
case("storing_spaces_and_the_check", "the check at 9 counts the offset behind a space: target 3 of two records is refused, target 2 passes",
     ONE + given + lines("@0i", "133", "3 0, 1", "9", "@0S"), ["R 0"] + said + R("0", "0", "0", "0", "!", "0"))

spaced = "0 0, 30, 0, 30, 0, 30, 0, 30"
case("storing_spaces_take_no_bytes", "453 movements with spaces (16,308 bytes), 8 records of 8 bytes and one of 12 fill the store to the last byte",
     SEVEN + lines("@0i", *[spaced] * 453, *["z 0"] * 8, spaced, "3 0, 1", "3 0, 1", "9", "@0S"), R("0", "0", *["0"] * 461, "6", "0", "6", "0", "0"))
