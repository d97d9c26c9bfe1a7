"""Lines and replies outside storing."""
from case import P, R, all_reply, case, lines

ZERO = "0" + "000000" * 3

case("no_input", "nothing is received: only the first and last line", b"", [])

case("example", "the paper's own", lines("@03", "@0A3,600,1,900"),
     ["R 0", "P +.. 600", "P ++. 600", "P +.. 600", "R 0"], "3 1 0")

good, said = all_reply("0", "@01", "@03", "@07")
bad, refused = all_reply("3", "@00", "@02", "@04", "@05", "@06", "@09", "@010", "@0-1", "@0-7", "@099999999")
case("axes_values", "1, 3 and 7 are allowed; all else is 3, but 8", good + bad, said + refused)

case("axes_count", "two numbers are 7, before 3", lines("@01,3", "@02,2", "@07,"), R("7", "7", "5"))

case("axes_spaces", "a space behind the comma changes nothing: two numbers are 7, before 3; every other space is 5, and so is a comma at the end",
     lines("@01, 3", "@02, 2", "@01, 3, 7", "@01 ,3", "@01,  3", "@01, 3 ", "@01, ", "@0 1, 3", "@0, 7", "@07"),
     R("7", "7", "7", "5", "5", "5", "5", "5", "5", "0"))

case("axes_zeros", "a number is 1 to 8 digits, so 07 and 00000007 are 7; nine digits are 5",
     lines("@007", "@000000007", "@0000000007", "@0A0,30,0,30,0,30,0,30"), R("0", "0", "5", "0"))

given, said = all_reply(
    "5", "", "@", "@0", "@1P", "@2", "P", "0P", " @0P", "@0 P", "@0P ", "@07 ", "@0 7", "@0z  1", "@0z 1 ", "@0z ,1", "@0z1,",
    "@0z,1", "@0z1,,1", "@0z-", "@0z--1", "@0z+1", "@0z1-", "@0z1 1", "@0z1,  1", "@0z1 ,1", "@0z1, ", "@0z1x", "@0zx", "@0z\t1", "@@0P", "@0P\n")
case("shape", "`@0`, a letter, at most one space, numbers parted by commas with at most one space behind each, nothing else",
     lines("@07") + given, ["R 0"] + said)

given, said = all_reply(
    "5", *["@0" + c + "1" for c in "CcDdEFGgHhIJjKLlOopQqRrTtUuVvWwXxYZ"], "@0N1\n", "@0!", "@0~", "9", "0 1,600", "z1")
case("letters", "only A a M m S s n N z P b B i k e f y are letters; storing codes are none here",
     lines("@07") + given, ["R 0"] + said)

case("small_letters", "A, M and S may be small; the others may not",
     lines("@01", "@0a1,600", "@0m0,700", "@0s", "@0p", "@0Z1", "@0I", "@0K"),
     R("0") + P([1, 0, 0], 600) + R("0") + P([-1, 0, 0], 700) + R("0", "8", "5", "5", "5", "5"))

case("crlf", "the line feed heads the next line, which is then 5; so is every later one",
     b"@07\r\n@0P\r\n@0P\r\n", R("0", "5", "5"))

case("bytes_high_and_zero", "bytes 0 and 128 to 252 gather and spoil the line",
     b"@0P\x00\r\x80@0P\r@0\xfcP\r@0P\r", R("5", "5", "5", ZERO))

case("spaces", "one space after the letter, before a number",
     lines("@01", "@0z 1", "@0A 1,600", "@0n 1", "@0b 0", "@0B 0,1", "@0M -0,30"),
     R("0", "0") + P([1, 0, 0], 600) + R("0", "0", "000", "0", "0"), "1 0 0")

texts = ["@01", "@0A 2, 600", "@0M1, 700", "@0B0, 255", "@0B 0, 0", "@03", "@0A1, 600,-1, 900", "@0m 0, 30, 0,30", "@07",
         "@0a 1, 600, 0, 700, -1, 800, 1, 900", "@0M0, 100,0,200,0, 300, 0,400"]
said = (R("0") + P([2, 0, 0], 600) + R("0") + P([-1, 0, 0], 700) + R("0", "0", "0", "0") + P([1, -1, 0], 600) + R("0") + P([-1, 1, 0], 30) +
        R("0", "0") + P([1, 0, 0], 600) + P([0, 0, -1], 800) + P([0, 0, 1], 900) + R("0") + P([-1, 0, 0], 100) + R("0"))
case("spaces_behind_commas", "one space behind each comma, or behind some: A, M and B do as without them, which come after",
     lines(*texts, *[t.replace(", ", ",") for t in texts]), said + said)

case("spaces_before_axes", "without axes: 5 for the shape, then 4, then 7, with spaces as without",
     lines("@0A1, ", "@0A1 , 600", "@0A1, 600", "@0M1, 600, 1", "@0n1, 1", "@0N1, 1", "@0z1, 1", "@0i1, 1", "@0S1, 1", "@0b0, 0", "@0B0, 0, 0",
           "@0k0, 0", "@0P0, 0", "@0B0, 1"),
     R("5", "5", "4", "4", "4", "4", "4", "4", "4", "7", "7", "7", "7", "0"))

case("spaces_and_refusals", "7, then 3, then 1, then D, then 9, with spaces as without; x is at 1 for the 9",
     lines("@03", "@0A1, 600", "@0A9000000, 5, 1", "@0M0, 30, 0, 30, 0", "@0n9, 9", "@0N1, 2", "@0z2, 2", "@0b9, 9", "@0B9", "@0S0, 0", "@0i0, 0",
           "@0n 8", "@0A9000000, 5, 1, 600", "@0A1, 5, 9000000, 600", "@0M0, 30, -8388609, 30", "@0B1, 0", "@0B0, 256", "@0B0, -1",
           "@0A1, 5, 1, 600", "@0A1, 600, 1, 10001", "@0M0, 600, 0, -600", "@0A1, 600, 0, 600", "@0A8388607, 29, 0, 30", "@0A8388607, 30, 0, 30", "@0S"),
     R("0", "7", "7", "7", "7", "7", "7", "7", "7", "7", "7", "3", "1", "1", "1", "1", "1", "1", "D", "D", "D") + P([1, 0, 0], 600) +
     R("0", "D", "9", "8"), "1 0 0")

given, said = all_reply(
    "5", "@0A1,  600", "@0A1 ,600", "@0A1 , 600", "@0A 1 ,600", "@0A1, 600 ", "@0A1,600 ", "@0A1, ", "@0A1,  ", "@0A1, 600,", "@0A1, 600, ",
    "@0A1, ,600", "@0A1,, 600", "@0A, 600", "@0A , 600", "@0A,", "@0A1,\t600", "@0A1, \t600", "@0A1,\t 600", "@0A1,\xa0600", "@0A1, \xa0600",
    "@0A1,\n600", "@0A1,\x00600", "@0A1,- 600", "@0A1, - 600", "@0A1, -", "@0A1, --1", "@0A1, +600", "@0A1, 6 00", "@0A1 600", "@0 A1, 600",
    "@ 0A1, 600", " @0A1, 600", "@0A  1, 600", "@0A1, 000000600", "@0M1,  600", "@0M1 ,600", "@0B0 ,1", "@0B0,  1", "@0B0, 1 ", "@0P, ", "@0S, ")
case("spaces_wrong", "two spaces, one before a comma, the last byte, behind a minus or in a number, with nothing or a comma behind; other bytes: 5",
     lines("@01") + given + lines("@0P"), ["R 0"] + said + R(ZERO))

case("numbers", "an optional minus and 1 to 8 digits; out of range is 1, nine digits are 5",
     lines("@01", "@0A00000001,00000600", "@0A-00000001,600", "@0A-0,600", "@0A000000001,600", "@0A1,000000600",
           "@0A99999999,600", "@0A-99999999,600"),
     R("0") + P([1, 0, 0], 600) + R("0") + P([-1, 0, 0], 600) + R("0", "0", "5", "5", "1", "1"))

given, said = all_reply("4", "@0A", "@0A1,600", "@0M", "@0m1", "@0n", "@0n9", "@0N1", "@0z", "@0z7", "@0i", "@0i1", "@0S", "@0s1")
case("no_axes", "4 for A, M, n, N, z, i, S, before the count; the others need no axes",
     given + lines("@0P", "@0b3", "@0B0,255", "@0k", "@0P1", "@0b", "@0B0", "@0k1"),
     said + R(ZERO, "000", "0", "0", "7", "7", "7", "7"))

one, said1 = all_reply("7", "@0A", "@0A1", "@0A1,600,1", "@0A1,600,1,600", "@0M0,30,0,30,0,30,0,30", "@0n", "@0n1,1", "@0N",
                       "@0N1,2", "@0z", "@0z0,0", "@0P0", "@0b", "@0b0,0", "@0B", "@0B0", "@0B0,0,0", "@0i0", "@0k0", "@0S0")
two, said2 = all_reply("7", "@0A1,600", "@0A1,600,1", "@0A1,600,1,600,1", "@0M0,30,0,30,0,30,0,30")
three, said3 = all_reply("7", "@0A1,600", "@0A1,600,1,600", "@0A1,600,1,600,1,600", "@0M0,30,0,30,0,30,0,30,0")
case("counts", "2, 4 or 8 numbers for axes 1, 3, 7; 7 comes before 1 and D",
     lines("@01") + one + lines("@03") + two + lines("@07") + three + lines("@0A99999999", "@0B9"),
     R("0") + said1 + R("0") + said2 + R("0") + said3 + R("7", "7"))

case("count_many", "39 numbers fit in 80 bytes: the shape is right, the count isn't",
     lines("@01", "@0A" + "1," * 38 + "1"), R("0", "7"))

case("masks_one_axis", "n and N: only 1 under one axis",
     lines("@01", "@0n1", "@0N1", "@0n2", "@0n3", "@0N4", "@0N7", "@0n0", "@0n-1", "@0N8", "@0n99999999"),
     R("0", "0", "0", "3", "3", "3", "3", "3", "3", "3", "3"))

case("masks_two_axes", "n and N: 1 to 3 under two axes",
     lines("@03", "@0n1", "@0n2", "@0N3", "@0n4", "@0N5", "@0n6", "@0N7"), R("0", "0", "0", "0", "3", "3", "3", "3"))

case("masks_three_axes", "n and N: 1 to 7 under three axes",
     lines("@07", "@0n1", "@0N2", "@0n3", "@0N4", "@0n5", "@0N6", "@0n7", "@0N0", "@0n8"),
     R("0", "0", "0", "0", "0", "0", "0", "0", "3", "3"))

given, said = all_reply("1", "@0z2", "@0z-1", "@0z99", "@0b4", "@0b-1", "@0B1,0", "@0B-1,0", "@0B0,256", "@0B0,-1", "@0B4,999",
                        "@0A8388608,30", "@0A-8388609,30", "@0M8388608,30", "@0M-8388609,30")
case("ranges", "1: numbers out of range that are not axes", lines("@01") + given, ["R 0"] + said)

case("ranges_at_the_ends", "z 0 and 1, ports 0 to 3, outputs 0 and 255 are accepted",
     lines("@01", "@0z1", "@0z0", "@0z-0", "@0b0", "@0b1", "@0b2", "@0b3", "@0B0,0", "@0B0,255", "@0B-0,00000255"),
     R("0", "0", "0", "0", "000", "000", "000", "000", "0", "0", "0"))

case("speeds", "D outside 30 to 10,000, used or not",
     lines("@03", "@0A1,29,0,600", "@0A1,600,0,29", "@0A0,10001,0,30", "@0A0,30,0,10001", "@0A0,-30,0,30", "@0A0,30,0,0",
           "@0M0,29,0,30", "@0A1,30,0,10000", "@0A-1,10000,0,30"),
     R("0", "D", "D", "D", "D", "D", "D", "D") + P([1, 0, 0], 30) + R("0") + P([-1, 0, 0], 10000) + R("0"))

case("speeds_of_unused_z", "the z2 speed counts too, for absolute movement and in 3D as well",
     lines("@07", "@0A0,30,0,30,0,30,0,29", "@0M0,30,0,30,0,30,0,10001", "@0z1", "@0A0,30,0,30,0,30,5,29", "@0A0,30,0,29,0,30,5,30"),
     R("0", "D", "D", "0", "D", "D"))

case("range_before_speed", "all 1 come before all D, wherever they stand",
     lines("@03", "@0A1,5,9000000,600", "@0A9000000,5,1,600", "@0A1,5,1,600", "@0A9000000,600,1,5"), R("0", "1", "1", "D", "1"))

case("speed_before_resting_point", "D comes before 9: x is at 1 and would pass 8,388,607",
     lines("@01", "@0A1,600", "@0A8388607,29", "@0A8388607,30"),
     R("0") + P([1, 0, 0], 600) + R("0", "D", "9"), "1 0 0")

case("line_of_80", "80 bytes are a line (the count is wrong: 7); 81 and more are 5; the next line is whole again",
     lines("@0P" + "1," * 38 + "1", "@0P" + "1," * 38 + "11", "@0P" + "1," * 200, "@0P"), R("7", "5", "5", ZERO))

case("line_of_79_accepted", "the longest line that is accepted: a space, eight digits everywhere, four minuses; one digit more is 5",
     lines("@07", "@0A -00000001,00000600,-00000000,00000700,-00000000,00000800,-00000000,00000900",
           "@0A -00000001,00000600,-00000000,00000700,-00000000,00000800,-00000000,000000900"),
     R("0") + P([-1, 0, 0], 600) + R("0", "5"), "-1 0 0")

long = "@0A -00000001,00000600,-00000000,00000700,-00000000,00000800,-00000000,00000900"
first, last, both = long.replace(",", ", ", 1), ", ".join(long.rsplit(",", 1)), ", ".join(long.replace(",", ", ", 1).rsplit(",", 1))
seven = "@0P" + "1, " * 25 + "11"
assert [len(t) for t in (long, first, last, both, seven)] == [79, 80, 80, 81, 80]
case("line_of_80_by_spaces", "spaces count among the 80 bytes: the line of 79 with a space behind one comma is accepted, behind two it is 5; 80 and 81 for a 7",
     lines("@07", long, first, last, both, seven, seven + "1", "@0P"),
     R("0") + P([-1, 0, 0], 600) + R("0") + P([-1, 0, 0], 600) + R("0") + P([-1, 0, 0], 600) + R("0", "5", "7", "5", "0FFFFFD000000000000"), "-3 0 0")

case("control_codes_in_a_line", "stop and break do nothing when idle and are no part of the line; reset clears the line",
     b"@0\xfdP\r@\xff0P\r@0\xfeP\r@0P\r", R(ZERO, ZERO, "5", ZERO))

case("control_codes_when_idle", "stop, break and reset send nothing", b"\xfd\xff\xfe\xfd\xff", [])

case("input_ends_in_a_line", "what isn't ended by a return has no effect", b"@07\r@0A1,600,0,600,0,600,0,600", R("0"))

case("reset", "reset clears axes and positions and gives 2.5D",
     lines("@03", "@0A2,600,-1,700") + b"\xfe" + lines("@0P", "@0z1", "@03", "@0A0,600,1,700"),
     R("0") + P([2, -1, 0], 600) + R("0", ZERO, "4", "0") + P([0, 1, 0], 700) + ["R 0"], "0 1 0")
