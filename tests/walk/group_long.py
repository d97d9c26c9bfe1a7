"""Long programs: jumps, loops and waits over many records, up to the last one and to the end place."""
from case import P, R, case, lines, store
from group_programs import ONE, S, ran

ran("records_1000_jump_to_the_last", "from the first of 1,000 records to the last", ["3 0,999"] + ["134"] * 998 + ["133"], R("!", "0"))

ran("records_1000_jump_to_the_end", "from the first of 1,000 records to the end place, which is their count", ["3 0,1000"] + ["134"] * 999, R("0"))

ran("records_1000_jump_back", "to the last of 1,000, from there back to the second, and from the third to the end place",
    ["3 0,999", "133", "3 0,998"] + ["134"] * 996 + ["3 0,-998"], R("!", "0"))

# place i goes to 999 - i, and that to i + 1; the 500th, at place 500, goes to the end place
jumps = ["3 0,%d" % (999 - 2 * i) for i in range(500)] + ["3 0,%d" % (500 if i == 499 else 2 * i - 998) for i in reversed(range(500))]
ran("records_1000_jumps", "each of 1,000 jumps once, ever shorter, from one end to the other", jumps, R("0"))

ran("records_1000_in_a_loop", "a range of 1,000 records, run three times", ["133"] + ["5 0"] * 997 + ["134", "3 2,-999"], R(*'!"' * 3, "0"))

ran("records_1000_of_loops", "500 loops one behind the other, each of its record and itself", ["133", "3 1,-1"] * 500, R(*"!" * 1000, "0"))

ran("records_1000_and_a_wait", "the character leads from the first of 1,000 records to the last, any other to the second",
    ["233,999", "3 0,999"] + ["134"] * 997 + ["135"], R("#", "0", "0"), then=b"!" + S + b".")

block = ["0 1,600,2,700,3,800,4,900", "3 0,1", "n1"] * 280
ran("records_of_all_lengths", "over records of 36, 12 and 8 bytes to the last movement, on to the last record, back to the second, and to the end place",
    ["3 0,840", "133", "3 0,843"] + block + ["134", "3 0,-843"], P([1, 2, 0], 700) + P([0, 0, 3], 800) + P([0, 0, 4], 900) + R('"', "!", "0"), axes="7", end="1 2 7")

long, said = store(*["3 0,400"] + ["133"] * 399 + ["134"])
short, said2 = store("136", "3 0,2", "137")
case("records_fewer_and_more", "a short program behind a long one, and the long one again: each is found where it was stored now",
     ONE + long + S + short + S + long + S, ["R 0"] + said + R('"', "0") + said2 + R("$", "0") + said + R('"', "0"))

mixed, said = store("3 0,2", "133", "0 1,600", "134")
case("records_kept_by_a_reset", "a reset keeps the store and where its records start", ONE + mixed + b"\xfe" + ONE + S + lines("@0P"),
     ["R 0"] + said + R("0") + P([1, 0, 0], 600) + R('"', "0", "0000001000000000000"), "1 0 0")
