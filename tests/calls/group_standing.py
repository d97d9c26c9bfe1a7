"""Every line while a movement stands stopped: 5 first, then W; P, b and S are heard, and nothing else changes anything."""
from case import case, clock, line, lines, nothing, report, sends, state, stop, where, x

AT_STOP = dict(axes=3, position=(1, 0, 0), output=7, held=(8, 1, 3), job="Direct", standing=1)


def while_standing(name, why, *heard):
    """A movement of two pulses stands after the first; the state is the same after these lines, and the second pulse follows."""
    case("standing_" + name, why, line("@03", "0"), line("@0B0,7", "0"), lines("0", "@0i", "133", "9"), line("@0A2,600,0,600"), clock(*x(1)),
         stop, state(**AT_STOP), *heard, state(**AT_STOP), nothing(), line("@0S"), clock(*x(1), sends("0")), where(2, 0, 0))


while_standing("axes", "setting axes: W, also for values that would be 3 or counts that would be 7; wrong shapes are 5",
               lines("W", "@01", "@03", "@07", "@00", "@02", "@0-1", "@01,3", "@000000007"), lines("5", "@0 7", "@07 ", "@0000000007", "@0"))
while_standing("relative", "A and a: W, right or wrong in count, range or speed",
               lines("W", "@0A1,600,1,600", "@0a 1,600,1,600", "@0A", "@0A1", "@0A1,29,1,600", "@0A8388608,600,1,600"),
               lines("5", "@0A ", "@0A1,", "@0A,1", "@0A1,600,1,600 ", "@0A 123456789,600", "@0AA1,600", "@A1,600"))
while_standing("absolute", "M and m the same", lines("W", "@0M1,600,1,600", "@0m0,600,0,600", "@0M", "@0M 1,10001,0,600"), lines("5", "@0M1;2", "@0M--1", "@0M "))
while_standing("origin", "n: W", lines("W", "@0n1", "@0n 3", "@0n", "@0n4", "@0n0", "@0n1,1"), lines("5", "@0n ", "@0nx"))
while_standing("zero", "N: W", lines("W", "@0N1", "@0N 3", "@0N", "@0N7", "@0N-1"), lines("5", "@0N1,", "@0N+1"))
while_standing("three", "z: W", lines("W", "@0z1", "@0z 0", "@0z", "@0z2", "@0z1,1"), lines("5", "@0z ", "@0Z1"))
while_standing("output", "B: W; the output stays", lines("W", "@0B0,1", "@0B 0,255", "@0B", "@0B1,1", "@0B0,256"), lines("5", "@0B0,", "@0B0 1"))
while_standing("storing", "i and k: W; the store stays", lines("W", "@0i", "@0k", "@0i1", "@0k 1"), lines("5", "@0i ", "@0k,", "@0I", "@0K"))
while_standing("records", "what would be a record while storing is no line: 5", lines("5", "0 1,600", "m1,600", "n1", "z1", "133", "233,1", "3 1,-1", "5 1", "9"))
while_standing("position", "P is heard: the position at the stop, 7 for a number; wrong shapes are 5",
               line("@0P", report(1, 0, 0)), line("@0P1", "7"), line("@0P 1,2", "7"), lines("5", "@0P ", "@0p", "@0Pa"), line("@0P", report(1, 0, 0)))
while_standing("port", "b is heard: 7 before 1", lines("000", "@0b0", "@0b 3"), lines("7", "@0b", "@0b0,1", "@0b9,9"), lines("1", "@0b4", "@0b-1"), lines("5", "@0b ", "@0b0,"))
while_standing("start", "S with a number is 7 and a wrong shape 5: it stands on", lines("7", "@0S1", "@0s 0,0"), lines("5", "@0S ", "@0Sx", "@0S,"))
while_standing("spaces", "spaces behind commas: W, and 7 for P, b and S; two spaces, one before a comma or as the last byte are 5; they count among the 80 bytes",
               lines("W", "@0A1, 600, 1, 600", "@0a 1, 29,1, 600", "@0M 1, 10001,0, 600", "@01, 3", "@0B0, 1", "@0z1, 1", "@0A" + "1, 3456," * 9 + "1, 34"),
               lines("7", "@0P1, 2", "@0b 0, 1", "@0s0, 0"),
               lines("5", "@0A1,  600", "@0A1 ,600", "@0A1, 600 ", "@0B0, ", "@01, ,3", "@0P1,\t2", "@0A" + "1, 3456," * 9 + "1, 345"))
while_standing("wrong_shapes", "5 before W", lines("5", "", "@", "@0", "@1A1,600", "x", "@0R1", "@0x", "\n@0P", "@0A1,600,1,600\n", " @0P", "@00A"))
