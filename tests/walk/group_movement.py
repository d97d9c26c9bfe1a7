"""Direct movement, positions and origins."""
from case import P, R, case, lines

case("four_and_minus_two", "x with y, x, x with y, x", lines("@03", "@0A4,600,-2,900"),
     ["R 0", "P +-. 600", "P +.. 600", "P +-. 600", "P +.. 600", "R 0"], "4 -2 0")

case("speed_of_the_longest", "the y speed only if y is longer; x at a tie; the longest by distance, not by sign",
     lines("@03", "@0A1,100,-1,200", "@0A1,100,-2,200", "@0A-2,100,1,200", "@0A0,100,1,200"),
     ["R 0", "P +-. 100", "R 0", "P +-. 200", "P .-. 200", "R 0", "P -+. 100", "P -.. 100", "R 0", "P .+. 200", "R 0"], "0 -1 0")

case("phases", "x and y together, then z1, then z2, each with its speed",
     lines("@07", "@0A1,100,2,200,2,300,-1,400"),
     ["R 0", "P ++. 200", "P .+. 200", "P ..+ 300", "P ..+ 300", "P ..- 400", "R 0"], "1 2 1")

case("phase_missing", "a phase without distance has no pulse",
     lines("@07", "@0A0,100,0,200,0,300,2,400", "@0A0,100,0,200,-1,300,0,400", "@0A1,100,0,200,0,300,1,400"),
     ["R 0", "P ..+ 400", "P ..+ 400", "R 0", "P ..- 300", "R 0", "P +.. 100", "P ..+ 400", "R 0"], "1 0 2")

case("no_pulse", "a movement without pulse sends 0 in the reply to its line",
     lines("@07", "@0A0,100,0,200,0,300,0,400", "@0M0,100,0,200,0,300,0,400", "@01", "@0A0,30", "@0M0,30"),
     R("0", "0", "0", "0", "0", "0"))

case("down_and_up", "z1 and z2 that cancel each other are both made",
     lines("@07", "@0A0,100,0,200,2,300,-2,400"),
     ["R 0", "P ..+ 300", "P ..+ 300", "P ..- 400", "P ..- 400", "R 0"])

case("absolute", "targets from the origin; x and y together, then z1; z2 is unused",
     lines("@07", "@0M1,600,2,700,3,800,0,900", "@0M0,600,2,700,1,800,0,900"),
     ["R 0", "P ++. 700", "P .+. 700", "P ..+ 800", "P ..+ 800", "P ..+ 800", "R 0",
      "P -.. 600", "P ..- 800", "P ..- 800", "R 0"], "0 2 1")

case("absolute_longest", "the longest by the distance moved: x goes 1 to its target 5, y goes 2 to its target 2",
     lines("@03", "@0A4,100,0,100", "@0M5,300,2,400"),
     ["R 0"] + P([4, 0, 0], 100) + ["R 0", "P ++. 400", "P .+. 400", "R 0"], "5 2 0")

case("absolute_z2", "an absolute z2 must be 0, in 3D too",
     lines("@07", "@0M0,30,0,30,0,30,1,30", "@0M0,30,0,30,0,30,-1,30", "@0M0,30,0,30,0,30,-0,30", "@0z1",
           "@0M0,30,0,30,0,30,1,30", "@0M0,30,0,30,0,30,0,30", "@0M0,30,0,30,0,30,1,29"),
     R("0", "1", "1", "0", "0", "1", "0", "1"))

case("three_d", "x, y and z1 together at the x speed; z2 does not move",
     lines("@07", "@0z1", "@0A0,100,2,200,-1,300,5,400", "@0A-1,100,-2,200,1,300,-5,400"),
     ["R 0", "R 0", "P .+- 100", "P .+. 100", "R 0", "P --+ 100", "P .-. 100", "R 0"], "-1 0 0")

case("three_d_z2_range", "z2 is checked for range in 3D, and no part of a resting point",
     lines("@07", "@0z1", "@0A0,30,0,30,0,30,8388608,30", "@0A0,30,0,30,0,30,8388607,30", "@0A0,30,0,30,1,30,8388607,30"),
     ["R 0", "R 0", "R 1", "R 0", "P ..+ 30", "R 0"], "0 0 1")

case("three_d_two_axes", "3D with two axes or one: the x speed, even if x rests",
     lines("@03", "@0z1", "@0A0,100,2,200", "@0A1,100,-2,200", "@01", "@0z1", "@0A-1,300"),
     ["R 0", "R 0", "P .+. 100", "P .+. 100", "R 0", "P +-. 100", "P .-. 100", "R 0", "R 0", "R 0", "P -.. 300", "R 0"], "-1 0 0")

case("three_d_absolute", "absolute in 3D: one phase from the origin",
     lines("@07", "@0z1", "@0M1,100,0,200,-2,300,0,400"), ["R 0", "R 0", "P +.- 100", "P ..- 100", "R 0"], "1 0 -2")

case("three_d_off", "z 0 and setting axes both give 2.5D",
     lines("@07", "@0z1", "@0z0", "@0A1,100,0,200,1,300,0,400", "@0z1", "@07", "@0A1,100,0,200,1,300,0,400"),
     ["R 0", "R 0", "R 0", "P +.. 100", "P ..+ 300", "R 0", "R 0", "R 0", "P +.. 100", "P ..+ 300", "R 0"], "1 0 1")

case("origin", "absolute movement follows the origin; relative movement and P do not",
     lines("@01", "@0A5,600", "@0n1", "@0P", "@0A1,600", "@0P", "@0M0,600", "@0M-5,700", "@0P"),
     R("0") + P([5, 0, 0], 600) + R("0", "0", "0000005000000000000") + P([1, 0, 0], 600) + R("0", "0000006000000000000") +
     P([-1, 0, 0], 600) + R("0") + P([-5, 0, 0], 700) + R("0", "0000000000000000000"))

case("origin_of_one_axis", "n 2 sets only the y origin",
     lines("@03", "@0A2,600,3,700", "@0n2", "@0M0,600,0,700"),
     R("0") + P([2, 3, 0], 700) + R("0", "0") + P([-2, 0, 0], 600) + ["R 0"], "0 3 0")

case("zero", "N sets position and origin to 0, on its axes only",
     lines("@07", "@0A1,600,2,700,3,800,0,900", "@0n7", "@0N2", "@0P", "@0M0,600,0,700,0,800,0,900", "@0N5", "@0P",
           "@0M1,600,0,700,0,800,0,900"),
     R("0") + P([1, 2, 0], 700) + P([0, 0, 3], 800) + R("0", "0", "0", "0000001000000000003", "0", "0", "0000000000000000000") +
     P([1, 0, 0], 600) + ["R 0"], "1 0 0")

case("positions", "six hexadecimal capitals each, two's complement",
     lines("@07", "@0A-2,600,10,700,-1,800,0,900", "@0P", "@0A-24,600,161,700,0,800,0,900", "@0P"),
     R("0") + P([-2, 10, 0], 700) + P([0, 0, -1], 800) + R("0", "0FFFFFE00000AFFFFFF") + P([-24, 161, 0], 700) +
     R("0", "0FFFFE60000ABFFFFFF"), "-26 171 -1")

case("position_256", "256 reports 000100", lines("@01", "@0A256,600", "@0P"),
     R("0") + P([256, 0, 0], 600) + R("0", "0000100000000000000"), "256 0 0")

case("position_of_an_axis_not_set", "setting axes sets all three positions to 0; P always gives 18 digits",
     lines("@07", "@0A0,600,1,700,2,800,0,900", "@01", "@0P"),
     R("0") + P([0, 1, 0], 700) + P([0, 0, 2], 800) + R("0", "0", "0000000000000000000"))

case("resting_point_x", "8,388,607 plus 1 is 9, and -8,388,608 less 1; nothing moves",
     lines("@01", "@0A1,600", "@0A8388607,600", "@0P", "@0A-2,600", "@0A-8388608,600", "@0P"),
     R("0") + P([1, 0, 0], 600) + R("0", "9", "0000001000000000000") + P([-2, 0, 0], 600) + R("0", "9", "0FFFFFF000000000000"), "-1 0 0")

case("resting_point_y", "the y end alone is outside",
     lines("@03", "@0A0,600,1,600", "@0A1,600,8388607,600", "@0P"),
     R("0") + P([0, 1, 0], 600) + R("0", "9", "0000000000001000000"), "0 1 0")

case("resting_point_z1", "z + z1 is outside though z + z1 + z2 is not",
     lines("@07", "@0A0,600,0,600,1,600,0,600", "@0A1,600,0,600,8388607,600,-8388607,600", "@0P"),
     R("0") + P([0, 0, 1], 600) + R("0", "9", "0000000000000000001"), "0 0 1")

case("resting_point_z2", "z + z1 + z2 is outside",
     lines("@07", "@0A1,600,0,600,1,600,8388607,600", "@0A0,600,0,600,-1,600,-8388608,600", "@0P"),
     R("0", "9", "9", "0000000000000000000"))

case("resting_point_absolute", "origin + target is outside, both ways",
     lines("@01", "@0A1,600", "@0n1", "@0M8388607,600", "@0A-2,600", "@0n1", "@0M-8388608,600", "@0M0,600"),
     R("0") + P([1, 0, 0], 600) + R("0", "0", "9") + P([-2, 0, 0], 600) + R("0", "0", "9", "0"), "-1 0 0")

case("resting_point_absolute_z", "the z target counts from the z origin",
     lines("@07", "@0A0,600,0,600,1,600,0,600", "@0n4", "@0M1,600,0,600,8388607,600,0,600", "@0z1",
           "@0M1,600,0,600,8388607,600,0,600"),
     R("0") + P([0, 0, 1], 600) + R("0", "0", "9", "0", "9"), "0 0 1")

case("long_line_shares", "seven steps of y over ten of x", lines("@03", "@0A10,600,-7,900"),
     R("0") + P([10, -7, 0], 600) + ["R 0"], "10 -7 0")
