#!/usr/bin/env python3
"""Lines and what each of them says, worked out from the sentences of 01, "Lines", and of 02 §3, §7 and §8, and not from the code.

Writes crates/line_shapes/stdin and crates/line_shapes/stdout. Each line of stdin is `D ` (a line outside storing) or `S ` (a line
while storing) and the line's bytes as hexadecimal pairs; each line of stdout is the letter's or code's number (53, the reply 5,
for a wrong shape), how many numbers the line has, and the first eight of them. `--check` compares and writes nothing.
"""
import os
import re
import sys

# a number has one to eight digits, with or without a minus; a comma between two numbers (01), and behind the comma a space or none (02 §8)
NUMBER = rb"-?[0-9]{1,8}"
NUMBERS = NUMBER + rb"(?:,\x20?" + NUMBER + rb")*"
# behind the letter or code: nothing, or a space or none and then numbers; so no space ends a line
BEHIND = rb"(?:\x20?(" + NUMBERS + rb"))?"
# outside storing `@0` and a letter, of which three may be small; the axes follow `@0` without a letter or a space; e, f and y (02 §3) are
# small here and while storing
LETTER = re.compile(rb"@0([AaMmSsnNzPbBikefy])" + BEHIND)
AXES = re.compile(rb"@0(" + NUMBERS + rb")")
# while storing a code takes the place of `@0` and the letter; `9` is the end line if it stands alone
CODE = re.compile(rb"([0mnz3512efy])" + BEHIND)


def said(kind, numbers):
    values = [int(n.removeprefix(b" ")) for n in numbers.split(b",")] if numbers else []
    return kind, values


def direct(line):
    m = LETTER.fullmatch(line)
    if m:
        letter = m.group(1)
        return said(ord(letter.upper() if letter in b"ams" else letter), m.group(2))
    m = AXES.fullmatch(line)
    return said(ord("0"), m.group(1)) if m else (53, [])


def stored(line):
    if line == b"9":
        return 57, []
    m = CODE.fullmatch(line)
    return said(ord(m.group(1)), m.group(2)) if m else (53, [])


# By hand: a line and what it says, its letter or code and its numbers.
DIRECT = [
    (b"@01", "0", [1]), (b"@03", "0", [3]), (b"@07", "0", [7]), (b"@00", "0", [0]), (b"@08", "0", [8]), (b"@0-1", "0", [-1]),
    (b"@010", "0", [10]), (b"@007", "0", [7]), (b"@000000007", "0", [7]), (b"@01,3", "0", [1, 3]), (b"@0-0", "0", [0]),
    (b"@0A3,600,1,900", "A", [3, 600, 1, 900]), (b"@0A 3,600,1,900", "A", [3, 600, 1, 900]), (b"@0a3,600", "A", [3, 600]),
    (b"@0A-3,600,-1,900,5,30,-5,10000", "A", [-3, 600, -1, 900, 5, 30, -5, 10000]),
    (b"@0M8388607,600", "M", [8388607, 600]), (b"@0m -8388608,30", "M", [-8388608, 30]), (b"@0A", "A", []), (b"@0M", "M", []),
    (b"@0n1", "n", [1]), (b"@0n 7", "n", [7]), (b"@0N3", "N", [3]), (b"@0N 7", "N", [7]), (b"@0n", "n", []), (b"@0N", "N", []),
    (b"@0z0", "z", [0]), (b"@0z1", "z", [1]), (b"@0z 1", "z", [1]), (b"@0z-1", "z", [-1]), (b"@0P", "P", []), (b"@0P5", "P", [5]),
    (b"@0b0", "b", [0]), (b"@0b 3", "b", [3]), (b"@0b9", "b", [9]), (b"@0B0,255", "B", [0, 255]), (b"@0B 0,0", "B", [0, 0]),
    (b"@0i", "i", []), (b"@0k", "k", []), (b"@0S", "S", []), (b"@0s", "S", []), (b"@0S1", "S", [1]), (b"@0i2", "i", [2]),
    (b"@0k-99999999", "k", [-99999999]), (b"@0A99999999", "A", [99999999]), (b"@0A00000000", "A", [0]),
    (b"@0A-00000001", "A", [-1]), (b"@0A1,2,3,4,5,6,7,8", "A", [1, 2, 3, 4, 5, 6, 7, 8]),
    (b"@0A1,2,3,4,5,6,7,8,9", "A", [1, 2, 3, 4, 5, 6, 7, 8, 9]),
    (b"@0A3, 600", "A", [3, 600]), (b"@0A 3, 600, 1, 900", "A", [3, 600, 1, 900]), (b"@0a3,600, 1,900", "A", [3, 600, 1, 900]),
    (b"@0A -3, 600,-1, 900, 5,30, -5, 10000", "A", [-3, 600, -1, 900, 5, 30, -5, 10000]), (b"@0m 0, -0", "M", [0, 0]),
    (b"@0M8388607, 00000600", "M", [8388607, 600]), (b"@0A3, -99999999", "A", [3, -99999999]), (b"@0B0, 255", "B", [0, 255]),
    (b"@0B 0, 0", "B", [0, 0]), (b"@01, 3", "0", [1, 3]), (b"@0-1, -3, 7", "0", [-1, -3, 7]), (b"@0P5, 5", "P", [5, 5]),
    (b"@0n1, 2", "n", [1, 2]), (b"@0N 1, 2", "N", [1, 2]), (b"@0z1, 1", "z", [1, 1]), (b"@0b0, 0", "b", [0, 0]),
    (b"@0i0, 0", "i", [0, 0]), (b"@0k0, 0", "k", [0, 0]), (b"@0s0, 0", "S", [0, 0]),
    (b"@0A1,2,3,4,5,6,7,8, 9", "A", [1, 2, 3, 4, 5, 6, 7, 8, 9]), (b"@0A1, 2, 3, 4, 5, 6, 7, 8", "A", [1, 2, 3, 4, 5, 6, 7, 8]),
    (b"@0e0", "e", [0]), (b"@0e 2", "e", [2]), (b"@0e3", "e", [3]), (b"@0e-1", "e", [-1]), (b"@0e", "e", []), (b"@0e0, 1", "e", [0, 1]),
    (b"@0f0", "f", [0]), (b"@0f-1", "f", [-1]), (b"@0f -1", "f", [-1]), (b"@0f1", "f", [1]), (b"@0f", "f", []), (b"@0f0,0", "f", [0, 0]),
    (b"@0y4,600,0,2,0,-1,1", "y", [4, 600, 0, 2, 0, -1, 1]), (b"@0y 4, 600, 0, 2, 0, -1, 1", "y", [4, 600, 0, 2, 0, -1, 1]),
    (b"@0y8388607,10000,-8388608,-4000000,4000000,1,1", "y", [8388607, 10000, -8388608, -4000000, 4000000, 1, 1]),
    (b"@0y", "y", []), (b"@0y4,600,0,2,0,-1", "y", [4, 600, 0, 2, 0, -1]), (b"@0y4,600,0,2,0,-1,1,0,9", "y", [4, 600, 0, 2, 0, -1, 1, 0, 9]),
]
STORED = [
    (b"9", "9", []), (b"0", "0", []), (b"m", "m", []), (b"n", "n", []), (b"z", "z", []), (b"3", "3", []), (b"5", "5", []),
    (b"1", "1", []), (b"2", "2", []), (b"03,600", "0", [3, 600]), (b"0 3,600,1,900", "0", [3, 600, 1, 900]),
    (b"0-3,600,-1,900,5,30,-5,10000", "0", [-3, 600, -1, 900, 5, 30, -5, 10000]), (b"m8388607,30", "m", [8388607, 30]),
    (b"m -8388608,10000,0,30", "m", [-8388608, 10000, 0, 30]), (b"n7", "n", [7]), (b"n 3", "n", [3]), (b"z1", "z", [1]),
    (b"z 0", "z", [0]), (b"325,-1", "3", [25, -1]), (b"3 25,-1", "3", [25, -1]), (b"30,5", "3", [0, 5]), (b"3 0,-32768", "3", [0, -32768]),
    (b"565535", "5", [65535]), (b"5 0", "5", [0]), (b"133", "1", [33]), (b"1 126", "1", [126]), (b"265,2", "2", [65, 2]),
    (b"2 33,-32768", "2", [33, -32768]), (b"09", "0", [9]), (b"00", "0", [0]), (b"99999999", None, None), (b"399999999", "3", [99999999]),
    (b"00000000000", None, None), (b"000000000", "0", [0]), (b"0-00000000", "0", [0]), (b"z-1", "z", [-1]), (b"55555,5", "5", [5555, 5]),
    (b"3 25, -1", "3", [25, -1]), (b"325, -1", "3", [25, -1]), (b"30, 5", "3", [0, 5]), (b"2 33, -32768", "2", [33, -32768]),
    (b"265, 2", "2", [65, 2]), (b"03, 600", "0", [3, 600]), (b"0 3, 600,1, 900", "0", [3, 600, 1, 900]), (b"n1, 2", "n", [1, 2]),
    (b"0 -3, 600, -1, 900, 5, 30, -5, 10000", "0", [-3, 600, -1, 900, 5, 30, -5, 10000]), (b"m0, -0", "m", [0, 0]),
    (b"m 8388607, 00000030", "m", [8388607, 30]), (b"z0, 0", "z", [0, 0]), (b"5 1, 1", "5", [1, 1]), (b"133, 1", "1", [33, 1]),
    (b"0 1,2,3,4,5,6,7,8, 9", "0", [1, 2, 3, 4, 5, 6, 7, 8, 9]),
    (b"e0", "e", [0]), (b"e 2", "e", [2]), (b"e-1", "e", [-1]), (b"e", "e", []), (b"e1, 1", "e", [1, 1]),
    (b"f0", "f", [0]), (b"f -1", "f", [-1]), (b"f-1", "f", [-1]), (b"f", "f", []), (b"f0,0", "f", [0, 0]),
    (b"y4,600,0,2,0,-1,1", "y", [4, 600, 0, 2, 0, -1, 1]), (b"y 4, 600,0, 2,0, -1,1", "y", [4, 600, 0, 2, 0, -1, 1]), (b"y", "y", []),
    (b"y0,30,8388607,4000000,-4000000,-1,-1", "y", [0, 30, 8388607, 4000000, -4000000, -1, -1]), (b"y1,2,3,4,5,6,7,8", "y", [1, 2, 3, 4, 5, 6, 7, 8]),
]
# By hand: lines whose shape is wrong.
NO_DIRECT = [
    b"", b"@", b"@0", b"0", b"A", b"@A3,600", b"@1A3,600", b"0@A3,600", b" @0A3,600", b"@ 0A3,600", b"@0 7", b"@0 A3,600", b"@07 ",
    b"@07,", b"@0,7", b"@0A ", b"@0P ", b"@0S ", b"@0A  3,600", b"@0A3 ,600", b"@0A3,600 ", b"@0A3,,600", b"@0A,3",
    b"@0A3,", b"@0A,", b"@0A--3", b"@0A-", b"@0A3-", b"@0A+3", b"@0A3.5", b"@0A3;600", b"@0A123456789", b"@0A-123456789",
    b"@0000000007", b"@0-", b"@0--1", b"@01 3", b"@0p", b"@0I", b"@0K", b"@0Z1", b"@0c", b"@0R7", b"@0t", b"@0x3", b"@0AA", b"@0PP",
    b"@0A\t3", b"@0P\n", b"\n@0P", b"@0P\r", b"@0\x00", b"@0P\x00", b"\x00@0P", b"@0\xc1", b"@0A\xb3", b"@0A3\xac600", b"@\xb0A3",
    b"\xc0" + b"0P", b"@0A3,600\xa0", b"@0A\xa03", b"@0A3,6:0", b"@0A3,6/0", b"@0A3,0x10", b"@0A3,1e3", b"9", b"0 3,600", b"@@0P",
    b"@0A1,2,3,4,5,6,7,8,9,", b"@0A1,2,3,4,5,6,7,8,123456789", b"@0A 1 2", b"@0A -", b"@0A - 3",
    b"@0A3,  600", b"@0A3 , 600", b"@0A 3 ,600", b"@0A3, 600 ", b"@0A3, 600, ", b"@0A3, ", b"@0A3,  ", b"@0A3, ,600", b"@0A3,, 600",
    b"@0A3,600 ,1,900", b"@0A3,600,1,  900", b"@0A, 3", b"@0A , 3", b"@0A 3,\t600", b"@0A3, \t600", b"@0A3,\t 600",
    b"@0A3,\xa0600", b"@0A3, \xa0600", b"@0A3,\n600", b"@0A3,\x00600", b"@0A3,- 600", b"@0A3, - 600", b"@0A3, -", b"@0A3, --6",
    b"@0A3, +600", b"@0A3, 6 00", b"@0A3, 123456789", b"@0A3, -123456789", b"@0A3, x", b"@0P, ", b"@0P,", b"@01 ,3", b"@01 , 3",
    b"@01,  3", b"@01, ", b"@01, 3 ", b"@01, ,3", b"@01,\t3", b"@01,\xa03", b"@01,- 3", b"@0 1, 3", b"@0, 7", b"@0B0 ,255", b"@0B0,  255",
    b"@0A1, 2, 3, 4, 5, 6, 7, 8, ", b"@0A1,2,3,4,5,6,7,8,  9", b"@0A1,2,3,4,5,6,7,8 ,9", b"@0A1,2,3,4,5,6,7,8, 9 ", b"3 25, -1",
    b"@0E0", b"@0F0", b"@0F-1", b"@0Y4,600,0,2,0,-1,1", b"@0Y", b"@0e ", b"@0f-", b"@0e0 ", b"@0f  0", b"@0y ", b"@0y4,600,0,2,0,-1,1,",
    b"@0y4,600,0,2,0,-1 ,1", b"@0y4,600,0,2,0,+1,1", b"@0ef", b"@ye", b"e0", b"y4,600,0,2,0,-1,1",
]
NO_STORED = [
    b"", b" ", b"9 ", b"91", b"9,", b"9 1", b"99", b"9-1", b"9\n", b"M3,600", b"N1", b"A3,600", b"a3,600", b"Z1", b"@0P", b"@09", b"@0z1",
    b"@07", b"S", b"s", b"i", b"k", b"P", b"b0", b"B0,1", b"4", b"41", b"6", b"71", b"8", b"z ", b"n ", b"0 ", b" z1", b"z  1", b"z1 ",
    b"3 25 ,-1", b"3,25,-1", b"325,-1,", b"325,,-1", b"3-", b"3--1", b"3 +1,1", b"5123456789", b"5 -123456789", b"0,",
    b"0\t1", b"\n", b"z1\n", b"\nz1", b"z1\r", b"\x00", b"z\x00", b"\xb0", b"z\xb1", b"m3;600", b"m3.600", b"-1", b",", b"0 -", b"0 ,1",
    b"3 25,  -1", b"325,  -1", b"3 25 , -1", b"325 ,-1", b"3 25, -1 ", b"3 25, ", b"3 25, ,-1", b"3 25,, -1", b"3 25, -1, ", b"3, 25",
    b"3 , 25", b"3  25, -1", b"3 25,\t-1", b"3 25, \t-1", b"3 25,\xa0-1", b"3 25, \xa0-1", b"3 25,\n-1", b"3 25,\x00-1", b"3 25,- 1",
    b"3 25, - 1", b"3 25, -", b"3 25, --1", b"3 25, +1", b"3 2 5, -1", b"3 25, 123456789", b"3 25, -123456789", b"9, ", b"9, 1", b"9 , 1",
    b"2 33 ,1", b"233,  1", b"0 3, 600, 1, 900 ", b"0 3, 600, 1 ,900", b"0 3, 600,  1, 900", b"m3,  600", b"m3 ,600", b"0, 1", b"@01, 3",
    b"0 1,2,3,4,5,6,7,8,  9", b"0 1,2,3,4,5,6,7,8 ,9", b"0 1,2,3,4,5,6,7,8, ", b" 3 25, -1",
    b"E0", b"F0", b"F-1", b"Y4,600,0,2,0,-1,1", b"Y", b"e ", b"f-", b"e0 ", b"f  0", b"y ", b"y,4,600", b"y4,600,0,2,0,-1,1,", b"y4,600,0,2,0,-1 ,1",
    b"y4,600,0,2,0,+1,1", b"ef", b"@0e0", b"@0y4,600,0,2,0,-1,1", b"9e", b"0y",
]
# By hand: the lines of turntables (02 §7), of shapes that 01 has. Whether a number is allowed is no matter of shape.
TURNTABLES = [
    ("D", b"@08", "0", [8]), ("D", b"@09", "0", [9]), ("D", b"@015", "0", [15]), ("D", b"@016", "0", [16]), ("D", b"@008", "0", [8]), ("D", b"@000000008", "0", [8]),
    ("D", b"@0-8", "0", [-8]), ("D", b"@08,8", "0", [8, 8]), ("D", b"@07, 8", "0", [7, 8]), ("D", b"@0n8", "n", [8]), ("D", b"@0n 8", "n", [8]),
    ("D", b"@0N8", "N", [8]), ("D", b"@0N 15", "N", [15]), ("D", b"@0n9", "n", [9]), ("D", b"@0n08", "n", [8]), ("D", b"@0N7,8", "N", [7, 8]),
    ("D", b"@0A-90,500", "A", [-90, 500]), ("D", b"@0a 8388607, 30", "A", [8388607, 30]), ("D", b"@0M-8388608,10000", "M", [-8388608, 10000]),
    ("D", b"@0M1,600,-2,700,3,800,-4,900", "M", [1, 600, -2, 700, 3, 800, -4, 900]),
    ("D", b"@0A-8388608,10000,-8388608,10000,-8388608,10000,-8388608,10000", "A", [-8388608, 10000] * 4),
    ("D", b"@0m -8388608, 10000, -8388608, 10000, -8388608, 10000, -8388608, 10000", "M", [-8388608, 10000] * 4),
    ("S", b"n8", "n", [8]), ("S", b"n 8", "n", [8]), ("S", b"n15", "n", [15]), ("S", b"n08", "n", [8]), ("S", b"n7, 8", "n", [7, 8]),
    ("S", b"0-90,500", "0", [-90, 500]), ("S", b"0 90, 500", "0", [90, 500]), ("S", b"m8,600", "m", [8, 600]), ("S", b"m -8388608,10000", "m", [-8388608, 10000]),
    ("S", b"m1,600,-2,700,3,800,-4,900", "m", [1, 600, -2, 700, 3, 800, -4, 900]), ("S", b"0 1, 600, -2, 700, 3, 800, -4, 900", "0", [1, 600, -2, 700, 3, 800, -4, 900]),
    *(("D", line, None, []) for line in (b"@0 8", b"@08 ", b"@0,8", b"@08,", b"@0+8", b"@0--8", b"@0a8 ", b"@0n 8 ", b"@0n  8", b"@0N8,", b"@0 15", b"@0000000008")),
    *(("S", line, None, []) for line in (b"8", b"@08", b"08,", b"n8 ", b"n  8", b"n+8", b"N8", b"a8", b"@0n8", b"m8 ,600", b"9 8")),
]


def next_number(seed):
    # a fixed sequence of our own, so that the lines are the same everywhere
    return (seed * 6364136223846793005 + 1442695040888963407) % 2**64


def damaged(lines, many, seed):
    """Each line with one byte more, less or other, by a fixed sequence."""
    odd = b" ,-0123456789@AMSPnzbBikefyEFY\x00\n\x7f\x80\xac\xb5\xfc"
    out = []
    for turn in range(many):
        seed = next_number(seed)
        line = lines[(seed >> 33) % len(lines)]
        seed = next_number(seed)
        at = (seed >> 33) % (len(line) + 1)
        seed = next_number(seed)
        byte = bytes([odd[(seed >> 33) % len(odd)]])
        out.append([line[:at] + byte + line[at:], line[:at] + byte + line[at + 1:], line[:at] + line[at + 1:]][turn % 3])
    return out


def with_spaces(line):
    """The line with one space, two, a tab and a no-break space at each of its places."""
    return [line[:at] + put + line[at:] for at in range(len(line) + 1) for put in (b" ", b"  ", b"\t", b"\xa0")]


def alike(line):
    """The line with a space behind some of its commas or none: all of them say what it says."""
    out = [b""]
    for byte in line:
        out = [o + bytes([byte]) + put for o in out for put in ((b"", b" ") if byte == ord(",") else (b"",))]
    return out


def long_lines(head):
    numbers = [b"%d" % (n * n * 1009 % 100000000 - 50000000) for n in range(200)]
    return [
        head + b",".join(numbers), head + b" " + b",".join(numbers[:39]), head + b",".join([b"1"] * 40), head + b",".join(numbers) + b",",
        head + b",".join(numbers[:100] + [b""] + numbers[100:]), head + b"1" * 80, head + b" " * 80,
        head + b" " + b", ".join(numbers[:100]), head + b", ".join(numbers[:39]), head + b", ".join([b"1"] * 40),
        head + b", ".join(numbers[:40]) + b", ", head + b", ".join(numbers[:40]) + b" ", head + b", ".join(numbers[:30] + [b""] + numbers[30:40]),
        head + b", ".join(numbers[:30]) + b",  " + b", ".join(numbers[30:40]), head + b"1," + b" " * 80 + b"1", head + b"1" + b", " * 40,
    ]


def lists():
    for line, kind, values in DIRECT:
        assert direct(line) == (ord(kind), values), line
    for line, kind, values in STORED:
        assert stored(line) == ((53, []) if kind is None else (ord(kind), values)), line
    for line in NO_DIRECT:
        assert direct(line) == (53, []), line
    for line in NO_STORED:
        assert stored(line) == (53, []), line
    ours = [line for line, _, _ in DIRECT]
    theirs = [line for line, _, _ in STORED]
    for line in alike(b"@0A-3,600,1,-9"):
        assert direct(line) == (ord("A"), [-3, 600, 1, -9]), line
    for line in alike(b"0 5,30,-7,10"):
        assert stored(line) == (ord("0"), [5, 30, -7, 10]), line
    placed = with_spaces(b"@0A 3,-6,12") + with_spaces(b"@01,3") + alike(b"@0A-3,600,1,-9")
    for line in ours + NO_DIRECT + damaged(ours, 150, 1) + long_lines(b"@0A") + [b"@0" + bytes([b]) for b in range(256)] + placed:
        yield "D", line, direct(line)
    placed = with_spaces(b"3 25,-1") + with_spaces(b"m1,-2,30") + alike(b"0 5,30,-7,10")
    for line in theirs + NO_STORED + damaged(theirs, 150, 2) + long_lines(b"0") + [bytes([b]) for b in range(256)] + placed:
        yield "S", line, stored(line)
    # behind all others, since the damaged ones are drawn from the lists by their length
    for grammar, line, kind, values in TURNTABLES:
        says = {"D": direct, "S": stored}[grammar](line)
        assert says == ((53, []) if kind is None else (ord(kind), values)), line
        yield grammar, line, says


def main():
    root = os.path.dirname(os.path.dirname(os.path.dirname(os.path.abspath(__file__))))
    given, expected = "", ""
    for grammar, line, (kind, values) in lists():
        given += f"{grammar} {line.hex()}\n"
        expected += " ".join(str(n) for n in [kind, len(values)] + (values + [0] * 8)[:8]) + "\n"
    assert len(given) <= 65536, len(given)
    for name, text in (("stdin", given), ("stdout", expected)):
        path = os.path.join(root, "crates", "line_shapes", name)
        if sys.argv[1:] == ["--check"]:
            assert open(path).read() == text, path
        else:
            with open(path, "w") as f:
                f.write(text)


main()
