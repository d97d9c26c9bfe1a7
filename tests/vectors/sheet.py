#!/usr/bin/env python3
"""Vectors of the sheet (01, "The sheet"), worked out apart from the code, with exact fractions.

    python3 tests/vectors/sheet.py            writes crates/sheet_vectors/stdin and crates/sheet_vectors/stdout
    python3 tests/vectors/sheet.py --check    compares them with what it would write

A line of stdin is a letter and four 64-bit patterns as sixteen hexadecimal digits each: lead, steps, gear and the value.
D is a distance in mm, S a speed in mm per second, M one in mm per minute, N one in whole steps per second, whose pattern
is the whole number in two's complement. A line of stdout is the refusal, or 0, and the value. Behind the vectors stand lines
that are none, each answered with `?` and its number.

Every operation is taken on fractions and rounded once to the nearest 64-bit float, a tie to the even one, by `nearest_float`
below. The machine's own operation must give the same float, or the script stops.
"""
import math
import os
import struct
import sys
from fractions import Fraction

ROOT = os.path.dirname(os.path.dirname(os.path.dirname(os.path.abspath(__file__))))
FOLDER = os.path.join(ROOT, "crates", "sheet_vectors")


def pattern(x):
    return struct.unpack("<Q", struct.pack("<d", x))[0]


def of_pattern(n):
    return struct.unpack("<d", struct.pack("<Q", n))[0]


NAN, INF = of_pattern(0x7FF8000000000000), math.inf


def after(x, n=1):
    """The float n places above x, which is finite and not 0, by size."""
    return of_pattern(pattern(x) + n)


# ---- binary64, on fractions

def nearest_float(q):
    """The 64-bit float nearest to the fraction q, a tie to the even one, as a fraction."""
    if q == 0:
        return q
    size, e = abs(q), 0
    while size >= Fraction(2) ** (e + 1):
        e += 1
    while size < Fraction(2) ** e:
        e -= 1
    unit = Fraction(2) ** max(e - 52, -1074)
    n, rest = divmod(size, unit)
    if 2 * rest > unit or (2 * rest == unit and n % 2 == 1):
        n += 1
    size = n * unit
    if size >= Fraction(2) ** 1024:
        raise OverflowError("no value of the sheet is that large")
    return size if q > 0 else -size


def operate(sign, a, b):
    """a × b or a / b for two fractions that are floats, rounded once."""
    exact = a * b if sign == "*" else a / b
    rounded = nearest_float(exact)
    machine = float(a) * float(b) if sign == "*" else float(a) / float(b)
    if Fraction(machine) != rounded:
        sys.exit(f"{a} {sign} {b}: the machine gives {machine}, the fractions {rounded}")
    return rounded


# ---- 01, "The sheet"

MILLION, THOUSANDTH = Fraction(1000000), Fraction(1, 1000)


def in_range(x, lo, hi):
    """A float from lo to hi by its exact value; not-a-number and the infinities are not."""
    return math.isfinite(x) and lo <= Fraction(x) <= hi


def whole(q):
    """The whole number nearest to q, halves away from zero."""
    size = math.floor(abs(q) + Fraction(1, 2))
    return size if q >= 0 else -size


def held(n, lo, hi):
    return (0, n) if lo <= n <= hi else (203, 0)


def chain(kind, lead, steps, gear, v):
    """The float whose nearest whole number is the answer."""
    if kind == "D":
        return operate("*", operate("*", operate("/", v, lead), steps), gear)
    per_second = operate("/", operate("*", operate("*", v, steps), gear), lead)
    return operate("/", per_second, Fraction(60)) if kind == "M" else per_second


def expected(kind, axis, v):
    if not all(in_range(x, THOUSANDTH, MILLION) for x in axis):
        return (201, 0)
    if kind == "N":
        return held(v, 30, 10000) if 0 <= v <= 1000000 else (202, 0)
    if not in_range(v, -MILLION if kind == "D" else 0, MILLION):
        return (202, 0)
    n = whole(chain(kind, *map(Fraction, axis), Fraction(v)))
    return held(n, -8388608, 8388607) if kind == "D" else held(n, 30, 10000)


# ---- the vectors

class Draw:
    """The same numbers on every machine: x := 6364136223846793005 x + 1442695040888963407 modulo 2^64, its high half."""

    def __init__(self, seed):
        self.x = seed

    def below(self, n):
        self.x = (6364136223846793005 * self.x + 1442695040888963407) % 2**64
        return (self.x >> 32) % n

    def real(self, lo, hi):
        part = Fraction(self.below(2**32) * 2**21 + self.below(2**21), 2**53)
        return float(nearest_float(Fraction(lo) + (Fraction(hi) - Fraction(lo)) * part))

    def of(self, row):
        return row[self.below(len(row))]


PLAIN = (1.0, 1.0, 1.0)
LEADS, STEPS, GEARS = (0.3, 2.5, 4.0, 5.0, 10.0, 0.7), (200.0, 400.0, 1.8, 3.7, 513.3), (1.0, 0.5, 3.3, 0.1)


def worked_examples():
    yield "D", (5.0, 400.0, 1.0), 10.0
    yield "D", (4.0, 2.0, 1.0), 1.0
    yield "D", (4.0, 2.0, 1.0), -1.0
    yield "M", (4.0, 400.0, 1.0), 600.0


def axes():
    """Each number of the axis at its bounds, beside them and far from them."""
    least, most = 0.001, 1000000.0
    numbers = [least, after(least), after(least, -1), most, after(most), after(most, -1)]
    numbers += [0.0, -0.0, -1.0, NAN, INF, -INF, of_pattern(1), 2.2250738585072014e-308, 1.7976931348623157e308]
    for x in numbers:
        for place in range(3):
            axis = tuple(x if i == place else 1.0 for i in range(3))
            yield "D", axis, 30.0
            yield "S", axis, 30.0
        yield "N", (x, 1.0, 1.0), 30
        yield "M", (1.0, x, 1.0), 1800.0
    for value in (NAN, INF, 1000000.5):
        yield "D", (1.0, 1.0, 0.0005), value
        yield "S", (NAN, 1.0, 1.0), value


def values():
    """Distances and speeds at the bounds of the test, and beside them."""
    most = 1000000.0
    for x in (most, after(most), after(most, -1), 0.0, NAN, INF, of_pattern(1), 2.2250738585072014e-308):
        for y in (x, -x):
            yield "D", PLAIN, y
            yield "D", (1.0, 8.0, 1.0), y
            yield "S", (1000.0, 1.0, 1.0), y
            yield "M", (1000.0, 60.0, 1.0), y
            yield "M", (1.0, 1.0, 1.0), y
    yield "D", (0.001, 1000000.0, 1000000.0), most
    yield "S", (0.001, 1000000.0, 1000000.0), most
    yield "D", (1000000.0, 0.001, 0.001), of_pattern(1)
    yield "S", PLAIN, -0.1


def halves():
    """Halves and the floats beside them, where the formula is exact."""
    for k in (0.5, 1.5, 2.5, 3.5, 100.5, 4095.5, 65536.5, 499999.5):
        for x in (k, after(k), after(k, -1)):
            yield "D", PLAIN, x
            yield "D", PLAIN, -x
    for k in (8388606.5, 8388607.0, 8388607.5, 8388608.0, 8388608.5, 8388609.0):
        for x in (k / 16, after(k / 16), after(k / 16, -1)):
            yield "D", (1.0, 16.0, 1.0), x
            yield "D", (1.0, 16.0, 1.0), -x
    for k in (29.0, 29.5, 30.0, 30.5, 9999.5, 10000.0, 10000.5, 10001.0):
        for x in (k, after(k), after(k, -1)):
            yield "S", PLAIN, x
            yield "M", (1.0, 60.0, 1.0), x
    yield "D", PLAIN, 0.49999999999999994
    yield "S", PLAIN, 29.499999999999996
    yield "S", PLAIN, -0.0


def whole_speeds():
    for n in (-1, 0, 1, 29, 30, 31, 5000, 9999, 10000, 10001, 999999, 1000000, 1000001, -30, -10000, 2**31, 2**32 + 30,
              2**63 - 1, -2**63, -2**63 + 30, 2**33):
        yield "N", (4.0, 400.0, 1.0), n
    for n in (-1, 30, 1000001):
        yield "N", (1.0, 0.0, 1.0), n


def drawn(kind, draw):
    axis = (draw.of(LEADS), draw.of(STEPS), draw.of(GEARS))
    return kind, axis, draw.real(-2000, 2000) if kind == "D" else draw.real(0, 900 if kind == "M" else 200)


def inexact(draw):
    for i in range(60):
        yield drawn("DSM"[i % 3], draw)


def slips(kind, axis, v):
    """The answers of the likely slips at a vector: another order of the operations, another rounding, 100 for 60."""
    lead, steps, gear, v = map(Fraction, (*axis, v))
    if kind == "D":
        yield operate("*", operate("/", operate("*", v, steps), lead), gear)
        yield operate("*", operate("*", operate("/", v, lead), gear), steps)
        yield operate("*", operate("/", v, lead), operate("*", steps, gear))
        yield v / lead * steps * gear
    else:
        v = operate("/", v, Fraction(60)) if kind == "M" else v
        yield operate("*", operate("*", operate("/", v, lead), steps), gear)
        yield operate("/", operate("*", operate("*", v, gear), steps), lead)
        yield v * steps * gear / lead


def telling(draw):
    """Values whose formula comes out at a half or beside one, found near the value that would give it exactly, and kept
    where some other order of the operations gives another whole number."""
    found = {"D": 0, "S": 0, "M": 0}
    for turn in range(40000):
        kind = "DSM"[turn % 3]
        if found[kind] == 20:
            continue
        axis = (draw.of(LEADS), draw.of(STEPS), draw.of(GEARS))
        lead, steps, gear = map(Fraction, axis)
        half = Fraction(2 * draw.below(4000) + 61, 2)
        v = half * lead / steps / gear * (60 if kind == "M" else 1)
        if v > 1000000:
            continue
        v = after(float(nearest_float(v)), draw.below(5) - 2)
        if len({whole(q) for q in slips(kind, axis, v)} | {whole(chain(kind, lead, steps, gear, Fraction(v)))}) > 1:
            found[kind] += 1
            yield kind, axis, v


def vectors():
    draw = Draw(20140500)
    for part in (worked_examples(), axes(), values(), halves(), whole_speeds(), inexact(draw), telling(draw)):
        yield from part


def line(kind, axis, v):
    words = [pattern(x) for x in axis] + [v % 2**64 if kind == "N" else pattern(v)]
    return " ".join([kind] + ["%016x" % w for w in words]) + "\n"


def shapes():
    """Lines of every kind that are no vectors, and what they are answered with; None is a line that is none. The last has no line feed."""
    right = line("D", (5.0, 400.0, 1.0), 10.0)[:-1]
    wrong = ["", " ", "D", right.lower(), right.upper(), "X" + right[1:], right[:-1], right + "0", right + " ", " " + right[:-1]]
    wrong += [right.replace(" ", "\t"), right[:1] + "  " + right[3:], right[:20] + "g" + right[21:], right[:20] + "-" + right[21:]]
    wrong += [right + "\r\r", right[:-1] + "\r", right + right, "D" * 69, "0" * 1000]
    for text in wrong:
        yield text + "\n", None
    yield right + "\r\n", "0 800"
    yield right, "0 800"


def main():
    rows = list(vectors())
    lines = [(line(*row), "%d %d" % expected(*row)) for row in rows] + list(shapes())
    files = {
        "stdin": "".join(text for text, _ in lines),
        "stdout": "".join("%s\n" % (answer or "? %d" % n) for n, (_, answer) in enumerate(lines, 1)),
    }
    for name, text in files.items():
        path = os.path.join(FOLDER, name)
        if "--check" in sys.argv[1:]:
            with open(path, newline="") as f:
                if f.read() != text:
                    sys.exit(f"{path} is not what this script writes")
        else:
            with open(path, "w", newline="") as f:
                f.write(text)
    print(len(rows), "vectors")


if __name__ == "__main__":
    main()
