"""Vectors of chains of distances (02, §2), worked out apart from the code, with exact fractions: a part of tests/vectors/ask.py,
which writes them.

A line is `chain`, then lead, steps and gear as 64-bit patterns of sixteen hexadecimal digits each, then how many numbers the
output has, then the distances in whole thousandths of a mm, as decimal numbers. Its answer is 0 and the relative distances in
steps, or the refusal alone: 105, 201, 202 or 203. A line that cannot be read is answered `?`.

Each sum of the first so many distances is an exact whole number; that it is divided by 1,000, and every operation of the formula,
is taken on fractions and rounded once by tests/vectors/sheet.py, which stops if the machine's own operation gives another float.
"""
from fractions import Fraction

from sheet import GEARS, INF, LEADS, MILLION, NAN, STEPS, THOUSANDTH, Draw, after, in_range, nearest_float, of_pattern, operate, pattern, whole
from sheet import chain as formula

MOST = 10**9  # a sum, in thousandths of a mm
LOW, HIGH = -2**23, 2**23 - 1  # a result and a difference, in steps
LEAST64, MOST64 = -2**63, 2**63 - 1


# ---- 02, §2

def converted(axis, mm):
    """The float that the formula of a distance gives, and the whole number nearest to it."""
    exact = formula("D", *map(Fraction, axis), mm)
    return exact, whole(exact)


def mm_of(total):
    return operate("/", Fraction(total), Fraction(1000))


def expected(axis, distances, room):
    if len(distances) > 1000 or room != len(distances):
        return [105]
    if not all(in_range(x, THOUSANDTH, MILLION) for x in axis):
        return [201]
    sums = []
    for distance in distances:
        sums.append(distance + (sums[-1] if sums else 0))
    if any(total < -MOST or total > MOST for total in sums):
        return [202]
    here, ways = 0, []
    for total in sums:
        there = converted(axis, mm_of(total))[1]
        if not (LOW <= there <= HIGH and LOW <= there - here <= HIGH):
            return [203]
        ways.append(there - here)
        here = there
    return [0] + ways


# ---- lines

def line(axis, distances, room):
    words = ["chain"] + ["%016x" % pattern(x) for x in axis] + [str(n) for n in (room, *distances)]
    return " ".join(words)


def answer(axis, distances, room):
    return " ".join(map(str, expected(axis, distances, room)))


# ---- the vectors: an axis, distances, and where it is not their number how many numbers the output has

RACK = (1.0, 100.0, 1.0)  # 100 steps per mm
FINE = (1.0, 1000.0, 1.0)  # a thousandth is a step
WIDE = (1000.0, 1.0, 1.0)  # the longest sum is 1,000 steps
WRONG = (1.0, 0.0005, 1.0)


def worked_examples():
    yield RACK, [333, 333, 333]
    yield RACK, [999]
    yield RACK, [333] * 9
    yield RACK, [-333, -333, -333]
    yield RACK, [333, -333, 333, -333]
    yield RACK, [333, 0, 333, 0, 333, 0]
    yield RACK, [1] * 12
    yield RACK, [-1] * 12
    yield RACK, [0]
    yield RACK, [0, 0, 0]
    yield RACK, [5, -5, -5, 5]
    yield (20.0, 200.0, 1.0), [333] * 12
    yield (5.0, 400.0, 1.0), [10000, -2500, 333]
    yield (4.0, 2.0, 1.0), [1000, -1000, 900]


def lengths():
    """No distance, few and many, with an output that is as long, one shorter, one longer, without room, and far too long."""
    yield RACK, []
    for room in (1, 1000, 2**8, 2**32, MOST64):
        yield RACK, [], room
    for room in (0, 1, 2, 4, 5, 1000, 1001, 3 + 2**8, 3 + 2**16, 3 + 2**31, 3 + 2**32, MOST64):
        yield RACK, [333] * 3, room
    for room in (0, 2, 2**32 + 1):
        yield RACK, [333], room
    for count in (999, 1000, 1001, 1002, 1256, 2000):
        yield RACK, [1] * count
    for room in (999, 1001, 0, 1000 + 2**16):
        yield RACK, [1] * 1000, room
    for room in (1000, 1002, 0):
        yield RACK, [1] * 1001, room


def axes():
    """Each number of the axis at its bounds, beside them and far from them."""
    least, most = 0.001, 1000000.0
    for x in (least, after(least), after(least, -1), most, after(most), after(most, -1), 0.0, NAN, INF):
        for place in range(3):
            yield tuple(x if i == place else 1.0 for i in range(3)), [1500, 1000]
    others = [-0.0, -1.0, -INF, of_pattern(1), of_pattern(2**63 + 1), 2.2250738585072014e-308, 1.7976931348623157e308]
    others += [of_pattern(0x7FF0000000000001), of_pattern(0xFFFFFFFFFFFFFFFF)]  # not a number, too
    for n, x in enumerate(others):
        yield tuple(x if i == n % 3 else 1.0 for i in range(3)), [1500, 1000]
    for x in (0.0, NAN, INF, after(most)):
        yield (1.0, x, 1.0), []
    yield (NAN, INF, 0.0), [1]
    for axis in ((least, most, most), (most, least, least), (least, least, least), (most, most, most)):
        yield axis, [0, 0]
        yield axis, [1, -1]
        yield axis, [MOST, -MOST]


def sums():
    """Sums at the bounds and beside them: the first, one in the middle and the last, one that a later distance brings back, and
    distances that 32 or 64 bits cannot add."""
    for sign in (1, -1):
        most = sign * MOST
        for beside in (most, most - sign, most + sign):
            yield WIDE, [beside]
            yield WIDE, [sign, 0, beside - sign]
            yield WIDE, [-sign, beside + sign, -5 * sign]
        yield WIDE, [most, -2 * most, 2 * most]
        yield WIDE, [most, -2 * most - sign, 7 * sign]
        yield WIDE, [most, 0, -sign, sign]
        yield WIDE, [most + sign, -sign]
        yield WIDE, [most + sign, -most - sign]
        yield WIDE, [5, most, -most, 7]
        for power in (31, 32, 53, 62):
            yield WIDE, [sign * 2**power]
        yield WIDE, [sign * 2**32, -sign * 2**32]
        yield WIDE, [sign * (2**32 + 1000)]
    for distances in ([MOST64], [LEAST64], [MOST64, 1], [LEAST64, -1], [MOST64, MOST64], [LEAST64, LEAST64], [MOST64, LEAST64, 1],
                      [LEAST64, MOST64, 1], [MOST64, -MOST64], [1, MOST64], [-1, LEAST64], [MOST, MOST64], [-MOST, LEAST64],
                      [-MOST, MOST64], [MOST, LEAST64], [MOST, MOST64, 2 - MOST], [2**62] * 4):
        yield WIDE, distances
    yield WIDE, [10**6] * 1000
    yield WIDE, [MOST - 999] + [1] * 998 + [2]
    yield WIDE, [999 - MOST] + [-1] * 998 + [-2]


def results():
    """Results and differences at the bounds of 24 bits and beside them; a result that a later distance brings back; a difference
    outside between two results inside; halves at the bounds."""
    for distances in ([HIGH], [HIGH + 1], [LOW], [LOW - 1], [HIGH, 0], [HIGH, 1], [LOW, 0], [LOW, -1], [HIGH, 1, -1], [LOW, -1, 1],
                      [1, 2, HIGH, -7], [1, 2, 3, HIGH - 6], [1, 2, 3, HIGH - 5], [-1, -2, LOW, 7], [-1, -2, -3, LOW + 6], [-1, -2, -3, LOW + 5]):
        yield FINE, distances
    for here, there in ((HIGH, -1), (HIGH, -2), (LOW, -1), (LOW, 0), (LOW, HIGH), (HIGH, LOW), (-1, HIGH - 1), (-1, HIGH), (1, LOW + 1), (1, LOW),
                        (HIGH // 2, LOW // 2), (LOW // 2 - 1, HIGH // 2 + 1), (HIGH // 2 + 1, LOW // 2 - 1)):
        yield FINE, [here, there - here]
    yield FINE, [5, HIGH - 5, LOW, 5]
    yield FINE, [5, HIGH - 5, LOW - 1, 5]
    yield FINE, [-5, LOW + 5, HIGH, -5]
    yield FINE, [-5, LOW + 5, HIGH + 1, -5]
    halved, quartered = (1.0, 500.0, 1.0), (1.0, 250.0, 1.0)
    for half in (2 * HIGH - 1, 2 * HIGH + 1, 2 * LOW - 1, 2 * LOW + 1):
        yield halved, [half]
        yield halved, [half - 7, 7]
    yield halved, [-1, 2 * HIGH]  # by itself the second is inside
    yield quartered, [1, 4 * LOW - 2]  # by itself the second is outside
    yield (0.001, 1000000.0, 1000000.0), [0, 0, 1]
    yield (0.001, 1000000.0, 1000000.0), [-MOST]
    yield FINE, [8388] * 1000
    yield FINE, [8389] * 1000


def orders():
    """Several refusals fit: the output's length or the number of distances, the axis, a sum, a result or a difference."""
    far, out, apart = [MOST + 1], [HIGH + 1, -1], [LOW, HIGH - LOW, -1]
    for distances in (far, out, apart, out + far, apart + far, far + [-MOST] + apart + out):
        for axis in (FINE, WRONG):
            yield axis, distances
            yield axis, distances, len(distances) + 1
    yield (NAN, 1.0, 1.0), far + out
    yield (1.0, 1.0, INF), out, 0
    for axis in (FINE, WRONG):
        yield axis, [HIGH + 1] + [1] * 999 + far
        yield axis, [HIGH + 1] + [1] * 998 + far
        yield axis, [HIGH + 1] + [1] * 998 + far, 999
    yield WRONG, [], 1


def halves():
    """Sums that come to a half, and beside one, of both signs."""
    for distances in ([1000] * 6, [-1000] * 6, [1000, -1000] * 3, [-1000, 1000] * 3, [3000, -6000, 3000], [1000, -2000, 4000, -6000]):
        yield (2.0, 1.0, 1.0), distances
    for axis in ((1.0, 4.0, 1.0), (1.0, 2.0, 2.0), (0.5, 1.0, 2.0)):
        yield axis, [125] * 8
        yield axis, [-125, -125, 250, 125, -250]
    for size in (499, 500, 501, 1499, 1500, 1501, 2499, 2500, 2501):
        yield (1.0, 1.0, 1.0), [size]
        yield (1.0, 1.0, 1.0), [-size]
    for distances in ([499, 1], [499, 2], [500, -1], [-499, -1], [-500, 1], [500, -1000], [-500, 1000], [1500, -3000, 3000], [500] * 8):
        yield (1.0, 1.0, 1.0), distances


# Ways to convert a chain that are not the rule's, each with the whole numbers that it gives in the place of the relative distances.

def between(places):
    return [there - here for here, there in zip([0] + places, places)]


def totals(distances):
    return [sum(distances[: n + 1]) for n in range(len(distances))]


def times_a_thousandth(axis, distances):
    return between([converted(axis, operate("*", Fraction(total), Fraction(0.001)))[1] for total in totals(distances)])


def each_by_itself(axis, distances):
    return [converted(axis, mm_of(distance))[1] for distance in distances]


def summed_as_floats(axis, distances):
    places, total = [], Fraction(0)
    for distance in distances:
        total = nearest_float(total + mm_of(distance))
        places.append(converted(axis, total)[1])
    return between(places)


def difference_rounded(axis, distances):
    return [whole(way) for way in between([converted(axis, mm_of(total))[0] for total in totals(distances)])]


def one_division(axis, distances):
    lead, steps, gear = map(Fraction, axis)
    mills = operate("*", lead, Fraction(1000))
    return between([whole(operate("*", operate("*", operate("/", Fraction(total), mills), steps), gear)) for total in totals(distances)])


def divided_last(axis, distances):
    lead, steps, gear = map(Fraction, axis)
    return between([whole(operate("/", formula("D", lead, steps, gear, Fraction(total)), Fraction(1000))) for total in totals(distances)])


def never_rounded(axis, distances):
    lead, steps, gear = map(Fraction, axis)
    return between([whole(Fraction(total, 1000) / lead * steps * gear) for total in totals(distances)])


def half_to_even(axis, distances):
    return between([round(converted(axis, mm_of(total))[0]) for total in totals(distances)])


def half_up(axis, distances):
    return between([(2 * converted(axis, mm_of(total))[0] + 1) // 2 for total in totals(distances)])


SLIPS = (times_a_thousandth, each_by_itself, summed_as_floats, difference_rounded, one_division, divided_last, never_rounded, half_to_even, half_up)
OF_EACH = 6
# axes whose halves are whole numbers of thousandths, as a person would write them
DECIMAL = (("1", "100", "1"), ("1", "20", "1"), ("2", "100", "1"), ("0.4", "10", "1"), ("5", "200", "0.5"), ("2.5", "50", "0.1"), ("0.3", "3", "1"),
           ("0.7", "3.5", "2"), ("4", "1.8", "10"), ("0.1", "0.3", "3"))


def telling(draw):
    """Chains that a slip converts otherwise, as many of each slip: random ones, and ones whose sums are halves if nothing is rounded."""
    found = dict.fromkeys(SLIPS, 0)
    for turn in range(4000):
        words = draw.of(DECIMAL)
        axis = tuple(map(float, words))
        lead, steps, gear = map(Fraction, words)
        a_step = 1000 * lead / steps / gear  # in thousandths
        sums = []
        for _ in range(1 + draw.below(4)):
            total = a_step * Fraction(2 * draw.below(2 * (3000 if turn % 2 else 100000)) - 3001, 2)
            sums.append(int(total) if total.denominator == 1 else draw.below(20000) - 10000)
        distances = between(sums)
        right = expected(axis, distances, len(distances))[1:]
        wrong = [slip for slip in SLIPS if found[slip] < OF_EACH and right and slip(axis, distances) != right]
        if wrong:
            found[wrong[0]] += 1
            yield axis, distances
    if min(found.values()) < OF_EACH:
        raise SystemExit("too few chains for some slip: %s" % {slip.__name__: n for slip, n in found.items()})


def drawn(draw):
    for _ in range(24):
        axis = draw.of(LEADS), draw.of(STEPS), draw.of(GEARS)
        yield axis, [draw.below(100001) - 50000 for _ in range(1 + draw.below(12))]


def racks(draw):
    yield RACK, [333] * 1000
    yield RACK, [-333] * 1000
    yield (5.0, 400.0, 1.0), [1571] * 1000
    yield (0.7, 3.7, 3.3), [333, -334] * 500
    yield RACK, [draw.below(1001) - 500 for _ in range(1000)]


def vectors():
    draw = Draw(20140502)
    for part in (worked_examples(), lengths(), axes(), sums(), results(), orders(), halves(), telling(draw), drawn(draw), racks(draw)):
        for axis, distances, *room in part:
            yield axis, distances, room[0] if room else len(distances)


# ---- other ways to write a number, and lines that cannot be read

BITS = " ".join("%016x" % pattern(x) for x in RACK)


def forms():
    """Zeros in front, up to nineteen digits, and minus zero: a line that can be read, and what it says."""
    for room in ("03", "003", "0000000000000000003"):
        yield room, ["333"] * 3
    for word in ("0333", "0000000000000000333", "-0333", "-0000000000000000333"):
        yield "3", [word] * 3
    for word in ("-0", "-00", "0000000000000000000", "-0000000000000000000"):
        yield "2", [word, "333"]
    for room in ("00", "-0", "0000000000000000000"):
        yield room, []
    yield "2", [str(MOST64), str(LEAST64)]
    yield "1000", ["-0000000000000000333", "-0000000000000000334"] * 500  # the longest line with so many


def part():
    """The vectors, then the other ways to write them, each a line without its end and its answer."""
    rows = [(line(*row), answer(*row)) for row in vectors()]
    for room, words in forms():
        rows.append((" ".join(["chain", BITS, room] + words), answer(RACK, list(map(int, words)), int(room))))
    return rows


def unreadable():
    """Lines whose fields are missing, wrong or too many."""
    lead, steps, gear = BITS.split()
    right = f"chain {BITS} 2 333 333"
    yield "chain"
    yield f"chain {lead}"
    yield f"chain {lead} {steps}"
    yield f"chain {BITS}"
    for word in ("Chain", "CHAIN", "chains", "chai", "chain,", "0"):
        yield f"{word} {BITS} 2 333 333"
    for bits in (lead[:-1], lead + "0", lead.upper(), "1", "0x" + lead[2:], "-" + lead[1:], "+" + lead[1:], lead[:8] + "g" + lead[9:]):
        yield f"chain {bits} {steps} {gear} 2 333 333"
    yield f"chain {lead} {steps.replace('5', 'B')} {gear} 2 333 333"
    yield f"chain {lead} {steps} {gear[:-1]} 2 333 333"
    yield f"chain {lead} {steps} {gear}0 2 333 333"
    for room in ("-1", "-2", str(LEAST64), str(MOST64 + 1), "00000000000000000002", "2.0", "+2", "two", "-"):
        yield f"chain {BITS} {room} 333 333"
    for word in ("-", "--333", "+333", "0.333", "333.", "333,", "3e2", "0x14d", "-+1", "333-", "a", "00000000000000000333", "-00000000000000000333",
                 str(MOST64 + 1), str(LEAST64 - 1), "9999999999999999999", "-9999999999999999999", "18446744073709551949"):
        yield f"chain {BITS} 2 333 {word}"
    yield f"chain {BITS} 2 {MOST64 + 1} 333"
    yield right + " x"
    yield f"chain {BITS} 1001" + " 1" * 1000 + " x"  # one too many, and it cannot be read
    yield f"chain {BITS} 0 x"
    yield f"chain {lead} 0000000000000000 {gear} 5 1 x"  # 201 and 105, if it could be read
