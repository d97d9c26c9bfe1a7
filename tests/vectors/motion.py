#!/usr/bin/env python3
"""Writes crates/motion_pulses/stdin and stdout: movements, and their pulses by 01's formula in exact integers, those of 02, §7 with the A
axis among them; circles, and their pulses by the rule of 02, §3.

A line is the axes, 3D, absolute, the positions of x, y, z and a, their origins, eight numbers, and how many of its first and last pulses to
print. A circle has 2 for absolute, and its plane and direction for the first two origins.

An independent calculation: it works on signed numbers and quotients and knows neither counts nor words nor the code's test.
Run in the root of the repository: `python3 tests/vectors/motion.py` writes both files, `--check` compares them.
"""
import sys

from circle_rule import HIGH, LOW, PLANES, centre, circle_of, reach, refusal, turned


def point(*numbers):
    """A place of all four axes; what is left out is 0."""
    return (*numbers, 0, 0, 0, 0)[:4]


def case(axes, words, at=(), origin=(), three=0, absolute=0, few=100):
    return axes, three, absolute, point(*at), point(*origin), tuple(words) + (0,) * (8 - len(words)), few


CASES = [
    # 01's own: (1) and (2)
    case(3, (3, 600, 1, 900)),
    case(3, (4, 600, -2, 900)),
    # ties, and one axis longest
    case(3, (5, 600, 5, 900)),
    case(3, (-5, 600, 5, 900)),
    case(3, (5, 600, -6, 900)),
    case(3, (-7, 31, 6, 32)),
    case(3, (0, 600, 4, 900)),
    case(3, (4, 600, 0, 900)),
    case(3, (1, 30, 1, 10000)),
    case(3, (13, 600, 5, 900), at=(-3, 17, 99)),
    case(3, (-5, 600, -13, 900), at=(-3, 17, 99)),
    case(3, (12, 600, 7, 900)),
    case(3, (7, 600, 12, 900)),
    case(3, (2, 600, -1, 900)),
    # one axis
    case(1, (6, 1234)),
    case(1, (-6, 1234), at=(3, 5, -5)),
    case(1, (6, 1234), three=1),
    case(1, (4, 1234, 77, 1, 5, 2, 3, 4)),
    # no pulse
    case(1, (0, 600)),
    case(3, (0, 600, 0, 900), at=(4, 4, 4)),
    case(7, (0, 600, 0, 700, 0, 800, 0, 900)),
    # three axes in 2.5D: z only, both z, x and y first
    case(7, (0, 600, 0, 700, 3, 800, 0, 900)),
    case(7, (0, 600, 0, 700, 0, 800, -3, 900)),
    case(7, (0, 600, 0, 700, 3, 800, -3, 900)),
    case(7, (0, 600, 0, 700, -2, 800, -2, 900)),
    case(7, (2, 600, 3, 700, -2, 800, 4, 900)),
    case(7, (3, 600, -3, 700, 1, 800, 0, 900)),
    case(7, (1, 600, 0, 700, 0, 800, 1, 900)),
    # 3D: x, y and z1 together at the x speed, z2 unused
    case(7, (4, 600, -2, 700, 3, 800, 9, 900), three=1),
    case(7, (0, 600, 5, 700, -3, 800, 9, 900), three=1),
    case(7, (0, 600, 0, 700, -3, 800, 2, 900), three=1),
    case(7, (5, 600, 5, 700, 5, 800, 0, 900), three=1),
    case(7, (1, 600, 2, 700, 3, 800, 0, 900), at=(7, 8, 9), three=1),
    case(3, (0, 600, 4, 900), three=1),
    case(3, (2, 600, 4, 900), three=1),
    # absolute targets are counted from the origin
    case(3, (3, 600, 1, 900), absolute=1),
    case(3, (3, 600, 1, 900), at=(10, 10, 0), origin=(10, 12, 3), absolute=1),
    case(3, (3, 600, 1, 900), at=(10, 10, 0), origin=(10, 12, 3)),
    case(7, (3, 600, -1, 700, 2, 800, 0, 900), at=(1, 1, 1), origin=(5, -5, 4), absolute=1),
    case(7, (3, 600, -1, 700, 2, 800, 0, 900), at=(1, 1, 1), origin=(5, -5, 4), three=1, absolute=1),
    case(1, (5, 600), at=(9, 0, 0), origin=(4, 0, 0), absolute=1),
    # the edges of 24 bits: each resting point by itself
    case(1, (1, 600), at=(HIGH, 0, 0)),
    case(1, (1, 600), at=(HIGH - 1, 0, 0)),
    case(1, (-1, 600), at=(LOW, 0, 0)),
    case(1, (-1, 600), at=(LOW + 1, 0, 0)),
    case(3, (0, 600, 1, 900), at=(0, HIGH, 0)),
    case(7, (0, 600, 0, 700, 2, 800, -2, 900), at=(0, 0, HIGH - 1)),
    case(7, (0, 600, 0, 700, 2, 800, -2, 900), at=(0, 0, HIGH - 2)),
    case(7, (0, 600, 0, 700, 1, 800, 2, 900), at=(0, 0, HIGH - 2)),
    case(7, (0, 600, 0, 700, 1, 800, 2, 900), at=(0, 0, HIGH - 2), three=1),
    case(7, (0, 600, 0, 700, -2, 800, 2, 900), at=(0, 0, LOW + 1)),
    case(3, (2, 600, 2, 900), at=(0, 0, 0), origin=(HIGH, LOW, 0), absolute=1),
    # numbers that are no movement's
    case(1, (1, 29)),
    case(1, (1, 10001)),
    case(3, (1, 600, 1, 29)),
    case(7, (0, 600, 0, 700, 0, 800, 0, 29), three=1),
    case(1, (HIGH + 1, 600)),
    case(7, (1, 600, 1, 700, 1, 800, 1, 900), absolute=1),
    # the largest distances: the first and the last pulses
    case(3, (LOW, 600, 5, 900), few=4),
    case(7, (LOW, 600, HIGH, 700, HIGH, 800, 0, 900), at=(HIGH, LOW, 0), three=1, absolute=1, few=5),
]


def four(x, y, z, a, **more):
    """A movement of four axes; its speeds tell which axis gave them."""
    return case(15, (x, 600, y, 700, z, 800, a, 900), **more)


def alone(a, **more):
    return case(8, (a, 900), **more)


def there(a):
    """A at a place, and x, y and z elsewhere."""
    return 3, -5, 7, a


def both_modes(make, *numbers, **more):
    return [make(*numbers, three=three, **more) for three in (0, 1)]


# what 02, §7 adds
TURNTABLES = [
    # four axes in 2.5D: x with y, then z, then a, each later phase at its own speed
    four(2, 3, -2, 4),
    four(3, -3, 1, -1),
    four(-4, 2, 3, -3),
    four(5, 5, 5, 5),
    four(1, -1, 2, -2, at=(-3, 17, 99, -40)),
    # a phase without a pulse in front of another, between two, and behind
    four(2, 0, 0, 3),
    four(0, -2, 0, 3),
    four(-2, 3, 0, -1),
    four(0, 0, -2, 3),
    four(0, 0, 2, -3),
    four(0, 0, 0, 4),
    four(0, 0, 0, -4, at=(9, 9, 9, 2)),
    four(0, 0, 3, 0),
    four(1, 2, 3, 0),
    four(0, -3, -2, 0),
    *both_modes(four, 0, 0, 0, 0, at=(4, 4, 4, 4)),
    # 3D: all four together at the x speed; each axis the longest, ties, and a alone or beside one other
    *(four(*ways, three=1) for ways in ((4, -2, 3, 9), (1, 2, -3, -12), (9, -2, 3, 4), (-3, 9, 3, 4), (1, 2, -9, 4), (2, 1, 1, 3), (12, 7, 5, 13))),
    *(four(*ways, three=1) for ways in ((5, 5, 5, 5), (-5, 5, -5, 5), (6, 0, 0, 6), (0, 6, -3, -6), (0, 0, 7, 7), (3, 5, 5, -5))),
    *(four(*ways, three=1) for ways in ((0, 0, 0, 5), (0, 0, 0, -1), (0, 3, 0, -5), (0, 0, 2, -5), (5, 0, 0, -2), (4, -3, 2, 0))),
    four(1, 2, 3, 4, at=(7, 8, 9, 10), three=1),
    # a alone: its own speed and the same pulses in both modes; the other axes rest where they stand, and words past the two are no numbers of it
    *both_modes(alone, 6),
    *both_modes(alone, -6, at=there(2)),
    *both_modes(alone, 0, at=there(2)),
    *(case(8, (4, 1234, 77, 1, 5, 2, 3, 4), three=three) for three in (0, 1)),
    # the fourth number of an absolute movement is a target, counted from the origin of a; of a relative one the origin is not used
    *both_modes(four, 3, -1, 2, 7, at=(1, 1, 1, 1), origin=(5, -5, 4, -9), absolute=1),
    *both_modes(four, 3, -1, 2, 7, at=(1, 1, 1, 1), origin=(5, -5, 4, -9)),
    *both_modes(four, 0, 0, 0, -6, at=(5, -5, 4, 1), origin=(5, -5, 4, 2), absolute=1),
    *both_modes(four, -5, 5, -4, 5, at=(0, 0, 0, 9), origin=(5, -5, 4, 4), absolute=1),
    *both_modes(alone, 5, at=there(9), origin=(1, 1, 1, 4), absolute=1),
    *both_modes(alone, 5, at=there(10), origin=(100, 200, 300, -4), absolute=1),
    *both_modes(alone, 5, at=there(10), origin=(100, 200, 300, -4)),
    alone(0, at=there(-3), absolute=1),
    # without a it rests where it stands, also where its origin is another place; the fourth number of three axes is the second z
    *(case(axes, (2, 600, 3, 700, -2, 800, 0, 900), at=(1, 2, 3, 44), origin=(0, 0, 0, 5), three=three, absolute=1) for axes in (1, 3, 7) for three in (0, 1)),
    case(7, (2, 600, 3, 700, -2, 800, 4, 900), at=(0, 0, 0, -6)),
    case(7, (0, 600, 0, 700, 0, 800, 4, 900), at=(0, 0, HIGH, LOW)),
    # the edges of 24 bits on a, from both sides
    *(make(way, at=there(a)) for way, a in ((1, HIGH), (1, HIGH - 1), (3, HIGH - 2), (-1, LOW), (-1, LOW + 1), (-3, LOW + 2))
      for make in (alone, lambda way, at: alone(way, at=at, three=1), lambda way, at: four(0, 0, 0, way, at=at), lambda way, at: four(1, 0, 0, way, at=at, three=1))),
    four(2, 0, 1, 0, at=there(HIGH)),
    four(2, 0, 1, 0, at=there(LOW), three=1),
    # another axis leaves them and a does not; a leaves them in the last phase
    *both_modes(four, 0, 0, 1, -1, at=(0, 0, HIGH, 0)),
    *both_modes(four, -1, 0, 0, 1, at=(LOW, 0, 0, 0)),
    *both_modes(four, 2, 2, 2, 2, at=(0, 0, 0, HIGH - 1)),
    # absolute: the origin of a with the target, wherever a stands
    *(alone(way, at=there(a), origin=(9, 9, 9, from_a), absolute=1) for way, a, from_a in (
        (0, HIGH - 3, HIGH), (1, HIGH - 3, HIGH), (0, LOW + 2, LOW), (-1, LOW + 2, LOW), (HIGH, HIGH - 2, 0), (HIGH, HIGH - 2, 1), (LOW, LOW + 2, -1),
        (HIGH, HIGH - 4, -1), (LOW, LOW + 4, 1), (-3, HIGH - 1, HIGH), (LOW, 2, HIGH), (HIGH, -4, LOW))),
    *(four(0, 0, 0, way, at=(0, 0, 0, a), origin=(0, 0, 0, from_a), three=three, absolute=1) for three in (0, 1)
      for way, a, from_a in ((0, HIGH - 3, HIGH), (1, HIGH - 3, HIGH), (-1, LOW + 2, LOW), (HIGH, HIGH - 2, 1), (LOW, LOW + 4, 1))),
    alone(2, at=there(5), origin=there(HIGH)),
    # numbers that are no movement's
    *(case(8, words) for words in ((1, 29), (1, 10001), (1, 30), (1, 10000), (HIGH + 1, 600), (LOW - 1, 600))),
    *(case(15, (0, 600, 0, 700, 0, 800, 0, v), three=three) for v in (29, 10001) for three in (0, 1)),
    case(15, (0, 29, 0, 700, 0, 800, 1, 900), three=1),
    case(15, (0, 600, 0, 700, 0, 10001, 1, 900)),
    case(15, (1, 600, 1, 700, 1, 800, HIGH + 1, 900), at=(0, 0, 0, -1)),
    case(15, (1, 600, 1, 700, 1, 800, LOW - 1, 900), at=(0, 0, 0, 1), three=1, absolute=1),
    # as far as it goes: 16,777,215 steps of a
    alone(HIGH, at=there(LOW), absolute=1, few=4),
    four(2, 0, -5, LOW, at=(0, 0, 0, HIGH), three=1, absolute=1, few=5),
]


def circle(numbers, axes=3, plane=0, counter=0, at=(), few=100):
    return axes, plane, counter, point(*at), tuple(numbers), few


def fitting(x, y, length=None, speed=600, counter=0, **more):
    """A circle with the directions that fit; without a length, the whole of it and one pulse more."""
    whole = 4 * (abs(x) + abs(y)) + 1
    return circle(circle_of(whole if length is None else length, speed, counter, x, y), counter=counter, **more)


def near(x, y, first, second, **more):
    """A circle whose centre stands at two places."""
    place = {PLANES[more["plane"]][0]: first + x, PLANES[more["plane"]][1]: second + y}
    return fitting(x, y, length=2, at=[place.get(i, 5) for i in range(3)], **{"axes": 7, **more})


GOOD = circle_of(3, 600, 0, 3, 4)

CIRCLES = [
    # 02's own
    circle((4, 600, 0, 2, 0, -1, 1), counter=1),
    # both ways round from the axes, the nearest points, the diagonals
    *(fitting(x, y, counter=counter) for counter in (0, 1)
      for x, y in ((1, 0), (0, 1), (-1, 0), (0, -1), (1, 1), (-1, 1), (-1, -1), (1, -1), (3, 0), (0, -4))),
    # both moves leave the same distance: the first axis
    *(fitting(x, y) for x, y in ((1, 2), (-2, 1), (-1, -2), (2, -1), (3, 4), (-5, 4))),
    *(fitting(x, y, counter=1) for x, y in ((2, 1), (-1, 2), (-2, -1), (1, -2), (4, 3), (-4, 5))),
    # each plane, beside a third axis
    *(fitting(x, y, plane=plane, counter=counter, axes=7, at=(7, -8, 9)) for plane in (0, 1, 2) for counter in (0, 1) for x, y in ((2, 0), (-1, 3))),
    # several rounds, a part of one, no pulse, one pulse
    fitting(2, 1, length=50),
    fitting(7, -3, length=20, counter=1, speed=30),
    fitting(7, -3, length=0),
    fitting(0, 9, length=1, speed=10000),
    # D is unused
    *(circle((*GOOD[:2], d, *GOOD[3:])) for d in (LOW, HIGH, -1)),
    # large ones: the first and the last pulses
    fitting(0, -1, length=HIGH, few=5),
    fitting(4000000, 0, length=1000000, counter=1, few=4),
    fitting(2700000, 2700000, length=300000, few=4),
    fitting(-3999999, 17, length=70000, few=4, at=(0, HIGH - 4000017, 0)),
    # 9: the centre plus or minus the whole part of the radius plus one, each side by itself
    *(near(x, y, *c, plane=plane) for plane, x, y in ((0, 3, 4), (1, 1, 1), (2, -2, 2))
      for r in (reach(x, y),) for c in ((HIGH - r, 0), (HIGH - r + 1, 0), (LOW + r, 0), (LOW + r - 1, 0), (0, HIGH - r), (0, HIGH - r + 1), (0, LOW + r), (0, LOW + r - 1))),
    circle(circle_of(0, 600, 0, 4000000, 4000000)),
    # 3: a plane whose axes are not set
    *(circle(GOOD, axes=axes, plane=plane) for axes, plane in ((0, 0), (1, 0), (1, 1), (3, 1), (3, 2), (7, 2))),
    circle((HIGH + 1, 29, 0, 0, 0, 0, 0), axes=1),
    # 1: the arc length, D, the start, directions that are none, directions that do not fit
    *(circle((*GOOD[:i], n, *GOOD[i + 1:])) for i, n in ((0, -1), (0, HIGH + 1), (2, LOW - 1), (2, HIGH + 1), (3, 4000001), (3, -4000001), (4, 4000001), (4, -4000001),
                                                        (5, 0), (5, 2), (6, 0), (6, -2))),
    circle((3, 600, 0, 0, 0, 1, -1)),
    *(circle((3, 600, 0, x, y, a, b), counter=counter) for counter in (0, 1) for x, y in ((3, 4), (2, 0), (0, -1)) for a in (1, -1) for b in (1, -1)),
    circle((3, 29, 0, 3, 4, -1, -1)),
    # D before 9, and the last speeds
    *(circle((3, v, 0, 3, 4, 1, -1)) for v in (29, 30, 10000, 10001)),
    circle((3, 29, 0, 4000000, 4000000, 1, -1)),
    # four axes (02, §7): two of them move, and a rests wherever it stands, also at the ends of its range
    *(fitting(x, y, plane=plane, counter=counter, axes=15, at=(7, -8, 9, -10)) for plane in (0, 1, 2) for counter in (0, 1) for x, y in ((2, 0), (-1, 3))),
    *(fitting(3, 4, length=3, axes=15, plane=plane, at=(0, 0, 0, a)) for plane in (0, 1, 2) for a in (LOW, HIGH)),
    *(near(3, 4, HIGH - 6 + over, 0, plane=plane, axes=15) for plane in (0, 1, 2) for over in (0, 1)),
    # a is in no plane
    *(circle(GOOD, axes=8, plane=plane) for plane in (0, 1, 2)),
    circle((HIGH + 1, 29, 0, 0, 0, 0, 0), axes=8),
]


# the axes that a movement's numbers are of, x is 0 and a is 3; and how many numbers with a speed it has, the second z among them
NAMED = {1: (0,), 3: (0, 1), 7: (0, 1, 2), 8: (3,), 15: (0, 1, 2, 3)}
PAIRS = {1: 1, 3: 2, 7: 4, 8: 1, 15: 4}


def phases(axes, three, absolute, at, origin, words):
    """The phases as distances and a speed, or None where a resting point leaves 24 bits or the numbers are no movement's."""
    pairs, numbers, speeds = PAIRS[axes], words[0::2], words[1::2]
    if any(not LOW <= d <= HIGH for d in numbers[:pairs]) or any(not 30 <= v <= 10000 for v in speeds[:pairs]):
        return None
    second = numbers[3] if axes == 7 else 0
    if absolute and second != 0:
        return None
    z2 = 0 if three else second
    given = dict(zip(NAMED[axes], numbers))
    target = [(origin[i] if absolute else p) + given[i] if i in given else p for i, p in enumerate(at)]
    if any(not LOW <= t <= HIGH for t in target + [target[2] + z2]):
        return None
    x, y, z, a = (t - p for t, p in zip(target, at))
    if three:
        return [((x, y, z, a), speeds[0])]
    first, last = speeds[1] if abs(y) > abs(x) else speeds[0], speeds[0] if axes == 8 else speeds[3]
    return [((x, y, 0, 0), first), ((0, 0, z, 0), speeds[2]), ((0, 0, z2, a), last)]


def pulse(plan, i):
    """Pulse i of a movement: after pulse k of n an axis has made (2k|d| + n) // 2n steps in the sign of d."""
    for distances, speed in plan:
        n = max(abs(d) for d in distances)
        if i <= n:
            steps = [[(2 * k * abs(d) + n) // (2 * n) for k in (i - 1, i)] for d in distances]
            signs = [(b - a) * (1 if d > 0 else -1) for (a, b), d in zip(steps, distances)]
            return "P " + "".join("-.+"[s + 1] for s in signs) + f" {speed}"
        i -= n


def shown(axes, three, absolute, at, origin, words, few):
    plan = phases(axes, three, absolute, at, origin, words)
    if plan is None:
        return ["9"]
    total = sum(max(abs(d) for d in distances) for distances, _ in plan)
    wanted = sorted({*range(1, min(few, total) + 1), *range(max(1, total - few + 1), total + 1)})
    end = " ".join(str(p + sum(distances[i] for distances, _ in plan)) for i, p in enumerate(at))
    return [f"N {total}", "S 1 0"] + [pulse(plan, i) for i in wanted] + ["S 1 0", f"E {end}", f"R {end}"]


def test_103(plane, at, numbers, point):
    """Whether a circle planned at one place passes 103 at another, and one count beside on the y axis."""
    _, _, _, x, y, *_ = numbers
    told = []
    for p in (point, [point[0], (point[1] - LOW ^ 1) + LOW, *point[2:]]):
        where = [p[i] - c for i, c in zip(PLANES[plane], centre(plane, at, x, y))]
        told.append(where != [0, 0] and all(abs(n) <= reach(x, y) for n in where))
    return "S " + " ".join(str(int(t)) for t in told)


def shown_circle(axes, plane, counter, at, numbers, few):
    refused = refusal(axes, plane, counter == 1, at, numbers)
    if refused:
        return [refused]
    length, speed, _, x, y, *_ = numbers
    first, second = PLANES[plane]
    middle = centre(plane, at, x, y)
    value, point, out = x * x + y * y, list(at), []
    for k in range(length):
        a, b = turned(counter == 1, value, point[first] - middle[0], point[second] - middle[1])
        point[first], point[second] = point[first] + a, point[second] + b
        if k < few or k >= length - few:
            signs = ["."] * 4
            signs[first], signs[second] = "-.+"[a + 1], "-.+"[b + 1]
            out.append(f"P {''.join(signs)} {speed}")
    return ([f"N {length}", f"C {middle[0]} {middle[1]}", test_103(plane, at, numbers, at)] + out
            + [test_103(plane, at, numbers, point), "E " + " ".join(str(n) for n in point)])


def files():
    moves = CASES + TURNTABLES
    lines = [str(len(moves) + len(CIRCLES))]
    for axes, three, absolute, at, origin, words, few in moves:
        lines.append(" ".join(str(n) for n in (axes, three, absolute, *at, *origin, *words, few)))
    for axes, plane, counter, at, numbers, few in CIRCLES:
        lines.append(" ".join(str(n) for n in (axes, 0, 2, *at, *point(plane, -counter), *numbers, 0, few)))
    out = [line for c in moves for line in shown(*c)] + [line for c in CIRCLES for line in shown_circle(*c)]
    folder = "crates/motion_pulses/"
    return {folder + "stdin": "\n".join(lines) + "\n", folder + "stdout": "\n".join(out) + "\n"}


def main():
    for path, text in files().items():
        if sys.argv[1:] == ["--check"]:
            if open(path).read() != text:
                sys.exit(f"{path} differs")
        else:
            open(path, "w").write(text)


main()
