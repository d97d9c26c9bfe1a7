"""The rule of circles (02, §3) on signed numbers, for the vectors of engine_ticks and motion_pulses; it knows neither counts nor words."""
import math

LOW, HIGH = -8388608, 8388607
# the axes of a plane: x is 0, y is 1, z is 2
PLANES = ((0, 1), (0, 2), (1, 2))


def sign(n):
    return (n > 0) - (n < 0)


def ways(counter, x, y):
    """Which way the two axes go at a point counted from the centre; 0 for one that does not move."""
    return (-sign(y), sign(x)) if counter else (sign(y), -sign(x))


def turned(counter, value, x, y):
    """One pulse: of two possible moves the one that leaves x² + y² nearer to its start value, the first axis's at a tie."""
    a, b = ways(counter, x, y)
    moves = [m for m in ((a, 0), (0, b)) if m != (0, 0)]
    return min(moves, key=lambda m: abs((x + m[0]) ** 2 + (y + m[1]) ** 2 - value))


def sent_ways(counter, x, y):
    """The directions that a circle's line must send: those at the start, or after the first pulse for one that is zero at the start."""
    a, b = turned(counter, x * x + y * y, x, y)
    return tuple(now or then for now, then in zip(ways(counter, x, y), ways(counter, x + a, y + b)))


def circle_of(length, speed, counter, x, y):
    """A circle's numbers with the directions that fit its start."""
    return (length, speed, 0, x, y, *sent_ways(counter, x, y))


def right_arc(numbers):
    """Whether a circle's numbers are in their ranges: arc length, D, the start on both axes, both directions."""
    length, _, unused, x, y, *sent = numbers
    return (0 <= length <= HIGH and LOW <= unused <= HIGH and abs(x) <= 4000000 and abs(y) <= 4000000 and (x, y) != (0, 0)
            and all(w in (1, -1) for w in sent))


def reach(x, y):
    """The whole part of the radius plus one."""
    return math.isqrt(x * x + y * y) + 1


def centre(plane, at, x, y):
    first, second = PLANES[plane]
    return at[first] - x, at[second] - y


def refusal(axes, plane, counter, at, numbers):
    """The character that refuses a circle, 3, 1, D, 9 in this order, or nothing."""
    if any(not axes >> i & 1 for i in PLANES[plane]):
        return "3"
    _, speed, _, x, y, *sent = numbers
    if not right_arc(numbers) or tuple(sent) != sent_ways(counter, x, y):
        return "1"
    if not 30 <= speed <= 10000:
        return "D"
    if any(c - reach(x, y) < LOW or c + reach(x, y) > HIGH for c in centre(plane, at, x, y)):
        return "9"
    return ""
