"""How the cases for `calls` are written down: each step is a list of pairs, a line of the script and what it prints.

Nothing here runs a board: replies, answers, states and the pulses of arcs are written by hand, other pulses by the paper's formula.
"""
CASES = []
WRONG = "?"  # a wrong line prints this and its number


def case(name, why, *steps):
    given, printed = [], []
    for step in steps:
        for text, answers in step:
            given.append(text)
            printed += [a + " %d" % len(given) if a == WRONG else a for a in answers]
    CASES.append((name, why, "\n".join(given) + "\n", "\n".join(printed) + "\n"))


def byte(v, reply="-"):
    return [("B %d" % v, ["B " + reply])]


STOP, RESET, BREAK = 253, 254, 255
stop = byte(STOP, "F")
no_stop = byte(STOP)


def text(some):
    """Bytes that are answered with nothing: part of a line, or dropped."""
    return [pair for c in some for pair in byte(ord(c))]


def line(some, reply="-"):
    """A line with its return, which is answered."""
    return text(some) + byte(13, reply)


def lines(reply, *texts):
    return [pair for t in texts for pair in line(t, reply)]


def clock(*answers):
    """So many clock calls with these answers."""
    return [("C %d" % len(answers), ["C " + a for a in answers])]


def nothing(n=1):
    return clock(*["Nothing"] * n)


def four(point):
    """x, y, z and a; A is at 0 where it is not named."""
    return tuple(point) + (0,) * (4 - len(point))


def told(job, before, place, origin=()):
    """The line T: `before` is the place before the call, the rest is as it is after it."""
    return "T job %s from %d place %d origin %d %d %d %d" % ((job, before, place) + four(origin))


def run(n, *answers, end="over"):
    """Q n: each answer is a text alone, or in a tuple with what the line T behind it tells."""
    printed = []
    for answer in answers:
        if isinstance(answer, str):
            printed.append("C " + answer)
        else:
            printed += ["C " + answer[0], told(*answer[1:])]
    return [("Q %d" % n, printed + ["Q " + end])]


def sends(character):
    return "Send %d" % ord(character)


def pulses(d, speed):
    """The pulses of one phase: after pulse k of n an axis has made (2k|d| + n) div 2n steps."""
    n = max(abs(v) for v in d)
    answers = []
    for k in range(1, n + 1):
        signs = ""
        for v in four(d):
            step = (2 * k * abs(v) + n) // (2 * n) - (2 * (k - 1) * abs(v) + n) // (2 * n)
            signs += "." if step == 0 else "+" if v > 0 else "-"
        answers.append("Pulse %s %d" % (signs, speed))
    return answers


def turns(moves, speed=600):
    """The pulses of an arc, which are worked out by hand: `x- y+` and so on."""
    return ["Pulse %s %d" % ("".join(m[1] if a == m[0] else "." for a in "xyza"), speed) for m in moves.split()]


def x(d, speed=600):
    return pulses([d, 0, 0], speed)


def report(*position):
    """The reply to P: 0 and six hexadecimal capitals for each axis, two's complement."""
    return "0" + "".join("%06X" % (v % 2 ** 24) for v in position)


def where(*position):
    return line("@0P", report(*position))


def host(*texts):
    """What the host does prints nothing."""
    return [(t, []) for t in texts]


def wrong(*texts):
    return [(t, [WRONG]) for t in texts]


def store(*records):
    """A program sent for storing, all of it accepted."""
    return lines("0", "@0i", *records, "9")


def listed(*printed):
    return [("L", ["L " + p for p in printed])]


def entries(first, *values):
    """The table's entries from this one on."""
    return [("V %d" % (first + i), ["V %d" % v]) for i, v in enumerate(values)]


def filled(answer="0"):
    return [("F", ["F " + answer])]


def refused(number, call="B 64"):
    """A call that is answered with the number of its refusal alone."""
    return [(call, [call[0] + " %d" % number])]


def state(axes=0, position=(), origin=(), three=0, output=0, held=(0, 0, 0), job="Idle", standing=0, loops=0, turn=(0, 0)):
    """`held` are the bytes and records in use and the store's axes, `turn` the plane and the direction."""
    said = "S axes %d position %d %d %d %d" % ((axes,) + four(position))
    said += " origin %d %d %d %d three %d output %d" % (four(origin) + (three, output))
    said += " used %d records %d store_axes %d" % held
    return [("S", [said + " job %s standing %d loops %d plane %d direction %d" % ((job, standing, loops) + turn)])]
