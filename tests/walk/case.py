"""How the cases for `walk` are written down.

Nothing here runs a board: replies and the pulses of arcs are written by hand, other pulses by the paper's formula.
`lines` ends each line with a carriage return; `R(text)` is one `R` line per reply.
"""
CASES = []


def case(name, why, given, printed, end="0 0 0"):
    """`printed` is what stands between the first line and the last."""
    CASES.append((name, why, given, "\n".join(["walk"] + printed + ["E " + end]) + "\n"))


def lines(*texts):
    return b"".join(t.encode("latin-1") + b"\r" for t in texts)


def R(*replies):
    return ["R " + r for r in replies]


def P(d, speed):
    """The pulses of one phase: after pulse k of n an axis has made (2k|d| + n) div 2n steps."""
    n = max(abs(v) for v in d)
    printed = []
    for k in range(1, n + 1):
        signs = ""
        for v in d:
            step = (2 * k * abs(v) + n) // (2 * n) - (2 * (k - 1) * abs(v) + n) // (2 * n)
            signs += "." if step == 0 else "+" if v > 0 else "-"
        printed.append("P %s %d" % (signs, speed))
    return printed


def T(moves, speed=600, axes="xyz"):
    """The pulses of an arc, which are worked out by hand: `x- y+` and so on."""
    return ["P %s %d" % ("".join(m[1] if a == m[0] else "." for a in axes), speed) for m in moves.split()]


def all_reply(reply, *texts):
    """Lines that all get the same reply."""
    return lines(*texts), R(*[reply] * len(texts))


def store(*records):
    """A program sent for storing, from `@0i` to `9`, and the replies if all are accepted."""
    return lines("@0i", *records, "9"), R(*["0"] * (len(records) + 2))


def refused_at_9(said, *records):
    """The same, with this reply at `9`: G, the letter and the place of the fault."""
    return lines("@0i", *records, "9"), R(*["0"] * (len(records) + 1), said)
