"""What refuses a line by its numbers alone, for the third opinion."""
import oracle_arc as arc

LOW, HIGH = -8388608, 8388607
PAIRS = {1: 1, 3: 2, 7: 4, 8: 1, 15: 4}


class Refused(Exception):
    pass


def refuse(wrong, reply):
    if wrong:
        raise Refused(reply)


def within(v, low, high):
    return low <= v <= high


def right(code, v, axes, turn=None):
    """The tests 7, 3, 1, D of a movement, n, z or another record; those of a line `y` need the plane and direction too."""
    count = {"n": 1, "z": 1, "3": 2, "5": 1, "1": 1, "2": 2, "e": 1, "f": 1, "y": 7}.get(code, 2 * PAIRS[axes])
    refuse(len(v) != count, "7")
    if code == "y":
        refuse(turn and not arc.fits(turn[0], axes), "3")
        refuse(not arc.in_range(v, LOW, HIGH), "1")
        refuse(v[5:] not in ([arc.expected(v[3:5], turn[1])] if turn else arc.DIRECTIONS), "1")
        refuse(not within(v[1], 30, 10000), "D")
    elif code == "n":
        refuse(v[0] not in [m for m in range(1, 9) if m | axes == axes], "3")
    elif code in "0m":
        refuse(any(not within(d, LOW, HIGH) for d in v[0::2]), "1")
        refuse(code == "m" and axes == 7 and v[6] != 0, "1")
        refuse(any(not within(s, 30, 10000) for s in v[1::2]), "D")
    elif code == "3":
        refuse(not within(v[0], 0, 32767) or not within(v[1], -32768, 32767 if v[0] == 0 else -1), "1")
    else:
        low, high = {"z": (0, 1), "5": (0, 65535), "e": (0, 2), "f": (-1, 0)}.get(code, (33, 126))
        refuse(not within(v[0], low, high), "1")
        refuse(code == "2" and not within(v[1], -32768, 32767), "1")
