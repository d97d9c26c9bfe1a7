#!/usr/bin/env python3
"""Writes crates/record_lists/stdin and stdout: stores, and their listings by 01, "Store", with the records of 02 §3 and the axes of 02 §7, worked out
apart from the code.

    python3 tests/vectors/lists.py            writes both files
    python3 tests/vectors/lists.py --check    compares them with what it would write

A store of stdin is a line `axes kinds` and a line for each kind of record: how often it is stored, its code, its count of numbers and
eight words. Its answer is the listing and a line feed, then `same` where the records, read from the bytes and stored again, give the
same bytes; or `refused` and the refusal where the store is not readable.

Numbers are Python's own, the store is a byte string, and a record is read from its front by 01's sentence about bytes.
"""
import os
import sys

ROOT = os.path.dirname(os.path.dirname(os.path.dirname(os.path.abspath(__file__))))
FOLDER = os.path.join(ROOT, "crates", "record_lists")
LOW, HIGH = -8388608, 8388607
FAR = 4000000  # a circle's start, on either axis

# Numbers whose four bytes hold the mark 0xD7 0x2B: at their start, in their middle, and with a code byte behind the mark.
MARK = 0x2BD7
MARK_INSIDE = 0x2BD700
MARK_AND_FIVE = 0x352BD7
MARK_BELOW_ZERO = 0x802BD7 - 0x1000000


def times(often, code, *numbers, spare=()):
    return often, code, numbers, tuple(spare)


def one(code, *numbers, spare=()):
    return times(1, code, *numbers, spare=spare)


def four(code, *ways, speeds=(600, 700, 800, 900)):
    return one(code, *(number for pair in zip(ways, speeds) for number in pair))


def any_axes():
    """Records that are right under any axes."""
    return [one("z", 1), one("3", 0, -32768), one("3", 32767, -1), one("5", 65535), one("1", 126), one("2", 33, 32767), one("e", 2), one("f", -1),
            one("y", 3, 400, 0, -5, 5, 1, -1)]


def turntables():
    """02 §7: A alone, and A beside three axes; then what is not readable there."""
    # every code; a target of a that is not 0 and one that is; n of x, y and z, and of a by itself
    yield 8, [one("0", LOW, 30), one("0", HIGH, 10000), one("m", LOW, 10000), one("m", HIGH, 30), one("m", 0, 600), one("n", 8), *any_axes()]
    yield 15, [four("0", LOW, LOW, LOW, LOW), four("0", HIGH, HIGH, HIGH, HIGH), four("m", 1, -1, 0, LOW), four("m", 0, 0, 0, HIGH), four("m", 3, 4, 5, 0),
               four("m", 0, 0, 0, 1, speeds=(30, 10000, 30, 10000)), *(one("n", n) for n in range(1, 9)), *any_axes()]
    yield 8, []
    yield 15, []
    yield 8, [one("0", MARK_AND_FIVE, 43), one("m", MARK_BELOW_ZERO, 215), one("n", 8, spare=(7, 6)), one("m", MARK, 30, spare=(1, 2, 3))]
    yield 15, [four("m", MARK, MARK_INSIDE, MARK_AND_FIVE, MARK_BELOW_ZERO, speeds=(215, 43, 215, 43)), one("n", 8)]
    # the store just full
    yield 8, [times(999, "m", HIGH, 10000), one("n", 8), one("z", 1)]
    yield 15, [times(455, "m", LOW, 10000, HIGH, 10000, LOW, 10000, HIGH, 10000), one("n", 8)]
    # other counts of numbers, on each of the five axes that are allowed
    for axes in (1, 3, 7, 8, 15):
        for code in "0m":
            for count in (0, 1, 2, 3, 4, 6, 7, 8):
                yield axes, [one(code, *((0, 600) * 4)[:count])]
    # n: mixed, of axes that are not set, none, below 0
    for axes in (1, 3, 7, 8, 15):
        for n in (1, 2, 3, 4, 7, 8, 9, 10, 12, 14, 15, 16, 0, -8):
            yield axes, [one("z", 0), one("n", n)]
    for code, *numbers in (("n",), ("n", 8, 8), ("N", 8)):
        yield 15, [one(code, *numbers)]
    # a fourth number of an absolute movement is a's under 15, and must be 0 under 7
    for a in (1, -1, LOW, HIGH):
        yield 15, [four("m", 5, 6, 7, a)]
        yield 7, [four("m", 5, 6, 7, a)]
    for axes in (8, 15):
        for a, speed in ((HIGH + 1, 600), (LOW - 1, 600), (0, 29), (0, 10001), (0, -600)):
            for code in "0m":
                yield axes, [one(code, *(0, 600) * (3 if axes == 15 else 0), a, speed)]
        for code, *numbers in (("5", 65536), ("1", 32), ("2", 127, 0), ("3", 1, 0), ("z", 2), ("e", 3), ("f", 1), ("y", 3, 29, 0, -5, 5, 1, -1)):
            yield axes, [one("z", 0), one(code, *numbers)]
    # axes that are not allowed have no movement
    for axes in (2, 4, 5, 6, 9, 14, 16):
        yield axes, any_axes()
        for count in (2, 4, 6, 8):
            yield axes, [one("0", *((0, 600) * 4)[:count])]
        yield axes, [one("m", 0, 600)]
        yield axes, [four("m", 0, 0, 0, 0)]


STORES = [
    # no record: only the end line
    (7, []),
    # every code with its lowest and its highest numbers, three axes
    (7, [
        one("0", 0, 30, 0, 30, 0, 30, 0, 30),
        one("0", LOW, 30, LOW, 30, LOW, 30, LOW, 30),
        one("0", HIGH, 10000, HIGH, 10000, HIGH, 10000, HIGH, 10000),
        one("0", -1, 31, 1, 99, -10, 100, 10, 9999),
        one("m", LOW, 10000, HIGH, 30, LOW, 10000, 0, 30),
        one("m", HIGH, 1000, -999999, 1001, 1000000, 999, 0, 10000),
        one("n", 1),
        one("n", 7),
        one("z", 0),
        one("z", 1),
        one("3", 0, -32768),
        one("3", 0, 32767),
        one("3", 0, 0),
        one("3", 1, -1),
        one("3", 32767, -32768),
        one("5", 0),
        one("5", 65535),
        one("1", 33),
        one("1", 126),
        one("2", 33, -32768),
        one("2", 126, 32767),
        one("2", 57, 0),
    ]),
    # one axis and two: movements of two and four numbers
    (1, [one("0", LOW, 30), one("0", HIGH, 10000), one("m", -1, 600), one("m", 0, 600), one("n", 1)]),
    (3, [one("0", 3, 600, 1, 900), one("m", LOW, 30, HIGH, 10000), one("n", 1), one("n", 2), one("n", 3)]),
    # numbers that hold the mark's bytes, also with a code behind them
    (7, [
        one("5", MARK),
        one("3", 0, MARK),
        one("3", MARK, -MARK),
        one("2", 43, MARK),
        one("0", MARK, 30, MARK_INSIDE, 30, MARK_AND_FIVE, 30, MARK_BELOW_ZERO, 30),
        one("m", MARK_BELOW_ZERO, 30, MARK_AND_FIVE, 30, MARK_INSIDE, 30, 0, 30),
        one("5", MARK),
    ]),
    # every length of number, and zeros that are not needless
    (1, [one("0", sign * (10 ** k - less), 10 ** (k % 3 + 2) - less) for k in range(1, 7) for less in (1, 0) for sign in (1, -1)]),
    # characters that the listing itself uses, as numbers
    (7, [one("1", 44), one("1", 45), one("1", 48), one("1", 57), one("2", 57, -1), one("5", 9), one("5", 13)]),
    # words past the count are no numbers of the record
    (7, [one("5", 7, spare=(8, 9)), one("3", 25, -1, spare=(1, 2, 3))]),
    # the store just full: at 1,000 records, at 16,384 bytes; what has no room is left out
    (7, [times(999, "5", 9), one("z", 1), one("n", 7)]),
    (7, [times(454, "0", LOW, 10000, LOW, 10000, LOW, 10000, LOW, 10000), times(4, "5", 0), one("5", 65535), one("z", 1)]),
    # plane, direction and circle: each value that has no range, the ends of each range, and the two axes of a start apart
    (7, [one("e", 0), one("e", 1), one("e", 2), one("f", 0), one("f", -1)]),
    (7, [
        one("y", 0, 30, LOW, FAR, FAR, 1, 1),
        one("y", HIGH, 10000, HIGH, -FAR, -FAR, -1, -1),
        one("y", 4, 600, 0, 2, 0, -1, 1),
        one("y", 1, 31, -1, 0, 1, 1, -1),
        one("y", 10, 9999, 1, -1, 0, -1, -1),
        one("y", 999999, 1000, -1000000, 0, -FAR, 1, 1),
        one("y", 0, 30, 0, 1, 0, 1, 1, spare=(5,)),
    ]),
    # they are right under any axes, as a switch is
    *((axes, [one("e", 2), one("f", -1), one("y", 3, 400, 0, -5, 5, 1, -1), one("z", 1)]) for axes in (0, 1, 3, 8)),
    # a circle's numbers that hold the mark's bytes, and 512 of them in a store
    (7, [one("y", MARK_AND_FIVE, 43, MARK_BELOW_ZERO, MARK, -MARK_INSIDE, 1, -1), one("e", 1), one("y", MARK, 215, MARK, MARK_INSIDE, MARK, -1, 1)]),
    (7, [times(511, "y", 1, 30, 0, 1, 1, 1, -1), one("y", HIGH, 10000, LOW, -FAR, -FAR, -1, -1), one("e", 0), one("f", 0)]),
    # not readable: one number, count, code or axis that is wrong
    (7, [one("5", 65536)]),
    (7, [one("5", -1)]),
    (7, [one("z", 1), one("z", 2)]),
    (7, [one("n", 0)]),
    (7, [one("n", 8)]),
    (3, [one("n", 4)]),
    (7, [one("3", 1, 0)]),
    (7, [one("3", 0, 32768)]),
    (7, [one("3", 0, -32769)]),
    (7, [one("3", 32768, -1)]),
    (7, [one("3", -1, -1)]),
    (7, [one("1", 32)]),
    (7, [one("1", 127)]),
    (7, [one("2", 127, 0)]),
    (7, [one("2", 126, 32768)]),
    (1, [one("0", HIGH + 1, 30)]),
    (1, [one("0", LOW - 1, 30)]),
    (1, [one("0", 0, 29)]),
    (1, [one("0", 0, 10001)]),
    (7, [one("m", 0, 30, 0, 30, 0, 30, 1, 30)]),
    (7, [one("0", 0, 30)]),
    (1, [one("0", 0, 30, 0, 30)]),
    (7, [one("5", 0, 0)]),
    (7, [one("3", 0)]),
    (7, [one("9", 0)]),
    (7, [one("M", 0, 30, 0, 30, 0, 30, 0, 30)]),
    (0, [one("0", 0, 30)]),
    (2, [one("0", 0, 30)]),
    # the same of a plane, a direction and a circle
    *((7, [one("f", 0), one("e", plane), one("z", 0)]) for plane in (3, -1, 48, LOW)),
    *((7, [one("e", 0), one("f", way), one("z", 0)]) for way in (1, -2, 48, HIGH)),
    *((7, [one("y", arc, 600, 0, 2, 0, -1, 1)]) for arc in (-1, HIGH + 1)),
    *((7, [one("y", 4, v, 0, 2, 0, -1, 1)]) for v in (29, 10001, -30, 0)),
    *((7, [one("y", 4, 600, d, 2, 0, -1, 1)]) for d in (LOW - 1, HIGH + 1)),
    *((7, [one("y", 4, 600, 0, *start, -1, 1)]) for start in ((FAR + 1, 0), (-FAR - 1, 0), (0, FAR + 1), (0, -FAR - 1), (0, 0), (HIGH, LOW))),
    *((7, [one("y", 4, 600, 0, 2, 0, *ways)]) for ways in ((0, 1), (1, 0), (2, 1), (1, -2), (-1, 3), (0, 0))),
    *((7, [one(code)]) for code in "efy"),
    *((7, [one(code, 0, 0)]) for code in "ef"),
    (7, [one("y", 4, 600, 0, 2, 0, -1)]),
    (7, [one("y", 4, 600, 0, 2, 0, -1, 1, 0)]),
    *((7, [one(code, 0)]) for code in "EF"),
    (7, [one("Y", 4, 600, 0, 2, 0, -1, 1)]),
    *turntables(),
]


def right(axes, code, numbers):
    """Whether a record is right in code and, for the store's axes, count, ranges and speeds."""
    if code in ("0", "m"):
        if len(numbers) != {1: 2, 3: 4, 7: 8, 8: 2, 15: 8}.get(axes):
            return False
        distances, speeds = numbers[0::2], numbers[1::2]
        return (
            all(LOW <= d <= HIGH for d in distances)
            and all(30 <= v <= 10000 for v in speeds)
            and not (code == "m" and axes == 7 and distances[3] != 0)
        )
    if code in ("e", "f"):
        return len(numbers) == 1 and numbers[0] in ((0, 1, 2) if code == "e" else (0, -1))
    if code == "y":
        return len(numbers) == 7 and right_circle(*numbers)
    if code not in {"n": 1, "z": 1, "5": 1, "1": 1, "3": 2, "2": 2} or len(numbers) != (2 if code in "32" else 1):
        return False
    first, last = numbers[0], numbers[-1]
    return {
        "n": first in ((8,) if axes & 8 else ()) or 1 <= first <= 7 and first & ~axes == 0,  # a only by itself
        "z": first in (0, 1),
        "5": 0 <= first <= 65535,
        "1": 33 <= first <= 126,
        "2": 33 <= first <= 126 and -32768 <= last <= 32767,
        "3": -32768 <= last <= (32767 if first == 0 else -1) and 0 <= first <= 32767,
    }[code]


def right_circle(arc, speed, d, first, second, *ways):
    """02 §3: the arc's pulses, the speed, D, a start that is not the centre, and a way of 1 or -1 for each axis."""
    start = abs(first) <= FAR and abs(second) <= FAR and (first, second) != (0, 0)
    return 0 <= arc <= HIGH and 30 <= speed <= 10000 and LOW <= d <= HIGH and start and set(ways) <= {1, -1}


def encoded(code, numbers):
    """Mark, code byte, count of numbers, each number as four bytes, lowest first, two's complement."""
    return b"\xd7\x2b" + code.encode() + bytes([len(numbers)]) + b"".join(n.to_bytes(4, "little", signed=True) for n in numbers)


def decoded(store):
    """The records of a store, end to end from its front."""
    records = []
    while store:
        assert store[:2] == b"\xd7\x2b"
        end = 4 + 4 * store[3]
        numbers = [int.from_bytes(store[i:i + 4], "little", signed=True) for i in range(4, end, 4)]
        records.append((chr(store[2]), tuple(numbers)))
        store = store[end:]
    return records


def stored(records):
    """The bytes of the records for which there is room: at most 1,000 records and 16,384 bytes."""
    store, count = b"", 0
    for code, numbers in records:
        more = encoded(code, numbers)
        if count < 1000 and len(store) + len(more) <= 16384:
            store, count = store + more, count + 1
    return store


def line(code, numbers):
    """Code and numbers with commas, no space, no needless zeros, a carriage return."""
    text = ""
    for i, n in enumerate(numbers):
        size, digits = abs(n), ""
        while size or not digits:
            size, digit = divmod(size, 10)
            digits = "0123456789"[digit] + digits
        text += ("," if i else "") + ("-" if n < 0 else "") + digits
    return code + text + "\r"


def answer(axes, kinds):
    store = stored([(code, numbers) for often, code, numbers, _ in kinds for _ in range(often)])
    records = decoded(store)
    if not all(right(axes, code, numbers) for code, numbers in records):
        return f"refused {ord('G')}\n"
    same = stored(records) == store
    return "".join(line(code, numbers) for code, numbers in records) + "9\r\n" + ("same\n" if same else "differs\n")


def given(axes, kinds):
    lines = [f"{axes} {len(kinds)}"]
    for often, code, numbers, spare in kinds:
        words = (*numbers, *spare) + (0,) * (8 - len(numbers) - len(spare))
        lines.append(" ".join(str(n) for n in (often, ord(code), len(numbers), *words)))
    return "\n".join(lines) + "\n"


def files():
    yield "stdin", f"{len(STORES)}\n" + "".join(given(*s) for s in STORES)
    yield "stdout", "".join(answer(*s) for s in STORES)


def main():
    for name, text in files():
        path = os.path.join(FOLDER, name)
        if sys.argv[1:] == ["--check"]:
            with open(path, newline="") as file:
                if file.read() != text:
                    sys.exit(f"{name} of record_lists differs")
        else:
            with open(path, "w", newline="") as file:
                file.write(text)


main()
