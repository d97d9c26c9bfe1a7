#!/usr/bin/env python3
"""Programs for the check at `9` and for runs (01, "Running a program", paragraph 2; 02 §3 for the records of circles and §7 for those of turntables),
worked out apart from the code.

    python3 tests/vectors/programs.py            writes crates/program_checks/stdin and crates/program_checks/stdout
    python3 tests/vectors/programs.py --check    compares them with what it would write

A program of stdin is a line `used records axes bytes`, in hexadecimal digits, and a line of the store's bytes. A line of stdout is the
verdict: 0, a letter and a place, or G where the store is not readable. A readable store's line goes on with a colon and the places
of the first 40 records that a run makes, then E at the end place, or G where the run ends with G. Of the waits of a run the first
hears another character, the second its own, and so on.

Every rule is taken from 01's sentences by brute force: every pair of ranges is looked at, and for every place all ranges that hold it. Which fault is named is 02's sentence (§1): of all faults the one at the smallest place, and there the earlier letter.
"""
import os
import sys

ROOT = os.path.dirname(os.path.dirname(os.path.dirname(os.path.abspath(__file__))))
FOLDER = os.path.join(ROOT, "crates", "program_checks")

# ---- records: (code, numbers)

NEEDS = {1: 2, 3: 4, 7: 8, 8: 2, 15: 8}


def within(low, number, high):
    return low <= number <= high


def right(axes, code, numbers):
    """A record is right in code, count, ranges and speeds, for the store's axes."""
    if code in "0m":
        if axes not in NEEDS or len(numbers) != NEEDS[axes]:
            return False
        distances, speeds = numbers[0::2], numbers[1::2]
        if not all(within(-8388608, d, 8388607) for d in distances):
            return False
        if code == "m" and axes == 7 and distances[3] != 0:
            return False
        return all(within(30, v, 10000) for v in speeds)
    if code == "n":
        return len(numbers) == 1 and (numbers[0] == 8 or within(1, numbers[0], 7)) and numbers[0] & ~axes == 0
    if code == "z":
        return len(numbers) == 1 and within(0, numbers[0], 1)
    if code == "5":
        return len(numbers) == 1 and within(0, numbers[0], 65535)
    if code == "1":
        return len(numbers) == 1 and within(33, numbers[0], 126)
    if code == "2":
        return len(numbers) == 2 and within(33, numbers[0], 126) and within(-32768, numbers[1], 32767)
    if code == "3":
        if len(numbers) != 2:
            return False
        number, offset = numbers
        if number == 0:
            return within(-32768, offset, 32767)
        return within(1, number, 32767) and within(-32768, offset, -1)
    if code == "e":
        return len(numbers) == 1 and within(0, numbers[0], 2)
    if code == "f":
        return len(numbers) == 1 and within(-1, numbers[0], 0)
    if code == "y":
        return len(numbers) == 7 and right_circle(numbers)
    return False


def right_circle(numbers):
    """Arc length, speed, D, the start on both axes, not the centre, and a direction of 1 or -1 for each."""
    arc, speed, d, start, ways = numbers[0], numbers[1], numbers[2], numbers[3:5], numbers[5:]
    if not (within(0, arc, 8388607) and within(30, speed, 10000) and within(-8388608, d, 8388607)):
        return False
    return any(start) and all(within(-4000000, s, 4000000) for s in start) and all(abs(w) == 1 for w in ways)


def encoded(records):
    out = b""
    for code, numbers in records:
        out += bytes([0xD7, 0x2B, ord(code), len(numbers)])
        for number in numbers:
            out += (number % 2**32).to_bytes(4, "little")
    return out


def decoded(axes, count, data):
    """The records of the part in use, or None if it is not exactly that many, each right."""
    records, at = [], 0
    for _ in range(count):
        if data[at : at + 2] != b"\xd7\x2b" or len(data) < at + 4:
            return None
        code, size = chr(data[at + 2]), data[at + 3]
        body = data[at + 4 : at + 4 + 4 * size]
        if len(body) != 4 * size:
            return None
        numbers = [int.from_bytes(body[k : k + 4], "little", signed=True) for k in range(0, 4 * size, 4)]
        if not right(axes, code, numbers):
            return None
        records.append((code, numbers))
        at += 4 + 4 * size
    return records if at == len(data) else None


# ---- the check at `9`


def faults(records):
    """Every fault as its place and letter, each condition by itself. A range that starts below 0 holds places as any other."""
    end = len(records)
    ranges = {i: (i + v[1], i) for i, (code, v) in enumerate(records) if code == "3" and v[0] != 0}
    ways = {p: p + v[1] for p, (code, v) in enumerate(records) if code == "2" or (code == "3" and v[0] == 0)}
    holders = [{i for i, (low, high) in ranges.items() if within(low, p, high)} for p in range(end)] + [set()]
    found = set()
    for p, to in ways.items():
        if not within(0, to, end):
            found.add((p, "a"))
        elif holders[p] != holders[to]:
            found.add((p, "e"))
    for i, (low, _) in ranges.items():
        if low < 0:
            found.add((i, "b"))
        for j in ranges:
            if crossing(ranges[i], ranges[j]):
                found.add((max(i, j), "c"))
    return found | {(p, "d") for p in range(end) if len(holders[p]) > 7}


def crossing(one, other):
    """Two ranges, each from its first place to its last, have a place in common, and each has one that the other has not."""
    (a, b), (c, d) = one, other
    common = (max(a, c), min(b, d))
    return common[0] <= common[1] and common not in (one, other)


def verdict(records):
    """0, or the letter and the place of the fault that is named."""
    found = faults(records)
    return "%s %d" % min(found)[::-1] if found else "0"


# ---- a run


def trace(records, most=40):
    end, place, open_loops, heard, out = len(records), 0, [], False, []
    for _ in range(most):
        if place == end:
            out.append("E")
            break
        out.append(str(place))
        code, numbers = records[place]
        if code not in "23":
            place += 1
            continue
        to = place + numbers[1]
        if not within(0, to, end):
            out.append("G")
            break
        if code == "2":
            place, heard = (to if heard else place + 1), not heard
        elif numbers[0] == 0:
            place = to
        elif open_loops and open_loops[-1][0] == place:
            if open_loops[-1][1] == 0:
                open_loops.pop()
                place += 1
            else:
                open_loops[-1][1] -= 1
                place = to
        elif len(open_loops) == 7:
            out.append("G")
            break
        else:
            open_loops.append([place, numbers[0] - 1])
            place = to
    return " ".join(out)


# ---- the programs

CASES = []


def case(records, axes=7, used=None, count=None, spoil=None, pad=b""):
    """A store of these records; `spoil` sets bytes, and `used` and `count` may lie."""
    data = bytearray(encoded(records))
    for at, byte in (spoil or {}).items():
        data[at] = byte
    assert len(data) + len(pad) <= 16384, "more than the program reads"
    used = len(data) if used is None else used
    count = len(records) if count is None else count
    data += pad
    found = decoded(axes, count, bytes(data[:used]))
    line = "G"
    if found is not None:
        line = (verdict(found) if count <= 1000 else "G") + ": " + trace(found)
    CASES.append(("%04x %04x %02x %04x" % (used, count, axes, len(data)), bytes(data).hex(), line))


def loop(number, offset):
    return ("3", [number, offset])


def jump(offset):
    return ("3", [0, offset])


def wait(offset, character=65):
    return ("2", [character, offset])


X = ("z", [1])
SEND = ("1", [65])
DELAY = ("5", [3])
MOVE1 = ("0", [10, 600])
MOVE3 = ("m", [10, 600, -5, 900])
MOVE7 = ("0", [1, 600, 2, 600, 3, 600, 4, 600])
PLANE = ("e", [2])
TURN = ("f", [-1])
CIRCLE = ("y", [4, 600, 0, 2, 0, -1, 1])
# numbers that would lead far away, were their record a jump, a wait or a loop
JUMPLIKE = ("y", [0, 9999, 0, -3, 3, 1, 1])
LOOPLIKE = ("y", [65, 30, -1, -1, -1, -1, -1])


def faults_at_their_edges():
    # a: targets at place 0, at the end place and one past each
    for make in (jump, wait):
        case([make(0)])
        case([make(1)])
        case([make(2)])
        case([make(-1)])
        case([X, make(-1)])
        case([X, make(-2)])
        case([X, make(1)])
        case([X, make(2)])
        case([make(2), X])
        case([make(3), X])
        case([X, X, make(-32768)])
        case([X, X, make(32767)])
    # b: a range starts at 0 and one below
    case([X, loop(2, -1)])
    case([loop(2, -1)])
    case([X, loop(2, -2)])
    case([X, X, X, loop(1, -3)])
    case([X, X, X, loop(1, -4)])
    case([X, loop(32767, -32768)])
    # c: ranges that touch, overlap, nest, with equal starts
    case([X, loop(25, -1), loop(2, -1)])
    case([X, loop(25, -1), X, loop(2, -1)])
    case([X, X, loop(2, -1), loop(2, -2)])
    case([X, X, loop(2, -1), loop(2, -3)])
    case([X, loop(1, -1), loop(1, -2)])
    case([X, loop(1, -1), loop(1, -2), loop(1, -3)])
    case([X, X, X, loop(1, -2), loop(1, -2)])
    case([X, X, X, loop(1, -3), loop(1, -2)])
    case([X, X, loop(1, -2), X, loop(1, -3)])
    case([X, X, loop(1, -1), X, loop(1, -3)])
    # d: six, seven, eight and nine ranges over one place
    for depth in (6, 7, 8, 9):
        case([X] + [loop(1, -k) for k in range(1, depth + 1)])
    case([X] * 7 + [loop(1, -2 * k) for k in range(1, 8)])
    case([X] * 8 + [loop(1, -2 * k) for k in range(1, 9)])
    # e: into, out of, within, to the start, to the loop's own record, to the end
    for make in (jump, wait):
        case([make(1), X, loop(1, -1)])
        case([make(2), X, loop(1, -1)])
        case([make(3), X, loop(1, -1)])
        case([X, make(1), loop(1, -2)])
        case([X, make(2), loop(1, -2)])
        case([X, make(-1), loop(1, -2)])
        case([X, make(-1), loop(1, -1)])
        case([X, X, make(1), loop(1, -2), X])
        case([X, X, make(2), loop(1, -2), X])
        case([X, X, loop(1, -1), make(-1)])
        case([X, X, loop(1, -1), make(-2)])
        case([X, make(2), loop(1, -1), loop(1, -3)])
        case([make(1), make(2), loop(1, -1), loop(1, -3)])
        case([X, X, make(0), loop(3, -1)])
    # several faults: the smallest place, and at one place the earlier letter
    case([jump(9), loop(1, -9)])
    case([loop(1, -9), jump(9)])
    case([X, loop(1, -1), loop(1, -1), jump(9)])
    case([X, jump(5), loop(1, -2)])
    case([X] + [loop(1, -k) for k in range(1, 9)] + [jump(9)])
    case([jump(1)] + [loop(1, -k) for k in range(1, 9)])


def runs():
    case([])
    case([X, loop(25, -1)])
    case([X, loop(1, -1), SEND])
    # a loop entered twice by falling through: the inner one runs anew in each pass of the outer
    case([X, loop(2, -1), X, loop(1, -3)])
    case([X, loop(1, -1), loop(2, -2)])
    case([X, X, loop(1, -1), loop(1, -2), loop(1, -4)])
    case([X, loop(1, -1), loop(1, -2), loop(1, -3), loop(1, -4), loop(1, -5), loop(1, -6), loop(1, -7)])
    case([jump(5), X, X, X, X, SEND])
    case([wait(2), SEND, wait(-2), SEND, wait(-4)])
    case([X, wait(-1), loop(3, -2), SEND])
    case([jump(2), jump(0), jump(-1)])
    case([DELAY, MOVE7, SEND, loop(3, -3)])
    # an eighth loop opens in a run of a program that the check refuses
    case([X] + [loop(1, -k) for k in range(1, 10)])


def stores():
    base = [X, loop(2, -1), jump(1), SEND]
    for at, byte in ((0, 0xD6), (1, 0x2C), (2, 57), (3, 2), (3, 0), (8, 0xD6), (10, 52), (11, 3), (12, 0), (19, 0x7F)):
        case(base, spoil={at: byte})
    whole = len(encoded(base))
    case(base, used=whole - 1)
    case(base, used=whole + 1, pad=b"\0")
    case(base, used=whole, pad=b"\xd7\x2b")
    case(base, count=3)
    case(base, count=5)
    case(base, count=0)
    case([], used=1, pad=b"\0")
    for number, offset in ((32767, -1), (32768, -1), (1, 0), (1, -32768), (1, -32769), (-1, -1), (0, 32767), (0, 32768), (0, -32769)):
        case([X, loop(number, offset)])
    for character, offset in ((33, 0), (32, 0), (126, 0), (127, 0), (65, 32768), (65, -32769)):
        case([wait(offset, character)])
    for axes in (0, 1, 2, 3, 7, 8):
        case([MOVE1], axes=axes)
        case([MOVE3], axes=axes)
        case([X, jump(-1)], axes=axes)
    case([("n", [4])], axes=3)
    case([("n", [3])], axes=3)
    # numbers that hold the bytes of a mark
    case([("5", [0x2BD7]), loop(1, -1), ("5", [0xD7]), jump(0x2B - 0x2B)])


def circles():
    """Records of circles: passed as any other, whatever their numbers, and held by ranges as any other."""
    rows = (PLANE, TURN, CIRCLE), (JUMPLIKE, LOOPLIKE, TURN), (("e", [0]), JUMPLIKE, ("f", [0]))
    for row in rows:
        case([*row])
        case([*row, loop(2, -3)])
        case([*row, loop(2, -4)])
        case([row[0], row[1], loop(1, -1), row[2], loop(1, -2)])
        case([row[0], loop(1, -1), row[1], loop(1, -1), row[2], loop(1, -5)])
        for make in (jump, wait):
            case([make(2), *row])
            case([make(4), *row])
            case([make(5), *row])
            case([*row, make(-3)])
            case([*row, make(-4)])
            case([row[0], make(1), row[1], loop(1, -1), row[2]])
            case([row[0], make(2), row[1], row[2], loop(1, -4)])
    for depth in (7, 8):
        case([CIRCLE] + [loop(1, -k) for k in range(1, depth + 1)])
    for axes in (0, 1, 2, 3, 7, 8):
        case([PLANE, TURN, CIRCLE], axes=axes)
    # a store full of circles, and one with a jump over them all
    case([CIRCLE] * 512)
    case([CIRCLE] * 511 + [jump(-511), X])


def circles_out_of_range():
    """Each number of a plane, a direction and a circle at both ends of its range and one past them, and other counts."""
    def changed(at, number):
        return ("y", CIRCLE[1][:at] + [number] + CIRCLE[1][at + 1 :])

    for code, numbers in (("e", (-1, 0, 2, 3)), ("f", (-2, -1, 0, 1))):
        for number in numbers:
            case([X, (code, [number]), SEND])
        case([(code, [])])
        case([(code, [0, 0])])
    ends = (-1, 0, 8388607, 8388608), (29, 30, 10000, 10001), (-8388609, -8388608, 8388607, 8388608)
    ends += ((-4000001, -4000000, 4000000, 4000001),) * 2 + ((-2, -1, 1, 2, 0),) * 2
    for at, numbers in enumerate(ends):
        for number in numbers:
            case([changed(at, number)])
    for first, second in ((0, 0), (0, 1), (0, -4000000), (-1, 0), (4000000, -4000000)):
        case([("y", [4, 600, 0, first, second, 1, -1])])
    for count in (0, 1, 2, 6, 8):
        case([("y", (CIRCLE[1] + [1])[:count])])
    for code in "EFY":
        case([(code, {"E": [0], "F": [-1], "Y": CIRCLE[1]}[code])])
    # a byte of a mark, a code, a count and a number
    for at, byte in ((8, 0), (10, 0x59), (10, 0x65), (11, 8), (15, 0x80), (23, 0x7F), (32, 0), (36, 0)):
        case([PLANE, CIRCLE, SEND], spoil={at: byte})


def turntables():
    """02 §7: programs under A alone and under four axes, checked and run as any other."""
    alone = ("0", [5, 600]), ("m", [-5, 900]), ("n", [8])
    beside = MOVE7, ("m", [1, 600, 2, 600, 3, 600, -4, 600]), ("n", [8])
    for axes, row in ((8, alone), (15, beside)):
        case([*row, CIRCLE, X, SEND, DELAY, PLANE, TURN], axes=axes)
        case([*row, loop(2, -3), wait(-4), jump(1)], axes=axes)
        case([*row, loop(2, -4)], axes=axes)
        case([row[0], row[1], loop(1, -1), row[2], loop(1, -2)], axes=axes)
        for make in (jump, wait):
            case([make(4), *row], axes=axes)
            case([make(5), *row], axes=axes)
            case([*row, make(-4)], axes=axes)
            case([row[0], make(2), row[1], row[2], loop(1, -4)], axes=axes)
            case([make(1), row[0], row[1], loop(1, -2)], axes=axes)
        for depth in (7, 8):
            case([row[1]] + from_one_place(depth), axes=axes)
        # under the axes of the others, and under none that are allowed
        for other in (0, 1, 2, 3, 4, 5, 6, 7, 8, 9, 14, 15, 16, 255):
            for record in row[:2]:
                case([X, record], axes=other)
        case([row[1]] * (1000 if axes == 8 else 455), axes=axes)
    for axes in (2, 4, 5, 6, 9, 14, 16):
        case([X, SEND, loop(1, -2), CIRCLE], axes=axes)
        case([X, jump(2)], axes=axes)


def turntables_out_of_range():
    """Which axes an n names, counts of numbers, and the ranges of A's number and speed."""
    for axes in (1, 3, 7, 8, 15):
        for n in (*range(-1, 17), 24, 128, -8):
            case([X, ("n", [n])], axes=axes)
        for count in range(9):
            for code in "0m":
                case([(code, ([0, 600] * 4)[:count])], axes=axes)
    case([("n", [])], axes=8)
    case([("n", [8, 8])], axes=15)
    for axes in (8, 15):
        rest = [0, 600] * (NEEDS[axes] // 2 - 1)
        for a, speed in ((-8388609, 600), (-8388608, 600), (8388607, 600), (8388608, 600), (1, 29), (1, 30), (1, 10000), (1, 10001), (0, 29)):
            for code in "0m":
                case([X, (code, rest + [a, speed])], axes=axes)
    for a in (-1, 0, 1, 8388607):
        for axes in (7, 15):
            case([("m", [0, 600] * 3 + [a, 600])], axes=axes)
            case([("0", [0, 600] * 3 + [a, 600])], axes=axes)
    # a byte of a code, a count, a speed and an n
    for at, byte in ((2, 0x4D), (3, 4), (9, 40), (14, 0x4E), (15, 0), (16, 9), (16, 0), (17, 1)):
        case([("m", [7, 600]), ("n", [8]), SEND], axes=8, spoil={at: byte})


def full():
    # 1,000 records: 124 times seven nested loops with a record in front, then jumps to the end
    block = [X] + [loop(1, -k) for k in range(1, 8)]
    tail = [jump(1000 - p) for p in range(992, 1000)]
    case(block * 124 + tail)
    case(block * 124 + tail[:-1] + [jump(2)])
    case([jump(1)] * 1000)
    case([jump(1)] * 1001)


def from_one_place(count, first=1):
    """So many loops one behind the other that all start at the same place, `first` records before the first of them."""
    return [loop(1, -back) for back in range(first, first + count)]


# A few records with a fault of each letter, wherever they stand; the range of b holds all that stands before it.
FAULTY = {
    "a": [[jump(2000)], [X, wait(-2000)]],
    "b": [[X, loop(1, -2000)]],
    "c": [[X, loop(1, -1), loop(1, -1)], [X, X, loop(1, -2), X, loop(1, -3)]],
    "d": [[X] + from_one_place(8)],
    "e": [[jump(1), X, loop(1, -1)], [X, loop(1, -1), wait(-1)]],
}


def letters_at_different_places():
    """Each fault alone, in front of each other one, and around one."""
    for one in "abcde":
        for records in FAULTY[one]:
            case(records)
            case([X, SEND] + records + [X])
        for other in "abcde":
            case(FAULTY[one][0] + FAULTY[other][-1])
            case([SEND] + FAULTY[one][-1] + [X] + FAULTY[other][0])
    # three letters, the first of them in the middle, inside a loop, and at the end
    case([X] + FAULTY["e"][0] + FAULTY["c"][0] + FAULTY["a"][0])
    case([X] + FAULTY["a"][0] + [X, loop(1, -3)] + FAULTY["d"][0])
    case(FAULTY["c"][1] + FAULTY["e"][1] + FAULTY["b"][0])
    # c at the later of two loops, of three, and of two pairs
    case([X, X, loop(1, -2), X, loop(1, -1), X, loop(1, -5)])
    case([X, X, loop(1, -1), loop(1, -1), loop(1, -4)])
    case([X, X, X, loop(1, -3), loop(1, -2), loop(1, -4)])
    case([X, X, X, loop(1, -1), loop(1, -3), loop(1, -2)])
    case([X, loop(1, -1), loop(1, -1), X, loop(1, -1), loop(1, -1)])
    case([X, X, loop(1, -1), X, loop(1, -1), loop(1, -3)])
    # d where no loop is, where one is, and at the first place that all eight hold
    case([X] * 8 + [loop(1, -k) for k in range(1, 17, 2)])
    case([X, SEND, loop(1, -1)] + from_one_place(7, 3))
    case([X, X, loop(1, -1)] + from_one_place(7))
    case([X, loop(1, -1)] + from_one_place(6, 2) + [X, loop(1, -9)])


def letters_at_one_place():
    """Where one place has two faults the earlier letter is named: a with d, b with d, c with d, d with e, b with c behind b."""
    deep = from_one_place(8)
    for front in ([], [X], [X, SEND, X]):
        for make in (jump, wait):
            case(front + [make(100)] + deep)
            case(front + [make(-100)] + deep)
            case(front + [make(9)] + deep)
            case(front + [make(2)] + deep)
            case(front + [make(0)] + deep)
        case(front + [X, loop(1, -50)] + from_one_place(7))
        case(front + [X, loop(1, -1), loop(1, -1)] + from_one_place(7))
        case(front + [X, loop(1, -50), loop(1, -40), jump(-1)])
    case([loop(1, -1)] + from_one_place(7))
    for make in (jump, wait):
        case([X, make(1), X, loop(1, -1)] + from_one_place(7, 3))
        case([make(2), loop(1, -1)])
        case([make(3), loop(1, -1)])
        case([make(-1), loop(1, -1)])


def ranges_below_zero():
    """A range that starts below 0 holds the places from 0 to its own."""
    for make in (jump, wait):
        case([make(3), X, loop(1, -5)])
        case([make(2), X, loop(1, -5)])
        case([make(1), X, loop(1, -3)])
        case([make(3), X, loop(1, -32768), X])
        case([X, make(2), loop(1, -3), loop(1, -4)])
        case([X, loop(1, -2), make(-1)])
    for count in (6, 7, 8):
        case([X] + from_one_place(count, 2))
        case([X] + from_one_place(7) + [loop(1, -9)] * (count - 6))
        case([X, X] + from_one_place(count - 1) + [loop(1, -20)])


class Dice:
    """Numbers from a seed, the same everywhere."""

    def __init__(self, seed):
        self.state = seed

    def roll(self, n):
        self.state = (self.state * 6364136223846793005 + 1442695040888963407) % 2**64
        return (self.state >> 33) % n


def thrown(dice, most, loops, plain):
    """A program at random; of ten records about so many are loops. Most offsets stay inside, or leave it by one. The others are plain."""
    size = 3 + dice.roll(most - 2)
    records = []
    for p in range(size):
        kind = dice.roll(10)
        if kind < loops and p > 0:
            back = 1 + dice.roll(p + (dice.roll(8) == 0))
            records.append(loop(1 + dice.roll(3), -back))
        elif kind < loops + 3:
            to = dice.roll(size + 1) if dice.roll(6) else (-1, size + 1)[dice.roll(2)]
            records.append((jump, wait)[dice.roll(2)](to - p))
        else:
            records.append(plain[dice.roll(len(plain))])
    return records


def at_random(seed, most, loops, letters, each, plain=(X, SEND, DELAY)):
    """Programs at random until there are so many for each named letter, with two letters or more among the faults; 0 stands for none."""
    dice = Dice(seed)
    room = dict.fromkeys(letters, each)
    while any(room.values()):
        records = thrown(dice, most, loops, plain)
        found = faults(records)
        named = verdict(records)[0]
        several = len({letter for _, letter in found}) > 1
        if room.get(named, 0) and (several or named == "0" and any(code in "23" for code, _ in records)):
            room[named] -= 1
            case(records)


def random_programs():
    at_random(1, 9, 4, "0abce", 10)
    at_random(2, 24, 3, "abce", 6)
    at_random(3, 26, 7, "d", 12)
    at_random(4, 12, 4, "0abce", 3, (PLANE, TURN, CIRCLE, JUMPLIKE, LOOPLIKE))


def far_ends():
    """1,000 records: without loops, seven deep, and with a fault at the last place where it can be."""
    case([jump(1)] * 999 + [jump(2)])
    case([X] + [jump(-1)] * 999)
    case([X] * 999 + [wait(-999)])
    case([X] * 999 + [wait(-1000)])
    case([X] * 999 + [loop(1, -999)])
    case([X] * 999 + [loop(1, -1000)])
    case([X] * 998 + [loop(1, -998), loop(1, -1)])
    case([X, loop(1, -1)] * 499 + [X, loop(1, -2)])
    case([X] * 993 + from_one_place(7, 993))
    case([X] * 992 + from_one_place(8))
    case([X] * 992 + [loop(1, -1)] + from_one_place(7))
    case([X] * 998 + [loop(1, -1), jump(-1)])
    case([wait(1000)] + [X] * 998 + [jump(-999)])
    case([wait(999)] + [X] * 998 + [loop(1, -998)])


def main():
    faults_at_their_edges()
    runs()
    stores()
    full()
    letters_at_different_places()
    letters_at_one_place()
    ranges_below_zero()
    random_programs()
    far_ends()
    circles()
    circles_out_of_range()
    turntables()
    turntables_out_of_range()
    made = {
        "stdin": "".join("%s\n%s\n" % (head, data) for head, data, _ in CASES),
        "stdout": "".join("%s\n" % line for _, _, line in CASES),
    }
    bad = False
    for name, text in made.items():
        path = os.path.join(FOLDER, name)
        if sys.argv[1:] == ["--check"]:
            same = os.path.exists(path) and open(path, encoding="ascii", newline="").read() == text
            bad = bad or not same
            print("%s: %s" % (name, "as committed" if same else "DIFFERS"))
        else:
            with open(path, "w", encoding="ascii", newline="") as out:
                out.write(text)
    print("%d programs" % len(CASES))
    sys.exit(1 if bad else 0)


if __name__ == "__main__":
    main()
