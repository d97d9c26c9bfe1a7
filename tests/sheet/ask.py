#!/usr/bin/env python3
"""A slow third opinion on the program `ask`: reads its lines as trial/README.md, "ask", says and prints the same answers.

A float is an exact fraction here, from its bits by hand, and each operation is rounded to the nearest one by hand too. Whole
numbers have no bounds, so that nothing can overflow. A program is a list of its records, the range of a loop the set of its
places, and the check compares such sets.
"""
import os
import re
import struct
import sys
from fractions import Fraction
from itertools import combinations

sys.path.insert(0, os.path.join(os.path.dirname(os.path.abspath(__file__)), os.pardir, "vectors"))
from sheet import nearest_float

LONGEST = 70000


class Unreadable(Exception):
    """A line that is answered with `?`."""


# ---- lines and their fields

def lines(data):
    """What stands before each line feed, less one carriage return right before it; behind the last one, what there is."""
    *ended, rest = data.split(b"\n")
    for line in ended:
        yield line[:-1] if line.endswith(b"\r") else line
    if rest:
        yield rest


def real(field):
    """The exact value of a float; None for an infinity and for what is no number."""
    if not re.fullmatch(rb"[0-9a-f]{16}", field):
        raise Unreadable
    bits = int(field, 16)
    exponent, part = bits >> 52 & 2047, bits % 2**52
    if exponent == 2047:
        return None
    size = (part + 2**52 if exponent else part) * Fraction(2) ** (max(exponent, 1) - 1075)
    return -size if bits >> 63 else size


def integer(field):
    if not re.fullmatch(rb"-?[0-9]{1,19}", field) or not -2**63 <= int(field) < 2**63:
        raise Unreadable
    return int(field)


# ---- chain LEAD STEPS GEAR n t1 .. tm

def steps(mm, lead, turn, gear):
    """The distance formula of the sheet, each operation rounded once, then the nearest whole number, halves away from zero."""
    exact = nearest_float(nearest_float(nearest_float(mm / lead) * turn) * gear)
    size = (2 * abs(exact) + 1) // 2
    return int(size if exact > 0 else -size)


def chain(fields):
    if len(fields) < 4:
        raise Unreadable
    axis = [real(field) for field in fields[:3]]
    room, *distances = [integer(field) for field in fields[3:]]
    if room < 0:
        raise Unreadable
    if len(distances) > 1000 or room != len(distances):
        return [105]
    if not all(x is not None and Fraction(1, 1000) <= x <= 1000000 for x in axis):
        return [201]
    sums = [sum(distances[:n]) for n in range(1, len(distances) + 1)]
    if not all(abs(total) <= 1000000 * 1000 for total in sums):
        return [202]
    places = [0] + [steps(nearest_float(Fraction(total, 1000)), *axis) for total in sums]
    ways = [there - here for here, there in zip(places, places[1:])]
    if not all(-2**23 <= n < 2**23 for n in places + ways):
        return [203]
    return [0] + ways


# ---- join USED RECORDS AXES HEX USED RECORDS AXES HEX, and lend FIRST SECOND TABLE before these

STORE, MOST, TABLE = 16384, 1000, 1000


def up_to(most, field):
    if not 0 <= integer(field) <= most:
        raise Unreadable
    return integer(field)


def store(field, length):
    if not re.fullmatch(rb"-|([0-9a-f]{2})+", field) or len(field) // 2 > length:
        raise Unreadable
    return bytes.fromhex(field.decode().replace("-", "")).ljust(length, b"\0")


def part(fields, length):
    used, records, axes, hexadecimal = fields
    return up_to(65535, used), up_to(65535, records), up_to(255, axes), store(hexadecimal, length)


def kinds(axes):
    """Under these axes, the kinds of records: code, name, and the numbers allowed at each place."""
    way, speed, offset, character = range(-2**23, 2**23), range(30, 10001), range(-2**15, 2**15), range(33, 127)
    pairs = {1: 1, 3: 2, 7: 4, 8: 1, 15: 4}[axes]
    target = [way, speed] * pairs if axes != 7 else [way, speed] * 3 + [range(1), speed]
    masks = [mask for mask in range(1, 9) if mask | axes == axes]
    left, right, sign = range(-4000000, 0), range(1, 4000001), (1, -1)
    starts = [(u, range(-4000000, 4000001)) for u in (left, right)] + [(range(1), v) for v in (left, right)]
    return [(b"0", "relative", [way, speed] * pairs), (b"m", "absolute", target), (b"n", "origin", [masks]),
            (b"z", "mode", [range(2)]), (b"3", "jump", [range(1), offset]), (b"3", "loop", [range(1, 2**15), range(-2**15, 0)]),
            (b"5", "delay", [range(2**16)]), (b"1", "send", [character]), (b"2", "wait", [character, offset]),
            (b"e", "plane", [range(3)]), (b"f", "direction", [range(-1, 1)])] + [
            (b"y", "arc", [range(2**23), speed, way, u, v, sign, sign]) for u, v in starts]


def program(used, records, axes, data):
    """The records of a readable store, each its kind's name and its offset; None for one that is not readable."""
    found, rest = [], data[:used]
    while rest:
        length = 4 + 4 * rest[3] if len(rest) > 3 else 4
        if rest[:2] != b"\xd7\x2b" or len(rest) < length:
            return None
        numbers = struct.unpack("<%di" % rest[3], rest[4:length])
        fits = [name for code, name, allowed in kinds(axes) if code == rest[2:3] and len(numbers) == len(allowed)
                and all(number in these for number, these in zip(numbers, allowed))]
        if not fits:
            return None
        found.append((fits[0], numbers[-1]))
        rest = rest[length:]
    return found if len(found) == records else None


def ranges(records):
    return [frozenset(range(place + offset, place + 1)) for place, (name, offset) in enumerate(records) if name == "loop"]


def ways(records):
    """The jumps and waits, each its own place and its target."""
    return [(place, place + offset) for place, (name, offset) in enumerate(records) if name in ("jump", "wait")]


def accepted(records):
    places, loops = set(range(len(records))), ranges(records)
    around = {place: {loop for loop in loops if place in loop} for place in places | {len(records)}}
    return (all(loop <= places for loop in loops)
            and all(one & other in (set(), one, other) for one, other in combinations(loops, 2))
            and all(len(around[place]) <= 7 for place in places)
            and all(target in around and around[own] == around[target] for own, target in ways(records)))


def starts(data):
    """Where each record of readable bytes starts: behind the bytes of all before it."""
    lengths = []
    while data:
        lengths.append(4 + 4 * data[3])
        data = data[lengths[-1]:]
    return [sum(lengths[:place]) for place in range(len(lengths))]


def join(fields):
    return lend([b"%d" % STORE, b"%d" % STORE, b"%d" % TABLE] + fields)


def lend(fields):
    if len(fields) != 11:
        raise Unreadable
    lengths = [up_to(right + 1, field) for right, field in zip([STORE, STORE, TABLE], fields)]
    parts = [part(fields[3:7], lengths[0]), part(fields[7:], lengths[1])]
    if lengths[:2] != [STORE, STORE]:
        return [102]
    if lengths[2] != TABLE:
        return [104]
    return joined(parts)


def joined(parts):
    axes = {own for _, records, own, _ in parts if records} or {own for _, _, own, _ in parts}
    if len(axes) != 1 or not axes <= {1, 3, 7, 8, 15}:
        return ["3"]
    axes = axes.pop()
    if any(used > STORE or records > MOST for used, records, _, _ in parts):
        return ["G"]
    lists = [program(used, records, axes, data) for used, records, _, data in parts]
    if None in lists or not all(map(accepted, lists)):
        return ["G"]
    first, second = lists
    enters = len(first) in [target for _, target in ways(first)] and 0 in [min(loop) for loop in ranges(second)]
    assert enters != accepted(first + second), "the rule is not what the check needs"
    if enters:
        return ["G"]
    both = b"".join(data[:used] for used, _, _, data in parts)
    if len(first + second) > MOST or len(both) > STORE:
        return ["6"]
    table = ",".join(map(str, starts(both)))
    return [0, len(both), len(first + second), axes, both.hex() or "-", table or "-"]


QUESTIONS = {b"chain": chain, b"join": join, b"lend": lend}


def answer(line):
    word, *fields = line.split(b" ")
    if len(line) > LONGEST or word not in QUESTIONS:
        return "?"
    try:
        return " ".join(map(str, QUESTIONS[word](fields)))
    except Unreadable:
        return "?"


if __name__ == "__main__":
    for line in lines(sys.stdin.buffer.read()):
        print(answer(line))
