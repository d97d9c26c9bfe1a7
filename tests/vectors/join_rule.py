"""The rule of joins (02, §4 and §6) and what of 01 and of 02, §3 and §7 it rests on, worked out apart from the code, for
tests/vectors/joins.py.

A program is a list of records, each a list of its code and its numbers. What a loop repeats is a set of places, and by these sets a
program is accepted or not. Each clause of the request is a method of `Join`.
"""
import itertools
import struct
from collections import namedtuple

ROOM, MANY = 16384, 1000  # bytes and records of a store
NUMBERS = {1: 2, 3: 4, 7: 8, 8: 2, 15: 8}  # of a movement, by the axes; 8 is A alone, 15 is A beside x, y and z

# what stands in a line: `store` are the bytes that it gives, and those behind them are 0
Part = namedtuple("Part", "used records axes store")

# what is lent: the bytes of both stores, and the entries of the first's table
Lent = namedtuple("Lent", "first second table")
WHOLE = Lent(ROOM, ROOM, MANY)


# ---- 01: records as bytes, and back

def stored(records):
    """Mark, code, count of numbers, each number as four bytes, lowest first."""
    return b"".join(b"\xd7+" + code.encode() + struct.pack("<B%di" % len(numbers), len(numbers), *numbers) for code, *numbers in records)


def in_range(low, number, high):
    return low <= number <= high


def is_right(axes, code, numbers):
    """Code, count of numbers, ranges and speeds, for the axes of the store."""
    if code in ("0", "m"):
        ways, speeds = numbers[::2], numbers[1::2]
        return (len(numbers) == NUMBERS.get(axes) and all(in_range(-(2**23), way, 2**23 - 1) for way in ways)
                and all(in_range(30, speed, 10000) for speed in speeds) and not (code == "m" and axes == 7 and any(ways[3:])))
    if code == "3" and len(numbers) == 2:
        return in_range(0, numbers[0], 32767) and in_range(-32768, numbers[1], -1 if numbers[0] else 32767)
    if code == "2" and len(numbers) == 2:
        return in_range(33, numbers[0], 126) and in_range(-32768, numbers[1], 32767)
    if code == "y" and len(numbers) == 7:
        return is_circle(*numbers)
    if code not in ("n", "z", "5", "1", "e", "f") or len(numbers) != 1:
        return False
    (number,) = numbers
    low, high = {"n": (1, 8), "z": (0, 1), "5": (0, 65535), "1": (33, 126), "e": (0, 2), "f": (-1, 0)}[code]
    return in_range(low, number, high) and (code != "n" or number | axes == axes)


def is_circle(arc, speed, unused, x, y, *ways):
    """Its numbers: the two starts are not both 0, and the two ways are 1 or -1."""
    return (in_range(0, arc, 2**23 - 1) and in_range(30, speed, 10000) and in_range(-(2**23), unused, 2**23 - 1)
            and in_range(-4000000, x, 4000000) and in_range(-4000000, y, 4000000) and bool(x or y) and all(way * way == 1 for way in ways))


def read(part, axes):
    """The records of the part in use; None where it is not exactly its count of records, each right for the axes."""
    if part.used > ROOM or part.records > MANY:
        return None
    left, records = part.store.ljust(ROOM, b"\0")[: part.used], []
    while left:
        size = 4 + 4 * left[3] if len(left) > 3 else 4
        if left[:2] != b"\xd7+" or len(left) < size:
            return None
        code, numbers = chr(left[2]), list(struct.unpack("<%di" % left[3], left[4:size]))
        if not is_right(axes, code, numbers):
            return None
        records.append([code, *numbers])
        left = left[size:]
    return records if len(records) == part.records else None


# ---- 01: whether a program is accepted, by sets of places

def repeated(records):
    """The places that each loop repeats, its own among them."""
    return {place: set(range(place + record[2], place + 1)) for place, record in enumerate(records) if record[0] == "3" and record[1] > 0}


def targets(records, codes="23"):
    """Where each jump and each wait leads."""
    return {place: place + record[2] for place, record in enumerate(records) if record[0] in codes and (record[0] == "2" or record[1:2] == [0])}


def is_accepted(records):
    places, ranges = set(range(len(records))), repeated(records)
    around = {place: {loop for loop, held in ranges.items() if place in held} for place in [*places, len(records)]}
    return (all(held <= places for held in ranges.values())
            and all(one <= other or other <= one or not one & other for one, other in itertools.combinations(ranges.values(), 2))
            and all(len(loops) <= 7 for loops in around.values())
            and all(to in around and around[to] == around[place] for place, to in targets(records).items()))


# ---- 02, §4 and §6

def starts(part):
    """Where each record of a program starts: it takes four bytes, and four for each of its numbers."""
    store, found, at = part.store.ljust(part.used + 4, b"\0"), [], 0
    while at < part.used:
        found.append(at)
        at += 4 + 4 * store[at + 3]
    return found


class Join:
    def empty(self, part):
        return part.records == 0

    def axes(self, part, other):
        """Those that a program counts as of: an empty one has the other's, where that one is not empty."""
        return other.axes if self.empty(part) and not self.empty(other) else part.axes

    def same_axes(self, first, second):
        return self.axes(first, second) == self.axes(second, first)

    def allowed(self, axes):
        return axes in NUMBERS

    def both_accepted(self, first, second):
        """By their records."""
        return is_accepted(first) and is_accepted(second)

    def leads_out(self, records):
        return len(records) in targets(records).values()

    def starts_first(self, records):
        return any(min(held) == 0 for held in repeated(records).values())

    def enters(self, first, second):
        """A jump or wait of the first would lead into a loop of the second."""
        return self.leads_out(first) and self.starts_first(second)

    def has_room(self, first, second):
        return first.records + second.records <= MANY and first.used + second.used <= ROOM

    def put(self, first, second):
        """The bytes of both."""
        return first.store[: first.used] + second.store[: second.used]

    def table(self, first, second):
        """Where each record starts: the first's where they were, the second's behind the first's bytes."""
        return [*starts(first), *(first.used + at for at in starts(second))]

    def stores_wrong(self, lent):
        return "102" if (lent.first, lent.second) != (ROOM, ROOM) else ""

    def table_wrong(self, lent):
        return "104" if lent.table != MANY else ""

    def lent_wrong(self, lent):
        return self.stores_wrong(lent) or self.table_wrong(lent)

    def axes_wrong(self, first, second):
        return "3" if not (self.same_axes(first, second) and self.allowed(self.axes(first, second))) else ""

    def programs_wrong(self, first, second):
        if not self.allowed(self.axes(first, second)) or not self.allowed(self.axes(second, first)):
            return "G"
        one, other = read(first, self.axes(first, second)), read(second, self.axes(second, first))
        return "G" if one is None or other is None or not self.both_accepted(one, other) or self.enters(one, other) else ""

    def room_wrong(self, first, second):
        return "6" if not self.has_room(first, second) else ""

    order = (axes_wrong, programs_wrong, room_wrong)

    def result(self, first, second):
        return Part(first.used + second.used, first.records + second.records, self.axes(first, second), self.put(first, second))

    def answer(self, first, second, lent=WHOLE):
        refusals = [self.lent_wrong(lent), *(rule(self, first, second) for rule in self.order)]
        joined = f"0 {fields(self.result(first, second))} {entries(self.table(first, second))}"
        return next((refusal for refusal in refusals if refusal), joined)


def fields(part):
    return f"{part.used} {part.records} {part.axes} {part.store.hex() or '-'}"


def entries(table):
    return ",".join(map(str, table)) or "-"
