#!/usr/bin/env python3
"""Writes crates/engine_ticks/stdin and stdout: steps on an engine, and every answer of its clock calls by 01's sentences
and those of 02, §3, §6 and §7.

An independent model: signed numbers, quotients, phases cut off pulse by pulse, circles around a centre, a stack of open loops; it knows
neither counts nor words nor the code's jobs. Run in the root of the repository: `python3 tests/vectors/ticks.py` writes both files,
`--check` compares.
"""
import math
import sys

from circle_rule import PLANES, centre, circle_of, reach, refusal, right_arc, turned

LOW, HIGH = -8388608, 8388607
MOST = 131072  # bytes that the program reads
CODES = {ord(c): c for c in "0mnz3512efy"}


# ---- records

def pairs(axes):
    return {1: 1, 3: 2, 7: 4, 8: 1, 15: 4}.get(axes, 0)


def named(axes):
    """What an n may say under the axes: any of x, y and z that are set, or a by itself."""
    return {1: (1,), 3: (1, 2, 3), 7: (1, 2, 3, 4, 5, 6, 7), 8: (8,), 15: (1, 2, 3, 4, 5, 6, 7, 8)}.get(axes, ())


def right(axes, code, numbers):
    """Whether a record is right under the axes: code, count, ranges and speeds."""
    c = CODES.get(code)
    if c is None:
        return False
    if c in "0m":
        n = pairs(axes)
        if n == 0 or len(numbers) != 2 * n:
            return False
        ways, speeds = numbers[0::2], numbers[1::2]
        if c == "m" and axes == 7 and ways[3] != 0:
            return False
        return all(LOW <= d <= HIGH for d in ways) and all(30 <= v <= 10000 for v in speeds)
    if c == "y":
        return len(numbers) == 7 and right_arc(numbers) and 30 <= numbers[1] <= 10000
    if len(numbers) != (2 if c in "32" else 1):
        return False
    a = numbers[0]
    if c == "e":
        return a in (0, 1, 2)
    if c == "f":
        return a in (0, -1)
    if c == "n":
        return a in named(axes)
    if c == "z":
        return a in (0, 1)
    if c == "5":
        return 0 <= a <= 65535
    if c == "1":
        return 33 <= a <= 126
    offset = numbers[1]
    if c == "2":
        return 33 <= a <= 126 and -32768 <= offset <= 32767
    if a == 0:
        return -32768 <= offset <= 32767
    return 1 <= a <= 32767 and -32768 <= offset <= -1


def encoded(code, numbers):
    out = [0xD7, 0x2B, code, len(numbers)]
    for n in numbers:
        out += [(n >> (8 * i)) & 255 for i in range(4)]
    return out


# ---- movement

class Straight:
    """A straight movement under way: the phases to come, each with its distances and speed, and the pulses made of the first one."""

    def __init__(self, phases):
        self.phases, self.made = [p for p in phases if any(p[0])], 0

    def __len__(self):
        return sum(max(abs(d) for d in ds) for ds, _ in self.phases) - self.made

    def pop(self, _):
        ds, speed = self.phases[0]
        n, self.made = max(abs(d) for d in ds), self.made + 1
        steps = [[(2 * k * abs(d) + n) // (2 * n) for k in (self.made - 1, self.made)] for d in ds]
        if self.made == n:
            self.phases, self.made = self.phases[1:], 0
        return [(b - a) * (1 if d > 0 else -1) for (a, b), d in zip(steps, ds)], speed


def pulses(axes, three, absolute, at, origin, numbers):
    """The pulses of a movement, or None where a resting point lies outside 24 bits."""
    numbers = list(numbers) + [0] * (8 - len(numbers))
    ways, speeds = numbers[0::2], numbers[1::2]
    goal = list(at)
    for way, i in zip(ways, {1: (0,), 3: (0, 1), 7: (0, 1, 2), 8: (3,), 15: (0, 1, 2, 3)}[axes]):
        goal[i] = (origin[i] if absolute else at[i]) + way
    distance = x, y, z, a = [g - p for g, p in zip(goal, at)]
    z2 = ways[3] if axes == 7 and not three and not absolute else 0
    if any(not LOW <= p <= HIGH for p in goal + [goal[2] + z2]):
        return None
    if three:
        phases = [(distance, speeds[0])]
    else:
        first, last = speeds[1] if abs(y) > abs(x) else speeds[0], speeds[0] if axes == 8 else speeds[3]
        phases = [([x, y, 0, 0], first), ([0, 0, z, 0], speeds[2]), ([0, 0, z2, a], last)]
    return Straight(phases)


# ---- circles

class Arc:
    """An arc under way: its pulses go by where the axes of its plane stand."""

    def __init__(self, engine, numbers):
        self.engine, self.axes, self.counter = engine, PLANES[engine.plane], engine.counter
        self.left, self.speed, _, x, y, *_ = numbers
        self.value, self.reach = x * x + y * y, reach(x, y)
        self.centre = centre(engine.plane, engine.at, x, y)

    def __bool__(self):
        return self.left > 0

    def point(self):
        return [self.engine.at[i] - c for i, c in zip(self.axes, self.centre)]

    def pop(self, _):
        self.left -= 1
        signs = [0, 0, 0, 0]
        for i, s in zip(self.axes, turned(self.counter, self.value, *self.point())):
            signs[i] = s
        return signs, self.speed

    def sound(self):
        return self.point() != [0, 0] and all(abs(n) <= self.reach for n in self.point())


def arc(engine, axes, numbers):
    """The arc that a circle's line or record gives, or the character that refuses it."""
    refused = refusal(axes, engine.plane, engine.counter, engine.at, numbers)
    return refused or Arc(engine, numbers)


# ---- the engine

class Engine:
    def __init__(self, axes, store, table):
        self.store, self.table = store, table
        self.set_axes(axes)
        self.used, self.records, self.held = 0, 0, 0
        self.stop()

    def set_axes(self, axes):
        self.axes, self.at, self.origin, self.three = axes, [0, 0, 0, 0], [0, 0, 0, 0], False
        self.plane, self.counter = 0, False

    def add_a(self):
        """02, §7: A alone on an unset board, beside three axes where these are set; A is at 0, and all else stays."""
        self.axes = {0: 8, 7: 15, 8: 8, 15: 15}[self.axes]
        self.at[3] = self.origin[3] = 0

    def stop(self):
        self.mode, self.left, self.pauses, self.place, self.loops, self.wait = "idle", [], 0, 0, [], None
        self.due = None

    def runs(self):
        return self.mode in ("direct", "program") and self.wait is None

    def sound(self):
        if isinstance(self.left, Arc) and not self.left.sound():
            return False
        if self.due is not None and self.due != self.at:
            return False
        allowed = (0, 1, 3, 7, 8, 15)
        return self.used <= 16384 and self.records <= 1000 and len(self.loops) <= 7 and self.axes in allowed and self.held in allowed

    def fetch(self):
        """The record at the byte that the table has for the place; None where none can be read, or not the whole of it is in use."""
        part, at = self.store[:min(self.used, len(self.store))], self.table[self.place] if self.place < len(self.table) else 65535
        head = part[at:at + 4]
        if len(head) < 4 or head[:2] != [0xD7, 0x2B] or head[3] > 8 or at + 4 + 4 * head[3] > len(part):
            return None
        numbers = []
        for j in range(head[3]):
            n = int.from_bytes(bytes(part[at + 4 + 4 * j:at + 8 + 4 * j]), "little")
            numbers.append(n - (1 << 32) if n >> 31 else n)
        return (CODES[head[2]], numbers) if right(self.held, head[2], numbers) else None

    def ends(self, byte):
        self.stop()
        if byte == ord("G"):
            self.used = self.records = self.held = 0
        return f"S {byte}"

    def pulse(self):
        """Of a straight movement it is kept where the axes are due, those that rest included: a host may set them elsewhere."""
        signs, speed = self.left.pop(0)
        self.at = [p + s for p, s in zip(self.at, signs)]
        self.due = None if isinstance(self.left, Arc) else list(self.at)
        return "P " + "".join("-.+"[s + 1] for s in signs) + f" {speed}"

    def call(self):
        if not self.runs():
            return "N"
        if self.left:
            return self.pulse()
        if self.mode == "direct":
            return self.ends(ord("0"))
        if self.pauses:
            self.pauses -= 1
            return "W"
        if self.place > self.records:
            return self.ends(ord("G"))
        if self.place == self.records:
            return self.ends(ord("0"))
        found = self.fetch()
        return self.ends(ord("G")) if found is None else self.record(*found)

    def record(self, code, numbers):
        own = self.place
        a = numbers[0]
        self.left, self.due = [], None
        if code in "32":
            return self.turn(code, own, a, own + numbers[1])
        if code in "0my":
            left = arc(self, self.held, numbers) if code == "y" else pulses(self.held, self.three, code == "m", self.at, self.origin, numbers)
            if left is None or isinstance(left, str):
                return self.ends(ord(left or "9"))
            self.place += 1
            self.left = left
            return self.pulse() if left else "D"
        self.place += 1
        if code == "n":
            self.origin = [p if a >> i & 1 else o for i, (p, o) in enumerate(zip(self.at, self.origin))]
        if code == "z":
            self.three = a == 1
        if code == "e":
            self.plane = a
        if code == "f":
            self.counter = a == -1
        if code == "5" and a > 0:
            self.pauses = a - 1
            return "W"
        return f"S {a}" if code == "1" else "D"

    def turn(self, code, own, number, target):
        if not 0 <= target <= self.records:
            return self.ends(ord("G"))
        if code == "2":
            self.place, self.wait = own + 1, (number, target)
        elif number == 0:
            self.place = target
        elif self.loops and self.loops[-1][0] == own:
            self.loops[-1][1] -= 1
            if self.loops[-1][1] < 0:
                self.loops.pop()
                self.place = own + 1
            else:
                self.place = target
        elif len(self.loops) >= 7:
            return self.ends(ord("G"))
        else:
            self.loops.append([own, number - 1])
            self.place = target
        return "D"

    def hear(self, byte):
        if self.wait:
            character, target = self.wait
            self.place = target if byte == character else self.place
            self.wait = None

    def begin(self, absolute, numbers):
        return self.directly(pulses(self.axes, self.three, absolute, self.at, self.origin, numbers))

    def directly(self, left):
        if left is None or isinstance(left, str):
            return ord(left or "9")
        if not left:
            return 48
        self.mode, self.left = "direct", left
        self.due = None if isinstance(left, Arc) else list(self.at)
        return 0

    def shown(self):
        held = [self.used, self.records, self.held]
        modes = [int(self.three), self.plane, -int(self.counter)]
        return "E " + " ".join(str(n) for n in self.at + self.origin + modes + held + [int(self.runs()), int(self.sound())])


# ---- steps: each is a line of eleven numbers, and what it prints

class Script:
    def __init__(self):
        self.store, self.table, self.lines, self.out = [0] * 16384, [0] * 1000, [], []
        self.fresh(0)

    def step(self, kind, *numbers):
        self.lines.append(" ".join(str(n) for n in (kind, *numbers, *[0] * (10 - len(numbers)))))

    def fresh(self, axes):
        self.e = Engine(axes, self.store, self.table)
        self.step(0, axes)

    def fresh_with_a(self, axes):
        """A alone (8), or beside three axes (15)."""
        self.fresh({8: 0, 15: 7}[axes])
        self.axes(8)

    def keep(self, code, *numbers):
        """A record stored as it stands, right or not."""
        c, e = ord(code), self.e
        b = encoded(c, numbers)
        fits = e.records + 1 <= 1000 and e.used + len(b) <= 16384
        if fits:
            self.store[e.used:e.used + len(b)], self.table[e.records] = b, e.used
            e.used, e.records = e.used + len(b), e.records + 1
        self.step(2, c, len(numbers), *numbers)
        self.out.append(f"K {int(fits)}")

    def program(self, *records):
        e = self.e
        self.step(1)
        e.stop()
        e.mode, e.used, e.records, e.held = "storing", 0, 0, e.axes
        for r in records:
            self.keep(*r)
        self.calls(1)
        self.step(3)
        e.stop()

    def start(self):
        self.step(4)
        self.e.stop()
        self.e.mode = "program"

    def calls(self, n):
        self.step(5, n)
        self.out += [self.e.call() for _ in range(n)]

    def hear(self, byte):
        self.step(6, byte)
        self.e.hear(byte)

    def begin(self, absolute, *numbers):
        self.step(7, absolute, 0, *numbers)
        self.out.append(f"B {self.e.begin(absolute == 1, numbers)}")

    def plane(self, number):
        self.step(19, number)
        self.e.plane = number

    def direction(self, number):
        self.step(20, number)
        self.e.counter = number == -1

    def circle(self, *numbers):
        self.step(21, 0, 0, *numbers)
        self.out.append(f"B {self.e.directly(arc(self.e, self.e.axes, numbers))}")

    def tried(self, *numbers):
        """A circle, and its first pulse if it has one."""
        self.circle(*numbers)
        if self.e.mode == "direct":
            self.calls(1)
            self.cease()

    def axes(self, number):
        self.step(22, number)
        if number == 8:
            self.e.add_a()
        else:
            self.e.set_axes(number)

    def poke(self, at, byte):
        self.step(8, at, byte)
        self.store[at] = byte

    def enter(self, place, at):
        self.step(18, place, at)
        self.table[place] = at

    def hold(self, used, records, axes):
        self.step(9, used, records, axes)
        self.e.used, self.e.records, self.e.held = used, records, axes

    def stand(self, place, depth):
        """The next place and the number of open loops altered; what is above the loops open is 0."""
        self.step(10, place, depth)
        e = self.e
        e.place, e.loops = place, (e.loops + [[0, 0] for _ in range(depth)])[:depth]

    def three(self, on):
        self.step(11, on)
        self.e.three = on == 1

    def zero(self, axes):
        self.step(12, axes)
        e = self.e
        e.at = [0 if axes >> i & 1 else p for i, p in enumerate(e.at)]
        e.origin = [0 if axes >> i & 1 else p for i, p in enumerate(e.origin)]

    def mark(self, axes):
        self.step(13, axes)
        e = self.e
        e.origin = [p if axes >> i & 1 else o for i, (p, o) in enumerate(zip(e.at, e.origin))]

    def reset(self):
        self.step(14)
        e = self.e
        if e.mode == "storing":
            e.used = e.records = e.held = 0
        e.stop()
        e.set_axes(0)

    def empty(self):
        self.step(15)
        self.e.used = self.e.records = self.e.held = 0

    def cease(self):
        self.step(3)
        self.e.stop()

    def show(self):
        self.step(17)
        self.out.append(self.e.shown())


def directs(s):
    s.fresh(3)
    for numbers in ((3, 600, 1, 900), (4, 600, -2, 900), (0, 600, 0, 900), (-5, 600, 6, 31)):
        s.begin(0, *numbers)
        s.calls(8)
        s.show()
    s.mark(2)
    s.begin(1, 2, 600, -1, 900)
    s.calls(2)
    s.cease()
    s.calls(1)
    s.show()
    s.zero(1)
    s.begin(0, HIGH, 600, 0, 600)
    s.calls(2)
    s.cease()
    s.begin(0, HIGH, 600, 0, 600)
    s.show()
    s.fresh(7)
    s.begin(0, 1, 600, 2, 700, -2, 800, 1, 900)
    s.calls(7)
    s.begin(1, 1, 600, 2, 700, 3, 800, 0, 900)
    s.calls(6)
    s.three(1)
    s.begin(0, 1, 600, 2, 700, -3, 800, 5, 900)
    s.calls(5)
    s.show()
    s.begin(0, 1, 600, 2, 700, -3, 800, 5, 900)
    s.calls(3)
    s.show()
    s.reset()
    s.show()


def programs(s):
    s.fresh(1)
    s.program()
    s.start()
    s.calls(2)
    s.show()
    s.program(("0", 2, 600), ("5", 3), ("1", 65), ("5", 0), ("5", 1), ("0", 0, 600), ("n", 1), ("m", -1, 700), ("z", 1), ("1", 71))
    s.start()
    s.calls(17)
    s.show()
    s.start()
    s.calls(3)
    s.hear(65)
    s.calls(1)
    s.reset()
    s.show()
    # loops: 26 times; one inside another, entered anew each time; a jump
    s.fresh(1)
    s.program(("1", 33), ("3", 25, -1))
    s.start()
    s.calls(54)
    s.program(("1", 33), ("1", 34), ("3", 2, -1), ("3", 1, -3))
    s.start()
    s.calls(18)
    s.show()
    s.program(("3", 0, 2), ("1", 33), ("1", 34), ("3", 0, 1))
    s.start()
    s.calls(5)
    s.program(("3", 0, 2), ("1", 33))
    s.start()
    s.calls(3)
    s.program(("3", 0, 5), ("1", 33), ("1", 34), ("1", 35), ("1", 36), ("1", 37))
    s.start()
    s.calls(4)
    # waits
    s.program(("2", 65, 2), ("1", 66), ("1", 67), ("2", 68, -2), ("1", 69))
    s.start()
    s.hear(65)
    s.calls(3)
    s.show()
    s.hear(65)
    s.hear(66)
    s.calls(4)
    s.hear(68)
    s.calls(3)
    s.hear(13)
    s.calls(3)
    s.show()
    # 9 keeps the store, and the program starts again
    s.program(("0", HIGH, 600), ("1", 33))
    s.begin(0, 1, 600)
    s.calls(2)
    s.start()
    s.calls(2)
    s.show()
    s.zero(1)
    s.start()
    s.calls(2)
    s.cease()
    s.show()
    # the store's axes and its 3D, not the line's
    s.fresh(7)
    s.program(("0", 1, 600, -2, 700, 2, 800, 1, 900), ("z", 1), ("0", 1, 600, -2, 700, 2, 800, 1, 900), ("z", 0), ("m", 0, 600, 0, 700, 0, 800, 0, 900), ("n", 6))
    s.start()
    s.calls(16)
    s.show()
    s.fresh(3)
    s.hold(60, 2, 7)
    s.start()
    s.calls(7)
    s.show()


def altered(s):
    """What a host altered: mark, code, count, number, the part in use, place, entries of the table, targets, an eighth loop."""
    good = (("1", 33), ("0", 1, 600), ("1", 34))
    for at, byte in ((0, 0xD6), (1, 0x2A), (8, 0xD6), (9, 0), (10, 51), (11, 3), (11, 9), (12, 1), (15, 1), (16, 29), (20, 0), (23, 9), (24, 127)):
        s.fresh(1)
        s.program(*good)
        s.poke(at, byte)
        s.start()
        s.calls(4)
        s.show()
    for used, records, axes in ((27, 3, 1), (8, 3, 1), (0, 3, 1), (28, 4, 1), (28, 2, 1), (28, 3, 3), (28, 3, 0), (28, 3, 7), (16385, 3, 1), (28, 1001, 1), (28, 3, 2), (65535, 65535, 1)):
        s.fresh(1)
        s.program(*good)
        s.hold(used, records, axes)
        s.start()
        s.show()
        s.calls(5)
        s.show()
    for place, depth in ((3, 0), (4, 0), (65535, 0), (2, 0), (2, 7), (1, 8), (1, 255)):
        s.fresh(1)
        s.program(*good)
        s.start()
        s.stand(place, depth)
        s.show()
        s.calls(3)
        s.show()
    # no record before the place is read
    for at, place in ((0, 2), (11, 2), (20, 1), (20, 2)):
        s.fresh(1)
        s.program(*good)
        s.poke(at, 9)
        s.start()
        s.stand(place, 0)
        s.calls(3)
        s.show()
    # entries past the count: one of a longer program before, one that was never written
    for place in (8, 12):
        s.fresh(1)
        s.program(*good)
        s.hold(28, 13, 1)
        s.start()
        s.stand(place, 0)
        s.calls(2)
        s.show()
    for place, at in ((0, 8), (1, 0), (1, 20), (1, 24), (2, 8), (2, 0), (1, 9), (1, 12), (2, 28), (2, 27), (1, 65535), (3, 0), (999, 0)):
        s.fresh(1)
        s.program(*good)
        s.enter(place, at)
        s.start()
        s.calls(6)
        s.show()
    for r in (("3", 0, 3), ("3", 0, 2), ("3", 0, -1), ("3", 0, -2), ("3", 1, -2), ("3", 2, -1), ("2", 65, 3), ("2", 65, -2), ("2", 65, 1), ("3", 32767, -32768), ("3", 1, 0), ("2", 32, 0)):
        s.fresh(1)
        s.program(("1", 33), r)
        s.start()
        s.calls(7)
        s.hear(65)
        s.calls(2)
        s.show()
    s.fresh(1)
    s.program(("1", 33), *(("3", 1, -1 - k) for k in range(8)))
    s.start()
    s.calls(280)
    s.show()
    s.program(("1", 33), ("3", 1, -1))
    s.start()
    s.stand(0, 7)
    s.calls(3)
    s.show()
    s.program(("1", 33), ("3", 1, -1))
    s.empty()
    s.start()
    s.calls(2)
    s.step(1)
    s.e.stop()
    s.e.mode, s.e.used, s.e.records, s.e.held = "storing", 0, 0, s.e.axes
    s.keep("1", 33)
    s.calls(1)
    s.reset()
    s.show()


# starts on the axes, on the diagonals, and others
STARTS = ((2, 0), (0, 2), (-2, 0), (0, -2), (1, 0), (0, 1), (-1, 0), (0, -1), (1, 1), (-1, 1), (1, -1), (-1, -1), (3, 4), (-5, 2), (2, -7))


def circles(s):
    # 02's own: Y+, X-, Y+, X-
    s.fresh(3)
    s.direction(-1)
    s.circle(4, 600, 0, 2, 0, -1, 1)
    s.calls(6)
    s.show()
    # every start both ways round, a pulse or two past the whole circle
    for direction in (0, -1):
        s.fresh(3)
        s.direction(direction)
        for i, (x, y) in enumerate(STARTS):
            whole = 4 * (abs(x) + abs(y)) + i % 3
            s.circle(*circle_of(whole, 30 + i, direction, x, y))
            s.calls(whole + 2)
            s.show()
    # every plane, beside a third axis that does not rest at 0; 3D is not looked at
    for plane in (0, 1, 2):
        for direction in (0, -1):
            s.fresh(7)
            s.begin(0, 1, 600, -2, 600, 3, 600, 0, 600)
            s.calls(7)
            s.three(plane % 2)
            s.plane(plane)
            s.direction(direction)
            for x, y in ((3, 0), (0, -3), (-2, 2), (1, -2)):
                s.circle(*circle_of(9, 10000, direction, x, y))
                s.calls(10)
            s.show()
    # the directions sent: one pair fits each start
    for direction in (0, -1):
        s.fresh(3)
        s.direction(direction)
        for x, y in ((2, 0), (0, 2), (-2, 0), (0, -2), (1, 0), (0, -1), (5, 3), (-5, 3)):
            for a in (1, -1):
                for b in (1, -1):
                    s.tried(3, 600, 0, x, y, a, b)
        s.show()
    refused_circles(s)
    # plane and direction stay until axes are set or a reset
    s.fresh(7)
    s.plane(2)
    s.direction(-1)
    s.circle(*circle_of(20, 600, -1, 3, 3))
    s.calls(7)
    s.cease()
    s.show()
    s.axes(3)
    s.show()
    s.circle(*circle_of(5, 600, 0, 0, 1))
    s.calls(6)
    s.plane(1)
    s.direction(-1)
    s.show()
    s.reset()
    s.show()
    # 103: another point within the bounds, one beyond them, the centre; also after the last pulse
    for far, start, length in ((5, 2, 0), (5, 2, 1), (6, 2, 1), (6, 2, 2), (3, 3, 1)):
        s.fresh(3)
        s.begin(0, far, 600, 0, 600)
        s.calls(far + 1)
        s.circle(*circle_of(length + 1, 600, 0, start, 0))
        s.calls(length)
        s.show()
        for axes in (1, 2):
            s.zero(axes)
            s.show()
        s.cease()
        s.show()
    s.fresh(3)
    s.begin(0, 5, 600, 0, 600)
    s.calls(6)
    s.circle(*circle_of(5, 600, -1, 2, 0)[:5], -1, -1)
    s.calls(2)
    s.zero(1)
    s.show()
    s.calls(4)
    s.show()


def refused_circles(s):
    """3, 1, D and 9, each before the next; the last numbers that are allowed."""
    for axes in (0, 1, 3, 7):
        s.fresh(axes)
        for plane in (0, 1, 2):
            s.plane(plane)
            s.circle(2, 600, 0, 1, 0, -1, -1)
            s.calls(3)
            s.circle(2, 29, 0, 0, 0, 1, 1)
        s.show()
    s.fresh(3)
    good = (2, 600, 0, 5, 5, 1, -1)
    for i, n in ((0, -1), (0, HIGH + 1), (0, HIGH), (0, 0), (2, LOW - 1), (2, LOW), (2, HIGH), (2, HIGH + 1), (1, 29), (1, 30), (1, 10000), (1, 10001),
                 (3, 4000000), (3, 4000001), (4, 4000000), (4, 4000001), (5, 0), (5, 2), (5, -1), (6, 0), (6, 1), (6, -2)):
        s.tried(*good[:i], n, *good[i + 1:])
    s.circle(2, 29, 0, 5, 5, -1, -1)
    s.circle(2, 29, 0, 4000000, 4000000, 1, -1)
    s.circle(2, 600, 0, 0, 0, 1, -1)
    s.circle(0, 29, 0, 5, 5, 1, -1)
    s.circle(0, 600, 0, 4000000, 4000000, 1, -1)
    s.circle(0, 600, 0, 5, 5, -1, -1)
    s.circle(0, 600, 0, 5, 5, 1, -1)
    s.show()
    # 9: the least start on the other axis with which the bounds leave 24 bits, and the one before it
    s.zero(3)
    for x in (4000000, -4000000):
        room = HIGH - abs(x) - 1 if x < 0 else -LOW - x - 1
        y = math.isqrt((room + 1) ** 2 - x * x)
        while math.isqrt(x * x + y * y) <= room:
            y += 1
        for n in (y - 1, y, 1 - y, -y):
            s.tried(*circle_of(HIGH, 600, 0, x, n))
            s.zero(3)
            s.tried(*circle_of(HIGH, 600, 0, n, x))
            s.zero(3)
    s.show()


def circle_programs(s):
    # plane and direction of the program stay after it; a circle of no pulse takes one call; a circle of several rounds
    s.fresh(7)
    s.program(("e", 1), ("f", -1), ("y", *circle_of(5, 600, -1, 2, 1)), ("y", *circle_of(0, 600, -1, 2, 1)), ("1", 65), ("e", 2), ("y", *circle_of(3, 700, -1, 0, 1)))
    s.start()
    s.calls(14)
    s.show()
    s.start()
    s.calls(9)
    s.hear(65)
    s.cease()
    s.show()
    s.axes(3)
    s.start()
    s.calls(14)
    s.show()
    s.fresh(3)
    s.program(("y", *circle_of(12, 600, 0, 0, 3)), ("3", 2, -1), ("0", 1, 600, 1, 600), ("n", 3), ("f", -1), ("y", *circle_of(4, 30, -1, -1, 0)), ("5", 1))
    s.start()
    s.calls(50)
    s.show()
    s.program(("2", 65, 2), ("f", -1), ("y", *circle_of(2, 600, 0, 1, 1)), ("5", 2), ("z", 1), ("y", *circle_of(2, 600, 0, 1, 1)))
    s.start()
    s.calls(2)
    s.hear(65)
    s.calls(9)
    s.direction(0)
    s.start()
    s.calls(1)
    s.hear(65)
    s.calls(9)
    s.start()
    s.calls(1)
    s.hear(66)
    s.calls(3)
    s.show()
    # 3, 1 and 9 end the program where it stands, and keep the store
    unfit, far = (2, 600, 0, 1, 1, -1, 1), (2, 600, 0, 4000000, 4000000, 1, -1)
    for records in ((("e", 1), ("y", *circle_of(2, 600, 0, 1, 1))), (("e", 2), ("y", *unfit)), (("e", 2), ("y", *far)), (("y", *unfit),), (("y", *far),),
                    (("f", -1), ("y", *circle_of(2, 600, 0, 1, 1))), (("y", 2, 600, 0, 4000000, 4000000, 1, 1),), (("y", *circle_of(2, 600, 0, 1, 1)), ("f", -1), ("3", 1, -2))):
        s.fresh(3)
        s.program(("0", 1, 600, 0, 600), *records, ("1", 33))
        s.start()
        s.calls(7)
        s.show()
        s.start()
        s.calls(3)
        s.cease()
    for axes in (0, 1, 3, 7):
        s.fresh(axes)
        s.program(("e", 2), ("f", -1), ("y", *circle_of(2, 600, -1, 1, 1)))
        s.start()
        s.calls(5)
        s.show()
    # what a host altered: plane, direction, code, count, arc length, speed, D, start, directions; the store's axes
    good = (("e", 0), ("f", 0), ("y", *circle_of(300, 285, 0, 0, 5)))
    s.fresh(3)
    s.program(*good)
    for at, byte in ((4, 3), (12, 1), (18, 102), (19, 6), (19, 8), (23, 128), (22, 128), (25, 0), (25, 39), (31, 1), (30, 127), (30, 128), (36, 0), (38, 61),
                     (38, 62), (40, 0), (40, 2), (44, 1)):
        before = s.store[at]
        s.poke(at, byte)
        s.start()
        s.calls(4)
        s.show()
        s.poke(at, before)
        s.hold(48, 3, 3)
    for axes in (0, 1, 2, 7):
        s.hold(48, 3, axes)
        s.start()
        s.calls(4)
        s.show()


class Dice:
    """A fixed row of numbers."""

    def __init__(self, seed):
        self.x = seed

    def roll(self, n):
        self.x = (self.x * 6364136223846793005 + 1442695040888963407) % (1 << 64)
        return (self.x >> 33) % n


def some_record(d, axes, i, n):
    kind = d.roll(9)
    if kind < 2:
        ways = [0 if kind == 1 and j == 3 and axes == 7 else d.roll(9) - 4 for j in range(pairs(axes))]
        return ("0m"[kind], *(x for w in ways for x in (w, 30 + d.roll(900))))
    if kind == 2:
        return ("5", d.roll(4))
    if kind == 3:
        return ("1", 33 + d.roll(94))
    if kind == 4:
        return ("z", d.roll(2))
    if kind == 5:
        return ("n", named(axes)[d.roll(len(named(axes)))])
    if kind == 6:
        return ("3", 1 + d.roll(3), -1 - d.roll(max(1, i + (d.roll(6) == 0))))
    if kind == 7:
        return ("3", 0, d.roll(n + 1 + (d.roll(5) == 0)) - i)
    return ("2", 65 + d.roll(2), d.roll(n + 1) - i)


def mixed(s):
    d = Dice(20050505)
    for axes in (1, 3, 7) * 14:
        s.fresh(axes)
        n = 1 + d.roll(7)
        s.program(*(some_record(d, axes, i, n) for i in range(n)))
        s.start()
        for _ in range(3):
            s.calls(12 + d.roll(20))
            s.hear(65 + d.roll(2))
        s.show()


def some_circles(d, axes, n):
    """Records with circles; most of them fit the direction set last before them."""
    out, counter = [], False
    for i in range(n):
        kind = d.roll(6)
        if kind == 0:
            out.append(("e", 0 if axes == 3 and d.roll(5) else d.roll(3)))
        elif kind == 1:
            counter = not counter
            out.append(("f", -int(counter)))
        elif kind < 5:
            x, y = d.roll(11) - 5, d.roll(11) - 5
            out.append(("y", *circle_of(d.roll(9), 30 + d.roll(900), counter != (d.roll(8) == 0), x or 1, y)))
        else:
            out.append(some_record(d, axes, i, n))
    return out


def mixed_circles(s):
    d = Dice(20140501)
    for axes in (3, 7) * 9:
        s.fresh(axes)
        n = 2 + d.roll(7)
        s.program(*some_circles(d, axes, n))
        s.start()
        for _ in range(3):
            s.calls(12 + d.roll(20))
            s.hear(65 + d.roll(2))
        s.show()


# ---- turntables: 02, §7

def moved(s, absolute, *numbers):
    """A direct movement to its end and one call more, with the pulses that it has and the 0."""
    s.begin(absolute, *numbers)
    s.calls(len(s.e.left) + 2)


def four(x, y, z, a):
    """The numbers of a movement of four axes; its speeds tell which axis gave them."""
    return x, 600, y, 700, z, 800, a, 900


def turntables(s):
    setting_a(s)
    # A alone: its own speed, the same pulses with 3D on and off; n and N
    s.fresh_with_a(8)
    for on in (0, 1, 0):
        s.three(on)
        for absolute, a in ((0, 3), (0, -5), (1, 2), (0, 0), (1, 2)):
            moved(s, absolute, a, 650)
        s.mark(8)
        moved(s, 1, -1, 30)
        s.show()
    s.zero(8)
    s.show()
    moved(s, 1, 2, 10000)
    # four axes: x with y, then z, then a; phases without pulses; then all four together at the x speed
    s.fresh_with_a(15)
    ways = (2, 3, -2, 4), (3, -3, 1, -1), (2, 0, 0, -3), (0, -1, 0, 2), (0, 0, 2, -3), (0, 0, 0, 3), (1, -2, 2, 0), (0, 0, 0, 0)
    for on in (0, 1):
        s.three(on)
        for row in ways + ((0, 2, 0, -5), (4, -2, 3, 7), (5, 5, -5, 5)):
            moved(s, 0, *four(*row))
        s.show()
    # origins: x, y and z by 1 to 7, a by 8
    s.three(0)
    for axes in (8, 2, 7):
        s.mark(axes)
        s.show()
        moved(s, 1, *four(1, -1, 2, -2))
        moved(s, 1, *four(0, 0, 0, 3))
    for axes in (4, 8, 3):
        s.zero(axes)
        s.show()
        moved(s, 1, *four(1, 1, 1, 1))
    s.show()
    far_a(s)
    altered_under_way(s)
    circles_beside_a(s)


def setting_a(s):
    """`@08` and the other axes lines one after the other. Which axes are set is told by an empty program, which takes them over."""
    for row in ((8, 8), (8, 7), (7, 8), (7, 8, 8), (7, 8, 7), (7, 8, 7, 8), (7, 8, 3), (7, 8, 1), (8, 1), (8, 3), (8, 7, 8, 8), (8, 3, 7, 8)):
        s.fresh(0)
        for axes in row:
            s.axes(axes)
        s.program()
        s.show()
    s.fresh(8)
    s.program()
    moved(s, 0, 2, 600)
    s.show()
    # a reset leaves no axis set, and so A alone after it
    for first in (7, 8):
        s.reset()
        s.axes(first)
        s.axes(8)
        s.program()
        s.reset()
        s.axes(8)
        s.show()
        moved(s, 0, -2, 600)
        s.show()
    # it keeps 3D, plane and direction, the other axes and their origins, and puts A alone at 0
    s.fresh(7)
    moved(s, 0, 1, 600, -2, 700, 3, 800, 1, 900)
    s.mark(5)
    moved(s, 0, 2, 600, 0, 700, 0, 800, 0, 900)
    s.three(1)
    s.plane(2)
    s.direction(-1)
    s.show()
    s.axes(8)
    s.show()
    moved(s, 0, *four(1, 2, -1, 4))
    s.mark(8)
    moved(s, 1, *four(0, 0, 0, -1))
    s.show()
    s.axes(8)
    s.show()
    moved(s, 1, *four(0, 0, 0, -1))
    s.circle(*circle_of(3, 600, -1, 2, 1))
    s.calls(4)
    s.show()
    # 7, 3 and 1 put all four at 0; the fourth number is the second z again
    s.axes(7)
    s.show()
    moved(s, 0, *four(1, 0, 2, -1))
    for axes, numbers in ((3, (1, 600, 2, 700)), (1, (2, 600))):
        s.axes(7)
        s.axes(8)
        moved(s, 0, *four(1, 1, 1, 1))
        s.mark(7)
        s.mark(8)
        s.three(1)
        s.plane(1)
        s.direction(-1)
        s.show()
        s.axes(axes)
        s.show()
        moved(s, 0, *numbers)
    # the same of A alone
    s.fresh_with_a(8)
    moved(s, 0, 4, 600)
    s.mark(8)
    s.three(1)
    s.plane(1)
    s.direction(-1)
    moved(s, 0, -1, 600)
    s.show()
    s.axes(8)
    s.show()
    moved(s, 1, 2, 600)
    s.axes(3)
    s.show()


def far_a(s):
    """9 on A: from either side, relative and counted from its origin; nothing moves then."""
    s.fresh_with_a(8)
    for on in (0, 1):
        s.three(on)
        for step, end in ((1, HIGH), (-1, LOW)):
            s.axes(8)
            moved(s, 0, step, 600)
            s.begin(0, end, 600)
            s.begin(0, end - step, 600)
            s.calls(1)
            s.cease()
            s.axes(8)
            moved(s, 0, step, 600)
            s.mark(8)
            s.begin(1, end, 600)
            s.begin(1, end - step, 600)
            s.calls(1)
            s.cease()
            s.show()
    s.fresh_with_a(15)
    for on in (0, 1):
        s.three(on)
        for step, end in ((1, HIGH), (-1, LOW)):
            s.axes(8)
            moved(s, 0, *four(0, 0, 0, step))
            s.begin(0, *four(2, 0, 1, end))
            s.begin(0, *four(0, 0, 0, end - step))
            s.calls(1)
            s.cease()
            s.axes(8)
            moved(s, 0, *four(0, 0, 0, 2 * step))
            s.mark(8)
            s.begin(1, *four(0, 0, 0, end - step))
            s.begin(1, *four(0, 0, 0, end - 2 * step))
            s.calls(1)
            s.cease()
            s.zero(8)
            s.begin(1, *four(0, 0, 0, end))
            s.calls(1)
            s.cease()
            s.show()
    # another axis, and A in its range
    moved(s, 0, *four(1, 0, 0, 0))
    s.begin(0, *four(HIGH, 0, 0, 1))
    s.show()


def altered_under_way(s):
    """A as a host sets it while something moves: 103 of a movement, also where A rests; a circle does not look at it."""
    for row in ((3, 0, 0, 0), (0, 0, 0, 3), (1, 0, 0, 2)):
        for calls in (0, 1, 3):
            s.fresh_with_a(15)
            moved(s, 0, *four(0, 0, 0, 2))
            s.begin(0, *four(*row))
            s.calls(calls)
            s.mark(8)
            s.show()
            s.zero(8)
            s.show()
            s.cease()
            s.show()
    s.fresh_with_a(8)
    s.program(("0", 2, 600), ("1", 33))
    for calls in (1, 2):
        s.start()
        s.calls(calls)
        s.mark(8)
        s.show()
        s.zero(8)
        s.show()
        s.cease()
    s.fresh_with_a(15)
    moved(s, 0, *four(0, 0, 0, 2))
    s.circle(*circle_of(4, 600, 0, 2, 1))
    s.calls(2)
    s.zero(8)
    s.show()
    s.calls(3)
    s.show()


def circles_beside_a(s):
    """A circle of four axes moves two, and A rests where it stands; under A alone no plane is set."""
    for plane in (0, 1, 2):
        for direction in (0, -1):
            s.fresh_with_a(15)
            moved(s, 0, *four(1, -2, 3, -4))
            s.mark(8)
            s.three(plane % 2)
            s.plane(plane)
            s.direction(direction)
            for x, y in ((2, 0), (-1, 2)):
                s.circle(*circle_of(7, 10000, direction, x, y))
                s.calls(8)
            s.show()
    s.fresh_with_a(8)
    moved(s, 0, 2, 600)
    for plane in (0, 1, 2):
        s.plane(plane)
        s.circle(2, 600, 0, 1, 0, -1, -1)
        s.circle(0, 600, 0, 1, 0, -1, -1)
        s.circle(2, 29, 0, 0, 0, 1, 1)
        s.calls(1)
    s.show()


def turntable_programs(s):
    # A alone: loops, n 8, targets from its origin, z without an effect on A
    s.fresh_with_a(8)
    s.program(("0", 2, 600), ("3", 2, -1), ("z", 1), ("n", 8), ("0", -3, 700), ("m", 1, 800), ("m", 1, 900), ("1", 65), ("z", 0), ("m", -2, 30), ("5", 1))
    for _ in (0, 1):
        s.start()
        s.calls(26)
        s.show()
    # a loop around a target, whose origin moves on
    s.program(("m", 2, 600), ("n", 8), ("3", 2, -2), ("0", 0, 600))
    s.start()
    s.calls(18)
    s.show()
    # four axes: n 8 leaves the other origins, n 7 that of a; 3D inside and after
    s.fresh_with_a(15)
    s.program(("0", *four(1, 2, -1, 2)), ("n", 8), ("m", *four(0, 0, 0, -1)), ("n", 7), ("z", 1), ("m", *four(1, 0, -1, 3)), ("3", 1, -4), ("0", *four(0, 0, 0, 2)))
    s.start()
    s.calls(40)
    s.show()
    s.start()
    s.calls(3)
    s.cease()
    s.show()
    s.three(0)
    s.program(("0", *four(1, 0, 0, 1)), ("0", *four(0, 0, 1, -2)), ("3", 2, -2), ("2", 65, 2), ("1", 66), ("m", *four(0, 0, 0, 0)), ("n", 1), ("n", 4))
    s.start()
    s.calls(20)
    s.hear(65)
    s.calls(12)
    s.show()
    # e and f under A alone; a circle that is stored there ends the program with 3, also one of no pulse, and the store stays
    s.fresh_with_a(8)
    for length in (4, 0):
        s.program(("0", 2, 600), ("e", 1), ("f", -1), ("y", *circle_of(length, 600, -1, 2, 1)), ("1", 33))
        s.start()
        s.calls(7)
        s.show()
    s.axes(8)
    s.show()
    # a circle among movements of four axes, in each plane
    for plane in (0, 1, 2):
        s.fresh_with_a(15)
        s.program(("0", *four(0, 0, 0, 2)), ("e", plane), ("y", *circle_of(5, 600, 0, 0, 2)), ("f", -1), ("0", *four(0, 0, 0, -1)), ("y", *circle_of(3, 700, -1, 1, 1)), ("3", 1, -2))
        s.start()
        s.calls(20)
        s.show()
    # 9 on A ends the program, and it starts again
    for axes, records in ((8, (("0", 1, 600), ("0", HIGH, 600))), (8, (("0", -1, 600), ("n", 8), ("m", LOW, 600))),
                          (15, (("0", *four(0, 0, 0, 1)), ("0", *four(1, 0, 0, HIGH)))), (15, (("0", *four(1, 0, 0, -1)), ("n", 8), ("m", *four(0, 0, 0, LOW))))):
        s.fresh_with_a(axes)
        s.program(*records, ("1", 33))
        s.start()
        s.calls(5)
        s.show()
        s.start()
        s.calls(2)
        s.cease()
        s.show()
    # the last target that A reaches
    s.fresh_with_a(15)
    s.program(("0", *four(0, 0, 0, -1)), ("n", 8), ("m", *four(0, 0, 0, HIGH)))
    s.start()
    s.calls(4)
    s.cease()
    s.show()


def turntables_altered(s):
    """Stores under 8 and 15 with what is not right there, and the axes of a store or its bytes as a host sets them."""
    # stored as it stands: wrong counts, numbers and speeds, an n of axes that are not set or mixed
    wrong = [(8, r) for r in (("0", 1, 600, 1, 600), ("0", *four(0, 0, 0, 1)), ("m", *four(0, 0, 0, 0)), ("0", 1), ("0",), ("m", 1, 29), ("0", HIGH + 1, 600))]
    wrong += [(15, r) for r in (("0", 1, 600), ("m", 1, 600, 1, 600), ("0", *four(0, 0, 0, 0)[:-1], 29), ("m", *four(0, 0, 0, HIGH + 1)))]
    wrong += [(axes, ("n", n)) for axes in (8, 15) for n in (0, 1, 4, 7, 8, 9, 12, 15, 16, -8)]
    for axes, record in wrong:
        s.fresh_with_a(axes)
        s.program(("1", 33), record)
        s.start()
        s.calls(3)
        s.show()
    for axes, n in ((1, 8), (3, 8), (7, 8), (7, 9), (7, 15)):
        s.fresh(axes)
        s.program(("1", 33), ("n", n))
        s.start()
        s.calls(3)
    # the store's axes, whatever the board's: three and four take eight numbers, one and A alone two
    s.fresh_with_a(15)
    s.program(("0", *four(1, 0, 2, -1)), ("m", *four(0, 0, 0, 0)), ("n", 7))
    for axes in (7, 15, 8, 3, 0, 9, 14, 16, 2):
        s.hold(80, 3, axes)
        s.zero(7)
        s.zero(8)
        s.start()
        s.show()
        s.calls(9)
        s.show()
    s.fresh(1)
    s.program(("0", 2, 600), ("m", -1, 600))
    for axes in (8, 1, 9, 15):
        s.hold(24, 2, axes)
        s.start()
        s.calls(6)
        s.show()
    for board in (0, 3, 7):
        s.fresh(board)
        s.hold(24, 2, 8)
        s.start()
        s.calls(6)
        s.show()
    # a fourth target that only four axes have
    s.fresh_with_a(15)
    s.program(("m", *four(0, 0, 0, 2)))
    for axes in (15, 7):
        s.hold(36, 1, axes)
        s.start()
        s.calls(3)
        s.show()
    # bytes: the n, a count, the speed of a, and its number
    s.fresh_with_a(15)
    good = (("n", 8), ("0", *four(0, 0, 0, 2)))
    s.program(*good)
    for at, byte in ((4, 9), (4, 7), (4, 0), (5, 1), (11, 2), (11, 7), (40, 29), (41, 0), (41, 40), (38, 128), (36, 0), (36, 1)):
        before = s.store[at]
        s.poke(at, byte)
        s.start()
        s.calls(3)
        s.cease()
        s.show()
        s.poke(at, before)
        s.hold(44, 2, 15)


def mixed_turntables(s):
    d = Dice(20140507)
    for axes in (8, 15) * 12:
        s.fresh_with_a(axes)
        n = 2 + d.roll(6)
        s.program(*(some_record(d, axes, i, n) for i in range(n)))
        s.start()
        for _ in range(3):
            s.calls(12 + d.roll(16))
            s.hear(65 + d.roll(2))
        s.show()
    for _ in range(6):
        s.fresh_with_a(15)
        n = 2 + d.roll(7)
        s.program(*some_circles(d, 15, n))
        s.start()
        for _ in range(2):
            s.calls(12 + d.roll(16))
            s.hear(65 + d.roll(2))
        s.show()



def files():
    s = Script()
    base = (directs, programs, altered, mixed, circles, circle_programs, mixed_circles)
    for part in (*base, turntables, turntable_programs, turntables_altered, mixed_turntables):
        part(s)
    folder = "crates/engine_ticks/"
    text = f"{len(s.lines)}\n" + "\n".join(s.lines) + "\n"
    if len(text) > MOST:
        sys.exit("more than the program reads")
    return {folder + "stdin": text, folder + "stdout": "\n".join(s.out) + "\n"}


def main():
    for path, text in files().items():
        if sys.argv[1:] == ["--check"]:
            if open(path).read() != text:
                sys.exit(f"{path} differs")
        else:
            open(path, "w").write(text)


main()
