#!/usr/bin/env python3
"""A slow third opinion on `walk`: programs are lists of records and runs are generators.

No state machine, no bytes of a store and no place kept between calls, so that a slip in one of
those is not made here as well. Reads standard input, writes standard output.
"""
import re
import sys

import oracle_arc as arc
from oracle_check import faults
from oracle_right import HIGH, LOW, Refused, refuse, right, within

LIMIT = 100000
# Which axis each pair of a movement moves, and what runs together in 2.5D: the pairs in their order, cut into rows.
ROWS = {1: ["x"], 3: ["xy"], 7: ["xy", "z", "z"], 8: ["a"], 15: ["xy", "z", "a"]}
DIRECT = re.compile(rb"@0(?:([AaMmSsnNzPbBikefy])( ?-?\d{1,8}(?:, ?-?\d{1,8})*)?|(-?\d{1,8}(?:, ?-?\d{1,8})*))\Z")
STORED = re.compile(rb"(?:(9)|([0mnz3512efy])( ?-?\d{1,8}(?:, ?-?\d{1,8})*)?)\Z")


def numbers(text):
    return [int(v) for v in text.split(b",")] if text else []


class Board:
    def __init__(self, program=(), program_axes=0):
        self.axes, self.three = 0, False
        self.plane, self.direction = 0, 0
        self.at, self.origin = [0] * 4, [0] * 4
        self.line = b""
        self.storing = None
        self.program, self.program_axes = list(program), program_axes
        self.job = None      # a generator while something runs
        self.waiting = False

    # Movement: one list of distances and a speed for each phase.
    def phases(self, absolute, v, axes):
        pairs, seen, rows = list(zip(v[0::2], v[1::2])), "", []
        for row in ROWS[axes]:
            phase = []
            for axis in row:
                a, (d, speed) = "xyza".index(axis), pairs.pop(0)
                if axis in seen:  # the second number of z
                    d = 0 if absolute or self.three else d
                elif absolute:
                    d += self.origin[a] - self.at[a]
                phase.append((a, d, speed))
                seen += axis
            rows.append(phase)
        if self.three:
            phases = [(self.together(sum(rows, [])), v[1])]
        else:
            phases = [(self.together(row), max(row, key=lambda move: abs(move[1]))[2]) for row in rows]
        place = list(self.at)
        for distances, _ in phases:
            place = [p + q for p, q in zip(place, distances)]
            refuse(not all(within(p, LOW, HIGH) for p in place), "9")
        return [(distances, speed) for distances, speed in phases if any(distances)]

    @staticmethod
    def together(moves):
        return [sum(d for axis, d, _ in moves if axis == a) for a in range(4)]

    def shown(self, four):
        """Of what has one for each axis, as much as is printed: A's only while it is set."""
        return four if self.axes & 8 else four[:3]

    def pulses(self, phases):
        for d, speed in phases:
            n = max(map(abs, d))
            start = list(self.at)
            for k in range(1, n + 1):
                before = list(self.at)
                for a in range(4):
                    made = (2 * k * abs(d[a]) + n) // (2 * n)
                    self.at[a] = start[a] + (made if d[a] > 0 else -made)
                step = "".join("-.+"[self.at[a] - before[a] + 1] for a in range(4))
                yield "P %s %d" % (self.shown(step), speed)

    def movement(self, pulses):
        yield from pulses
        yield "R 0"

    # Circles: the refusals that depend on the board, and the pulses of an arc, which are worked out as they are made.
    def arc(self, v):
        """The axes and the pulses of an arc, or 9. Its plane fits and its directions are right."""
        axes = arc.PLANES[self.plane]
        refuse(arc.leaves([self.at[a] for a in axes], v[3:5], LOW, HIGH), "9")
        return self.round(axes, arc.path(v[3:5], self.direction), v[0], v[1])

    def round(self, axes, path, length, speed):
        for _ in range(length):
            which, sign = next(path)
            self.at[axes[which]] += sign
            step = "".join("." if a != axes[which] else "-.+"[sign + 1] for a in range(4))
            yield "P %s %d" % (self.shown(step), speed)

    # A program: each yield is one clock call; a yield of WAIT is none and gets the byte.
    def run(self):
        place, loops = 0, []
        while place < len(self.program):
            code, v = self.program[place]
            step = 1
            if code in "0m":
                try:
                    phases = self.phases(code == "m", v, self.program_axes)
                except Refused:
                    yield "R 9"
                    return
                yield from self.pulses(phases) if phases else [None]
            elif code == "y":
                try:
                    refuse(not arc.fits(self.plane, self.program_axes), "3")
                    refuse(v[5:] != arc.expected(v[3:5], self.direction), "1")
                    pulses = self.arc(v)
                except Refused as refused:
                    yield "R " + refused.args[0]
                    return
                yield from pulses if v[0] else [None]
            elif code == "5":
                yield from [None] * max(1, v[0])
            elif code == "1":
                yield "R " + chr(v[0])
            elif code == "2":
                yield None
                byte = yield self
                step = v[1] if byte == v[0] else 1
            else:
                step = self.plain(code, v, place, loops)
                yield None
            place += step
        yield "R 0"

    def plain(self, code, v, place, loops):
        """Runs n, z, e, f, a jump or a loop, and says how far to go; open loops are [place, backs made]."""
        if code == "n":
            self.set_origin(v[0])
        elif code == "z":
            self.three = v[0] == 1
        elif code == "e":
            self.plane = v[0]
        elif code == "f":
            self.direction = v[0]
        elif v[0] == 0:
            return v[1]
        else:
            if not loops or loops[-1][0] != place:
                loops.append([place, 0])
            if loops[-1][1] < v[0]:
                loops[-1][1] += 1
                return v[1]
            loops.pop()
        return 1

    def set_origin(self, mask):
        for a in range(4):
            if mask & 1 << a:
                self.origin[a] = self.at[a]

    # Lines.
    def receive(self, byte):
        if byte == 254:
            kept = ([], 0) if self.storing is not None else (self.program, self.program_axes)
            self.__init__(*kept)
        elif byte == 255:
            if self.job:
                self.job, self.waiting = None, False
                return "F"
        elif byte == 253:
            assert not self.job or self.waiting
        elif self.waiting:
            self.waiting = False
            self.advance(byte)
        elif byte == 13:
            line, self.line = self.line, b""
            try:
                refuse(len(line) > 80, "5")
                return self.direct(line) if self.storing is None else self.stored(line)
            except Refused as refused:
                return refused.args[0]
        else:
            self.line += bytes([byte])
        return ""

    def stored(self, line):
        shape = STORED.match(line)
        refuse(not shape, "5")
        if shape[1]:
            self.program, self.storing = self.storing, None
            found = faults(self.program)
            if found:
                self.program, self.program_axes = [], 0
                raise Refused("G%s%04d" % min(found, key=lambda fault: (fault[1], fault[0])))
            return "0"
        code, v = shape[2].decode(), numbers(shape[3])
        right(code, v, self.program_axes)
        used = sum(4 + 4 * len(w) for _, w in self.storing)
        refuse(len(self.storing) == 1000 or used + 4 + 4 * len(v) > 16384, "6")
        self.storing.append((code, v))
        return "0"

    def direct(self, line):
        shape = DIRECT.match(line)
        refuse(not shape, "5")
        letter = (shape[1] or b"").decode()
        letter = letter.upper() if letter in "ams" else letter
        v = numbers(shape[2] or shape[3])
        refuse(letter and letter in "AMnNziSefy" and not self.axes, "4")
        if letter and letter in "AMnNzefy":
            right({"A": "0", "M": "m", "N": "n"}.get(letter, letter), v, self.axes, (self.plane, self.direction))
        else:
            refuse(len(v) != {"": 1, "b": 1, "B": 2}.get(letter, 0), "7")
        if letter and letter in "AM":
            phases = self.phases(letter == "M", v, self.axes)
            if phases:
                self.job = self.movement(self.pulses(phases))
            return "" if phases else "0"
        return getattr(self, "line_" + (letter or "axes"))(*v)

    def line_axes(self, value):
        if value == 8:  # beside none or all of the others
            refuse(self.axes & 7 not in (0, 7), "3")
            self.axes |= 8
            self.at[3:], self.origin[3:] = [0], [0]
            return "0"
        refuse(value not in (1, 3, 7), "3")
        self.axes, self.three, self.at, self.origin = value, False, [0] * 4, [0] * 4
        self.plane, self.direction = 0, 0
        return "0"

    def line_n(self, mask):
        self.set_origin(mask)
        return "0"

    def line_N(self, mask):
        for a in range(4):
            if mask & 1 << a:
                self.at[a] = self.origin[a] = 0
        return "0"

    def line_z(self, value):
        self.three = value == 1
        return "0"

    def line_e(self, plane):
        self.plane = plane
        return "0"

    def line_f(self, direction):
        self.direction = direction
        return "0"

    def line_y(self, *v):
        pulses = self.arc(list(v))
        if v[0]:
            self.job = self.movement(pulses)
        return "" if v[0] else "0"

    def line_P(self):
        return "0" + "".join("%06X" % (p % 2 ** 24) for p in (self.at if self.axes == 15 else self.at[:3]))

    def line_b(self, port):
        refuse(not within(port, 0, 3), "1")
        return "000"

    def line_B(self, port, value):
        refuse(port != 0 or not within(value, 0, 255), "1")
        return "0"

    def line_i(self):
        self.program, self.program_axes, self.storing = [], self.axes, []
        return "0"

    def line_k(self):
        self.program, self.program_axes = [], 0
        return "0"

    def line_S(self):
        refuse(not self.program, "8")
        refuse(self.axes != self.program_axes, "G")
        self.job = self.run()
        return ""

    # The clock.
    def advance(self, byte=None):
        """Takes the generator to its next answer, which is kept; a wait keeps none."""
        try:
            self.answer = self.job.send(byte)
            self.waiting = self.answer is self
        except StopIteration:
            self.job = None


def main():
    board, out = Board(), ["walk"]
    for byte in sys.stdin.buffer.read():
        had = board.job
        reply = board.receive(byte)
        if reply:
            out.append("R " + reply)
        if board.job and board.job is not had:
            board.advance()
        calls = 0
        while board.job and not board.waiting and calls < LIMIT:
            calls += 1
            if board.answer:
                out.append(board.answer)
            kept = list(board.at)
            board.advance()
        if board.job and not board.waiting:
            out.append("L 100000")
            board.at = kept
            break
    out.append("E " + " ".join(str(p) for p in board.shown(board.at)))
    print("\n".join(out))


main()
