"""Vectors of joins (02, §4 and §6, with the axes of §7), worked out apart from the code: a part of tests/vectors/ask.py, which writes them.

A line is `join` and two programs, each its bytes in use, its records, its axes and the bytes of its store as hexadecimal digits,
`-` for none. Its answer is 0 and the joined program in the same form, with the entries of its table behind it, parted by commas, `-`
for none; or the refusal alone: 3, G or 6. A line `lend` has the lengths of both stores and of the table in front of the programs, and
may be refused 102 or 104 too. A line that cannot be read is answered `?`.

The answers are those of `Join` in tests/vectors/join_rule.py. The script stops if the result of a join is not accepted itself, or if
too few of the lines tell a wrong reading of tests/vectors/join_slips.py from the rule.
"""
import itertools

from join_rule import MANY, NUMBERS, ROOM, WHOLE, Join, Part, fields, is_accepted, read, stored
from join_slips import tell_apart
from sheet import Draw


# ---- lines

def line(first, second, lent=None):
    asked = "join" if lent is None else f"lend {lent.first} {lent.second} {lent.table}"
    return f"{asked} {fields(first)} {fields(second)}"


def expected(first, second, lent=WHOLE):
    """The answer. What the request promises holds of it: the result is accepted; and of what is refused for its programs, one of them
    is not, or the two together."""
    rule = Join()
    answer, axes = rule.answer(first, second, lent), rule.axes(first, second)
    if answer.startswith("0"):
        assert is_accepted(read(rule.result(first, second), axes))
        assert len(rule.table(first, second)) == rule.result(first, second).records
    elif answer == "G":
        one, other = read(first, axes), read(second, axes)
        assert None in (one, other) or not all(map(is_accepted, (one, other, one + other)))
    return answer


# ---- programs

def part_of(*records, axes=7, **fields_set):
    """Records, stored under these axes; then a host may set its fields and its bytes."""
    store = stored(records)
    return Part(len(store), len(records), axes, store)._replace(**fields_set)


def jump(offset):
    return ["3", 0, offset]


def loop(number, offset):
    return ["3", number, offset]


def wait(offset, character=89):
    return ["2", character, offset]


def move(axes, *ways):
    return ["0"] + [number for way in (*ways, 0, 0, 0, 0)[: NUMBERS[axes] // 2] for number in (way, 600)]


ASK, SEND, FLAT, SOON = ["1", 63], ["1", 42], ["z", 0], ["5", 0]
CLAMP = (ASK, wait(2), jump(-2))  # Y leads to its end place
WAY, HOLE, AGAIN = ["0", 4, 800, 6, 800, 0, 300, 0, 300], ["0", 5, 800, 0, 800, -4, 300, 4, 300], loop(4, -1)
ROW, DRILL = (HOLE, AGAIN), (WAY, HOLE, AGAIN)  # a row's loop starts with its first record
SHORT, OTHER = part_of(SEND, FLAT), part_of(SOON, ASK, FLAT)
NONE = part_of()
SLOT = (["e", 1], ["f", -1], ["y", 40, 600, 0, 20, -10, 1, 1])


def worked_examples():
    yield part_of(*CLAMP), part_of(*DRILL)
    yield part_of(*CLAMP), part_of(*ROW)
    yield part_of(*CLAMP), part_of(SOON, *ROW)
    yield part_of(*CLAMP, SOON), part_of(*ROW)
    yield part_of(*CLAMP, *DRILL), part_of(*CLAMP, *DRILL)
    yield part_of(*DRILL), part_of(*CLAMP)
    yield part_of(*ROW), part_of(*ROW)
    yield part_of(*ROW), part_of(*CLAMP)
    for axes in (1, 3, 7):
        yield part_of(move(axes, 3), ["n", 1], axes=axes), part_of(["z", 1], ["m", *move(axes, -5, 7)[1:]], axes=axes)
    for axes in (1, 3, 7):  # circles, whatever the axes
        yield part_of(*SLOT, axes=axes), part_of(*SLOT[::-1], loop(2, -3), axes=axes)
        yield part_of(*SLOT, jump(1), axes=axes), part_of(SLOT[2], jump(-1), axes=axes)
    yield part_of(*CLAMP), part_of(*SLOT, loop(3, -3))
    mark = 0x2BD7  # its bytes, in numbers
    yield part_of(["5", mark], ["0", 0x352BD7, 30, -mark, 30, 0x2BD700, 30, 0, 30]), part_of(["1", 43], ["3", mark, -1], ["2", 43, 1])


def axes_of_two():
    """Records that are right under any axes, under equal ones and others."""
    for axes in (0, 1, 2, 3, 4, 5, 6, 7, 8, 15, 255):
        yield SHORT._replace(axes=axes), OTHER._replace(axes=axes)
    for one, other in ((1, 3), (3, 1), (1, 7), (7, 1), (3, 7), (7, 3), (0, 7), (7, 0), (2, 7), (7, 2), (0, 1), (5, 3), (255, 7), (7, 8)):
        yield SHORT._replace(axes=one), OTHER._replace(axes=other)


def axes_of_empty():
    """One that is empty beside one that is not, on either side; and two that are empty."""
    for axes, of_empty in ((7, 0), (7, 1), (7, 2), (7, 255), (1, 0), (1, 7), (3, 3), (3, 5), (0, 0), (0, 7), (2, 2), (2, 7), (8, 7)):
        yield NONE._replace(axes=of_empty), SHORT._replace(axes=axes)
        yield SHORT._replace(axes=axes), NONE._replace(axes=of_empty)
    for axes, of_empty in ((1, 7), (3, 0)):
        yield NONE._replace(axes=of_empty), part_of(move(axes, 2), axes=axes)
        yield part_of(move(axes, 2), axes=axes), NONE._replace(axes=of_empty)
    for one, other in ((1, 1), (3, 3), (7, 7), (0, 0), (2, 2), (8, 8), (255, 255), (0, 7), (7, 0), (1, 3), (7, 3), (0, 2)):
        yield NONE._replace(axes=one), NONE._replace(axes=other)
    for filled in (part_of(store=stored([SEND])), part_of(store=b"\0\0")):  # bytes that are not in use
        yield filled, SHORT
        yield SHORT, filled
        yield filled, filled


def unsound():
    """Programs that fail the check at their end line, by each of its conditions, and beside them some that just pass."""
    for make in (jump, wait):
        yield [SEND, make(2)]  # one past the end place
        yield [SEND, make(3), SEND]
        yield [SEND, make(-2)]  # below place 0
        yield [make(-1)]
        yield [make(2), SEND, AGAIN]  # into the range, by its loop record
        yield [SEND, make(2), AGAIN]  # out of it, to the end place
    yield [SEND, loop(1, -2)]
    yield [loop(1, -1)]
    yield [SEND, loop(1, -1), loop(1, -1)]
    yield [SEND, SEND, loop(1, -2), SEND, loop(1, -3)]
    yield [SEND] + [loop(1, -k) for k in range(1, 9)]
    yield [SEND] + [loop(1, -k) for k in range(1, 8)]  # seven are right
    yield [jump(1), SEND, AGAIN]  # into the range, by its first record
    yield [wait(3), SEND, AGAIN]  # right: past the range, to the end place
    yield [jump(0)]  # right


def faults():
    """Each of them as the first and as the second; what leads outside one part would often lie in the other."""
    for records in unsound():
        yield part_of(*records), OTHER
        yield SHORT, part_of(*records)
    deep = part_of(SEND, *[loop(1, -k) for k in range(1, 8)])
    yield deep, deep
    yield part_of(SEND, loop(1, -2)), part_of(SEND, jump(-2))


def spoilt():
    """Programs that cannot be read: a byte, a count, the bytes in use or the records."""
    right = part_of(*DRILL)
    marks, numbers = ((0, 0xD6), (1, 0x2A), (36, 0), (37, 0), (72, 0)), ((6, 0x80), (9, 0x28), (79, 0x80), (83, 0))
    for at, byte in (*marks, (2, 0x39), (2, 0x4D), (74, 0x32), (3, 0), (3, 7), (3, 9), *numbers):
        yield right._replace(store=right.store[:at] + bytes([byte]) + right.store[at + 1 :])
    for more in (-84, -12, -8, -4, -1, 1, 4, 8):
        yield right._replace(used=right.used + more)
    for more in (-1, 1, 2, 997, 998):
        yield right._replace(records=right.records + more)
    yield right._replace(store=right.store[:-4])  # its last number is missing, and so 0
    yield right._replace(store=right.store[:60])
    yield right._replace(store=b"")
    yield part_of(move(3, 1, 1))  # of other axes
    yield part_of(["n", 4], axes=3)
    yield part_of(["m", 1, 600, 1, 600, 1, 600, 1, 600])
    for record in (["5", 65536], ["1", 32], ["1", 127], ["2", 32, 1], ["3", 32768, -1], ["3", 1, 0], ["3", -1, 0], ["z", 2], ["n", 0], ["n", 8]):
        yield part_of(SEND, record)
    for record in (["e", 3], ["e", -1], ["f", 1], ["f", -2], ["e"], ["f", 0, 0], ["E", 0], SLOT[2][:-1], [*SLOT[2], 1], [*SLOT[2][:-1], 0]):
        yield part_of(SEND, record)
    for at, number in ((1, -1), (1, 2**23), (2, 29), (3, 2**23), (4, 4000001), (5, -4000001), (6, 2)):
        yield part_of(SEND, [*SLOT[2][:at], number, *SLOT[2][at + 1 :]])
    yield part_of(["y", 40, 600, 0, 0, 0, 1, 1])
    for record in (["9"], ["5"], ["5", 0, 0], ["0", 1, 600], [*WAY[:-1], 29], [*WAY[:-1], 10001], ["0", 2**23, *WAY[2:]]):
        yield part_of(SEND, record)


def unreadable_programs():
    for number, part in enumerate(spoilt()):
        other = part_of(SOON, axes=part.axes)
        yield (part, other) if number % 2 else (other, part)


def odd_fields():
    """Bytes without a record, records without a byte, more of either than a store has."""
    no_record, no_byte = [(used, 0) for used in (4, 8, 16384, 16385, 65535)], [(0, records) for records in (1, 1000, 1001, 65535)]
    for used, records in (*no_record, *no_byte, (16385, 1), (65535, 65535), (8, 65535), (65535, 1)):
        odd = part_of(SEND, used=used, records=records)
        yield odd, OTHER
        yield SHORT, odd
    for axes in (0, 5, 1):  # without a record it counts as of the other's axes
        yield part_of(SEND, records=0, axes=axes), OTHER
        yield SHORT, part_of(SEND, records=0, axes=axes)
        yield part_of(SEND, used=0, axes=axes), OTHER
        yield SHORT, part_of(SEND, used=0, axes=axes)
    yield part_of(SEND, records=0), part_of(SEND, records=0)
    yield part_of(SEND, records=0), NONE
    yield NONE, part_of(SEND, used=0)
    for more in (b"\xd7", b"\xd7+", stored([SEND]), bytes(100)):  # bytes behind those in use are not taken
        yield SHORT._replace(store=SHORT.store + more), OTHER
        yield SHORT, OTHER._replace(store=OTHER.store + more)
        yield SHORT._replace(store=SHORT.store + more), OTHER._replace(store=OTHER.store + more)


def ends():
    """Firsts that lead to their end place, and firsts that do not."""
    yield (jump(1),)
    yield (wait(1),)
    yield SEND, jump(1)
    yield SEND, wait(1)
    yield jump(2), SEND
    yield wait(3, 33), SEND, SEND
    yield SEND, AGAIN, jump(1)
    yield wait(3), SEND, AGAIN
    yield jump(1), SEND
    yield SEND, wait(0)
    yield SEND, jump(-1)
    yield SEND, AGAIN
    yield ["2", 126, 1], ["3", 0, -1], ["5", 2]
    yield ()


def starts():
    """Seconds with a loop that starts at place 0, and seconds without one."""
    yield SEND, AGAIN
    yield SEND, SEND, AGAIN, loop(2, -3)
    yield SEND, AGAIN, SEND, loop(2, -3)
    yield SEND, jump(1), loop(1, -2)
    yield SEND, SEND, AGAIN
    yield SOON, SEND, AGAIN, loop(2, -2)
    yield (jump(0),)
    yield wait(1), jump(-1)
    yield ()


def rule_of_the_two():
    for first in ends():
        for second in starts():
            yield part_of(*first), part_of(*second)


def movements(size):
    """So many bytes, most of them of movements; the rest is shorter records."""
    count, rest = size // 36 - 1, size % 36 + 36
    loops = [AGAIN] * (rest // 4 % 2)
    return part_of(*[WAY] * count, *loops, *[SOON] * ((rest - 12 * len(loops)) // 8))


def full():
    """Stores that are just full, and that are full by one: 1,000 records, and 16,384 bytes."""
    half, rest = part_of(*[FLAT] * 500), part_of(*[SOON] * 499, SEND)
    yield half, rest
    yield part_of(*[FLAT] * 501), rest
    yield part_of(*[FLAT] * 999), part_of(SEND)
    yield part_of(*[FLAT] * 1000), part_of(SEND)
    yield part_of(*[FLAT] * 1000), NONE._replace(axes=0)
    yield NONE, part_of(*[FLAT] * 1001)
    yield part_of(*[FLAT] * 1001), NONE
    yield movements(8192), movements(8192)
    yield movements(8192), movements(8196)
    whole = movements(16384)
    yield NONE._replace(axes=9), whole
    yield SHORT, whole
    yield whole, whole
    yield whole._replace(used=16388, records=whole.records + 1), NONE


# ---- several refusals fit

def orders():
    """Axes, then programs, then room: for each two of them a line to which both apply."""
    spoiled, unsound_one = part_of(SEND, used=7), part_of(SEND, jump(3))
    out, round_again = part_of(*CLAMP), part_of(*ROW)
    filled = [part_of(SEND, used=16384, records=records) for records in (1, 1000)]
    for bad in (spoiled, unsound_one, *filled):
        for axes in (3, 0, 5):
            yield bad._replace(axes=axes), OTHER
            yield SHORT, bad._replace(axes=axes)
        yield bad._replace(axes=2), bad._replace(axes=2)
    yield out._replace(axes=3), part_of(SEND, AGAIN, axes=1)
    yield out._replace(axes=4), part_of(SEND, AGAIN, axes=4)
    yield spoiled, round_again
    yield out, part_of(*ROW, jump(2))
    for one, other in itertools.product(filled, filled):
        yield one, other
    yield SHORT, filled[1]
    yield filled[1]._replace(axes=1), filled[1]._replace(axes=3)
    many = part_of(*[FLAT] * 200, *CLAMP)
    yield many, part_of(SEND, AGAIN, *[FLAT] * 796)  # G, and 1,001 records
    yield many._replace(axes=3), part_of(*[FLAT] * 798)  # 3, and 1,001 records


# ---- what is lent

def lendings():
    """Stores and a table of other lengths: alone, together, and where another refusal fits too."""
    yield SHORT, OTHER, WHOLE
    yield NONE, NONE, WHOLE
    for size in (24, ROOM - 1, ROOM + 1):
        yield SHORT, OTHER, WHOLE._replace(first=size)
        yield SHORT, OTHER, WHOLE._replace(second=size)
        yield SHORT, OTHER, WHOLE._replace(first=size, second=size)
    yield SHORT._replace(store=b""), OTHER, WHOLE._replace(first=0)
    yield SHORT, OTHER._replace(store=b""), WHOLE._replace(second=0)
    yield NONE, NONE, WHOLE._replace(first=0, second=0, table=0)
    for entries in (0, 1, 5, MANY - 1, MANY + 1):
        yield SHORT, OTHER, WHOLE._replace(table=entries)
        yield NONE, NONE, WHOLE._replace(table=entries)
    for first, second, entries in ((ROOM - 1, ROOM, MANY - 1), (ROOM, ROOM + 1, MANY + 1), (ROOM + 1, ROOM - 1, 0)):
        yield SHORT, OTHER, WHOLE._replace(first=first, second=second, table=entries)
    for parts in ((SHORT, OTHER._replace(axes=3)), (part_of(*CLAMP), part_of(*ROW)), (part_of(*[FLAT] * 501), part_of(*[SOON] * 500))):
        yield *parts, WHOLE
        yield *parts, WHOLE._replace(second=ROOM - 1)
        yield *parts, WHOLE._replace(table=MANY - 1)
    for size in (16, ROOM, ROOM + 1):  # as many bytes as the store has
        yield SHORT._replace(store=SHORT.store.ljust(size, b"\0")), OTHER, WHOLE._replace(first=size)
    yield OTHER, SHORT._replace(store=SHORT.store.ljust(ROOM + 1, b"\0")), WHOLE._replace(second=ROOM + 1)


# ---- turntables: 02, §7

NOT_ALLOWED = (2, 4, 5, 6, 9, 14, 16)


def turned(axes):
    """Programs under A alone, or under four axes: movements, targets of A, its origin, circles, loops."""
    here, there = move(axes, 3, 0, 0, -7), ["m", *move(axes, 5, -5, 5, 4)[1:]]
    yield here, ["n", 8]
    yield ["z", 1], there, ["n", 8], loop(2, -2)
    yield there, ["m", *move(axes, -(2**23), 2**23 - 1, 0, -(2**23))[1:]], here
    yield *SLOT, here
    yield SEND, SOON, jump(-1)
    yield there, AGAIN, here, here, loop(2, -1)


def turntables():
    """A alone and A beside three axes, joined as any other; and what is not, because A is set on one side only."""
    for axes in (8, 15):
        rows = [part_of(*records, axes=axes) for records in turned(axes)]
        for one, other in zip(rows, rows[1:] + rows[:1]):
            yield one, other
        yield part_of(*CLAMP, axes=axes), rows[0]
        yield part_of(*CLAMP, axes=axes), rows[5]  # into its loop
        yield part_of(*CLAMP, SOON, axes=axes), rows[5]
        for other in (0, 1, 3, 7, 8, 15, *NOT_ALLOWED, 255):
            yield rows[4], OTHER._replace(axes=other)
            yield SHORT._replace(axes=other), rows[4]
            yield NONE._replace(axes=other), rows[0]
            yield rows[1], NONE._replace(axes=other)
            yield NONE._replace(axes=axes), NONE._replace(axes=other)
        for first, second, entries in ((ROOM - 1, ROOM, MANY), (ROOM, ROOM + 1, MANY), (ROOM, ROOM, MANY - 1)):
            yield rows[0], rows[1], WHOLE._replace(first=first, second=second, table=entries)
    # what four axes have and three have not, each under the other's number
    seven, fifteen = part_of(WAY, ["n", 7]), part_of(["m", *move(15, 1, 1, 1, 1)[1:]], axes=15)
    yield seven, fifteen
    yield fifteen, seven
    yield seven._replace(axes=15), fifteen
    yield fifteen, seven._replace(axes=15)
    yield seven, fifteen._replace(axes=7)
    yield part_of(["n", 8], axes=15), seven._replace(axes=15)
    yield part_of(["n", 8]), seven
    for axes in NOT_ALLOWED:
        for parts in ((SHORT, OTHER), (SHORT, NONE), (NONE, SHORT), (NONE, NONE), (part_of(WAY), part_of(move(8, 1)))):
            yield [part._replace(axes=axes) for part in parts]
    # records that are not right under them
    for axes, record in spoilt_turntables():
        part, good = part_of(SEND, record, axes=axes), part_of(move(axes, 1), axes=axes)
        yield part, good
        yield good, part
    # just full, and full by one; where the axes differ that is told first
    for axes, record, count in ((8, move(8, 9), 1000), (15, move(15, 1, 2, 3, 4), 455)):
        half, rest = part_of(*[record] * (count // 2), axes=axes), part_of(*[record] * (count - count // 2), axes=axes)
        yield half, rest
        yield rest, part_of(*[record] * (count // 2 + 1), axes=axes)
        yield rest, part_of(*[FLAT] * 801, axes=7 if axes == 15 else 1)


def spoilt_turntables():
    for axes, others in ((8, (0, 1, 4, 7, 9, 15)), (15, (0, 9, 12, 15, 16))):
        for n in others:
            yield axes, ["n", n]
        for record in (move(3, 1, 1), ["m", *move(3, 1, 1)[1:]], move(15 if axes == 8 else 8, 1), ["y", 40, 600, 0, 0, 0, 1, 1]):
            yield axes, record
        for a, speed in ((2**23, 600), (-(2**23) - 1, 600), (1, 29), (1, 10001)):
            yield axes, ["m", *move(axes)[1:-2], a, speed]


# ---- at random

def thrown(draw):
    """A program that is likely to be accepted: few jumps, waits and loops, many of them about its ends."""
    count = draw.below(7)
    records = []
    for place in range(count):
        kind = draw.below(8)
        if kind < 2:
            records.append((jump, wait)[kind](draw.of((count - place, count - place, 1, -place, -1 - place, draw.below(9) - 4))))
        elif kind < 4:
            records.append(loop(1 + draw.below(3), -draw.of((place or 1, place or 1, 1, 2))))
        else:
            records.append(draw.of((SEND, FLAT, SOON, WAY)))
    return records


def drawn(draw):
    """So many of each answer; of those that are refused with G some for a program, and as many for the two together."""
    wanted = {"0": 24, "G": 8, "both": 16}
    while any(wanted.values()):
        first, second = thrown(draw), thrown(draw)
        if not first or not second:
            continue
        parts = part_of(*first), part_of(*second)
        kind = Join().answer(*parts)[0]
        if kind == "G" and is_accepted(first) and is_accepted(second):
            kind = "both"
        if wanted[kind] > 0:
            wanted[kind] -= 1
            yield parts


def vectors():
    for kind in (worked_examples, axes_of_two, axes_of_empty, faults, unreadable_programs, odd_fields, rule_of_the_two, full, orders):
        yield from kind()
    yield from drawn(Draw(20140504))
    yield from lendings()
    yield from turntables()


# ---- other ways to write a number, and lines that cannot be read

QUESTION = line(SHORT, OTHER)
ANSWER = Join().answer(SHORT, OTHER)


def forms():
    """Zeros in front, up to nineteen digits, and minus zero: a word for each field of a program, and what it says."""
    used, records, axes, digits = fields(SHORT).split(" ")
    for one, two, three in ((19, 0, 0), (0, 19, 0), (0, 0, 19), (5, 2, 3)):
        yield f"{used.zfill(one)} {records.zfill(two)} {axes.zfill(three)} {digits}", SHORT
    for zero in ("-0", "00", "-0000000000000000000", "0000000000000000000"):
        yield f"{zero} {zero} {zero} -", NONE._replace(axes=0)


def part():
    """The vectors, then the other ways to write them, each a line without its end and its answer."""
    rows = [(parts, expected(*parts)) for parts in vectors()]
    tell_apart(rows)
    rows = [(line(*parts), answer) for parts, answer in rows]
    for words, said in forms():
        rows.append((f"join {words} {fields(OTHER)}", expected(said, OTHER)))
        rows.append((f"join {fields(OTHER)} {words}", expected(OTHER, said)))
    return rows


def with_word(at, word, question=QUESTION):
    """The question with another word in the place of one of its fields, from 1."""
    words = question.split(" ")
    words[at] = word
    return " ".join(words)


def unreadable_lendings():
    """Lengths that are missing, wrong or too large, and more bytes than a store has."""
    question = line(SHORT, OTHER, WHOLE)
    words = question.split(" ")
    for count in range(1, len(words)):
        yield " ".join(words[:count])
    for word in ("Lend", "LEND", "lends", "len", "lend,", "join"):
        yield with_word(0, word, question)
    for at, most in ((1, ROOM + 1), (2, ROOM + 1), (3, MANY + 1)):
        for word in (str(most + 1), "-1", str(int(words[at]) + 2**16), "", "-", "1e3", "+1"):
            yield with_word(at, word, question)
    for at, word in ((4, "65536"), (6, "256"), (7, "0"), (8, "-1"), (10, "256"), (11, "--")):
        yield with_word(at, word, question)
    for at, size in ((1, 15), (1, 0), (2, 23), (2, 0)):
        yield with_word(at, str(size), question)
    yield with_word(7, "00" * (ROOM + 1), question)
    yield with_word(1, str(ROOM + 1), with_word(7, "00" * (ROOM + 2), question))
    yield question + " 0"
    yield question.replace("lend ", "lend 16384 ")


def unreadable():
    """Lines whose fields are missing, wrong or too many."""
    words = QUESTION.split(" ")
    for count in range(1, len(words)):
        yield " ".join(words[:count])
    for word in ("Join", "JOIN", "joins", "joi", "join,"):
        yield with_word(0, word)
    for at, most in ((1, 65535), (2, 65535), (3, 255), (5, 65535), (6, 65535), (7, 255)):
        for word in (str(most + 1), "-1"):
            yield with_word(at, word)
    for at, word in ((1, "16.0"), (2, "+2"), (2, "-"), (3, "x"), (3, "0x7"), (5, ""), (6, "00000000000000000002")):
        yield with_word(at, word)
    for at, bits in ((1, 16), (2, 32), (3, 8), (7, 64)):  # the right number, were it read in so many bits
        yield with_word(at, str(int(words[at]) + 2**bits))
    for at in (4, 8):
        digits = words[at]
        for word in ("", "--", "0", "-" + digits, digits + "-", digits[:-1], digits + "0", digits.upper(), "0x" + digits):
            yield with_word(at, word)
        for odd in ("g", "-", "D", ",", "`", ":", "/"):
            yield with_word(at, digits[:4] + odd + digits[5:])
    yield with_word(4, "00" * (ROOM + 1))
    for more in ("0", "-", words[8], "join"):
        yield QUESTION + " " + more
    yield f"join 8 1 0 {words[4]} 8 1 5 d72b"[:-1]  # 3, if it could be read
    yield QUESTION.replace(" ", ",")
    yield from unreadable_lendings()
