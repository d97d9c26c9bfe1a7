"""Wrong readings of the requests (02, §4, §6 and §7), each with one clause of the rule changed, and whether joins tell them from it: for
tests/vectors/joins.py.
"""
from join_rule import MANY, NUMBERS, ROOM, WHOLE, Join, is_accepted, read, repeated, starts, targets

OF_EACH = 2


class EmptyByBytes(Join):
    def empty(self, part):
        return part.used == 0


class EmptyByItsAxes(Join):
    def axes(self, part, other):
        return part.axes


class TwoEmptyPass(Join):
    def same_axes(self, first, second):
        return super().same_axes(first, second) or (self.empty(first) and self.empty(second))


class AxesOfTheFirst(Join):
    def result(self, first, second):
        return super().result(first, second)._replace(axes=first.axes)


class AnyAxes(Join):
    def allowed(self, axes):
        return axes in (*NUMBERS, 0, 2, 4, 5, 6)

    def programs_wrong(self, first, second):
        return super().programs_wrong(first, second) if self.axes(first, second) in NUMBERS else ""


class WithoutA(Join):
    def allowed(self, axes):
        return axes in (1, 3, 7)


class NeverAlone(Join):
    def allowed(self, axes):
        return axes in NUMBERS and axes != 8


class MixedWithA(Join):
    def allowed(self, axes):
        return axes in (*NUMBERS, *range(9, 15))


class AForNothing(Join):
    def same_axes(self, first, second):
        """Three axes and four count as the same."""
        return self.axes(first, second) % 8 == self.axes(second, first) % 8


class OfBoth(Join):
    """Refuses programs with some record that the rule allows."""

    def wrong(self, code, numbers):
        return False

    def programs_wrong(self, first, second):
        told = super().programs_wrong(first, second)
        records = [] if told else read(first, self.axes(first, second)) + read(second, self.axes(second, first))
        return "G" if any(self.wrong(code, numbers) for code, *numbers in records) else told

    order = (Join.axes_wrong, programs_wrong, Join.room_wrong)


class NoTargetOfA(OfBoth):
    def wrong(self, code, numbers):
        return code == "m" and any(numbers[6:7])


class NoOriginOfA(OfBoth):
    def wrong(self, code, numbers):
        return code == "n" and numbers == [8]


class AxesMayDiffer(Join):
    def same_axes(self, first, second):
        return True


class FirstAccepted(Join):
    def both_accepted(self, first, second):
        return is_accepted(first)


class SecondAccepted(Join):
    def both_accepted(self, first, second):
        return is_accepted(second)


class ResultAccepted(Join):
    def both_accepted(self, first, second):
        return is_accepted(first + second)


class JumpsAlone(Join):
    def leads_out(self, records):
        return len(records) in targets(records, "3").values()


class WaitsAlone(Join):
    def leads_out(self, records):
        return len(records) in targets(records, "2").values()


class LastRecordToo(Join):
    def leads_out(self, records):
        return any(to >= len(records) - 1 for to in targets(records).values())


class AnyLoop(Join):
    def starts_first(self, records):
        return bool(repeated(records))


class FirstLoopAlone(Join):
    def starts_first(self, records):
        return any(min(held) == 0 for held in list(repeated(records).values())[:1])


class NeverEnters(Join):
    def enters(self, first, second):
        return False


class TheOtherWayRound(Join):
    def enters(self, first, second):
        return self.leads_out(second) and self.starts_first(first)


class FewerRecords(Join):
    def has_room(self, first, second):
        return first.records + second.records < MANY and first.used + second.used <= ROOM


class FewerBytes(Join):
    def has_room(self, first, second):
        return first.records + second.records <= MANY and first.used + second.used < ROOM


class RecordsAlone(Join):
    def has_room(self, first, second):
        return first.records + second.records <= MANY


class BytesAlone(Join):
    def has_room(self, first, second):
        return first.used + second.used <= ROOM


class SecondInFront(Join):
    def put(self, first, second):
        return super().put(second, first)


class BehindWhatIsGiven(Join):
    def put(self, first, second):
        return (first.store + second.store)[: first.used + second.used]


class AllThatIsGiven(Join):
    def put(self, first, second):
        return super().put(first, second) + second.store[second.used :]


class ProgramsBeforeAxes(Join):
    order = (Join.programs_wrong, Join.axes_wrong, Join.room_wrong)


class RoomBeforePrograms(Join):
    order = (Join.axes_wrong, Join.room_wrong, Join.programs_wrong)


class RoomBeforeAxes(Join):
    order = (Join.room_wrong, Join.axes_wrong, Join.programs_wrong)


class FirstStoreAlone(Join):
    def stores_wrong(self, lent):
        return super().stores_wrong(lent._replace(second=ROOM))


class SecondStoreAlone(Join):
    def stores_wrong(self, lent):
        return super().stores_wrong(lent._replace(first=ROOM))


class LongerStores(Join):
    def stores_wrong(self, lent):
        return "102" if min(lent.first, lent.second) < ROOM else ""


class LongerTables(Join):
    def table_wrong(self, lent):
        return "104" if lent.table < MANY else ""


class TableThatHolds(Join):
    def answer(self, first, second, lent=WHOLE):
        holds = first.records + second.records <= lent.table
        return super().answer(first, second, lent._replace(table=MANY) if holds else lent)


class TableBeforeStores(Join):
    def lent_wrong(self, lent):
        return self.table_wrong(lent) or self.stores_wrong(lent)


class LentLast(Join):
    def answer(self, first, second, lent=WHOLE):
        told = super().answer(first, second)
        return super().answer(first, second, lent) if told.startswith("0 ") else told


class TableLast(Join):
    def answer(self, first, second, lent=WHOLE):
        told = super().answer(first, second, lent._replace(table=MANY))
        return super().answer(first, second, lent) if told.startswith("0 ") else told


class EntriesOfTheFirst(Join):
    def table(self, first, second):
        return starts(first)


class EntriesOfTheSecond(Join):
    def table(self, first, second):
        return [65535] * len(starts(first)) + super().table(first, second)[len(starts(first)) :]


class EntriesNotMoved(Join):
    def table(self, first, second):
        return starts(first) + starts(second)


class EndPlaceToo(Join):
    def table(self, first, second):
        return [*super().table(first, second), first.used + second.used]


def tell_apart(rows):
    """Stops if fewer lines than OF_EACH tell a slip from the rule."""
    for slip in [slip for slip in (*Join.__subclasses__(), *OfBoth.__subclasses__()) if slip is not OfBoth]:
        found = sum(slip().answer(*parts) != answer for parts, answer in rows)
        if found < OF_EACH:
            raise SystemExit(f"only {found} joins tell {slip.__name__} from the rule")
