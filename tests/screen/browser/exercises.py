"""Every exercise of the list: what the page tells, where the table ends, the stored program and the ways that are drawn in it."""
import re

from told import compared, listing, names, of_exercises


def exercises(page, tried):
    page.open()
    shown = page.driver.script("return [...document.getElementById('exercise').options].map(one => one.value)")
    tried.same("the exercises", shown[:-1], names())
    lines = ways = refused = 0
    for name in names():
        page.all(name)
        text = of_exercises(name, ".txt")
        compared(tried, name, page, text, of_exercises(name, ".told"))
        lines += len(page.log())
        ways += stored(page, tried, name, text)
        refused += faults(page, tried, name, text)
    return f"{len(names())} exercises, {lines} lines, {ways} ways of jumps, loops and waits, {refused} refused programs"


def stored(page, tried, name, text):
    """The stored program, if the board has not refused one last: how many ways are drawn."""
    records = page.records()
    wanted = listing(text)
    if any("faulty" in record["marks"] for record in records):
        tried.that(name + ": the store is empty behind a refusal", wanted == ["9"] and "the store is empty now" in page.text("listing-words"))
        return 0
    if wanted == ["9"]:
        tried.same(name + ": the store is empty", (records, page.text("listing-words")), ([], "The store is empty."))
        return 0
    tried.same(name + ": the listing", [record["text"].replace(" ", "") for record in records], wanted)
    tried.same(name + ": the places", [record["place"] for record in records], [str(place) for place in range(len(wanted))])
    tried.that(name + ": how many records", page.text("listing-words").startswith(f"{len(wanted) - 1} record"), page.text("listing-words"))
    tried.same(name + ": the ways", page.ways(), ways_of(wanted))
    return len(page.ways())


def ways_of(lines):
    """Where records lead by the rule: the own place plus the offset."""
    ways = []
    for place, line in enumerate(lines):
        found = re.fullmatch(r"([23])(\d+),(-?\d+)", line)
        if found:
            kind = "wait" if found[1] == "2" else "jump" if found[2] == "0" else "loop"
            ways.append((place, place + int(found[3]), kind))
    return sorted(ways)


def faults(page, tried, name, text):
    """Each program that the exercise sends in vain, sent up to its end line: the record that the reply names is marked."""
    told = of_exercises(name, ".told")
    count = 0
    for number, place in re.findall(r"^ *(\d+)  9 +G[a-e](\d{4})  ", told, re.M):
        page.own("\n".join(text.splitlines()[: int(number)]))
        page.all()
        records = page.records()
        marked = [int(record["place"]) for record in records if "faulty" in record["marks"].split()]
        tried.same(f"{name}: the record at fault, line {number}", marked, [int(place)])
        said = page.text("listing-words")
        tried.that(f"{name}: the refused program, line {number}", f"record {int(place)}" in said and "empty now" in said, said)
        rows = refused_records(told, int(number))
        tried.same(f"{name}: its records, line {number}", [record["text"].replace(" ", "") for record in records[:-1]], rows)
        count += 1
    return count


def refused_records(told, number):
    """The records that were accepted since storing began, up to an end line."""
    rows = []
    for line in told.splitlines():
        found = re.match(r" *(\d+)  (.*?)  +0  record \d+$", line)
        if re.match(r" *\d+  @0i ", line):
            rows = []
        elif found and int(found[1]) < number:
            rows.append(found[2].replace(" ", ""))
        if re.match(rf" *{number}  ", line):
            return rows
    return rows
