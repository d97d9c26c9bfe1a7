"""The page as a person has it: buttons and boxes by their names, and what is shown; and a count of what was tried."""
import json
import os
import pathlib
import time

ROOT = os.path.dirname(os.path.dirname(os.path.dirname(os.path.dirname(os.path.abspath(__file__)))))
FULL = "0"  # the pace as fast as it can

LOG = """return [...document.querySelectorAll('#log .entry')].map(entry => {
    const all = name => [...entry.querySelectorAll(name)].map(part => part.textContent);
    return [all('.number')[0], all('.line')[0], all('.words').join('|'), all('.under')];
});"""
POSITIONS = """return Object.fromEntries([...document.querySelectorAll('#positions tbody tr')].filter(row => !row.hidden)
    .map(row => [row.cells[0].textContent, Number(row.cells[1].textContent)]));"""
RECORDS = """return [...document.querySelectorAll('#listing li')].map(row => ({place: row.querySelector('.place').textContent,
    text: row.querySelector('.text').textContent, passes: row.querySelector('.passes').textContent, marks: row.className}));"""
WAYS = """return [...document.querySelectorAll('#listing .way')].map(way => [Number(way.dataset.from), Number(way.dataset.to),
    way.getAttribute('class').replace('way ', '')]);"""
# How many points of a plate have another colour than most of them.
DRAWN = """const plate = document.getElementById(arguments[0]);
    const copy = new OffscreenCanvas(plate.width, plate.height).getContext('2d', { willReadFrequently: true });
    copy.drawImage(plate, 0, 0);
    const points = new Uint32Array(copy.getImageData(0, 0, plate.width, plate.height).data.buffer);
    const counts = new Map();
    for (const point of points) counts.set(point, (counts.get(point) ?? 0) + 1);
    return points.length - Math.max(...counts.values());"""


class Tried:
    """Counts the things that were tried; what was not as it should be is kept."""

    def __init__(self):
        self.count = 0
        self.failed = []

    def that(self, what, is_so, seen=""):
        self.count += 1
        if not is_so:
            self.failed.append(f"{what}{f': {seen}' if seen != '' else ''}")
        return is_so

    def same(self, what, got, wanted):
        return self.that(what, got == wanted, "" if got == wanted else difference(got, wanted))


def difference(got, wanted):
    """Where two things part, in one line."""
    if isinstance(got, list) and isinstance(wanted, list):
        for i, (one, other) in enumerate(zip(got, wanted)):
            if one != other:
                return f"at {i} it shows {one!r} and should show {other!r}"
        return f"it shows {len(got)} and should show {len(wanted)}; then {(got + wanted)[min(len(got), len(wanted)):][:1]!r}"
    return f"it shows {got!r} and should show {wanted!r}"


class Page:
    def __init__(self, driver, file):
        self.driver = driver
        self.file = file
        self.address = pathlib.Path(file).resolve().as_uri()

    def open(self):
        """The page from its file, anew: the milliseconds until it has begun."""
        self.driver.open(self.address)
        return int(self.driver.until(lambda: self.driver.script("return document.documentElement.dataset.ready || ''"), "the page does not begin"))

    def click(self, name):
        self.driver.click(name if name[0] in "#.[" else "#" + name)

    def choose(self, name, value):
        """An option of a list."""
        self.driver.click(f"#{name} option[value={json.dumps(value)}]")

    def write(self, name, text):
        self.driver.clear("#" + name)
        self.driver.type("#" + name, text)

    def text(self, name):
        return self.driver.script("return document.getElementById(arguments[0]).innerText", name).strip()

    def text_of(self, name):
        """The text of something that need not be shown."""
        return self.driver.script("return document.getElementById(arguments[0]).textContent", name)

    def is_hidden(self, name):
        return self.driver.script("return !document.getElementById(arguments[0]).checkVisibility()", name)

    def is_disabled(self, name):
        return self.driver.script("return document.getElementById(arguments[0]).disabled", name)

    def line(self, text):
        """A line is typed and sent."""
        self.write("typed", text)
        self.driver.press("Enter")

    def own(self, text):
        """A program of one's own is written, and taken over."""
        self.choose("exercise", "my own program")
        if self.is_hidden("source"):
            self.click("edit")
        self.write("source", text)
        self.click("edit")

    def all(self, name=None, patience=60):
        """An exercise is chosen, and all of it is sent as fast as it can."""
        if name:
            self.choose("exercise", name)
        self.choose("pace", FULL)
        self.click("send-all")
        self.quiet(patience)

    def quiet(self, patience=60):
        """Until nothing more is to be done, or a person makes the clock calls."""
        self.driver.until(lambda: self.text("run") == "Run", "it is not over", patience)

    def log(self):
        return [tuple(entry[:3]) + (tuple(entry[3]),) for entry in self.driver.script(LOG)]

    def positions(self):
        return self.driver.script(POSITIONS)

    def records(self):
        return self.driver.script(RECORDS)

    def ways(self):
        return sorted(map(tuple, self.driver.script(WAYS)))

    def drawn(self, name="plate"):
        return self.driver.script(DRAWN, name)

    def plate(self, name="plate"):
        """All of a plate as it is drawn."""
        return self.driver.script("return document.getElementById(arguments[0]).toDataURL()", name)

    def calls(self):
        """The clock call that is looked at, and how many were made."""
        return [int(self.text(name).replace(",", "")) for name in ("time-now", "time-all")]

    def trouble(self):
        return "" if self.is_hidden("trouble") else self.text("trouble")

    def errors(self):
        """What the browser complained of since it was asked last."""
        return [entry["message"] for entry in self.driver.log("browser") if entry["level"] in ("SEVERE", "WARNING")]

    def took(self, action):
        """The seconds of an action."""
        begun = time.monotonic()
        action()
        return time.monotonic() - begun
