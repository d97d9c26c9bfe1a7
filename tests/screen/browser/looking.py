"""Time: the slider shows where the table stood after so many clock calls, as the program calls says; back to now, and on from there."""
import re

from told import calls_of, done_alike, of_exercises, position, sent_lines, state_after, entries

PLACES = (0.02, 0.2, 0.37, 0.5, 0.71, 0.93)
NAMES = ("drill-row", "slot", "two-record-pattern")


def looking(page, tried):
    page.open()
    looks = 0
    for name in NAMES:
        page.all(name)
        looks += look_back(page, tried, name)
        go_on(page, tried, name)
    passes(page, tried)
    return f"{looks} looks back at {len(NAMES)} exercises, and on from the midst of each; the passes of a loop"


def shown_at(page, tried, what, lines):
    """The positions that are shown, beside those of the program calls after so many clock calls."""
    now = page.calls()[0]
    tried.same(f"{what} after {now} clock calls", page.positions(), position(state_after(lines, now)))
    return now


def look_back(page, tried, name):
    """Places of the slider by the mouse, one more and one less by the keys, both ends; then back to now."""
    end = page.positions()
    lines = sent_lines(of_exercises(name, ".txt"))
    seen = set()
    for share in PLACES:
        page.driver.drag("#time", share)
        seen.add(shown_at(page, tried, name, lines))
        for key in ("ArrowRight", "ArrowLeft", "ArrowLeft"):
            page.driver.press(key)
            seen.add(shown_at(page, tried, name, lines))
    page.driver.press("Home")
    tried.same(name + ": the first clock call", shown_at(page, tried, name, lines), 0)
    tried.that(name + ": many places are seen", len(seen) > 12, sorted(seen))
    tried.that(name + ": what would change the board is not offered", page.is_disabled("send-all") and page.is_disabled("stop"))
    page.click("to-now")
    tried.same(name + ": back to now", (page.positions(), page.calls()[0]), (end, page.calls()[1]))
    return len(seen)


def go_on(page, tried, name):
    """From the midst of the run: what came later is forgotten, and is made again."""
    page.driver.drag("#time", 0.45)
    here = page.positions()
    page.click("from-here")
    now, made = page.calls()
    tried.that(name + ": what came later is forgotten", now == made and page.positions() == here, (now, made))
    page.click("run")
    page.quiet()
    if not page.is_disabled("send-all"):
        page.click("send-all")
        page.quiet()
    text = of_exercises(name, ".txt")
    tried.same(name + ": the same end", page.positions(), entries(of_exercises(name, ".told"), text)[1])
    done_alike(tried, name + ": on from the midst", page)


def passes(page, tried):
    """The loop of the first exercise goes back four times: which pass it is, by the calls that only go back."""
    page.all("drill-row")
    answers = calls_of(sent_lines(of_exercises("drill-row", ".txt")))
    page.driver.drag("#time", 0.5)
    page.driver.press("Home")
    said = set()
    for now in range(1, 60):
        page.driver.press("ArrowRight")
        made = answers[:now].count("C Done")
        words = page.records()[1]["passes"]
        numbers = re.findall(r"(\d+)(?: pass| passes)? made, (\d+) left", words)
        tried.same(f"the passes after {now} clock calls", numbers, [(str(made), str(5 - made))] if made else [])
        said.add(words)
    tried.same("words for the passes", len(said), 5)
    page.click("to-now")
