"""A person changes her mind in the midst of a run: another exercise, a fresh board, a lesson begun again, a look back and on."""
import time

from told import compared, done_alike, entries, of_exercises

PLACES = "return ['stop', 'run', 'time'].map(name => Math.round(document.getElementById(name).getBoundingClientRect().y))"


def changing(page, tried):
    page.open()
    another(page, tried)
    fresh(page, tried)
    looked(page, tried)
    typed(page, tried)
    lesson_again(page, tried)
    return "another exercise, a fresh board, a look back, words and lines, and a lesson begun again, each in the midst of a run"


def begin(page, name, pace="50"):
    """An exercise is under way."""
    page.choose("exercise", name)
    page.choose("pace", pace)
    page.click("send-all")
    page.driver.until(lambda: page.calls()[1] > 5, "nothing runs")


def another(page, tried):
    begin(page, "slot")
    page.choose("exercise", "drill-row")
    tried.same("another exercise has a fresh board", (page.log(), page.calls(), page.positions()), ([], [0, 0], {"x": 0, "y": 0, "z": 0}))
    page.all()
    compared(tried, "an exercise behind a broken one", page, of_exercises("drill-row", ".txt"), of_exercises("drill-row", ".told"))


def fresh(page, tried):
    """Switched off and on, and from the top: both begin with nothing."""
    for button in ("clear", "rewind"):
        begin(page, "pocket")
        page.click(button)
        tried.same(f"{button}: a fresh board", (page.log(), page.calls(), page.records()), ([], [0, 0], []))
        page.all()
        compared(tried, f"behind {button}", page, of_exercises("pocket", ".txt"), of_exercises("pocket", ".told"))


def looked(page, tried):
    """A look back holds the run; then it goes on, and the lines that were not sent are sent."""
    begin(page, "drill-grid")
    steady(page, tried)
    page.driver.drag("#time", 0.4)
    now, made = page.calls()
    tried.that("a look back in mid-run", now < made, (now, made))
    page.click("to-now")
    tried.same("the run is held meanwhile", page.calls(), [made, made])
    page.choose("pace", "0")
    page.click("run")
    page.quiet()
    if not page.is_disabled("send-all"):
        page.click("send-all")
        page.quiet()
    wanted = entries(of_exercises("drill-grid", ".told"), of_exercises("drill-grid", ".txt"))[1]
    tried.same("the end behind a look back", page.positions(), wanted)
    done_alike(tried, "a look back in mid-run", page)


def steady(page, tried):
    """What one would press stays where it is while the table moves."""
    seen = set()
    for _ in range(12):
        seen.add(tuple(page.driver.script(PLACES)))
        time.sleep(0.04)
    tried.same("places of Stop, Run and the slider in a run", len(seen), 1)


def typed(page, tried):
    """Whatever is sent that does not hold the table, it goes on moving."""
    for text in ("@0P", "key Y", "ports 1 2 3 4", "list"):
        page.click("clear")
        page.choose("pace", "250")
        page.line("@03")
        page.quiet()
        page.line("@0A 400,600,0,600")
        page.driver.until(lambda: page.positions()["x"] > 10, "the table does not move")
        page.line(text)
        here = page.positions()["x"]
        time.sleep(0.3)
        tried.that(f"the table goes on behind {text}", page.positions()["x"] > here, here)
    page.click("clear")


def lesson_again(page, tried):
    """A lesson is begun again while it runs, and its choice is taken once more."""
    page.click("tab-lessons")
    page.click("lesson-loop")
    page.choose("pace", "50")
    page.driver.click('#panel-lessons .choice[data-value="25"]')
    page.driver.until(lambda: page.calls()[1] > 5, "nothing runs")
    page.driver.click("#panel-lessons > .row button:nth-child(1)")
    tried.same("a lesson begun again has a fresh board", (page.log(), page.calls()), ([], [0, 0]))
    page.choose("pace", "0")
    page.driver.click('#panel-lessons .choice[data-value="26"]')
    page.driver.until(lambda: not page.is_hidden("answer"), "no answer comes")
    tried.that("its answer", page.text("answer").startswith("Right: 26"), page.text("answer"))
    program = page.driver.script("return document.querySelector('#panel-lessons .program').textContent") + "\n"
    compared(tried, "a lesson begun again", page, program)
    page.click("tab-program")
