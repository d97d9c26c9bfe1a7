"""The lessons: every choice of every one is taken, and the board's answer is held beside what ./exercise prints of the lesson's program."""
from told import compared, of_exercises

# The lessons in their order, and what the board must answer, worked out by hand.
ANSWERS = {"jump": "4", "loop": "26", "origin": "13", "stop": "5", "old": "0 1 1 1"}
# The records that run in the last one, with the loop: as they are written, and with a loop that goes back one record less.
RAN = ["0 1 2 0 1 2 0 1 2", "0 1 2 1 2 1 2"]

CHOICES = "return [...document.querySelectorAll('#panel-lessons .choice')].map(one => [one.dataset.value, one.className])"


def lessons(page, tried):
    page.open()
    page.choose("pace", "0")
    page.click("tab-lessons")
    shown = page.driver.script("return [...document.querySelectorAll('#panel-lessons li button')].map(one => one.id)")
    tried.same("the lessons", shown, ["lesson-" + name for name in ANSWERS])
    taken = 0
    for name in ANSWERS:
        page.click("lesson-" + name)
        page.quiet()
        for value, _ in page.driver.script(CHOICES):
            choose(page, tried, name, value)
            taken += 1
            again(page)
        page.driver.click("#panel-lessons > .row button:nth-child(2)")
    tried.that("the second plate goes with its lesson", page.is_hidden("second-figure"))
    leave(page, tried)
    return f"{len(ANSWERS)} lessons, {taken} choices"


def leave(page, tried):
    """From the midst of the last lesson to an exercise."""
    page.click("lesson-old")
    page.driver.click("#panel-lessons .choice")
    page.driver.until(lambda: not page.is_hidden("answer"), "no answer comes")
    page.click("tab-program")
    page.all("jump-over")
    tried.that("the second plate does not stay beside an exercise", page.is_hidden("second-figure"))
    compared(tried, "an exercise behind a lesson", page, of_exercises("jump-over", ".txt"), of_exercises("jump-over", ".told"))


def again(page):
    page.driver.click("#panel-lessons > .row button:nth-child(1)")
    page.quiet()


def choose(page, tried, name, value):
    """A choice is taken on a fresh board."""
    what = f"lesson {name}, choice {value}"
    tried.that(what + ": no answer before the choice", page.is_hidden("answer"))
    page.driver.click(f'#panel-lessons .choice[data-value="{value}"]')
    page.driver.until(lambda: not page.is_hidden("answer"), what + ": no answer comes")
    choices = page.driver.script(CHOICES)
    tried.same(what + ": the right one", [one for one, marks in choices if "right" in marks.split()], [ANSWERS[name]])
    wrong = [value] if value != ANSWERS[name] else []
    tried.same(what + ": the wrong one", [one for one, marks in choices if "wrong" in marks.split()], wrong)
    said = page.text("answer")
    tried.that(what + ": the verdict", said.startswith("The board gives another answer: " if wrong else "Right: "), said)
    program = page.driver.script("return document.querySelector('#panel-lessons .program').textContent") + "\n"
    compared(tried, what, page, program)
    if name == "old":
        beside(page, tried, what)
    else:
        tried.that(what + ": one plate", page.is_hidden("second-figure"))


def beside(page, tried, what):
    """Both plates, and the records that ran on both boards."""
    rows = page.driver.script("return [...document.querySelectorAll('#answer .ran code')].map(row => row.textContent)")
    tried.same(what + ": the records that ran", rows, RAN)
    tried.that(what + ": the second plate is shown", not page.is_hidden("second-figure"))
    drawn = [page.drawn(name) for name in ("plate", "second-plate")]
    tried.that(what + ": both plates are drawn, and differ", min(drawn) > 0 and drawn[0] != drawn[1], drawn)
