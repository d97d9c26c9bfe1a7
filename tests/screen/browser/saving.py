"""Sessions by chance, with a fixed seed: all that was done is saved as a file, and ./exercise tells of that file what the page has told."""
import os
import random
import time

from told import compared

NAMES = ("drill-grid", "clamp-check", "slot", "clamp-then-drill", "two-record-pattern", "turn-in-the-plate")
ACTIONS = 40
LINES = ["@0P", "@07", "@03", "@0A 30,600,10,600,0,300,0,300", "@0A -8,900,3,900", "@0S", "@0b1", "hello", "@0n 3", "@0A 10,20", "list", "clock 7",
         "@0i", "9", "0 3,600,0,600,-2,300,2,300", "key Y", "byte 13", "go on", "@0M 0,600,0,600,0,300,0,300", "@0f -1", "@0y 16,600,0,2,0,-1,-1"]
PACES = ("50", "250", "1000", "1000", "0")


def saving(page, tried):
    page.driver.devtools("Browser.setDownloadBehavior", behavior="allow", downloadPath=page.folder)
    page.open()
    lines = 0
    for seed, name in enumerate(NAMES, 1):
        page.choose("exercise", name)
        chance = random.Random(seed)
        for _ in range(ACTIONS):
            chance.choices(*zip(*DOINGS))[0](page, chance)
        finish(page)
        lines += saved(page, tried, f"session {seed}")
    return f"{len(NAMES)} sessions of {ACTIONS} actions, {lines} lines in their files"


def pressed(name):
    """A button is pressed if it can be."""
    def doing(page, chance):
        if not page.is_disabled(name):
            page.click(name)
    return doing


def typed(page, chance):
    page.line(chance.choice(LINES))


def answered(page, chance):
    page.write("character", chance.choice("YN?"))
    page.driver.press("Enter")


def ported(page, chance):
    if page.is_hidden("port1"):
        page.click("[id=inputs] summary")
    page.write("port1", str(chance.randrange(256)))
    page.driver.press("Enter")


def clocked(page, chance):
    for _ in range(chance.randrange(1, 6)):
        page.click("clock")


def paced(page, chance):
    page.choose("pace", chance.choice(PACES))


def waited(page, chance):
    time.sleep(chance.random() / 4)


def looked(page, chance):
    """A look back; sometimes what came later is forgotten."""
    page.driver.drag("#time", chance.random())
    if not page.is_hidden("looking"):
        page.click(chance.choice(("to-now", "to-now", "from-here")))


DOINGS = [(typed, 8), (answered, 2), (ported, 1), (clocked, 4), (paced, 3), (waited, 3), (looked, 2)]
DOINGS += [(pressed(name), weight) for name, weight in
           {"send-all": 3, "send-line": 3, "run": 4, "stop": 4, "start": 4, "break": 1, "reset": 0.5}.items()]


def finish(page):
    """What is under way comes to its end."""
    page.choose("pace", "0")
    page.quiet()
    if not page.is_disabled("run"):
        page.click("run")
        page.quiet()


def saved(page, tried, what):
    """The file that is saved: how many lines it has."""
    file = os.path.join(page.folder, "session.txt")
    page.click("save")
    page.driver.until(lambda: os.path.exists(file), "no file is saved")
    with open(file, encoding="utf-8") as saved_file:
        text = saved_file.read()
    os.remove(file)
    tried.same(what + ": the file", text.splitlines(), [entry[1] for entry in page.log()])
    compared(tried, what, page, text, numbered=False)
    return len(text.splitlines())
