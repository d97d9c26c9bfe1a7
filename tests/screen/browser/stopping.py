"""Stop, start, break, reset, a wait, input ports and clock calls by hand, by the buttons in the midst of a movement."""
import time

from told import bytes_of, done_alike, of_exercises, position, states


def stopping(page, tried):
    page.open()
    stopped(page, tried)
    broken(page, tried)
    waiting(page, tried)
    ports(page, tried)
    cleared(page, tried)
    by_hand(page, tried)
    return "a stop with its rest, a break, a wait with two answers, ports, a reset, clock calls by hand"


def until_moving(page, axis, steps):
    page.driver.until(lambda: abs(page.positions()[axis]) >= steps, "the table does not move")


def stopped(page, tried):
    """A stop in a long movement, a new one that is refused, and the rest."""
    page.choose("pace", "250")
    page.line("@03")
    page.line("@0A 400,600,200,600")
    until_moving(page, "x", 20)
    page.click("stop")
    held = page.positions()
    tried.that("a stop comes in mid-movement", 20 <= held["x"] < 400, held)
    tried.same("large words", page.text("status-big"), "Stopped, not finished")
    size = page.driver.script("return parseFloat(getComputedStyle(document.getElementById('status-big')).fontSize)")
    tried.that("they are large", size >= 24, size)
    time.sleep(0.4)
    tried.same("it stands", page.positions(), held)
    tried.same("F is told", page.log()[-1][1:3], ("stop", "F  stopped, and stands"))
    page.line("@0A 1,600,0,600")
    tried.same("a new movement is refused", page.log()[-1][2][:1], "W")
    tried.same("it still stands", (page.positions(), page.text("status-big")), (held, "Stopped, not finished"))
    page.click("start")
    page.choose("pace", "0")
    page.quiet()
    tried.same("the rest is made", page.positions(), {"x": 400, "y": 200, "z": 0})
    done_alike(tried, "a stop", page)


def broken(page, tried):
    """A break in a movement, and one of what stands."""
    for first in ("break", "stop"):
        page.choose("pace", "250")
        page.line("@0A -300,600,0,600")
        before = page.positions()["x"]
        until_moving(page, "x", 0)
        page.driver.until(lambda: page.positions()["x"] < before - 10, "the table does not move")
        page.click(first)
        held = page.positions()
        page.click("break")
        tried.that(f"{first}, break: ended", page.log()[-1][1] == "break" and "stands" not in page.text("status-big"), page.log()[-1])
        page.click("start")
        page.quiet()
        tried.same(f"{first}, break: the rest is forgotten", page.positions(), held)
    done_alike(tried, "breaks", page)


def waiting(page, tried):
    """The exercise with a wait, without the line that answers it."""
    page.own("\n".join(of_exercises("clamp-check", ".txt").splitlines()[:-1]) + "\n")
    page.all()
    for answer, wanted in (("N", "Waiting for a character"), ("Y", "Nothing runs")):
        tried.same(f"it waits for {answer}", page.text("status-big"), "Waiting for a character")
        page.write("character", answer)
        page.driver.press("Enter")
        page.quiet()
        tried.same(f"behind {answer}", page.text("status-big"), wanted)
    tried.same("the clamp is closed, the hole is drilled", page.positions(), {"x": 4, "y": 0, "z": 0})
    done_alike(tried, "a wait", page)
    for wrong in ("", "é"):
        page.write("character", wrong)
        page.driver.press("Enter")
        tried.that("a character that is none", "one character" in page.trouble(), page.trouble())


def ports(page, tried):
    page.click("clear")
    if page.is_hidden("port0"):
        page.click("[id=inputs] summary")
    for i, value in enumerate((1, 20, 160, 255)):
        page.write(f"port{i}", str(value))
    page.click("[id=porting] button")
    page.line("@01")
    for port in range(4):
        page.line(f"@0b{port}")
    page.quiet()
    tried.same("input ports", [entry[2] for entry in page.log()[2:]], ["001", "014", "0A0", "0FF"])
    done_alike(tried, "ports", page)
    page.write("port0", "256")
    page.click("[id=porting] button")
    tried.same("a port that is too large is not set", page.log()[-1][1], "@0b3")


def cleared(page, tried):
    """A reset in a movement: no axes, position 0, the program is still there."""
    page.choose("pace", "250")
    page.all("drill-row")
    page.choose("pace", "50")
    page.click("start")
    until_moving(page, "x", 27)
    page.click("reset")
    page.line("@0P")
    page.choose("pace", "0")
    page.line("@07")
    page.click("start")
    page.quiet()
    tried.same("behind a reset the program runs from the front", page.positions(), {"x": 25, "y": 0, "z": 0})
    done_alike(tried, "a reset", page)


def by_hand(page, tried):
    """Clock call by clock call."""
    page.click("clear")
    page.line("@03")
    page.quiet()
    page.click("clock")
    page.line("@0A 4,600,-2,600")
    for made in range(1, 7):
        page.click("clock")
        script = bytes_of(["@03"]) + [f"B {byte}" for byte in b"@0A 4,600,-2,600\r"] + [f"C {made}", "S"]
        tried.same(f"clock call {made} by hand", page.positions(), position(states(script)[0]))
    done_alike(tried, "clock calls by hand", page)
