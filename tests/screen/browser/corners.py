"""Moments at which what a person does is hard to write down as a file: each is done on the page, and ./exercise makes the same of its lines."""
from told import done_alike, of_exercises

LONG = "@0A 400,600,200,600"


def corners(page, tried):
    page.open()
    for corner in CORNERS:
        page.click("clear")
        page.choose("pace", "250")
        corner(page)
        page.choose("pace", "0")
        page.quiet()
        if not page.is_disabled("run"):
            page.click("run")
            page.quiet()
        done_alike(tried, corner.__doc__.rstrip("."), page)
    return f"{len(CORNERS)} moments"


def lines(page, *texts):
    for text in texts:
        page.line(text)
        page.quiet()


def moving(page, *texts):
    """The lines are sent, and the table moves under the last of them."""
    lines(page, *texts[:-1])
    page.line(texts[-1])
    page.driver.until(lambda: page.positions()["x"] > 5, "the table does not move")


def held(page, *texts):
    """The same, and the clock is held in the midst of it."""
    moving(page, *texts)
    page.click("run")
    page.driver.until(lambda: page.text("status-big") == "Under way", "the pause came too late")


def clock_behind_a_run(page):
    """Clock calls with nothing to do behind a movement that is made."""
    lines(page, "@03", "@0A 4,600,2,600")
    for _ in range(3):
        page.click("clock")
    lines(page, "@0P")


def clock_at_a_wait(page):
    """Clock calls while a program waits."""
    page.own("\n".join(of_exercises("clamp-check", ".txt").splitlines()[:-1]) + "\n")
    page.all()
    page.click("clock")
    page.click("clock")
    lines(page, "key N", "key Y")


def ports_in_a_run(page):
    """Ports are set while the table moves, and the movement ends."""
    moving(page, "@03", LONG)
    page.line("ports 1 2 3 4")
    page.quiet()
    lines(page, "@0b1", "@0P")


def ports_and_a_stop(page):
    """Ports are set while the table moves, then comes a stop."""
    moving(page, "@03", LONG)
    page.line("ports 1 2 3 4")
    page.click("stop")
    lines(page, "@0P", "go on")


def list_in_a_run(page):
    """A listing while the table moves."""
    moving(page, "@03", LONG)
    page.line("list")
    page.quiet()
    lines(page, "@0P")


def pause_in_a_line(page):
    """A pause in the midst of a line whose first bytes answer a wait."""
    page.choose("exercise", "clamp-check")
    page.choose("pace", "10")
    page.click("send-all")
    page.driver.until(lambda: page.positions()["x"] > 1, "the table does not move")
    page.click("run")
    page.click("clock")


def dropped_in_a_run(page):
    """A line while the table moves, which is dropped."""
    moving(page, "@03", LONG)
    page.line("@0P")
    page.quiet()
    lines(page, "@0P")


def pause_and_a_line(page):
    """A pause, a line, clock calls by hand, and the rest."""
    held(page, "@03", LONG)
    page.line("@0P")
    page.click("clock")
    page.click("stop")
    page.click("clock")
    page.click("start")


def pause_and_ports(page):
    """A pause, ports, and the rest without a line between."""
    held(page, "@03", LONG)
    page.line("ports 1 2 3 4")
    page.click("run")
    page.quiet()
    lines(page, "@0b1")


def pause_and_list(page):
    """A pause, a listing, and the rest without a line between."""
    held(page, "@03", LONG)
    page.line("list")
    page.click("run")
    page.quiet()
    lines(page, "@0P")


def ports_and_the_rest(page):
    """A pause, ports, and the rest, with nothing behind it."""
    held(page, "@03", LONG)
    page.line("ports 1 2 3 4")


def list_and_the_rest(page):
    """A pause, a listing, and the rest, with nothing behind it."""
    held(page, "@03", LONG)
    page.line("list")


def break_and_clock(page):
    """A break in a movement, then a clock call with nothing to do."""
    moving(page, "@03", LONG)
    page.click("break")
    page.click("clock")
    lines(page, "@0A 3,600,0,600")


def back_to_the_front(page):
    """A look back to the very first clock call, and on from there."""
    lines(page, "@03", "@0A 8,600,2,600", "@0P")
    page.driver.drag("#time", 0.5)
    page.driver.press("Home")
    page.click("from-here")
    page.click("run")
    page.quiet()
    lines(page, "@0P")


CORNERS = [clock_behind_a_run, clock_at_a_wait, ports_in_a_run, ports_and_a_stop, list_in_a_run, pause_in_a_line, dropped_in_a_run, pause_and_a_line,
           pause_and_ports, pause_and_list, ports_and_the_rest, list_and_the_rest, break_and_clock, back_to_the_front]
