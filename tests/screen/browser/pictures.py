"""The page at two widths, light and dark: nothing is wider than the page; and pictures of it for people, and the page that is printed."""
import base64
import os
import re

from told import of_exercises

WIDTHS = {1280: 1000, 400: 800}
PRINTED = ("drill-row", "pocket", "holes-out-of-order")
WIDE = """return [document.scrollingElement.scrollWidth, [...document.querySelectorAll('body *')].filter(one => {
    const box = one.getBoundingClientRect();
    return box.width && box.right > innerWidth + 1 && !one.closest('#log, #listing, .lines, .program, #panel-card, .skip');
}).slice(0, 3).map(one => one.id || one.className || one.tagName)]"""


def pictures(page, tried):
    os.makedirs(page.pictures, exist_ok=True)
    for width, height in WIDTHS.items():
        for scheme in ("light", "dark"):
            page.driver.devtools("Emulation.setDeviceMetricsOverride", width=width, height=height, deviceScaleFactor=1, mobile=False)
            page.driver.devtools("Emulation.setEmulatedMedia", features=[{"name": "prefers-color-scheme", "value": scheme}])
            page.open()
            for name, state in STATES.items():
                state(page)
                seen(page, tried, f"{name}-{width}-{scheme}", width)
    page.driver.devtools("Emulation.clearDeviceMetricsOverride")
    page.driver.devtools("Emulation.setEmulatedMedia", features=[])
    for name in PRINTED:
        on_paper(page, tried, name)
    return f"{len(STATES) * 4} pictures and {len(PRINTED)} pages on paper, in target/screen/pictures"


def seen(page, tried, name, width):
    """Nothing stands out of the page; and a picture of all of it."""
    page.driver.script("scrollTo(0, 0)")
    wide, what = page.driver.script(WIDE)
    tried.that(f"{name}: no wider than {width}", wide <= width and not what, f"{wide}, {what}")
    whole_picture(page, name, width)


def whole_picture(page, name, width):
    """A picture of all of the page, also of what one would have to scroll to."""
    size = page.driver.devtools("Page.getLayoutMetrics")["cssContentSize"]
    clip = {"x": 0, "y": 0, "width": width, "height": size["height"], "scale": 1}
    data = page.driver.devtools("Page.captureScreenshot", captureBeyondViewport=True, clip=clip)["data"]
    keep(page, name + ".png", data)


def keep(page, name, data):
    """A file for people; what the browser hands on is in base64."""
    whole = base64.b64decode(data)
    with open(os.path.join(page.pictures, name), "wb") as file:
        file.write(whole)
    return whole


def start(page):
    pass


def done(name):
    return lambda page: page.all(name)


def waiting(page):
    page.own("\n".join(of_exercises("clamp-check", ".txt").splitlines()[:-1]) + "\n")
    page.all()


def stopped(page):
    page.choose("exercise", "pocket")
    page.choose("pace", "0")
    page.click("send-all")
    page.quiet()
    page.choose("pace", "50")
    page.click("start")
    page.driver.until(lambda: page.positions()["x"] > 2, "nothing runs")
    page.click("stop")


def refused(page):
    """The exercise up to the end line at which its first program is refused."""
    lines = of_exercises("loops-overlap", ".txt").splitlines()
    page.own("\n".join(lines[: lines.index("9") + 1]) + "\n")
    page.all()


def looking_back(page):
    page.all("slot")
    page.driver.drag("#time", 0.4)


def lesson(page):
    page.choose("exercise", "drill-row")
    page.click("tab-lessons")
    if page.driver.script("return !document.getElementById('lesson-old')"):
        page.driver.click("#panel-lessons > .row button:nth-child(2)")
    page.click("lesson-old")
    page.driver.click('#panel-lessons .choice[data-value="0 1 0 1"]')
    page.driver.until(lambda: not page.is_hidden("answer"), "no answer comes")


def sheet(page):
    page.click("tab-sheet")
    page.click("convert-chain")


def card(page):
    page.click("tab-card")


def writing(page):
    page.click("tab-program")
    page.choose("exercise", "refusals")
    page.click("edit")


STATES = {"start": start, "drill-row": done("drill-row"), "slot": done("slot"), "pocket": done("pocket"), "waiting": waiting, "stopped": stopped,
          "looking-back": looking_back, "refused": refused, "lesson": lesson, "sheet": sheet, "card": card, "writing": writing}


def on_paper(page, tried, name):
    """What is printed is one page, with the plate and the listing."""
    page.open()
    page.all(name)
    by_browser = page.driver.post("/print")
    tried.that(f"{name}: printed by the browser's own command", page.text_of("paper-title") == name, len(by_browser))
    page.open()
    page.all(name)
    page.driver.script("window.print = () => { window.printed = true; }")
    page.click("print")
    tried.that(f"{name}: Print prints", page.driver.script("return window.printed === true"))
    listed = page.text_of("paper-listing")
    for record in page.records()[:-1]:
        tried.that(f"{name}: on paper, record {record['place']}", record["text"].replace(" ", "") in listed.replace(" ", ""), listed)
    page.driver.until(lambda: page.driver.script("const plate = document.getElementById('paper-plate'); return plate.complete && plate.naturalWidth"),
                      "there is no plate for the paper")
    paper = keep(page, f"{name}.pdf", page.driver.post("/print", page={"width": 21, "height": 29.7}))
    tried.same(f"{name}: pages of paper", len(re.findall(rb"/Type\s*/Page\b", paper)), 1)
    page.driver.devtools("Emulation.setEmulatedMedia", media="print")
    whole_picture(page, f"{name}-paper", 1280)
    page.driver.devtools("Emulation.setEmulatedMedia", media="")
