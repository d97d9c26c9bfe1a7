"""Lines and programs that are wrong: what the page says of them, and that nothing else is sent."""
from told import compared, complaint, done_alike

OUTSIDE = "@01\n@0i\n0 1,600\n3 0,9\n9\n@0S\n"
WRONG_WORDS = {2: "@01\nclock x\n@0A 3,600\n", 1: "key YN\n@01\n", 3: "@01\n@0A 3,600\nports 1 2 3\n"}
TYPED = ["@0A 10", "hello", "@03", "@0A 10", "@0A 10,600,0,20", "@0A10,600 ,0,600", "@0P ", "@0S", "@0y 8,600,0,0,0,1,1", "@0A 4,600,2,600", "@0P"]

# What is said below the large words of a refusal; the words of one while storing are others. The other lines are taken.
SAID = {"@0A 3,600": "4. No axes are set", "hello": "5. This is no line of the board", "@01": "", "@0A 3": "7. There are too few",
        "@0A 3,20": "D. A speed is below", "@0S": "8. Nothing stands stopped", "@0i": "", "hallo": "5. This is no record", "3 0,9": "",
        "9": "Ga0000. The check failed at record 0. It leads outside the program"}


def lines(page, tried):
    page.open()
    page.choose("pace", "0")
    for text in TYPED:
        page.line(text)
        page.quiet()
    done_alike(tried, "typed lines", page)
    tones = page.driver.script("return [...document.querySelectorAll('#log .entry')].map(one => one.querySelector('.refused') ? 1 : 0)")
    tried.same("refusals are marked", tones, [1, 1, 0, 1, 1, 1, 1, 1, 1, 0, 0])
    page.line("# a note")
    done_alike(tried, "a note is typed", page)
    for number, text in WRONG_WORDS.items():
        wrong_word(page, tried, number, text)
    typed_word(page, tried)
    refused(page, tried)
    said_large(page, tried)
    empty(page, tried)
    return f"{len(TYPED)} lines typed, {len(WRONG_WORDS) + 1} words that are wrong, a refused program, an empty one"


def wrong_word(page, tried, number, text):
    """A program with a wrong word is not sent at all."""
    page.own(text)
    page.click("send-all")
    said = page.trouble()
    tried.same(f"a wrong word: {text.splitlines()[number - 1]}", said.rstrip("."), complaint(text).replace("line", "Line", 1))
    tried.same("nothing is sent", (page.log(), page.calls()), ([], [0, 0]))
    page.click("send-line")
    tried.same("no line of it is sent", page.log(), [])


def typed_word(page, tried):
    page.line("clock x")
    tried.that("a wrong word is typed", "clock takes a whole number" in page.trouble(), page.trouble())
    page.line("")
    tried.that("nothing is typed", page.trouble() != "" and page.log() == [], page.trouble())
    page.line("@0P")
    tried.same("a line takes the trouble away", page.trouble(), "")


def refused(page, tried):
    page.own(OUTSIDE)
    page.all()
    compared(tried, "a refused program", page, OUTSIDE)


def said_large(page, tried):
    page.click("clear")
    for line, words in SAID.items():
        page.line(line)
        page.quiet()
        said = page.text("status-small")
        if words:
            tried.that(f"said large of {line}", said.startswith(f"{line}: {words}"), said)


def empty(page, tried):
    for text in ("", "# only a note\n\n"):
        page.own(text)
        if not page.is_disabled("send-all"):
            page.click("send-all")
            tried.that("an empty program is said to be empty", page.trouble() != "", text)
        tried.same("nothing of an empty program is sent", page.log(), [])
