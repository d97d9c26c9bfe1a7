"""Without a mouse: every control is reached by Tab and shows that it has the focus, and an exercise and a lesson are done by keys alone."""
from told import compared, of_exercises

TABBED = """window.tabbed = [...document.querySelectorAll('a[href], button, input, select, textarea, summary, [tabindex]')]
    .filter(one => one.getAttribute('aria-selected') !== 'false' && !one.disabled && one.checkVisibility());
    return tabbed.map(one => one.id || one.textContent);"""
FOCUS = """const one = document.activeElement, style = getComputedStyle(one);
    const isPage = one === document.body || one === document.documentElement;
    return {at: tabbed.indexOf(one), isPage, name: one.id || one.tagName + ' ' + one.textContent.slice(0, 30),
        isSeen: style.outlineStyle !== 'none' && parseFloat(style.outlineWidth) >= 2};"""
NAME = "const one = document.activeElement; return one.id || one.dataset.value || ''"


def keys(page, tried):
    page.open()
    reached = round_trip(page, tried, "Program")
    exercise_by_keys(page, tried)
    lesson_by_keys(page, tried)
    for name in ("Sheet", "Card"):
        page.driver.press("ArrowRight")
        reached += round_trip(page, tried, name)
        go_to(page, "tab-" + name.lower())
    return f"{reached} controls reached by Tab, an exercise and a lesson by keys alone"


def round_trip(page, tried, what):
    """Tab leads through all of the page and out of it again: how many controls there are."""
    page.driver.script("document.activeElement.blur()")
    names = page.driver.script(TABBED)
    seen, hidden, left = set(), [], False
    for _ in range(len(names) + 12):
        page.driver.press("Tab")
        focus = page.driver.script(FOCUS)
        left = left or bool(seen) and (focus["isPage"] or focus["at"] in seen)
        if focus["isPage"] or focus["at"] in seen:
            continue
        seen.add(focus["at"])
        if not focus["isSeen"]:
            hidden.append(focus["name"])
    tried.same(what + ": every control is reached", [name for i, name in enumerate(names) if i not in seen], [])
    tried.same(what + ": the focus is seen", hidden, [])
    tried.that(what + ": Tab leads on, and around", left)
    return len(names)


def go_to(page, name, key="Tab"):
    """Presses Tab until a control has the focus."""
    for _ in range(90):
        if page.driver.script(NAME) == name:
            return
        page.driver.press(key)
    raise LookupError(f"{name} is not reached by {key}")


def exercise_by_keys(page, tried):
    go_to(page, "exercise")
    page.driver.press("ArrowDown")
    name = page.driver.script("return document.activeElement.value")
    tried.same("an exercise is chosen by a key", name, "holes-out-of-order")
    go_to(page, "pace")
    page.driver.press("End")
    go_to(page, "send-all", "Shift+Tab")
    page.driver.press("Space")
    page.quiet()
    compared(tried, "by keys, " + name, page, of_exercises(name, ".txt"), of_exercises(name, ".told"))
    go_to(page, "typed")
    page.driver.press(*"@0P", "Enter")
    tried.same("a line by keys", page.log()[-1][1], "@0P")


def lesson_by_keys(page, tried):
    go_to(page, "tab-program", "Shift+Tab")
    page.driver.press("ArrowRight")
    tried.same("the lessons by a key", page.driver.script(NAME), "tab-lessons")
    go_to(page, "lesson-loop")
    page.driver.press("Enter")
    page.quiet()
    go_to(page, "26")
    page.driver.press("Space")
    page.driver.until(lambda: not page.is_hidden("answer"), "no answer comes")
    tried.that("the answer by keys", page.text("answer").startswith("Right: 26"), page.text("answer"))
    go_to(page, "tab-lessons", "Shift+Tab")
