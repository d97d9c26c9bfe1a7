"""The page is opened from its file: how soon it has begun, and what it asks of the world outside."""
import os
import statistics


def opening(page, tried):
    """Five times; then the first exercise, by one click."""
    times = []
    for _ in range(5):
        page.driver.open("about:blank")
        times.append(page.open())
    tried.same("the first exercise is there", page.driver.script("return document.getElementById('exercise').value"), "drill-row")
    tried.same("no trouble is shown", page.trouble(), "")
    pictures = [page.plate()]
    tried.that("a first plate is drawn", page.drawn() > 0)
    page.all()
    for button in ("zoom-fit", "zoom-in", "zoom-out", "zoom-out"):
        page.click(button)
        pictures.append(page.plate())
    differ = len({*pictures}) == 4 and pictures[1] == pictures[3]
    tried.that("the plate shows the exercise, nearer and farther", differ, [len(one) for one in pictures])
    size = os.path.getsize(page.file)
    return f"{size:,} bytes, begun after {statistics.median(times):.0f} ms (the median of {', '.join(map(str, times))})"
