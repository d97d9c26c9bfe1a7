"""A program without an end at full pace: the page keeps answering, stops after 100,000 clock calls and can go on; and on a slow machine."""
import time

from told import entries, exercise

ENDLESS = "@01\n@0i\n0 1,600\n3 0,-1\n9\n@0S\n"
SOON = 3  # seconds within which the page answers, on however slow a machine; how soon it does is only told
# Clicks a button and waits until the page has nothing more to do: the milliseconds, and the longest of them between two frames.
TIMED = """const [name, done] = arguments;
    const begun = performance.now();
    let last = begun, longest = 0;
    document.getElementById(name).click();
    const look = now => {
        longest = Math.max(longest, now - last);
        last = now;
        if (document.getElementById('run').textContent === 'Run') done([now - begun, longest]);
        else requestAnimationFrame(look);
    };
    requestAnimationFrame(look);"""


def endless(page, tried):
    page.open()
    page.own(ENDLESS)
    page.choose("pace", "0")
    took = [page.driver.post("/execute/async", script=TIMED, args=["send-all"])]
    limit(page, tried, 1)
    for more in (2, 3):
        took.append(page.driver.post("/execute/async", script=TIMED, args=["run"]))
        limit(page, tried, more)
    answers = answering(page)
    tried.that("the page answers while it runs", len(answers) > 2 and max(answers) < SOON, answers)
    slowest = max(answers, default=0)
    page.click("clear")
    paused = pausing(page, tried)
    frames = max(frame for _, frame in took)
    tried.that("no frame takes long", frames < 1000 * SOON, took)
    times = ", ".join(f"{one:.0f}" for one, _ in took)
    return (f"100,000 clock calls in {times} ms, the longest frame {frames:.0f} ms, an answer in them within {1000 * slowest:.0f} ms, "
            f"paused after {paused:,}")


def limit(page, tried, times):
    """What is shown when so many times 100,000 clock calls were made."""
    what = f"{times} times 100,000 clock calls"
    tried.same(what + ": made", page.calls(), [100000 * times] * 2)
    tried.same(what + ": x", page.positions()["x"], 50000 * times)
    tried.same(what + ": large words", page.text("status-big"), "Not over")
    tried.that(what + ": it says so", "100,000 clock calls" in page.text("status-small"), page.text("status-small"))
    last = page.log()[-1]
    wanted = entries(exercise(ENDLESS), ENDLESS)[0][-1][3][0].replace("50000", str(50000 * times))
    tried.that(what + ": the log", last[1] == "@0S" and last[3][0] == wanted, last)


def answering(page):
    """The times of the page's answers during a run: the best of three, for this machine may have other things to do."""
    rounds = [answers_in_runs(page) for _ in range(3)]
    return min((answers for answers in rounds if len(answers) > 2), key=max, default=[])


def answers_in_runs(page):
    answers = []
    page.click("clear")
    for name in ("send-all", "run", "run"):
        page.click(name)
        while page.text("run") == "Pause":
            answers.append(page.took(lambda: page.driver.script("return document.title")))
    return answers


def pausing(page, tried):
    """The processor is slowed, so that Pause comes in the midst of a run: the clock call at which it holds it."""
    page.driver.devtools("Emulation.setCPUThrottlingRate", rate=6)
    page.click("send-all")
    page.click("run")
    made = page.calls()[1]
    page.driver.devtools("Emulation.setCPUThrottlingRate", rate=1)
    tried.that("Pause holds the clock", 0 < made < 100000 and page.text("run") == "Run", made)
    time.sleep(0.3)
    tried.same("it stays held", page.calls()[1], made)
    tried.same("it is under way", page.text("status-big"), "Under way")
    page.click("clock")
    tried.same("one clock call by hand", page.calls()[1], made + 1)
    page.click("run")
    page.quiet()
    tried.same("it goes on by 100,000 more", page.calls()[1], made + 100001)
    return made
