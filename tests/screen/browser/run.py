"""Runs the tests of the page in a browser: run.py FILE PICTURES [GROUP]... A line for each group, and what was not as it should be."""
import http.client
import json
import signal
import sys
import tempfile
import time

from changing import changing
from client import Driver, Wrong
from corners import corners
from endless import endless
from exercises import exercises
from keys import keys
from lessons import lessons
from lines import lines
from looking import looking
from opening import opening
from page import Page, Tried
from pictures import pictures
from saving import saving
from sheets import sheets
from stopping import stopping

GROUPS = [opening, exercises, lessons, lines, endless, stopping, changing, looking, corners, saving, sheets, keys, pictures]


def outside(page):
    """The addresses that were asked for since the last time, but for the page itself and what is inside of it."""
    asked = []
    for entry in page.driver.log("performance"):
        message = json.loads(entry["message"])["message"]
        if message["method"] == "Network.requestWillBeSent":
            asked.append(message["params"]["request"]["url"])
    return [one for one in asked if one.split("#")[0] != page.address and not one.startswith(("data:", "blob:", "about:"))]


def tried_group(group, page, tried):
    """A group, and behind it that the browser complained of nothing and that nothing was asked for outside."""
    name = group.__name__
    begun, count, failed = time.monotonic(), tried.count, len(tried.failed)
    said = "broken off"
    try:
        said = group(page, tried)
    except (Wrong, OSError, http.client.HTTPException, LookupError) as why:
        tried.that(f"{name} comes to its end", False, f"{type(why).__name__}: {why}")
    tried.same(f"{name}: complaints of the browser", page.errors(), [])
    tried.same(f"{name}: addresses outside", outside(page), [])
    print(f"{name}: {said}: {tried.count - count} tried, {time.monotonic() - begun:.1f} s", flush=True)
    for what in tried.failed[failed:]:
        print(f"  FAILED: {what}", flush=True)


def main(file, pictures, *wanted):
    def interrupted(number, frame):
        raise KeyboardInterrupt

    for one in (signal.SIGTERM, signal.SIGHUP):
        signal.signal(one, interrupted)
    tried = Tried()
    with tempfile.TemporaryDirectory(prefix="screen.", ignore_cleanup_errors=True) as folder, Driver(folder) as driver:
        page = Page(driver, file)
        page.folder, page.pictures = folder, pictures
        driver.open("about:blank")
        driver.log("performance")
        for group in GROUPS:
            if not wanted or group.__name__ in wanted:
                tried_group(group, page, tried)
        print(f"screen: {tried.count} things tried in a browser, {len(tried.failed)} failed")
    return 1 if tried.failed or tried.count == 0 else 0


if __name__ == "__main__":
    try:
        sys.exit(main(*sys.argv[1:]))
    except KeyboardInterrupt:
        sys.exit(130)
    except (Wrong, OSError) as why:
        print(f"screen: the page could not be tried: {why}")
        sys.exit(1)
