"""What the programs of this repository print, to be held beside the page: ./exercise, the program calls and tools/steps."""
import functools
import os
import re
import subprocess
import tempfile

from left_out import plain, unnumbered
from page import ROOT

TOOLS = {"CALLS": "calls", "SHEET": "sheet_vectors", "ASK": "ask"}
AROUND = dict(os.environ, **{name: os.environ.get(name) or os.path.join(ROOT, "tools", tool) for name, tool in TOOLS.items()})


def run(words, given="", may_fail=False):
    """What a command prints."""
    done = subprocess.run(words, input=given, capture_output=True, text=True, env=AROUND, cwd=ROOT)
    if done.returncode and not may_fail:
        raise OSError(f"{' '.join(words)} fails: {done.stderr.strip()}")
    return done.stdout if not may_fail else done.stdout + done.stderr


def exercise(text, *options):
    """What ./exercise prints of a program."""
    with tempfile.NamedTemporaryFile("w", suffix=".txt") as file:
        file.write(text)
        file.flush()
        return run(["./exercise", file.name, "--no-picture", *options])


def of_exercises(name, ending):
    with open(os.path.join(ROOT, "exercises", name + ending), encoding="utf-8") as file:
        return file.read()


@functools.cache
def names():
    return sorted(name[:-4] for name in os.listdir(os.path.join(ROOT, "exercises")) if name.endswith(".txt"))


def entries(told, text):
    """What ./exercise has printed of a program's text: (number, line, words, lines under it) for each, and the position at the end."""
    lines = {i + 1: line for i, line in enumerate(text.splitlines())}
    found, end = [], {}
    for row in told.splitlines():
        number = re.match(r" *(\d+)  ", row)
        if row.startswith("end: "):
            end = {axis: int(value) for axis, value in re.findall(r"([xyza]) (-?\d+)", row)}
        elif row.startswith("        ") and found:
            found[-1][3].append(row[8:])
        elif number and row[len(number[0]):].startswith(lines.get(int(number[1]), "\n")):
            line = lines[int(number[1])]
            found.append((number[1], line, row[len(number[0]) + len(line):].lstrip(" "), []))
        elif not row.startswith("not over after 100,000 clock calls"):
            found.append(("", row, "", []))
    return [(*entry[:3], tuple(entry[3])) for entry in found], end


def bytes_of(lines):
    """A script for `calls` that sends lines, with the clock calls that each starts."""
    script = []
    for line in lines:
        script += [f"B {byte}" for byte in line.encode() + b"\r"] + ["Q 100000"]
    return script


def states(script):
    """The states that `calls` prints of a script."""
    return [row.split() for row in run(["tools/calls"], "\n".join(script) + "\n").splitlines() if row.startswith("S ")]


def position(state):
    """x, y and z of a state."""
    at = state.index("position")
    return dict(zip("xyz", map(int, state[at + 1:at + 4])))


def listing(text):
    """The stored program at the end, line by line."""
    return exercise(text, "--listing").split()


def compared(tried, what, page, text, told=None, numbered=True):
    """Whether the page tells of a program what ./exercise prints of it, and ends where that ends."""
    wanted, end = entries(told or exercise(text), text)
    got = page.log()
    tried.same(what + ": the lines", [entry[1] for entry in got], [entry[1] for entry in wanted])
    if numbered:
        tried.same(what + ": their numbers", [entry[0] for entry in got], [entry[0] for entry in wanted])
    bare = (lambda words: words) if numbered else unnumbered
    for one, other in zip(got, wanted):
        words, under = plain(*other[2:])
        tried.same(f"{what}: line {other[0]}, {other[1]}", (bare(one[2]), one[3]), (bare(words), under))
    tried.same(what + ": where it ends", page.positions(), end)


def done_alike(tried, what, page):
    """Whether ./exercise tells of all that was done on the page what the page tells of it."""
    compared(tried, what, page, "".join(entry[1] + "\n" for entry in page.log()), numbered=False)


def complaint(text):
    """What ./exercise says of a program with a wrong word."""
    with tempfile.NamedTemporaryFile("w", suffix=".txt") as file:
        file.write(text)
        file.flush()
        return run(["./exercise", file.name, "--no-picture"], may_fail=True).split(f"{file.name}: ")[-1].strip()


def sent_lines(text):
    return [line for line in text.splitlines() if line and not line.startswith("#")]


@functools.cache
def answers_by_line(lines):
    """The answers of the clock calls that each line starts, without the last that answers nothing."""
    script = [row for i, line in enumerate(lines) for row in [f"N {i}", *bytes_of([line])]]
    found = []
    for row in run(["tools/calls"], "\n".join(script) + "\n").splitlines():
        if row.startswith("N "):
            found.append([])
        elif row.startswith("C "):
            found[-1].append(row)
    return found


def calls_of(lines):
    """The answers of all clock calls of a program, in their order."""
    return [row for made in answers_by_line(tuple(lines)) for row in made]


def state_after(lines, calls):
    """The state behind so many clock calls of a program."""
    script, left = [], calls
    for line, made in zip(lines, answers_by_line(tuple(lines))):
        if left == 0:
            break
        script += [f"B {byte}" for byte in line.encode() + b"\r"] + [f"C {min(left, len(made))}"]
        left -= min(left, len(made))
    return states(script + ["S"])[0]


def steps(axis, words, lines):
    """What tools/steps prints of values, and what it says beside it."""
    done = subprocess.run(["tools/steps", *axis, *words], input="\n".join(lines) + "\n", capture_output=True, text=True, env=AROUND, cwd=ROOT)
    said = [row.removeprefix("steps: ").removesuffix("; see: tools/steps --help") for row in done.stderr.splitlines()]
    return done.stdout.splitlines(), said
