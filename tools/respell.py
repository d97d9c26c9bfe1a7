#!/usr/bin/env python3
"""Gives the project's own definitions and lemmas today's spelling: words in snake case, types and what is a fact in camel case.

Use: tools/respell.py, once, at the top of a tree that /opt/rattle/port/port.py has turned. Functions, types and fields of src/, strings,
inputs and outputs keep their names. It stops, and writes nothing, where two names would fall together in one file.
"""
import glob
import re
import sys

DECLARED = re.compile(r"^\s*(?:abbrev |unfoldable )*(?:pub )?(?:record |data )?([^\s:(){}|]+)(?=\s*(?::|\(|\{))")
# names of the library that a file imports or declares anew, and of what a check makes
NOT_OURS = {"mut_Tells"}
# facts, which are types: the file or folder that each is used in, its old name and its new one
FACTS = [
    ("crates/motion/", "hasRoom", "HasRoom"),
    ("crates/circle/proofs/laws/Beats.antt", "hasRoom", "HasRoom"),
    ("crates/travel/proofs/laws/Whole.antt", "hasRoom", "HasRoom"),
    ("crates/travel/proofs/laws/Onward.antt", "hasRoom", "HasRoom"),
    ("crates/promise/proofs/laws/KeepsPulses.antt", "hasRoom", "HasRoom"),
    ("crates/motion/specs/work/Room.antt", "room", "RoomFor"),
    ("crates/motion/proofs/", "room", "RoomFor"),
    ("crates/motion/src/", "room", "RoomFor"),
    ("crates/travel/proofs/laws/Whole.antt", "room", "RoomFor"),
    ("crates/motion/", "noFurther", "NoFurther"),
    ("crates/promise/", "after8", "AfterEight"),
    ("crates/board/proofs/laws/Fair.antt", "okay", "IsOkay"),
    ("crates/board/proofs/laws/Fair.antt", "fair", "IsFair"),
    ("crates/line/proofs/laws/Spaces.antt", "no_record", "NoRecord"),
    ("crates/promise/proofs/laws/StopActs.antt", "filled", "IsFilled"),
]
# lemmas whose names would fall together with a definition's: where each is used, its old name and its new one
LEMMAS = [
    ("crates/circle/proofs/laws/Arcs.antt", "reach_of", "reach_of-both"),
    ("crates/join/proofs/laws/Joined.antt", "in_use", "in_use-joined"),
    ("crates/port/proofs/", "round_under", "round_under-over"),
    ("crates/promise/proofs/", "is_right", "is_right-both"),
    ("crates/promise/proofs/", "by_code", "by_code-each"),
    ("crates/record/proofs/", "by_code", "by_code-each"),
    ("crates/promise/proofs/laws/StopHolds.antt", "holds_by", "holds_by-still"),
    ("crates/promise/proofs/laws/KeepsTrip.antt", "has_room", "has_room-held"),
    ("crates/travel/proofs/laws/Whole.antt", "straight_then", "straight_then-is"),
]
# where the plain rule gives a name that says less
CHOSEN = {"upTo8": "up_to_8", "receiveM": "receive_contract", "clockM": "clock_contract"}

EDGE = r"[^\s(){}\[\].,;λ→|∣]"


def snake(name):
    return re.sub(r"(?<=[a-z0-9])(?=[A-Z])", "_", name).lower()


def antt_files():
    return sorted(glob.glob("crates/*/specs/**/*.antt", recursive=True) + glob.glob("crates/*/proofs/**/*.antt", recursive=True))


def read(path):
    with open(path, encoding="utf-8", newline="") as f:
        return f.read()


def names():
    """The names that definitions and lemmas declare, and those that an import or a definition inside another gives: old and new."""
    found, library = set(), set(NOT_OURS)
    for path in antt_files():
        if path.endswith(("/Answers.antt", "/Invariants.antt")):
            continue  # their names are of the check's making
        for line in read(path).split("\n"):
            m = DECLARED.match(line)
            if m and re.match(r"[a-z]", m.group(1)) and re.search(r"[A-Z]", m.group(1)) and ".Need-" not in m.group(1):
                found.add(m.group(1))
            if line.startswith("use ") and not re.match(r"use Rattle\.(" + "|".join(crates()) + r")\.", line):
                library |= set(re.findall(r"[^\s(){}\[\].,;]+", line)) - set(re.findall(r" as ([^\s(){}\[\].,;]+)", line))
            if not line.lstrip().startswith("--"):
                inner = re.split(r'"(?:[^"\\]|\\.)*"', line)
                found |= set(re.findall("(?<!" + EDGE + r")([a-z][a-z0-9]*(?:[A-Z][a-z0-9]*)+(?:-[a-z0-9]+)*)(?!" + EDGE + ")", " ".join(inner)))
    found -= library
    return {old: CHOSEN.get(old, snake(old)) for old in found}


def crates():
    return sorted(d.split("/")[1] for d in glob.glob("crates/*/"))


def turner(table):
    pattern = re.compile("(?<!" + EDGE + ")(" + "|".join(sorted(map(re.escape, table), key=len, reverse=True)) + ")(?!" + EDGE + ")")
    return lambda text: pattern.sub(lambda m: table[m.group(1)], text)


def code_and_rest(text):
    """Splits a source of Rattle into what may be respelled and its strings, which are kept."""
    return re.split(r'("(?:[^"\\]|\\.)*")', text)


def main():
    table = names()
    turn = turner(table)
    apart = lambda rows: [(where, re.compile("(?<!" + EDGE + ")" + re.escape(old) + "(?!" + EDGE + ")"), new) for where, old, new in rows]
    facts, lemmas = apart(FACTS), apart(LEMMAS)
    sources = sorted(glob.glob("crates/*/src/**/*.rt", recursive=True))
    edits = sorted(glob.glob("crates/*/must-fail/*.edit") + glob.glob("tests/edits/*/*.edit"))
    pages = ["README.md", "CONTRIBUTING.md"] + sorted(glob.glob("docs/*.md"))
    together = []
    out = {}
    for path in antt_files() + sources + edits + pages:
        was = text = read(path)
        for where, pattern, to in lemmas:
            if path.startswith(where):
                text = pattern.sub(to, text)
        token = lambda name: re.search("(?<!" + EDGE + ")" + re.escape(name) + "(?!" + EDGE + ")", text)
        # a function's own proof names the function's modules, and no definition, by its path
        if path.endswith(".antt") and not path.endswith(("/Proof.antt", "/Answers.antt")):
            for old, new in table.items():
                if old in text and new in text and token(old) and token(new):
                    together.append(f"{path}: {old} and {new}")
        for where, pattern, to in facts:
            if path.startswith(where):
                text = "\n".join(l if l.lstrip().startswith(("--", "//")) else pattern.sub(to, l) for l in text.split("\n"))
        if path.endswith(".rt"):
            parts = code_and_rest(text)
            new = "".join(p if i % 2 else turn(p) for i, p in enumerate(parts))
        elif path.endswith(".md"):
            new = re.sub(r"`[^`\n]+`", lambda m: turn(m.group(0)[1:-1]).join("``"), text)
        else:
            new = turn(text)
        if new != was:
            out[path] = new
    if together:
        print("\n".join(together))
        sys.exit("respell: these names would fall together; nothing was written")
    for path, text in out.items():
        with open(path, "w", encoding="utf-8", newline="") as f:
            f.write(text)
    print(f"respell: {len(table) + len(facts) + len(lemmas)} names in {len(out)} files")


main()
