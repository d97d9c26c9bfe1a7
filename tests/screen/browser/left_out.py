"""What the page leaves out of the text of ./exercise on purpose, as tests/screen/told.mjs says: it would have to know rules of the board for it."""
import os
import re

from page import ROOT

with open(os.path.join(ROOT, "tests", "screen", "left-out.txt"), encoding="utf-8") as patterns:
    SPECIAL = "|".join(line.rstrip("\n") for line in patterns if not line.startswith("#"))
SPACES = "(?:a space stands at its end|a space stands before a comma|two spaces stand together)"
GENERAL = {"1": "a number is out of range", "3": "these axes are not allowed", "7": "too few or too many numbers",
           "9": "outside the range of positions"}
ENDINGS = {"9": "the next movement would leave the range of positions: the program ends",
           "3": "a plane needs an axis that is not set: the program ends",
           "1": "the directions of a circle do not fit its start: the program ends"}


def plain(words, under):
    """Words of ./exercise and the lines under them, as the page has them."""
    words, *under = [plain_line(line) for line in (words, *under)]
    for i, line in enumerate([words, *under]):
        if re.match(r"G[a-e]\d{4}  the program fails its check at ", line) and not under[i].startswith("the store is empty now"):
            under[i] = None
    return words, tuple(line for line in under if line is not None)


def plain_line(line):
    line = re.sub(rf"^(5  this is no (?:record|line of the board)): {SPACES}$", r"\1", line)
    line = re.sub(rf"^([1379])  (?:{SPECIAL})$", lambda found: f"{found[1]}  {GENERAL[found[1]]}", line)
    return re.sub(rf"^([139])  record \d+: (?:{SPECIAL}): the program ends$", lambda found: f"{found[1]}  {ENDINGS[found[1]]}", line)


def unnumbered(words):
    """Without the numbers of lines, which a session by buttons does not have."""
    return re.sub(r" \(line \d+\)", "", words)
