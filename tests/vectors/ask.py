#!/usr/bin/env python3
"""Vectors of the program `ask` (trial/README.md, "ask"), worked out apart from the code.

    python3 tests/vectors/ask.py            writes crates/ask/stdin and crates/ask/stdout
    python3 tests/vectors/ask.py --check    compares them with what it would write

A line of stdin is a question, the line of stdout with the same number its answer. Each kind of question has a script of its own
that gives its part: lines with their answers, and lines that cannot be read. Behind all parts stand lines that are wrong whatever is
asked, lines that end otherwise, the longest line and one that is longer. The last line has no line feed.
"""
import os
import sys

import chains
import joins

ROOT = os.path.dirname(os.path.dirname(os.path.dirname(os.path.abspath(__file__))))
FOLDER = os.path.join(ROOT, "crates", "ask")
PARTS = [chains, joins]
LONGEST = 70000
QUESTION, ANSWER = f"chain {chains.BITS} 3 333 333 333", "0 33 34 33"


def wrong():
    """No question of any kind: no word, another one, spaces that do not belong, bytes that are no text."""
    yield from ("", " ", "  ", "\t", "?", "ask", "chain ", " chain", "question 1")
    yield from (" " + QUESTION, QUESTION + " ", QUESTION + "  ", QUESTION + "\t", QUESTION.replace(" ", "\t"), QUESTION.replace(" ", ""))
    for at in (QUESTION.index(" "), QUESTION.rindex(" ")):
        yield QUESTION[:at] + " " + QUESTION[at:]
        yield QUESTION[:at] + "\t" + QUESTION[at + 1 :]
        yield QUESTION[:at] + ", " + QUESTION[at + 1 :]
    yield from (QUESTION + "\0", "\0" + QUESTION, QUESTION + "\x7f", QUESTION + "#", "#" + QUESTION)
    yield from ("\r", QUESTION + "\r", QUESTION[:10] + "\r" + QUESTION[10:], "\r" + QUESTION)


def of_length(length):
    """A line of so many bytes, with more distances than a chain may have: most take 20 bytes, and the last two what is left."""
    count, rest = divmod(length - len(QUESTION), 20)
    return QUESTION + " 0000000000000000333" * (count - 1) + " " + "1" * (9 + rest // 2) + " " + "2" * (9 + rest - rest // 2)


def shapes():
    """Lines with their ends, and their answers."""
    for text in wrong():
        yield text + ("\r\n" if text.endswith("\r") else "\n"), "?"  # one return right before the line feed is no part of the line
    yield QUESTION + "\r\n", ANSWER
    yield "\r\n", "?"
    yield f"chain {chains.BITS} 0\r\n", "0"
    yield joins.QUESTION + "\r\n", joins.ANSWER
    yield joins.QUESTION + "\r\r\n", "?"
    for length, end, answer in ((LONGEST, "\n", "105"), (LONGEST, "\r\n", "105"), (LONGEST + 1, "\n", "?")):
        text = of_length(length)
        assert len(text) == length
        yield text + end, answer
        yield QUESTION + "\n", ANSWER
    yield QUESTION, ANSWER


def main():
    asked = [row for part in PARTS for row in part.part()]
    unreadable = [(text, "?") for part in PARTS for text in part.unreadable()]
    others = list(shapes())
    rows = [(text + "\n", answer) for text, answer in asked + unreadable] + others
    files = {"stdin": "".join(text for text, _ in rows), "stdout": "".join(answer + "\n" for _, answer in rows)}
    for name, text in files.items():
        path = os.path.join(FOLDER, name)
        if "--check" in sys.argv[1:]:
            with open(path, encoding="ascii", newline="") as f:
                if f.read() != text:
                    sys.exit(f"{path} is not what this script writes")
        else:
            os.makedirs(FOLDER, exist_ok=True)
            with open(path, "w", encoding="ascii", newline="") as f:
                f.write(text)
    none = sum(answer == "?" for _, answer in rows)
    print(len(rows) - none, "questions,", none, "lines that are none")


if __name__ == "__main__":
    main()
