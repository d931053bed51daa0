#!/usr/bin/env python3
"""Tries the tables of sessions that are refused, or judged to be good: tests/sessions/refusals.py PROGRAM

It prints each case that is not as expected, and last how many are, and ends with 0 where all are. It takes some seconds.

- A table is a file NAME.refusals. A row `EXPECTED :: TEXT` is a session and what `check` says of it, split at the first ` :: `.
- EXPECTED is the whole line where it begins with `{`. Else it is a refusal's name and what follows the name in the line; the
  place that is told is that of the first `@` of the session, which is taken out, or else the end.
- `\\n` is a line feed, `\\xNN` a byte and `\\\\` a backslash. `<<N x PART>>` is PART so many times over, with 1000 and the number
  of the repetition, from 0, for the letters NNNN in it.
- `frame NAME: TEXT` gives a text to the rows behind a line `in NAME:`; they stand in the place of its `<>`. The text of a frame
  `NAME in OTHER` stands in the place of the other one's. The rows behind `in nothing:` are whole sessions.
- A row or a frame goes on in the lines that are indented behind it, which are lines of the session too, without their indents.
- The rows behind `with WORDS, WORDS:` are tried with each of these words, and not with `check`.
- A row of words.lines is `EXPECTED :: WORDS`, a call of the program with the session of examples/first.aerie. `refused` is status
  2 and the line for it, `good` status 0, `first.out` what examples/first.out has, and the rest a line, as above. The word `''` is
  empty.
- Blank lines and lines that begin with `#` are skipped.
"""

import os
import re
import subprocess
import sys
from concurrent.futures import ThreadPoolExecutor

REPEATED = re.compile(r"<<(\d+) x (.*?)>>", re.S)
ESCAPED = re.compile(rb"\\(n|\\|x[0-9a-fA-F]{2})")
SYNTAX = re.compile(rb'\{"refused":\{"column":\d+,"line":\d+,"name":"Syntax"\}\}\n')


def lines(path):
    """The lines of a table with their numbers, each with the indented ones behind it."""
    found = []
    with open(path, encoding="utf-8") as it:
        for number, line in enumerate(it.read().split("\n"), 1):
            if line.startswith(" ") and found:
                found[-1] = (found[-1][0], f"{found[-1][1]}\n{line.strip()}")
            elif line and not line.startswith("#"):
                found.append((number, line))
    return found


def split(line):
    """What is expected in a row, and what stands behind it."""
    expected, mark, text = line.partition(" ::")
    assert mark and text[:1] in ("", " ", "\n"), line
    return expected, text[1:]


def repetition(found):
    part = found[2]
    if "NNNN" not in part:
        return part * int(found[1])
    return "".join(part.replace("NNNN", str(1000 + number)) for number in range(int(found[1])))


def as_bytes(text):
    def byte(found):
        word = found[1]
        return bytes([int(word[1:], 16)]) if word[:1] == b"x" else {b"n": b"\n", b"\\": b"\\"}[word]

    return ESCAPED.sub(byte, REPEATED.sub(repetition, text).encode())


def session_and_line(expected, text):
    """The bytes of a session, and the line that is expected of it: the place is counted from 1, columns in characters."""
    before, _, behind = text.partition("@")
    before, behind = as_bytes(before), as_bytes(behind)
    if expected.startswith("{"):
        return before + behind, expected
    name, _, more = expected.partition(" ")
    row = before.count(b"\n") + 1
    column = len(before[before.rfind(b"\n") + 1 :].decode()) + 1
    more = more and f",{more}"
    return before + behind, f'{{"refused":{{"column":{column},"line":{row},"name":"{name}"{more}}}}}'


def told(line):
    """A line as it is printed, and the status with it."""
    return f"{line}\n".encode(), 3 if line.startswith('{"refused"') else 0


def rows(path):
    """The rows of a table: the number of the line, the words, what is expected, and the text in its frame."""
    frames, frame, calls = {"nothing": "<>"}, "<>", ["check"]
    for number, line in lines(path):
        if line.startswith("frame "):
            names, _, inner = line[6:].partition(":")
            name, _, outer = names.partition(" in ")
            frames[name] = frames[outer or "nothing"].replace("<>", inner[1:])
        elif line.startswith("in ") and line.endswith(":"):
            frame = frames[line[3:-1]]
        elif line.startswith("with ") and line.endswith(":"):
            calls = line[5:-1].split(", ")
        else:
            expected, text = split(line)
            for words in calls:
                yield number, words.split(), expected, frame.replace("<>", text)


def of_table(path):
    for number, words, expected, text in rows(path):
        session, line = session_and_line(expected, text)
        yield f"{os.path.basename(path)}:{number}", words, session, *told(line)


def of_words(path, session, output):
    """The calls of a table of words."""
    refused, _ = told('{"refused":{"name":"Words"}}')
    special = {"refused": (refused, 2), "good": (None, 0), "first.out": (output, 0)}
    for number, line in lines(path):
        expected, words = split(line)
        words = ["" if it == "''" else it for it in words.split()]
        yield f"{os.path.basename(path)}:{number}", words, session, *(special.get(expected) or told(expected))


def fronts(session):
    """Each front of a session: performed where the plan is closed and nothing of the client stands behind it, else refused."""
    for count in range(len(session.rstrip())):
        front = session[:count]
        _, closed, behind = front.partition(b"100us; }")
        performed = closed and not behind.strip()
        yield f"first.aerie, {count} bytes", ["run"], front, *((b"[]\n", 0) if performed else (SYNTAX, 3))


def cases(folder):
    """Each case: a label, the words, the input, what is printed (bytes, a pattern, or None for anything), and the status."""
    examples = os.path.join(folder, "..", "..", "examples")
    session, output = (open(os.path.join(examples, f"first.{it}"), "rb").read() for it in ("aerie", "out"))
    for name in sorted(os.listdir(folder)):
        path = os.path.join(folder, name)
        if name.endswith(".refusals"):
            yield from of_table(path)
        elif name.endswith(".lines"):
            yield from of_words(path, session, output)
    yield from fronts(session)


def is_printed(expected, printed):
    """Whether what was printed is what a case expects."""
    if isinstance(expected, re.Pattern):
        return expected.fullmatch(printed) is not None
    return expected is None or expected == printed


def tried(case):
    """What is wrong with a case, if anything is."""
    label, words, session, expected, status = case
    call = subprocess.run([sys.argv[1], *words], input=session, stdout=subprocess.PIPE, stderr=subprocess.DEVNULL)
    if call.returncode == status and is_printed(expected, call.stdout):
        return None
    return f"{label}: {' '.join(words)}: status {call.returncode}, {call.stdout[:300].decode(errors='replace').strip()}"


def main():
    folder = os.path.dirname(os.path.realpath(__file__))
    with ThreadPoolExecutor(4) as pool:
        found = list(pool.map(tried, cases(folder)))
    bad = [it for it in found if it]
    print(*bad, f"{len(found) - len(bad)} passed, {len(bad)} failed", sep="\n")
    sys.exit(1 if bad else 0)


if __name__ == "__main__":
    main()
