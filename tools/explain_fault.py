#!/usr/bin/env python3
"""Says what is wrong with a job or with command words, and by a look at them which cause of the fault it is.

Usage: tools/explain_fault.py LINE WORDS.. < JOB

LINE is what the program wrote, as `refused job line 4 fault 9`, `refused words 3` or `full`; WORDS are its command words.

>>> job = ["crystal-job 1", "type A 2", "space v v v", "start 2 1 7"]
>>> cause_in_job(9, job, 4)
'7 is no letter: the letters of type A 2 are 1 to 3'
>>> cause_in_job(3, ["crystal-job 1", "type A2"], 2)
'write: type A 2'
"""
import difflib
import os
import re
import subprocess
import sys
from fractions import Fraction
from pathlib import Path

TOP = Path(__file__).resolve().parents[1]
RANKS = {"A": (1, 8), "B": (2, 8), "C": (2, 8), "D": (3, 8)}
MODES = ["grow", "match", "census", "sample", "wide", "shape", "component", "prove", "help"]
STATISTICS = ["character", "strings", "ends"]
# key word: its form, and the parts of a job in which it is allowed
FORMS = {
    "type": ("type K R", ["opening"]),
    "order": ("order standard, or order kashiwara", ["typed"]),
    "shape": ("shape N1 N2 ..", ["typed"]),
    "space": ("space F1 F2 ..", ["typed"]),
    "start": ("start W", ["head"]),
    "cells": ("cells N", ["head"]),
    "session": ("session, alone in its line", ["head", "session"]),
    "done": ("done, alone in its line", ["session"]),
    "demazure": ("demazure I1 I2 ..", ["head", "session", "asks"]),
    "tops": ("tops N1 N2 ..", ["head", "session", "asks"]),
    "reflect": ("reflect I, with one index", ["head", "session", "asks"]),
    **{key: (f"{key} W", ["session"]) for key in ("add", "find", "wt")},
    **{key: (f"{key} I W", ["session"]) for key in ("f", "e", "eps", "phi")},
    "look": ("look f I W, or look e I W", ["session"]),
}
ASKS = ("demazure", "tops", "reflect")
PLACES = {
    "type": "it stands once, right behind the first line",
    "order": "it stands at most once, behind type and before shape or space",
    "shape": "one shape or space stands behind type",
    "space": "one shape or space stands behind type",
    "start": "it stands behind shape or space, before the first session and the first ask",
    "cells": "it stands at most once, behind shape or space, before the first session and the first ask",
    "session": "it stands behind shape or space and the starts, before the first ask",
    **{key: "it stands at the end, behind shape or space, the starts and the sessions" for key in ASKS},
}


class Head:
    """What the lines before the faulty one say: the version, the type, the factors, and how far the job has come."""

    def __init__(self, lines):
        self.version, self.kind, self.rank, self.factors, self.part = "1", None, None, None, "opening"
        self.starts, self.cells, self.keys = 0, None, []
        for number, line in enumerate(lines):
            words = line.split()
            if number == 0 and len(words) == 2:
                self.version = words[1]
            elif words and not words[0].startswith("#"):
                self.read(*words)

    def read(self, key, *words):
        self.keys.append(key)
        if key == "type" and len(words) == 2 and words[1].isdigit():
            self.kind, self.rank, self.part = words[0], int(words[1]), "typed"
        elif key == "shape" and all(word.isdigit() for word in words):
            self.factors, self.part, self.starts = ["v"] * sum(map(int, words)), "head", 1
        elif key == "space":
            self.factors, self.part = list(words), "head"
        elif key == "start":
            self.starts += 1
        elif key == "cells" and words:
            self.cells = words[0]
        elif key == "session":
            self.part = "session"
        elif key in ASKS:
            self.part = "asks"

    def type(self):
        return f"type {self.kind} {self.rank}"

    def count_of_letters(self):
        return {"A": self.rank + 1, "B": 2 * self.rank + 1}.get(self.kind, 2 * self.rank)

    def letters(self):
        r = self.rank
        return {"A": f"1 to {r + 1}", "B": f"1 to {r}, 0, -{r} to -1"}.get(self.kind, f"1 to {r}, -{r} to -1")

    def is_letter(self, token):
        if not re.fullmatch("-?[0-9]{1,2}", token) or re.fullmatch("-0+", token):
            return False
        value = int(token)
        return 1 <= value <= self.rank + 1 if self.kind == "A" else abs(value) <= self.rank and (value != 0 or self.kind == "B")


def cause_in_job(fault, lines, number, text=None):
    """The cause of the fault in the line with this number, if a look at it tells one. `text` is the whole job as bytes."""
    head, line = Head(lines[: number - 1]), lines[number - 1] if 0 < number <= len(lines) else ""
    words = line.split()
    if fault == 1:
        return of_byte(line, text)
    if fault == 2:
        return of_first(line)
    if fault == 12:
        return of_missing(Head(lines))
    if fault == 14:
        return "a job has at most 1,048,576 bytes: comments and blanks count too"
    if fault == 16:
        return "a shape gives one start, and each line start W one more"
    if not words:
        return None
    causes = {3: of_key, 4: of_place, 5: of_number, 6: of_type, 7: of_rows, 8: of_space, 9: of_word, 10: of_index, 11: of_cells, 13: of_many}
    return causes[fault](head, *words) if fault in causes else None


def of_byte(line, text):
    found = re.search("[^ -~]", line)
    if not found:
        if text and text[-1:] != b"\n":
            return "its newline is missing: the last line ends in one too"
        return None
    place, byte = found.start() + 1, ord(found[0])
    if line.encode("latin-1").startswith(b"\xef\xbb\xbf"):
        return "the job begins with a byte order mark: save it as plain text without one"
    if byte == 13:
        return f"a carriage return at place {place}: save the job with the line ends of Unix (sed -i 's/\\r$//' JOB)"
    if byte == 9:
        return f"a tab at place {place}: write blanks"
    if byte < 128:
        return f"the byte {byte} at place {place}: a job has printed characters of ASCII alone"
    letter = line[found.start() :].encode("latin-1").decode("utf-8", "replace")[0]
    shown = f"the byte {byte}" if letter == "\ufffd" else letter
    hint = {"\u2212": ": write the sign -", "\u2013": ": write the sign -", "\u00a0": ": write a blank"}
    return f"{shown if letter.isprintable() else f'the byte {byte}'} at place {place}{hint.get(letter, ': a job has ASCII alone, in comments too')}"


def of_first(line):
    if not line:
        return "the job is empty, or its first line is: it begins with crystal-job 1"
    if re.fullmatch("crystal-job [12]", " ".join(line.lower().split())):
        return "the first line has small letters, one blank between its words, and none elsewhere"
    if line.startswith("crystal-job"):
        return "there are the versions 1 and 2"
    return "put the line crystal-job 1 above it"


def of_missing(head):
    if head.kind is None:
        return "a type is missing, as in: type A 2"
    if head.factors is None:
        return f"a shape or a space is missing behind {head.type()}, as in: shape 2 1"
    tokens = {"v": "1", "s": "+" * head.rank, "s+": "+" * head.rank, "s-": "+" * (head.rank - 1) + "-"}
    return f"a start is missing, as in: start {' '.join(tokens[it] for it in head.factors)}"


def of_key(head, key, *words):
    if key in ("order", "done") and head.version == "1":
        return f"{key} needs crystal-job 2 in the first line"
    glued = re.fullmatch("([A-Za-z])[_-]?([0-9]+)", "".join(words) if key == "type" else key[4:] if key[:4] == "type" else "")
    if glued:
        return f"write: type {glued[1].upper()} {glued[2]}"
    if key in FORMS:
        return f"its form is: {FORMS[key][0]}"
    if key.startswith(("//", ";", "%", "--")):
        return "a comment begins with #"
    if key.lower() in FORMS:
        return f"key words have small letters: {key.lower()}"
    near = difflib.get_close_matches(key.lower(), FORMS, 1, 0.5)
    if near:
        return f"is {near[0]} meant? Its form is: {FORMS[near[0]][0]}"
    allowed = [it for it, (_, parts) in FORMS.items() if head.part in parts and (it not in ("order", "done") or head.version == "2")]
    return f"allowed here are: {', '.join(allowed)}"


def of_place(head, key, *_):
    if key in ("cells", "order") and key in head.keys:
        return f"there is a line {key} before it: it stands at most once"
    if head.part == "opening":
        return "a type comes first, as in: type A 2"
    if head.part == "typed":
        return "a shape or a space comes first, as in: shape 2 1"
    return PLACES.get(key, "it is a command: it stands in a session, behind a line session and before the first ask")


def of_number(head, key, *words):
    first = {"type": 1, "look": 1}.get(key, 0)
    last = len(words) if key in ("shape", "cells") + ASKS else first + 1
    bad = next((it for it in words[first:last] if not re.fullmatch("[0-9]{1,9}", it)), None)
    if bad is None:
        return None
    if key in ("shape", "demazure", "tops") and re.fullmatch("[0-9 ,()[\\]]+", " ".join(words)):
        return f"write: {key} {' '.join(re.findall('[0-9]+', ' '.join(words)))}"
    rows = [row_of(word) for word in words]
    if key in ("shape", "tops") and None not in rows and any(row.denominator > 1 or row < 0 for row in rows):
        return of_weight(head, rows) if key == "shape" else "the rows of tops are whole"
    return f"{bad} is no number: one has one to nine digits" + (" and no sign" if bad[:1] in "+-" else "")


def row_of(word):
    try:
        row = Fraction(word)
    except (ValueError, ZeroDivisionError):
        return None
    return row if row.denominator <= 2 and abs(row) < 100 else None


def of_weight(head, rows):
    """The space and the start of a crystal whose highest weight has these rows, halves or a negative last one among them."""
    if head.kind == "A":
        return "in type A the same number may be added to all rows: the crystal stays, each weight grows by it" if all(row.denominator == 1 for row in rows) else "in type A rows are whole"
    halves = [row.denominator > 1 for row in rows]
    if head.kind == "C" or (head.kind == "B" and rows[-1] < 0):
        return f"in {head.type()} rows are {'whole, and ' if any(halves) else ''}never negative"
    if any(halves) and not (all(halves) and len(rows) == head.rank):
        return f"in {head.type()} either all of the {head.rank} rows are halves, or none is"
    if any(a < abs(b) for a, b in zip(rows, rows[1:])) or any(row < 0 for row in rows[:-1]) or (rows[-1] < 0 and len(rows) < head.rank):
        return "the rows fall, and in type D the last of all rows alone may be negative, but no larger than the one before it"
    lasts = -1 if rows[-1] < 0 else 1
    factor = ("s" if head.kind == "B" else "s+" if lasts > 0 else "s-") if any(halves) else None
    whole = [row - Fraction(1, 2) if factor else row for row in map(abs, rows)]
    columns = [sum(row > column for row in whole) for column in range(int(whole[0]))]
    letters = [str(letter * (lasts if letter == head.rank else 1)) for height in columns for letter in range(height, 0, -1)]
    spin = ["+" * (head.rank - 1) + ("+" if lasts > 0 else "-")] if factor else []
    factors = " ".join([factor] * len(spin) + ["v"] * len(letters))
    return f"that crystal is had from a product: space {factors}, and behind it start {' '.join(spin + letters)}"


def of_type(_, key, kind, rank):
    if kind.upper() in RANKS and kind not in RANKS:
        return f"write: {key} {kind.upper()} {rank}"
    if kind not in RANKS:
        return "the types are A, B, C and D"
    return f"the ranks of type {kind} are {RANKS[kind][0]} to {RANKS[kind][1]}"


def of_rows(head, key, *words):
    rows = [int(word) for word in words]
    tallest = head.rank + (head.kind == "A")
    if any(a < b for a, b in zip(rows, rows[1:])):
        return f"rows fall: {' '.join(filter(None, [key, *map(str, sorted(filter(None, rows), reverse=True))]))}"
    if 0 in rows:
        return "a row is 0: leave it out" if any(rows) else "a row is 0"
    if len(rows) > tallest:
        return f"too tall: a shape of {head.type()} has at most {tallest} rows, and this one {len(rows)}"
    if sum(rows) > 40:
        return f"too many boxes: at most 40, and here {sum(rows)}"
    return f"too many words: {head.count_of_letters()} letters in {sum(rows)} boxes make more than 2^63"


def of_space(head, key, *words):
    if key == "order":
        return "the orders are standard and kashiwara"
    known = {"B": ["v", "s"], "D": ["v", "s+", "s-"]}.get(head.kind, ["v"])
    bad = next((word for word in words if word not in known), None)
    if bad:
        return f"{bad} is no factor of {head.type()}: it has {', '.join(known)}"
    if len(words) > 40:
        return f"too many factors: at most 40, and here {len(words)}"
    return "the product has more than 2^63 words"


def of_word(head, key, *words):
    words = words[{"look": 2, "f": 1, "e": 1, "eps": 1, "phi": 1}.get(key, 0) :]
    if len(words) != len(head.factors):
        return f"a word has {len(head.factors)} {'token' if len(head.factors) == 1 else 'tokens'} here, one for each factor, and this one {len(words)}"
    for token, factor in zip(words, head.factors):
        if factor == "v" and not head.is_letter(token):
            return f"{token} is no letter: the letters of {head.type()} are {head.letters()}"
        if factor != "v" and not re.fullmatch(f"[+-]{{{head.rank}}}", token):
            return f"{token} is no element of {factor}: it has {head.rank} signs + and -"
        if factor != "v" and factor != "s" and (token.count("-") % 2 == 1) != (factor == "s-"):
            return f"{token} is no element of {factor}: it has an {'even' if factor == 's+' else 'odd'} number of signs -"
    return None


def of_index(head, key, *words):
    given = words if key == "demazure" else words[1:2] if key == "look" else words[:1]
    bad = next((word for word in given if not 1 <= int(word) <= head.rank), None)
    return bad and f"{bad} is no index: those of {head.type()} are 1 to {head.rank}"


def of_cells(*_):
    return "cells has a number from 1 to 1,048,576"


def of_many(_, key, *__):
    if key == "demazure":
        return "demazure has at most 64 indices, and a job at most 8 asks"
    return {"start": "a job has at most 256 lines start", "session": "a job has at most 16 sessions"}.get(
        key, "a job has at most 8 asks" if key in ASKS else "a session has at most 4,096 commands"
    )


def usage(mode):
    ran = subprocess.run([str(TOP / "tools" / "help"), "--usage", mode], stdout=subprocess.PIPE, universal_newlines=True)
    return f"usage: {ran.stdout.strip()}"


def cause_in_words(fault, words):
    """The cause of the fault of command words, and the usage that comes nearest."""
    mode = words[0] if words else ""
    near = mode if mode in MODES else next(iter(difflib.get_close_matches(mode.lower(), MODES, 1, 0.5)), None)
    causes = []
    if fault == 3 and os.path.isfile(mode):
        near, causes = "grow", [f"{mode} is a file: a job is read from standard input, as in ./crystal grow 1 < {mode}"]
    if fault == 4 and near and len(words) > 1:
        causes = [f"{words[1]} is no number of growers, which is 1 to 16"]
    if fault == 5:
        causes = [it for it in map(of_statistic, words[2:]) if it][:1]
    if fault == 9:
        causes = [of_census(*words[1:])]
    if near:
        causes.append(usage(near))
    elif mode:
        causes.append(f"the modes are {', '.join(MODES)}")
    return "; ".join(filter(None, causes))


def of_statistic(word):
    if word in STATISTICS:
        return None
    # a name with one of these was told of before the program ran
    if os.path.isfile(word) and "/" not in word and "." not in word:
        return f"{word} is a file: a job is read from standard input by <"
    near = difflib.get_close_matches(word.lower(), STATISTICS, 1, 0.5)
    return f"is {near[0]} meant?" if near else f"{word} is none of {', '.join(STATISTICS)}"


def of_census(rank="", *rows):
    if not re.fullmatch("[0-9]{1,9}", rank) or not 1 <= int(rank) <= 8:
        return f"{rank} is no rank, which is 1 to 8"
    bad = next((row for row in rows if not re.fullmatch("[0-9]{1,9}", row)), None)
    if bad or not rows:
        return f"{bad} is no row, which has one to nine digits" if bad else "the rows of a shape are missing"
    head = Head([])
    head.kind, head.rank = "A", int(rank)
    return of_rows(head, "", *rows)


def of_full(words, lines):
    """What there was too much of, and how there is room for more."""
    if words[:1] == ["census"]:
        return "there are more than 65,536 tableaux, which census does not list: grow does, by a job with type A, this shape and enough cells"
    cells = int(Head(lines).cells or 65536)
    what = {"match": "pairs", "wide": "words"}.get(words[0] if words else "", "elements")
    if cells >= 1048576:
        return f"there are more than {cells:,} {what}, and there is room for no more"
    return f"there are more than {cells:,} {what}: {'raise' if Head(lines).cells else 'add a line'} cells N, at most 1,048,576"


def meaning(heading, fault):
    """The row of this number in the table below this heading of docs/JOB.md."""
    table = (TOP / "docs" / "JOB.md").read_text(encoding="utf-8").split(f"### {heading}\n")[1].split("\n#")[0]
    return re.search(rf"^\| {fault} \| (.*) \|$", table, re.M)[1].replace("`", "")


def shown(line):
    """The line as it can be printed."""
    said = line[:200].encode("latin-1").decode("utf-8", "backslashreplace")
    return "".join(it if it.isprintable() else ascii(it)[1:-1] for it in said)


def sentences(refusal, words, text):
    lines = text.decode("latin-1").split("\n")
    if not lines[-1]:
        lines.pop()
    found = re.match("refused (words|job line) ([0-9]+)(?: fault ([0-9]+))?$", refusal)
    if not found:
        yield of_full(words, lines)
    elif found[1] == "words":
        fault = int(found[2])
        yield f"{meaning('Refused words', fault)} (fault {fault}){': ' if words else ''}{' '.join(words)}"
        if words:
            yield cause_in_words(fault, words)
    else:
        number, fault = int(found[2]), int(found[3])
        said = f"{meaning('Refused jobs', fault)} (fault {fault})"
        line = shown(lines[number - 1]) if 0 < number <= len(lines) else ""
        yield said if fault in (12, 14, 16) else f"line {number}: {said}{': ' if line else ''}{line}"
        yield cause_in_job(fault, lines, number, text)


if __name__ == "__main__":
    said = list(sentences(sys.argv[1], sys.argv[2:], sys.stdin.buffer.read()))
    sys.stdout.buffer.write("".join(f"crystal: {it}\n" for it in said if it).encode())
