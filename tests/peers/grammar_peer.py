#!/usr/bin/env python3
"""Damaged jobs of both versions through the program and through a judge in Python, written from docs/JOB.md.

Usage: tests/peers/grammar_peer.py [JOBS] [SEED]    (3000 jobs, and one as the seed, where none is given)

Random jobs lose, gain and exchange bytes, words and lines. Where the judge finds a fault, the program must refuse the
job with this line and fault; where it finds none, the program must accept it. The program must be built.
"""
import random
import subprocess
import sys
from collections import Counter

from python_peer import PROGRAM, random_job

RANKS = {"A": (1, 8), "B": (2, 8), "C": (2, 8), "D": (3, 8)}
# key word: the least number of further words, whether there may be more, and the parts in which it is allowed
KEYS = {
    "type": (2, False, ["opening"]),
    "order": (1, False, ["typed"]),
    "shape": (1, True, ["typed"]),
    "space": (1, True, ["typed"]),
    "start": (1, True, ["head"]),
    "cells": (1, False, ["head"]),
    "session": (0, False, ["head", "session"]),
    "demazure": (1, True, ["head", "session", "asks"]),
    "tops": (1, True, ["head", "session", "asks"]),
    "reflect": (1, False, ["head", "session", "asks"]),
    **{key: (1, True, ["session"]) for key in ("add", "find", "wt")},
    **{key: (2, True, ["session"]) for key in ("f", "e", "eps", "phi")},
    "look": (3, True, ["session"]),
    "done": (0, False, ["session"]),
}
ASKS = ("demazure", "tops", "reflect")
PIECES = "order standard kashiwara type shape space start cells session add look done demazure tops reflect f e 0 -0 00 -1 9 10 257 65537".split()
PIECES += "1000000000 1048577 -01 +1 # v s s+ ++ +- A E".split() + [" ", "\t", "\r", "\n", "\x7f", "crystal-job 1", "crystal-job 2"]


def is_number(word):
    return 1 <= len(word) <= 9 and word.isascii() and word.isdigit()


def size(kind, rank, factor):
    if factor == "v":
        return {"A": rank + 1, "B": 2 * rank + 1, "C": 2 * rank, "D": 2 * rank}[kind]
    return 2**rank if factor == "s" else 2 ** (rank - 1)


def is_shape(rows, kind, rank):
    falls = all(a >= b for a, b in zip(rows, rows[1:])) and 0 not in rows
    fits = len(rows) <= (rank + 1 if kind == "A" else rank) and sum(rows) <= 40
    return falls and fits and size(kind, rank, "v") ** sum(rows) <= 2**63


def is_space(factors, kind, rank):
    known = {"v"} | {"B": {"s"}, "D": {"s+", "s-"}}.get(kind, set())
    if len(factors) > 40 or not set(factors) <= known:
        return False
    words = 1
    for factor in factors:
        words *= size(kind, rank, factor)
    return words <= 2**63


def is_letter(token, kind, rank):
    digits = token[1:] if token[:1] == "-" else token
    if not (1 <= len(digits) <= 2 and digits.isascii() and digits.isdigit()) or (token[:1] == "-" and not int(digits)):
        return False
    value = int(token)
    if kind == "A":
        return 1 <= value <= rank + 1
    return -rank <= value <= rank and (kind == "B" or value != 0)


def is_token(token, factor, kind, rank):
    if factor == "v":
        return is_letter(token, kind, rank)
    right = len(token) == rank and set(token) <= {"+", "-"}
    return right and (factor == "s" or (token.count("-") % 2 == 1) == (factor == "s-"))


class Judge:
    """The judge of one job of this version. `line` gives the fault of the next line, or None."""

    def __init__(self, version):
        self.version = version
        self.part, self.kind, self.rank, self.factors = "opening", None, None, None
        self.started, self.start_lines, self.has_cells, self.has_order = False, 0, False, False
        self.sessions = self.commands = self.asks = 0

    def is_word(self, tokens):
        fits = len(tokens) == len(self.factors)
        return fits and all(is_token(t, f, self.kind, self.rank) for t, f in zip(tokens, self.factors))

    def is_index(self, word):
        return 1 <= int(word) <= self.rank

    def too_many(self, key, words):
        return (
            (key == "start" and self.start_lines == 256)
            or (key == "session" and self.sessions == 16)
            or (KEYS[key][2] == ["session"] and self.commands == 4096)
            or (key in ASKS and self.asks == 8)
            or (key == "demazure" and len(words) > 64)
        )

    def line(self, line):
        key, *words = line.split(" ")
        if key not in KEYS or (key in ("order", "done") and self.version == 1):
            return 3
        least, more, parts = KEYS[key]
        if len(words) < least or (len(words) > least and not more) or (key == "look" and words[0] not in ("f", "e")):
            return 3
        if self.part not in parts or (key == "cells" and self.has_cells) or (key == "order" and self.has_order):
            return 4
        if self.too_many(key, words):
            return 13
        numbers = {"type": words[1:], "look": words[1:2], **{k: words[:1] for k in ("f", "e", "eps", "phi")}}
        numbers.update({k: words for k in ("shape", "cells") + ASKS})
        if not all(is_number(word) for word in numbers.get(key, [])):
            return 5
        return getattr(self, key if key in ("type", "order", "shape", "space", "start", "cells") else "further")(words, key)

    def type(self, words, _):
        low, high = RANKS.get(words[0], (1, 0))
        if not low <= int(words[1]) <= high:
            return 6
        self.kind, self.rank, self.part = words[0], int(words[1]), "typed"

    def order(self, words, _):
        if words[0] not in ("standard", "kashiwara"):
            return 8
        self.has_order = True

    def shape(self, words, _):
        rows = [int(word) for word in words]
        if not is_shape(rows, self.kind, self.rank):
            return 7
        self.factors, self.started, self.part = ["v"] * sum(rows), True, "head"

    def space(self, words, _):
        if not is_space(words, self.kind, self.rank):
            return 8
        self.factors, self.part = words, "head"

    def start(self, words, _):
        if not self.is_word(words):
            return 9
        self.started, self.start_lines = True, self.start_lines + 1

    def cells(self, words, _):
        if not 1 <= int(words[0]) <= 1048576:
            return 11
        self.has_cells = True

    def further(self, words, key):
        if key == "session":
            self.sessions, self.commands, self.part = self.sessions + 1, 0, "session"
        elif key in ASKS:
            if key == "tops" and not is_shape([int(word) for word in words], self.kind, self.rank):
                return 7
            if key != "tops" and not all(self.is_index(word) for word in words):
                return 10
            self.asks, self.part = self.asks + 1, "asks"
        elif key == "done":
            self.commands += 1
        else:
            before = {"look": 2, "add": 0, "find": 0, "wt": 0}.get(key, 1)
            if before and not self.is_index(words[before - 1]):
                return 10
            if not self.is_word(words[before:]):
                return 9
            self.commands += 1


def judged(text):
    """The line and the fault of a job, or None."""
    if not text:
        return 1, 2
    *lines, tail = text.split(b"\n")
    judge = Judge(2 if lines[:1] == [b"crystal-job 2"] else 1)
    for number, line in enumerate(lines + [tail] * (tail != b""), 1):
        if number > len(lines) or any(byte < 32 or byte > 126 for byte in line):
            return number, 1
        words = " ".join(word for word in line.decode().split(" ") if word)
        if number == 1:
            if line not in (b"crystal-job 1", b"crystal-job 2"):
                return 1, 2
        elif words and words[0] != "#":
            fault = judge.line(words)
            if fault:
                return number, fault
    if judge.factors is None or not judge.started:
        return len(lines) + 1, 12
    return None


def damaged(text, chance):
    """The job with a change of some bytes, a word, or the order of lines."""
    lines, way = text.split("\n"), chance.random()
    i, j = chance.randrange(len(lines)), chance.randrange(len(lines))
    if way < 0.3:
        place = chance.randrange(len(text) + 1)
        return text[:place] + chance.choice(["", chr(chance.randrange(256)), *PIECES]) + text[place + chance.randint(0, 2) :]
    if way < 0.55:
        words = lines[i].split(" ")
        place = chance.randrange(len(words))
        words[place : place + chance.randint(0, 1)] = [chance.choice(PIECES)]
        lines[i] = " ".join(words)
    elif way < 0.7:
        lines.insert(i, lines[j])
    elif way < 0.8:
        lines.pop(i)
    elif way < 0.9:
        return text[: chance.randrange(len(text) + 1)]
    else:
        lines[i], lines[j] = lines[j], lines[i]
    return "\n".join(lines)


def main():
    count = int(sys.argv[1]) if len(sys.argv) > 1 else 3000
    chance = random.Random(int(sys.argv[2]) if len(sys.argv) > 2 else 1)
    faults = Counter()
    for number in range(1, count + 1):
        text = random_job(chance)[0]
        for _ in range(chance.randint(0, 2)):
            text = damaged(text, chance)
        job = text.encode("latin-1")
        fault = judged(job)
        ran = subprocess.run([PROGRAM, "grow", "1"], input=job, capture_output=True)
        wanted = b"refused job line %d fault %d\n" % fault if fault else None
        if (wanted is None and ran.returncode not in (0, 3)) or (wanted and (ran.returncode, ran.stdout) != (2, wanted)):
            print(f"job {number} differs: wanted {wanted}, got {ran.returncode} {ran.stdout[:80]}\n{job}")
            sys.exit(1)
        faults[fault[1] if fault else 0] += 1
    print(f"{count} jobs are judged alike; by fault (0: accepted): {sorted(faults.items())}")


if __name__ == "__main__":
    main()
