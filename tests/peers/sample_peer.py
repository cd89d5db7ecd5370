#!/usr/bin/env python3
"""Sample jobs by a plain model in Python, written from docs/JOB.md, beside the program.

Usage: tests/peers/sample_peer.py [NUMBER..]         (0 to 3, and 4294967293, where none is given)
       tests/peers/sample_peer.py sums [NUMBER..]    (0 to 7, and 4294967295, where none is given)
       tests/peers/sample_peer.py text NUMBER

For each number the model makes the text of the sample. `grow` must take this text as a job, with the graph of the model,
and its replies must be those of some legal history (history_peer.py); `sample` must tell the counts of this graph. The
graph in type C is too large for the model: there the counts alone are compared, with those of docs/JOB.md. The program
must be built (./crystal grow 1 < jobs/first.job builds it).
The program prints no sample's text, so that text is judged in the tests of job_text: the lines of `sums` are their table,
the number, the bytes of its text, and their checksum, the value of the bytes as digits in base 31 modulo 2^32. The word
`text` prints the text itself.
"""
import subprocess
import sys

from crystals import PROGRAM, STANDARD, Crystal, column_reading, command_text, graph_lines, text
from history_peer import Judge, told_in

# The lines behind the first, the type, the rows of the shape or the factors and the first start, vertices and f arrows.
HEADS = [
    (["type A 4", "shape 4 3 2 1", "cells 4096"], "A", 4, [4, 3, 2, 1], (1024, 2304)),
    (["type B 3", "space s v v v", "start +++ 2 1 1", "cells 2048"], "B", 3, None, (512, 928)),
    (["type C 4", "shape 4 3 2 1", "cells 200000"], "C", 4, [4, 3, 2, 1], (65536, 168672)),
    (["type D 4", "shape 3 2 1", "cells 16384"], "D", 4, [3, 2, 1], (4096, 9664)),
]
MOST_IN_MODEL = 4096


def sample(number):
    """The text of a sample, its crystal, its start and its sessions."""
    lines, kind, rank, rows, _ = HEADS[number % 4]
    if rows is None:
        crystal, start = Crystal(kind, rank, ["s", "v", "v", "v"]), ((1, 1, 1), 2, 1, 1)
    else:
        crystal, start = Crystal(kind, rank, ["v"] * sum(rows)), column_reading(rows, STANDARD)
    out, sessions, x = ["crystal-job 1"] + lines, [], number
    for _ in range(4):
        script, word = [], start
        for _ in range(64):
            x = (x * 6364136223846793005 + 1442695040888963407) % 2**64
            index = 1 + x // 2**40 % rank
            script.append((["find", "look f", "f", "e", "phi"][x // 2**33 % 5], index, word))
            word = crystal.act(word, True, index) or word
        out += ["session"] + [command_text(*command) for command in script]
        sessions.append(script)
    return "".join(line + "\n" for line in out).encode(), crystal, start, sessions


def checksum(data):
    value = 0
    for byte in data:
        value = (31 * value + byte) % 2**32
    return value


def run(job, *words):
    ran = subprocess.run([PROGRAM, *map(str, words)], input=job, capture_output=True)
    return ran.returncode, ran.stdout.decode().split("\n")


def judged(number, growers):
    """None, or what is wrong with the program's answers to a sample."""
    job, crystal, start, sessions = sample(number)
    counts = HEADS[number % 4][4]
    kind = f"crystal {crystal.kind} {crystal.rank}"
    graph = f"graph {counts[0]} {counts[1]}"
    status, said = run(job, "grow", growers)
    if status:
        return f"grow {growers} ends with {status}"
    told, rest = told_in(said, sessions)
    if said[0] != kind or rest[0] != graph:
        return f"grow {growers} begins with '{said[0]}' and '{rest[0]}', '{kind}' and '{graph}' are wanted"
    if counts[0] <= MOST_IN_MODEL:
        vertices = crystal.component([start])
        if rest != [*graph_lines(crystal, vertices, {word: n for n, word in enumerate(vertices)}), "end", ""]:
            return f"grow {growers} gives another graph than the model"
        why = Judge(crystal, [start], sessions, 2**20).verdict(told, False)
        if why:
            return f"grow {growers}: {why}"
    wanted = [f"sample {number}", kind, "sessions 4", "commands 256", graph, "end", ""]
    if run(b"", "sample", growers, number) != (0, wanted):
        return f"sample {growers} {number} tells other lines than {wanted}"
    return None


def main(words):
    if words[:1] == ["text"]:
        sys.stdout.write(sample(int(words[1]))[0].decode())
        return
    if words[:1] == ["sums"]:
        for number in [int(word) for word in words[1:]] or [*range(8), 2**32 - 1]:
            data = sample(number)[0]
            print(number, len(data), checksum(data))
        return
    numbers = [int(word) for word in words] or [0, 1, 2, 3, 2**32 - 3]
    for place, number in enumerate(numbers):
        why = judged(number, place % 16 + 1)
        if why:
            sys.exit(f"sample {number}: {why}")
    print(f"{len(numbers)} samples have the graph, the replies and the counts of the model")


if __name__ == "__main__":
    main(sys.argv[1:])
