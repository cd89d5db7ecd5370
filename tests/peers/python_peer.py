#!/usr/bin/env python3
"""Random jobs through the program and through a plain model in Python, written from the book's definitions.

Usage: tests/peers/python_peer.py [JOBS] [SEED]    (200 jobs, and one as the seed, where none is given)

Each job has a version, a type, a tensor order, a space of one to three factors or a shape, starts, sessions and asks; a
fifth of them have few cells. The model keeps sets and dictionaries, computes operators by the two-factor rule of the
order, and writes the whole answer but for the replies of the sessions: these must be the same bytes, by 1 to 16
growers in turn. The replies must be those of some legal history (history_peer.py). Last, for one job in each type, the
component in Kashiwara's order must be that of the reversed factors and words in the standard order. The program must be
built (./crystal grow 1 < jobs/first.job builds it).
"""
import random
import subprocess
import sys
from collections import Counter

from crystals import KASHIWARA, PROGRAM, STANDARD, Crystal, Mirrored, column_reading, command_text, coordinates, graph_lines, text
from history_peer import Judge, told_in


def statistic_lines(crystal, vertices):
    indices = range(1, crystal.rank + 1)
    times = Counter(tuple(crystal.weight(word)) for word in vertices)
    lines = ["statistic character"]
    lines += [f"{coordinates(weight)} | {times[weight]}" for weight in sorted(times, reverse=True)]
    lines.append("statistic strings")
    for i in indices:
        heads = [crystal.strings(word, i)[1] for word in vertices if crystal.strings(word, i)[0] == 0]
        lines.append(f"{i} | {len(heads)} | {max(heads, default=0)}")
    ends = sum(all(0 in crystal.strings(word, i) for i in indices) for word in vertices)
    return lines + ["statistic ends", str(ends)]


def ask_lines(crystal, vertices, rank, start, ask):
    name, numbers = ask
    head = " ".join([name] + [str(n) for n in numbers])
    if name == "demazure":
        members = {start}
        for i in reversed(numbers):
            strings = set()
            for word in members:
                while word is not None:
                    strings.add(word)
                    word = crystal.act(word, True, i)
            members = strings
        return [f"{head} | {len(members)}"] + [f"{n} | {text(vertices[n])}" for n in sorted(rank[w] for w in members)]
    if name == "tops":
        other = column_reading(numbers, crystal.order)
        weight = Crystal(crystal.kind, crystal.rank, ["v"] * len(other)).weight(other)
        tops = [
            word
            for word in vertices
            if all(crystal.strings(word, i)[0] <= crystal.pairing(weight, i) for i in range(1, crystal.rank + 1))
        ]
        sums = [[a + b for a, b in zip(crystal.weight(word), weight)] for word in tops]
        words = [word + other if crystal.order == STANDARD else other + word for word in tops]
        return [f"{head} | {len(tops)}"] + [f"{text(word)} | {coordinates(s)}" for word, s in zip(words, sums)]
    lines, (i,) = [f"{head} | {len(vertices)}"], numbers
    for n, word in enumerate(vertices):
        times = crystal.pairing(crystal.weight(word), i)
        for _ in range(abs(int(times))):
            word = crystal.act(word, times > 0, i)
        lines.append(f"{n} | {rank[word]}")
    return lines


def random_job(chance):
    kind = chance.choice("ABCD")
    rank = chance.randint({"A": 1, "B": 2, "C": 2, "D": 3}[kind], 4 if kind != "D" else 4)
    version, order = chance.randint(1, 2), STANDARD
    lines = [f"crystal-job {version}", f"type {kind} {rank}"]
    if version == 2 and chance.random() < 0.8:
        order = chance.choice([STANDARD, KASHIWARA])
        lines.append(f"order {order}")
    tall = rank + 1 if kind == "A" else rank
    starts = []
    if chance.random() < 0.4:
        rows = sorted((chance.randint(1, 2) for _ in range(chance.randint(1, min(2, tall)))), reverse=True)
        crystal = Crystal(kind, rank, ["v"] * sum(rows), order)
        lines.append("shape " + " ".join(map(str, rows)))
        starts.append(column_reading(rows, order))
    else:
        names = ["v"] + {"B": ["s"], "D": ["s+", "s-"]}.get(kind, [])
        crystal = Crystal(kind, rank, [chance.choice(names) for _ in range(chance.randint(1, 3))], order)
        lines.append("space " + " ".join(crystal.factors))
    for _ in range(chance.randint(0 if starts else 1, 2)):
        starts.append(crystal.random_word(chance))
        lines.append("start " + text(starts[-1]))
    cells = 65536
    if chance.random() < 0.2:
        cells = chance.randint(1, 12)
        lines.append(f"cells {cells}")
    sessions, roots = [], set(starts)
    near = list(starts) + [crystal.random_word(chance) for _ in range(3)]
    for _ in range(chance.randint(0, 3)):
        lines.append("session")
        sessions.append([])
        for _ in range(chance.randint(0, 12)):
            name = chance.choice(["add", "find", "wt", "eps", "phi", "f", "e", "f", "e", "look f", "look e"] + ["done"] * (version == 2))
            i, word = chance.randint(1, rank), chance.choice(near)
            if name == "add":
                roots.add(word)
            sessions[-1].append((name, i, word))
            lines.append(command_text(name, i, word))
            near.append(crystal.act(word, name != "e", i) or word)
    asks = []
    for _ in range(chance.randint(0, 3)):
        name = chance.choice(["demazure", "tops", "reflect"])
        if name == "demazure":
            numbers = [chance.randint(1, rank) for _ in range(chance.randint(1, 6))]
        elif name == "tops":
            numbers = sorted((chance.randint(1, 3) for _ in range(chance.randint(1, tall))), reverse=True)
        else:
            numbers = [chance.randint(1, rank)]
        asks.append((name, numbers))
        lines.append(" ".join([name] + [str(n) for n in numbers]))
    return "\n".join(lines) + "\n", crystal, starts, sessions, roots, cells, asks


def answer(crystal, starts, roots, cells, asks):
    lines = [f"crystal {crystal.kind} {crystal.rank}"]
    vertices = crystal.component(roots)
    if len(vertices) > cells:
        return 3, lines + ["full", "end"]
    rank = {word: n for n, word in enumerate(vertices)}
    lines += graph_lines(crystal, vertices, rank) + statistic_lines(crystal, vertices)
    for ask in asks:
        lines += ask_lines(crystal, vertices, rank, starts[0], ask)
    return 0, lines + ["end"]


# The types, factors and starts whose component in Kashiwara's order is compared with that of their reversals.
REVERSALS = [
    ("A", 3, "v v v v", (2, 1, 3, 1)),
    ("B", 2, "s v v", ((1, -1), 0, 1)),
    ("B", 3, "v s v", (1, (1, 1, -1), -2)),
    ("C", 2, "v v v", (-2, 1, 2)),
    ("D", 4, "s+ v s-", ((1, 1, -1, -1), 4, (1, 1, 1, -1))),
]


def run(job, growers, *statistics):
    ran = subprocess.run([PROGRAM, "grow", str(growers), *statistics], input=job.encode(), capture_output=True)
    return ran.returncode, ran.stdout.decode().split("\n")


def compare(name, job, growers, crystal, starts, sessions, cells, wanted_status, wanted):
    """Ends the program where its answer to the job is another, or its replies are those of no legal history."""
    name = f"{name}, grow {growers}"
    status, said = run(job, growers, "character", "strings", "ends")
    if status not in (1, 2):
        told, rest = told_in(said, sessions)
        why = Judge(crystal, starts, sessions, cells).verdict(told, status == 3)
        if why:
            print(f"{name}: {why}:\n{job}", *told, sep="\n")
            sys.exit(1)
        said = said[:1] + rest
    if status != wanted_status or said != wanted + [""]:
        place = next((n for n, (a, b) in enumerate(zip(said, wanted)) if a != b), min(len(said), len(wanted)))
        print(f"{name} differs at line {place + 1} (status {status}, wanted {wanted_status}):\n{job}")
        print("program:", said[place : place + 1], "\nmodel:  ", wanted[place : place + 1])
        sys.exit(1)


def compare_reversal(kind, rank, factors, start):
    crystal = Mirrored(kind, rank, factors.split())
    vertices = crystal.component([start])
    numbers = {word: n for n, word in enumerate(vertices)}
    lines = ["crystal-job 2", f"type {kind} {rank}", "order kashiwara", f"space {factors}", f"start {text(start)}"]
    status, said = run("\n".join(lines) + "\n", 2)
    if status or said != [f"crystal {kind} {rank}", *graph_lines(crystal, vertices, numbers), "end", ""]:
        print(f"{lines[1]}, {lines[3]}: the component in Kashiwara's order is not that of the reversed words")
        sys.exit(1)


def main():
    count = int(sys.argv[1]) if len(sys.argv) > 1 else 200
    chance = random.Random(int(sys.argv[2]) if len(sys.argv) > 2 else 1)
    full = vertices = 0
    for number in range(1, count + 1):
        job, crystal, starts, sessions, roots, cells, asks = random_job(chance)
        status, lines = answer(crystal, starts, roots, cells, asks)
        compare(f"job {number}", job, (number - 1) % 16 + 1, crystal, starts, sessions, cells, status, lines)
        full += status == 3
        vertices += len(lines)
    print(f"{count} jobs have the same answer ({full} of them full), {vertices} lines")
    for case in REVERSALS:
        compare_reversal(*case)
    print(f"{len(REVERSALS)} components in Kashiwara's order are those of the reversed factors and words")


if __name__ == "__main__":
    main()
