#!/usr/bin/env python3
"""Jobs under `wide` through the program and through a plain model in Python, written from docs/JOB.md.

Usage: tests/peers/wide_peer.py            compares the program with the model
       tests/peers/wide_peer.py table      prints the jobs with the model's numbers

The model knows nothing of halves: it takes the factors of the job twice as one list, and its first start twice as one
word over them, and counts what is reached and the f arrows there. The program must tell these numbers, by 1 to 16
growers in turn, with the cells of the job and with just enough; with one cell too few it must tell `full`, under the
status 3. Where the start is a highest-weight word, what is reached is the crystal of twice its weight, and the table has
its dimension by Weyl's formula. The program must be built (./crystal grow 1 < jobs/first.job builds it).
"""
import subprocess
import sys

from crystals import KASHIWARA, PROGRAM, STANDARD, Crystal, column_reading

# The lines of a job behind the first, and the dimension, or None where the start is no highest-weight word.
JOBS = [
    ("type A 1/space v/start 1", 3),
    ("type A 2/shape 2 1", 27),
    ("type A 3/order kashiwara/space v v/start 1 2/start 4 4", 20),
    ("type A 2/space v v v/start 1 3 2/cells 200", None),
    ("type B 2/space s/start ++", 10),
    ("type B 2/order kashiwara/space s v/start +- 0", None),
    ("type B 3/space s v/start +++ 0", None),
    ("type C 2/order kashiwara/shape 2 1", 81),
    ("type C 3/space v v v/start 2 -3 1", None),
    ("type C 4/space" + 21 * " v" + "/start" + 10 * " -1 1" + " 1", 36),
    ("type D 4/space s+/start ++++", 35),
    ("type D 4/order kashiwara/space s- v/start ++-+ -4", None),
]


def job_of(lines):
    """The crystal over the doubled factors, and the first start twice."""
    words = [line.split() for line in lines.split("/")]
    given = {key: rest for key, *rest in reversed(words)}
    kind, rank = given["type"][0], int(given["type"][1])
    order = KASHIWARA if given.get("order") == ["kashiwara"] else STANDARD
    if "shape" in given:
        start = column_reading([int(n) for n in given["shape"]], order)
        return Crystal(kind, rank, 2 * len(start) * ["v"], order), start + start
    start = tuple(letter_or_signs(token) for token in given["start"])
    return Crystal(kind, rank, given["space"] + given["space"], order), start + start


def letter_or_signs(token):
    signs = set(token) <= {"+", "-"}
    return tuple(1 if sign == "+" else -1 for sign in token) if signs else int(token)


def counted(crystal, root):
    """How many words are reached from the root, and how many f arrows there are."""
    reached, indices = crystal.component([root]), range(1, crystal.rank + 1)
    return len(reached), sum(crystal.act(word, True, i) is not None for word in reached for i in indices)


def ran(lines, growers):
    text = f"crystal-job {2 if 'order' in lines else 1}/{lines}/".replace("/", "\n")
    ended = subprocess.run([PROGRAM, "wide", str(growers)], input=text.encode(), capture_output=True)
    return ended.returncode, ended.stdout.decode()


def tries(lines, vertices, arrows):
    """Jobs of these lines, each with the status and the line that it is to be answered by."""
    bare = "/".join(line for line in lines.split("/") if not line.startswith("cells"))
    told = (0, f"wide {vertices} {arrows}")
    return [(lines, *told), (f"{bare}/cells {vertices}", *told), (f"{bare}/cells {vertices - 1}", 3, "full")]


def compare(number, lines, dimension):
    """Whether the program agrees with the model on the jobs of these lines."""
    crystal, root = job_of(lines)
    vertices, arrows = counted(crystal, root)
    agrees = dimension in (None, vertices)
    if not agrees:
        print(f"the model counts {vertices} words where the dimension is {dimension}: {lines}")
    for place, (job, status, line) in enumerate(tries(lines, vertices, arrows)):
        growers = 1 + (3 * number + place) % 16
        wanted = status, f"crystal {crystal.kind} {crystal.rank}\n{line}\nend\n"
        told = ran(job, growers)
        if told != wanted:
            print(f"wide {growers} says {told}, {wanted} is wanted: {job}")
            agrees = False
    return agrees


def main():
    if sys.argv[1:] == ["table"]:
        for lines, _ in JOBS:
            print(*counted(*job_of(lines)), "|", lines)
        return
    failed = [lines for number, (lines, dimension) in enumerate(JOBS) if not compare(number, lines, dimension)]
    print(f"{len(JOBS)} jobs under wide, {len(failed)} differ")
    sys.exit(1 if failed else 0)


if __name__ == "__main__":
    main()
