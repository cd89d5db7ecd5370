#!/usr/bin/env python3
"""Compares the program with SageMath's crystals on the jobs of this folder and on random ones.

Usage: tests/peers/sage_peer.py [JOBS] [SEED]    (40 random jobs, and one as the seed, where none is given)

The random jobs are those of python_peer.py, without their sessions and asks: each word that a session adds is a start.
Where Sage is not installed this says so and ends well. Called as `sage -python sage_peer.py --answer FILE..` it prints
Sage's answer for each job: the component is grown from Sage's own letters, spins and tensor products (which follow the
tensor rule of Bump and Schilling), and printed in this project's answer form. It reads none of the program's code.
"""
import random
import shutil
import subprocess
import sys
import tempfile
from fractions import Fraction
from pathlib import Path

from python_peer import PROGRAM, random_job

HERE = Path(__file__).resolve().parent


def read(text):
    """The kind, the rank, the factors and the start words of a job, whether it is in Kashiwara's order, and its cells."""
    kind, rank, factors, starts, turned, cells = "", 0, [], [], False, 65536
    for line in text.splitlines()[1:]:
        words = line.split()
        if not words or words[0].startswith("#"):
            continue
        if words[0] == "type":
            kind, rank = words[1], int(words[2])
        elif words[0] == "order":
            turned = words[1] == "kashiwara"
        elif words[0] == "shape":
            rows = [int(w) for w in words[1:]]
            top = [str(row) for column in range(rows[0]) for row in range(sum(n > column for n in rows), 0, -1)]
            factors, starts = ["v"] * len(top), [top[::-1] if turned else top]
        elif words[0] == "space":
            factors = words[1:]
        elif words[0] == "start":
            starts.append(words[1:])
        elif words[0] == "cells":
            cells = int(words[1])
    return kind, rank, factors, starts, turned, cells


def digit(kind, rank, token, factor):
    """The place of an element in the order of the digits."""
    if factor != "v":
        return token.replace("+", "0").replace("-", "1")
    zero = [0] if kind == "B" else []
    letters = range(1, rank + 2) if kind == "A" else [*range(1, rank + 1), *zero, *range(-rank, 0)]
    return list(letters).index(int(token))


def answer(text):
    """Sage's answer. Kashiwara's order is that of the reversed words over the reversed factors."""
    from sage.all import crystals

    kind, rank, factors, starts, turned, cells = read(text)
    way = -1 if turned else 1
    cartan = [kind, rank]
    made = {"v": crystals.Letters, "s": crystals.Spins, "s+": crystals.SpinsPlus, "s-": crystals.SpinsMinus}
    bases = [made[f](cartan) for f in factors]

    def token(element, factor):
        return str(element.value) if factor == "v" else element.signature()

    def tokens(element):
        return tuple(token(x, f) for x, f in zip(element, factors[::way]))[::way]

    names = [{token(x, f): x for x in base} for base, f in zip(bases, factors)]
    product = crystals.TensorProduct(*bases[::way])
    found, todo = {}, [product(*[n[t] for n, t in zip(names, start)][::way]) for start in starts]
    while todo:
        element = todo.pop()
        key = tokens(element)
        if key in found:
            continue
        found[key] = element
        for i in range(1, rank + 1):
            todo += [y for y in (element.f(i), element.e(i)) if y is not None]
    if len(found) > cells:
        return "\n".join([f"crystal {kind} {rank}", "full", "end"]) + "\n"
    order = sorted(found, key=lambda key: [digit(kind, rank, t, f) for t, f in zip(key, factors)])
    place = {key: k for k, key in enumerate(order)}
    lines, arrows = [], 0
    for k, key in enumerate(order):
        below = [(i, found[key].f(i)) for i in range(1, rank + 1)]
        out = [f"{i}:{place[tokens(y)]}" for i, y in below if y is not None]
        arrows += len(out)
        coordinates = " ".join(str(Fraction(str(c))) for c in found[key].weight().to_vector())
        lines.append(f"{k} | {' '.join(key)} | {coordinates} | {' '.join(out) or '-'}")
    return "\n".join([f"crystal {kind} {rank}", f"graph {len(order)} {arrows}", *lines, "end"]) + "\n"


def plain(job):
    """The job without its sessions and asks; each word that a session adds is a start."""
    lines = job.splitlines()
    head = [line for line in lines if line.split()[0] in ("crystal-job", "type", "order", "shape", "space", "start", "cells")]
    return "\n".join(head + ["start " + line[4:] for line in lines if line.startswith("add ")]) + "\n"


def main():
    if sys.argv[1:2] == ["--answer"]:
        for file in sys.argv[2:]:
            sys.stdout.write(answer(Path(file).read_text()))
        return 0
    if shutil.which("sage") is None:
        print("SageMath is not installed: nothing is compared with it")
        return 0
    count = int(sys.argv[1]) if len(sys.argv) > 1 else 40
    chance = random.Random(int(sys.argv[2]) if len(sys.argv) > 2 else 1)
    with tempfile.TemporaryDirectory() as room:
        jobs = sorted((HERE / "jobs").glob("*.job"))
        for number in range(1, count + 1):
            jobs.append(Path(room) / f"random_{number}.job")
            jobs[-1].write_text(plain(random_job(chance)[0]))
        peer = subprocess.run(["sage", "-python", __file__, "--answer", *jobs], capture_output=True, text=True)
        ours = [subprocess.run([PROGRAM, "grow", "1"], input=job.read_text(), capture_output=True, text=True).stdout for job in jobs]
        theirs = [part + "end\n" for part in peer.stdout.split("end\n")[:-1]]
        if peer.returncode or len(theirs) != len(jobs):
            print(f"Sage failed:\n{peer.stderr}")
            return 1
        differ = [job for job, one, other in zip(jobs, ours, theirs) if one != other]
        for job in differ:
            print(f"{job.name} DIFFERS:\n{job.read_text()}")
        print(f"{len(jobs) - len(differ)} of {len(jobs)} jobs have the same answer as Sage's")
    return 1 if differ else 0


if __name__ == "__main__":
    sys.exit(main())
