#!/usr/bin/env python3
"""Tries many jobs on engines: threads always; two workers of Dask, one of which is ended in the middle, and GNU parallel
where these are installed. All give the answers that the program gives, byte for byte."""
import os
import shutil
import subprocess
import sys
import tempfile
import unittest
from pathlib import Path
from unittest import mock

TOP = Path(__file__).resolve().parents[2]
sys.path[:0] = [str(TOP / "python")]

# The program itself, which the script `crystal` runs: a job costs a few milliseconds.
PROGRAM = TOP / "crates" / "crystal_shell" / "out" / "crystal_shell"
if PROGRAM.exists():
    os.environ.setdefault("TAVKRUDD", str(PROGRAM))

from tavkrudd import CrystalError, answer_of, crystals  # noqa: E402
from tavkrudd.program import find  # noqa: E402

KINDS = [("A", 1, 9), ("A", 2, 9), ("B", 2, 9), ("C", 2, 9), ("C", 3, 5), ("D", 3, 9)]


def jobs(many: int = 200) -> list[str]:
    """Jobs of all types; each tenth has a word that is none."""
    texts = []
    for number in range(many):
        kind, rank, _ = KINDS[number % len(KINDS)]
        start = "99" if number % 10 == 9 else " ".join(str(1 + (number // 6 + k) % (rank + 1 if kind == "A" else rank)) for k in range(3))
        space = "v v v" if number % 10 != 9 else "v"
        texts.append(f"crystal-job 1\ntype {kind} {rank}\nspace {space}\nstart {start}\n")
    return texts


def told(answers) -> list[str]:
    return [str(answer) if isinstance(answer, CrystalError) else answer for answer in answers]


# Run by a Python that has Dask: the same jobs by two workers on this machine, one of which is killed on the way.
DASK = """
import os, signal, sys, threading, time
sys.path[:0] = [{package!r}, {here!r}]
from distributed import Client, LocalCluster
from test_many import jobs, told
from tavkrudd import crystals

def main():
    with LocalCluster(n_workers=2, threads_per_worker=1, processes=True, dashboard_address=None) as cluster, Client(cluster) as client:
        first = client.run(os.getpid)
        threading.Timer(0.5, lambda: os.kill(sorted(first.values())[0], signal.SIGKILL)).start()
        answers = told(crystals(jobs(), client.get_executor(), progress=False))
    sys.stdout.write("\\0".join(answers))

if __name__ == "__main__":
    main()
"""


class Engines(unittest.TestCase):
    @classmethod
    def setUpClass(cls):
        cls.wanted = told(one(text) for text in jobs())

    def test_threads(self):
        self.assertEqual(told(crystals(jobs(), progress=False)), self.wanted)
        self.assertEqual(sum("no word of the space" in answer for answer in self.wanted), 20)

    def test_a_cut_answer(self):
        """A program that ends well behind a part of an answer is not believed."""
        whole = self.wanted[0]
        with tempfile.TemporaryDirectory() as folder:
            program = Path(folder) / "cut"
            for size in (0, len(whole) // 2, len(whole) - 1):
                program.write_text(f"#!/bin/sh\ncat >/dev/null\nprintf %s '{whole[:size]}'\n")
                program.chmod(0o755)
                with mock.patch.dict(os.environ, {"TAVKRUDD": str(program)}):
                    self.assertEqual([str(answer) for answer in crystals(jobs(1), progress=False)], ["the answer was cut off"])

    def test_dask(self):
        python = next((p for p in (sys.executable, "/usr/bin/python3") if has(p, "distributed")), None)
        if python is None:
            self.skipTest("Dask's distributed is not installed")
        with tempfile.TemporaryDirectory() as folder:
            script = Path(folder) / "cluster.py"
            script.write_text(DASK.format(package=str(TOP / "python"), here=str(Path(__file__).resolve().parent)))
            ran = subprocess.run([python, script], capture_output=True, text=True, timeout=120, env={**os.environ, "TAVKRUDD": find()})
        self.assertEqual(ran.stdout.split("\0"), self.wanted, ran.stderr[-2000:])

    def test_parallel(self):
        if not shutil.which("parallel"):
            self.skipTest("GNU parallel is not installed")
        with tempfile.TemporaryDirectory() as folder:
            for number, text in enumerate(jobs(40)):
                (Path(folder) / f"{number:03}.job").write_text(text)
            command = f"{find()} grow 1 < {{}} > {{.}}.answer 2>/dev/null"
            names = sorted(str(p) for p in Path(folder).glob("*.job"))
            subprocess.run(["parallel", "--will-cite", command, ":::", *names], timeout=120)
            answers = [Path(name).with_suffix(".answer").read_text() for name in names]
        for answer, wanted in zip(answers, self.wanted):
            self.assertEqual(answer if not answer.startswith("refused ") else wanted, wanted)


def one(text: str):
    try:
        return answer_of(text)
    except CrystalError as fault:
        return fault


def has(python: str, module: str) -> bool:
    return Path(python).exists() and subprocess.run([python, "-c", f"import {module}"], capture_output=True).returncode == 0


if __name__ == "__main__":
    unittest.main()
