#!/usr/bin/env python3
"""Tries the ways to Sage and back on the jobs of the peers, by the Python that has Sage; says so where there is none."""
import random
import shutil
import subprocess
import sys
import unittest
from fractions import Fraction
from pathlib import Path

TOP = Path(__file__).resolve().parents[2]
sys.path[:0] = [str(TOP / "python"), str(TOP / "tests" / "peers")]

from tavkrudd import Crystal, Job, crystal  # noqa: E402
from tavkrudd import sage as bridge  # noqa: E402


def job_of_text(text: str) -> Job:
    """The job of a peer's file, by the reader of the peers."""
    from sage_peer import read

    kind, rank, factors, starts, turned, cells = read(text)
    shape = next((tuple(map(int, line.split()[1:])) for line in text.splitlines() if line.startswith("shape ")), ())
    words = tuple(" ".join(start) for start in starts)
    return Job(kind, rank, tuple(factors), words[1:] if shape else words, shape, "kashiwara" if turned else "standard", cells)


@unittest.skipUnless(bridge.has_sage(), "this Python has no Sage")
class Sage(unittest.TestCase):
    def test_jobs(self):
        jobs = sorted((TOP / "tests" / "peers" / "jobs").iterdir())
        self.assertGreaterEqual(len(jobs), 13)
        for path in jobs:
            with self.subTest(job=path.name):
                self.same(Crystal(job_of_text(path.read_text())))

    def same(self, whole):
        """The DiGraph, the weights and the operators of Sage are those of the crystal."""
        graph = bridge.to_sage(whole)
        self.assertEqual((graph.order(), graph.size()), (len(whole), sum(t is not None for b in whole for t in map(b.f, whole.index_set()))))
        weights, elements = bridge.weights_in_sage(whole), bridge.elements_in_sage(whole)
        back = {element: word for word, element in elements.items()}
        for b in list(whole)[:200]:
            element = elements[b.word]
            self.assertEqual(element.weight(), weights[b.word])
            for i in whole.index_set():
                for ours, theirs in ((b.f(i), element.f(i)), (b.e(i), element.e(i))):
                    self.assertEqual(ours and ours.word, back[theirs] if theirs is not None else None)

    def test_back(self):
        from sage.all import crystals

        for cartan, shape in (["C", 3], [2, 1]), (["A", 2], [2, 1]), (["D", 4], [1, 1]):
            theirs = crystals.Tableaux(cartan, shape=shape)
            self.assertEqual(len(bridge.from_sage(theirs)), theirs.cardinality())
        self.assertEqual(len(bridge.from_sage(crystals.Letters(["B", 3]))), 7)
        self.assertEqual(len(bridge.from_sage(crystals.Spins(["B", 3]))), 8)
        self.assertEqual(len(bridge.from_sage(crystals.SpinsMinus(["D", 4]))), 8)
        for path in sorted((TOP / "tests" / "peers" / "jobs").iterdir()):
            whole = Crystal(job_of_text(path.read_text()))
            if whole.job.order != "standard":
                continue
            theirs, elements = bridge.sage_crystal(whole), bridge.elements_in_sage(whole)
            if not whole.job.shape:
                tops = [list(elements[top.word]) for top in whole.module_generators]
                theirs = crystals.TensorProduct(*theirs.crystals, generators=tops)
            with self.subTest(job=path.name):
                self.assertEqual(bridge.from_sage(theirs).words, whole.words)

    def test_names(self):
        """The methods of this package and of Sage, on crystals of all types, in both tensor orders."""
        from sage.all import QQ, crystals

        half = Fraction(1, 2)
        for kind, rank, shape in [
            ("A", 2, [2, 1]), ("A", 3, [2, 1, 1]), ("A", 4, [2, 1]), ("B", 2, [2, 1]), ("B", 3, [1, 1, 1]), ("B", 3, [2]),
            ("C", 2, [2, 2]), ("C", 3, [2, 1]), ("C", 4, [1, 1]), ("D", 4, [1, 1, 1, 1]), ("D", 4, [1, 1, 1, -1]), ("D", 5, [1, 1]),
            ("D", 3, [2, 1, -1]), ("B", 2, [3 * half, half]), ("B", 3, [3 * half, half, half]), ("B", 2, [5 * half, 3 * half]),
            ("D", 4, [half, half, half, -half]), ("D", 4, [3 * half, half, half, half]), ("D", 3, [3 * half, 3 * half, -3 * half]),
        ]:
            theirs = crystals.Tableaux([kind, rank], shape=[QQ(str(n)) for n in shape])
            for order in ("standard", "kashiwara"):
                with self.subTest(kind=kind, rank=rank, shape=shape, order=order):
                    self.same_methods(crystal(kind, rank, shape=shape, order=order), theirs)

    def same_methods(self, whole, theirs):
        """Elements are set beside each other from the tops down."""
        self.assertEqual((len(whole), len(whole.module_generators)), (theirs.cardinality(), 1))
        beside = {whole.module_generators[0]: theirs.module_generators[0], None: None}
        row = [whole.module_generators[0]]
        while row:
            b = row.pop()
            for i in whole.index_set():
                found, wanted = b.f(i), beside[b].f(i)
                if found not in beside:
                    row.append(found)
                self.assertEqual(beside.setdefault(found, wanted), wanted)
        self.assertEqual(len(beside), len(whole) + 1)
        picked = random.Random(len(whole))
        for b in picked.sample(list(whole), min(8, len(whole))):
            s = beside[b]
            self.assertEqual(b.weight(), tuple(Fraction(str(x)) for x in s.weight().to_vector()))
            self.assertEqual(b.is_highest_weight(), s.is_highest_weight())
            self.assertEqual(beside[b.lusztig_involution()], s.lusztig_involution())
            for i in whole.index_set():
                self.assertEqual((b.epsilon(i), b.phi(i), beside[b.s(i)]), (s.epsilon(i), s.phi(i), s.s(i)))
                walk = [i, picked.choice(whole.index_set())]
                self.assertEqual((beside[b.f_string(walk)], beside[b.e_string(walk)]), (s.f_string(walk), s.e_string(walk)))
            for ours, wanted in ((b.to_highest_weight(), s.to_highest_weight()), (b.to_lowest_weight(), s.to_lowest_weight())):
                self.assertEqual([beside[ours[0]], ours[1]], list(wanted))
        self.assertEqual(whole.q_dimension().counts, [int(n) for n in theirs.q_dimension().list()])
        self.same_demazure(whole, theirs, picked.choices(whole.index_set(), k=2))

    def same_demazure(self, whole, theirs, indices):
        """Demazure characters, where weights are whole: the order of the indices is Sage's."""
        from sage.all import prod, var

        character = whole.demazure(indices).character()
        if all(isinstance(n, int) for weight in character for n in weight):
            named = [var(f"x{k}") for k in range(1, len(next(iter(character))) + 1)]
            ours = sum(n * prod(x**k for x, k in zip(named, weight)) for weight, n in character.items())
            self.assertEqual((ours - theirs.demazure_character(indices)).expand(), 0, indices)

    def test_isomorphic(self):
        from sage.all import crystals

        theirs = crystals.Tableaux(["C", 3], shape=[2, 1]).digraph()
        self.assertTrue(theirs.is_isomorphic(crystal("C", 3, shape=[2, 1]).digraph(), edge_labels=True))


def main() -> int:
    if not bridge.has_sage() and shutil.which("sage"):
        return subprocess.run(["sage", "-python", __file__, *sys.argv[1:]]).returncode
    return not unittest.main(exit=False).result.wasSuccessful()


if __name__ == "__main__":
    sys.exit(main())
