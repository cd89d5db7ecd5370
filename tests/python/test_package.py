#!/usr/bin/env python3
"""Tests of the package in python/. Expected values are from the literature, from hand counts, or from the plain model
in tests/peers, never from the program."""
import doctest
import importlib
import io
import pkgutil
import re
import sys
import unittest
from fractions import Fraction
from pathlib import Path
from unittest import mock

TOP = Path(__file__).resolve().parents[2]
sys.path[:0] = [str(TOP / "python"), str(TOP / "tests" / "peers"), str(Path(__file__).resolve().parent)]

import crystals as model  # noqa: E402  (the plain model of the peers)
import tavkrudd  # noqa: E402
from bad_inputs import BAD  # noqa: E402
from tavkrudd import compare, crystal, crystals, errors, graph  # noqa: E402
from tavkrudd.errors import Interrupted  # noqa: E402

HALF = Fraction(1, 2)


class Elements(unittest.TestCase):
    def setUp(self):
        self.whole = crystal("A", 2, shape=[2, 1])

    def test_words_and_operators(self):
        b = self.whole("2 1 1")
        self.assertEqual((str(b), b.rank, b.weight(), b.f(1), b.e(1)), ("2 1 1", 0, (2, 1, 0), self.whole("2 1 2"), None))
        self.assertEqual([(b.epsilon(i), b.phi(i)) for i in (1, 2)], [(0, 1), (0, 1)])
        self.assertEqual(self.whole("2 1 2").s(2), self.whole("3 1 3"))
        self.assertEqual(b.f_string([1, 2, 2, 1]), self.whole("3 2 3"))
        self.assertEqual(self.whole("3 2 3").to_highest_weight(), (b, [1, 2, 2, 1]))
        self.assertTrue(b.is_highest_weight() and self.whole("3 2 3").is_lowest_weight())
        self.assertTrue(b < self.whole("2 1 2") and len({b, self.whole[0]}) == 1)

    def test_tableaux(self):
        self.assertEqual(self.whole("3 1 2").to_tableau().rows, ((1, 2), (3,)))
        self.assertEqual([t.rows for t in tavkrudd.census(2, [2, 1])], [b.to_tableau().rows for b in self.whole])

    def test_lusztig_involution(self):
        images = {"2 1 1": "3 2 3", "2 1 2": "3 2 2", "2 1 3": "3 1 2", "3 1 1": "3 1 3"}
        for word, image in images.items():
            self.assertEqual(str(self.whole(word).lusztig_involution()), image)
            self.assertEqual(str(self.whole(image).lusztig_involution()), word)

    def test_halves(self):
        spins = crystals.Spins("B2")
        self.assertEqual([b.weight() for b in spins], [(HALF, HALF), (HALF, -HALF), (-HALF, HALF), (-HALF, -HALF)])
        self.assertEqual(spins("+-").f(1), spins("-+"))


class Crystals(unittest.TestCase):
    """Numbers of elements by Weyl's dimension formula."""

    def test_sizes(self):
        sizes = [("C3", [2, 1], 64), ("A2", [2, 1], 8), ("B2", [1, 1], 10), ("D4", [1, 1], 28), ("B3", [HALF] * 3, 8), ("B2", [3 * HALF, HALF], 16)]
        sizes += [("D4", [1, 1, 1, 1], 35), ("D4", [1, 1, 1, -1], 35), ("D4", [HALF, HALF, HALF, -HALF], 8), ("A3", [2, 2], 20)]
        for cartan, shape, size in sizes:
            whole = crystals.Tableaux(cartan, shape=shape)
            self.assertEqual(len(whole), size, (cartan, shape))
            self.assertEqual([b.weight()[: len(shape)] for b in whole.module_generators], [tuple(shape)], (cartan, shape))

    def test_kashiwara(self):
        whole = crystal("A", 2, shape=[2, 1], order="kashiwara")
        self.assertEqual(whole.words, ["1 1 2", "1 1 3", "2 1 2", "2 1 3", "2 2 3", "3 1 2", "3 1 3", "3 2 3"])
        self.assertEqual(whole("1 1 2").to_tableau().rows, ((1, 1), (2,)))
        self.assertEqual(len(crystals.Tableaux("B2", shape=[3 * HALF, HALF], growers=1)), 16)

    def test_characters(self):
        whole = crystal("A", 2, shape=[2, 1])
        self.assertEqual(whole.character()[(1, 1, 1)], 2)
        self.assertEqual(dict(whole.character().dominant()), {(2, 1, 0): 1, (1, 1, 1): 2})
        # The key polynomials of the compositions (1, 2, 0), (0, 2, 1) and (0, 1, 2).
        self.assertEqual(whole.demazure([1]).character().polynomial(), "x1^2*x2 + x1*x2^2")
        self.assertEqual(whole.demazure([2, 1]).character().polynomial(), "x1^2*x2 + x1^2*x3 + x1*x2^2 + x1*x2*x3 + x1*x3^2")
        self.assertEqual(len(whole.demazure([1, 2, 1])), 8)
        self.assertEqual(repr(whole.q_dimension()), "1 + 2*q + 2*q^2 + 2*q^3 + q^4")
        self.assertEqual(whole.q_dimension()(1), 8)

    def test_restriction(self):
        parts = crystal("A", 2, shape=[2, 1]).subcrystal([1])
        self.assertEqual([[str(b) for b in part.highest()] for part in parts], [["2 1 1"], ["2 1 3"], ["3 1 1"], ["3 1 3"]])
        self.assertEqual(sorted(map(len, parts)), [1, 2, 2, 3])

    def test_isomorphism(self):
        adjoint = crystal("A", 2, shape=[2, 1])
        self.assertTrue(adjoint.is_isomorphic(crystal("A", 2, factors="v v v", start="1 2 1")))
        self.assertTrue(adjoint.is_isomorphic(crystal("A", 2, factors="v v v v v v", start="3 2 1 2 1 1")))
        different = adjoint.is_isomorphic(crystal("A", 2, shape=[3]))
        self.assertFalse(different)
        self.assertEqual(different.walk, ["f2"])

    def test_a_shape_with_a_further_start(self):
        """It has two tops, and is compared from its own."""
        whole = crystal("A", 2, shape=[2, 1], start="1 1 1")
        self.assertEqual([str(b) for b in whole.module_generators], ["1 1 1", "2 1 1"])
        self.assertTrue(whole.is_isomorphic(crystal("A", 2, shape=[2, 1])))
        self.assertTrue(whole.is_isomorphic(crystal("A", 2, factors="v v v v v v", start="3 2 1 2 1 1")))

    def test_the_walk_that_tells(self):
        """The walk through two graphs is that of the program's mode, where this can answer too."""
        for kind, rank, factors, one, other in [
            ("A", 2, "v v v v", "2 1 1 3", "1 2 3 1"),
            ("A", 1, "v v v v v", "1 2 1 1 2", "2 1 1 1 2"),
            ("B", 2, "s v v", "+- 1 2", "-+ 2 1"),
            ("C", 2, "v v v", "-2 1 2", "2 1 -2"),
            ("C", 2, "v v v", "1 -1 1", "2 -2 1"),
            ("D", 3, "s+ v s-", "+++ 1 -++", "+-- 1 +-+"),
        ]:
            told = tavkrudd.match(tavkrudd.job_of(kind, rank, factors=factors, start=[one, other]))
            a, b = (crystal(kind, rank, factors=factors, start=start) for start in (one, other))
            self.assertEqual(compare._walked(a, a(one).rank, b, b(other).rank), told, (kind, one, other))

    def test_products(self):
        letters = crystals.Letters("A2")
        whole = crystals.TensorProduct(letters, letters, letters)
        self.assertEqual((len(whole), len(whole.module_generators)), (27, 4))
        self.assertEqual(tavkrudd.product_tops(letters, [1]), {"1 1": (2, 0, 0), "2 1": (1, 1, 0)})

    def test_wide(self):
        """The mode wide: twice the letters of A_1 have three words and two arrows from `1 1`."""
        job = "crystal-job 1\ntype A 1\nspace v\nstart 1\n"
        self.assertEqual(tavkrudd.wide(job, 2), (3, 2))
        with self.assertRaisesRegex(errors.TooSmall, "more than 2 elements"):
            tavkrudd.wide(job + "cells 2\n")

    def test_model(self):
        """All arrows and weights of a spin and two vectors in B_3, by the plain model."""
        whole = crystal("B", 3, factors="s v v", start="+++ 2 1")
        plain = model.Crystal("B", 3, ["s", "v", "v"])
        for b in whole:
            tokens = tuple(tuple(1 if c == "+" else -1 for c in t) if set(t) <= {"+", "-"} else int(t) for t in b.word.split())
            self.assertEqual(b.weight(), tuple(plain.weight(tokens)))
            for i in (1, 2, 3):
                self.assertEqual((b.epsilon(i), b.phi(i)), plain.strings(tokens, i))

    def test_arrays(self):
        whole = crystal("A", 1, shape=[2])
        self.assertEqual((whole.words, list(whole.f[1]), list(whole.e[1])), (["1 1", "1 2", "2 2"], [1, 2, -1], [-1, 0, 1]))


class Answers(unittest.TestCase):
    def test_bad_inputs(self):
        self.assertGreaterEqual(len(BAD), 40)
        for number, (call, kind, told) in enumerate(BAD):
            with self.subTest(number=number), self.assertRaises(kind) as caught:
                call()
            self.assertRegex(str(caught.exception), told)

    def test_cut_answers(self):
        text = b"crystal A 1\ngraph 2 1\n0 | 1 | 1 0 | 1:1\n1 | 2 | 0 1 | -\nend\n"
        self.assertEqual(len(graph.read(text.splitlines(keepends=True))), 2)
        for size in range(len(text) - 1):
            with self.assertRaises(Interrupted):
                graph.read(text[:size].splitlines(keepends=True))

    def test_progress(self):
        """A reading of more than two seconds is told on standard error, and an argument silences it."""
        lines = b"crystal A 1\ngraph 2 1\n0 | 1 | 1 0 | 1:1\n1 | 2 | 0 1 | -\nend\n".splitlines(keepends=True)
        for after, progress, told in [(1, True, ""), (3, True, "2 of 2 elements read"), (3, False, ""), (3, None, "")]:
            with mock.patch.object(graph.time, "monotonic", side_effect=[0, *[after] * 9]), mock.patch("sys.stderr", io.StringIO()) as said:
                graph.read(lines, progress)
            self.assertEqual(said.getvalue().split("\r")[-1].strip(), told, (after, progress))

    def test_meanings(self):
        """The tables of faults are those of docs/JOB.md."""
        parts = (TOP / "docs" / "JOB.md").read_text(encoding="utf-8").split("### Refused ")[1:3]
        for part, table in zip(parts, (errors.JOB_FAULTS, errors.WORD_FAULTS)):
            first = part.split("| K | Fault |")[1].split("\n\n")[0]
            told = {int(k): what for k, what in re.findall(r"^\| (\d+) \| (.*) \|$", first, re.M)}
            self.assertEqual(told, table)


def suite() -> unittest.TestSuite:
    tests = unittest.defaultTestLoader.loadTestsFromModule(sys.modules[__name__])
    for module in pkgutil.iter_modules(tavkrudd.__path__):
        tests.addTests(doctest.DocTestSuite(importlib.import_module(f"tavkrudd.{module.name}")))
    tests.addTests(doctest.DocTestSuite(tavkrudd))
    return tests


if __name__ == "__main__":
    sys.exit(not unittest.TextTestRunner(verbosity=1).run(suite()).wasSuccessful())
