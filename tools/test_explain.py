#!/usr/bin/env python3
"""Tests of explain_fault.py, of the short forms and of the examples in the help, on the program, which must be built."""
import doctest
import re
import subprocess
import sys
import unittest
from fractions import Fraction

import explain_fault

TOP = explain_fault.TOP
sys.path.insert(0, str(TOP / "python"))

from tavkrudd.graph import read  # noqa: E402


def setUpModule():
    """Has the program proved and built, which later runs say nothing of."""
    crystal("prove")


def crystal(*words, job=""):
    """Runs ./crystal with a job that may have any letter, and no newline is changed."""
    ran = subprocess.run([TOP / "crystal", *words], input=job.encode(), capture_output=True)
    ran.stdout, ran.stderr = ran.stdout.decode(), ran.stderr.decode()
    return ran


def graph_of(text):
    """The graph that an answer tells."""
    return read(text.encode().splitlines(keepends=True))


def after(*lines):
    """A job of version 1 in type A 2 with three vectors, and these lines behind its start."""
    return "\n".join(["crystal-job 1", "type A 2", "space v v v", "start 2 1 1", *lines, ""])


# Jobs, the number of the fault that the program gives, and what is said of its cause.
CAUSES = [
    (3, "crystal-job 1\ntype A2\n", "write: type A 2"),
    (3, "crystal-job 1\ntypeA2\n", "write: type A 2"),
    (3, "crystal-job 1\ntype A 2\norder kashiwara\n", "order needs crystal-job 2 in the first line"),
    (3, after("session", "done"), "done needs crystal-job 2 in the first line"),
    (3, after("reflect 1 2"), "its form is: reflect I, with one index"),
    (3, after("look 1 2 1 1"), "its form is: look f I W, or look e I W"),
    (3, after("demasure 1"), "is demazure meant? Its form is: demazure I1 I2 .."),
    (3, after("Session"), "key words have small letters: session"),
    (3, after("// two words"), "a comment begins with #"),
    (3, after("qqqq"), "allowed here are: start, cells, session, demazure, tops, reflect"),
    (4, "crystal-job 1\nshape 2 1\n", "a type comes first, as in: type A 2"),
    (4, "crystal-job 1\ntype A 2\nstart 1\n", "a shape or a space comes first, as in: shape 2 1"),
    (4, after("cells 8", "cells 9"), "there is a line cells before it: it stands at most once"),
    (4, after("session", "start 1 1 1"), "it stands behind shape or space, before the first session and the first ask"),
    (4, after("find 1 1 1"), "it is a command: it stands in a session, behind a line session and before the first ask"),
    (3, "crystal-job 1\ntype A_2\n", "write: type A 2"),
    (5, "crystal-job 1\ntype A 2\nshape [2, 1]\n", "write: shape 2 1"),
    (5, after("demazure 1,2"), "write: demazure 1 2"),
    (5, after("cells x"), "x is no number: one has one to nine digits"),
    (5, after("reflect -1"), "-1 is no number: one has one to nine digits and no sign"),
    (6, "crystal-job 1\ntype B 1\n", "the ranks of type B are 2 to 8"),
    (6, "crystal-job 1\ntype b 2\n", "write: type B 2"),
    (6, "crystal-job 1\ntype G 2\n", "the types are A, B, C and D"),
    (7, "crystal-job 1\ntype A 2\nshape 1 2\n", "rows fall: shape 2 1"),
    (7, "crystal-job 1\ntype A 2\nshape 1 0\n", "a row is 0: leave it out"),
    (7, "crystal-job 1\ntype C 2\nshape 1 1 1\n", "too tall: a shape of type C 2 has at most 2 rows, and this one 3"),
    (7, "crystal-job 1\ntype A 1\nshape 41\n", "too many boxes: at most 40, and here 41"),
    (7, "crystal-job 1\ntype A 8\nshape 40\n", "too many words: 9 letters in 40 boxes make more than 2^63"),
    (8, "crystal-job 1\ntype C 2\nspace v s\n", "s is no factor of type C 2: it has v"),
    (8, "crystal-job 1\ntype A 1\nspace" + " v" * 41 + "\n", "too many factors: at most 40, and here 41"),
    (8, "crystal-job 1\ntype A 8\nspace" + " v" * 40 + "\n", "the product has more than 2^63 words"),
    (8, "crystal-job 2\ntype A 2\norder Kashiwara\n", "the orders are standard and kashiwara"),
    (9, after("start 2 1 7"), "7 is no letter: the letters of type A 2 are 1 to 3"),
    (9, after("start 2 1"), "a word has 3 tokens here, one for each factor, and this one 2"),
    (9, after("session", "f 1 2 1 -1"), "-1 is no letter: the letters of type A 2 are 1 to 3"),
    (9, "crystal-job 1\ntype B 2\nspace s v\nstart +- -0\n", "-0 is no letter: the letters of type B 2 are 1 to 2, 0, -2 to -1"),
    (9, "crystal-job 1\ntype B 2\nspace s v\nstart +-+ 0\n", "+-+ is no element of s: it has 2 signs + and -"),
    (9, "crystal-job 1\ntype D 3\nspace s+\nstart ++-\n", "++- is no element of s+: it has an even number of signs -"),
    (10, after("reflect 3"), "3 is no index: those of type A 2 are 1 to 2"),
    (10, after("session", "look e 9 1 1 1"), "9 is no index: those of type A 2 are 1 to 2"),
    (11, after("cells 0"), "cells has a number from 1 to 1,048,576"),
    (12, "crystal-job 1\n", "a type is missing, as in: type A 2"),
    (12, "crystal-job 1\ntype A 2\n", "a shape or a space is missing behind type A 2, as in: shape 2 1"),
    (12, "crystal-job 1\ntype D 4\nspace s- v\n", "a start is missing, as in: start +++- 1"),
    (13, after(*["session"] * 17), "a job has at most 16 sessions"),
    (13, after(*["reflect 1"] * 9), "a job has at most 8 asks"),
    (1, "crystal-job 1\ntype A 2", "its newline is missing: the last line ends in one too"),
    (1, "crystal-job 1\r\ntype A 2\r\n", "a carriage return at place 14: save the job with the line ends of Unix (sed -i 's/\\r$//' JOB)"),
    (1, "crystal-job 1\n# für\n", "ü at place 4: a job has ASCII alone, in comments too"),
    (1, "crystal-job 1\ntype\tA 2\n", "a tab at place 5: write blanks"),
    (1, "\ufeffcrystal-job 1\n", "the job begins with a byte order mark: save it as plain text without one"),
    (1, "crystal-job 1\n\0\n", "the byte 0 at place 1: a job has printed characters of ASCII alone"),
    (2, "type A 2\n", "put the line crystal-job 1 above it"),
    (2, "crystal-job 3\n", "there are the versions 1 and 2"),
    (2, " crystal-job 1\n", "the first line has small letters, one blank between its words, and none elsewhere"),
    (2, "", "the job is empty, or its first line is: it begins with crystal-job 1"),
]
# Command words, the number of their fault, and what is said of its cause.
CAUSES_IN_WORDS = [
    (2, ["census"], "usage: ./crystal census RANK N1 N2 .."),
    (3, ["gorw", "1"], "usage: ./crystal grow GROWERS [STATISTIC..] < JOB"),
    (4, ["grow", "17"], "17 is no number of growers, which is 1 to 16; usage: ./crystal grow GROWERS [STATISTIC..] < JOB"),
    (5, ["grow", "1", "charactr"], "is character meant?; usage: ./crystal grow GROWERS [STATISTIC..] < JOB"),
    (7, ["sample", "1", "x"], "usage: ./crystal sample GROWERS NUMBER"),
    (9, ["census", "2", "1", "2"], "rows fall: 2 1; usage: ./crystal census RANK N1 N2 .."),
    (10, ["match", "both"], "usage: ./crystal match same|star < JOB"),
]
# Types, the rows of a highest weight that no shape has, and the size of its crystal by Weyl's dimension formula.
WEIGHTS = [
    ("B", 2, "1/2 1/2", 4),
    ("B", 2, "3/2 1/2", 16),
    ("B", 3, "2.5 1.5 0.5", 512),
    ("D", 4, "1/2 1/2 1/2 -1/2", 8),
    ("D", 4, "3/2 1/2 1/2 1/2", 56),
    ("D", 4, "1 1 1 -1", 35),
    ("D", 3, "1 1 -1", 10),
    ("D", 3, "3/2 3/2 -3/2", 20),
    ("D", 3, "2 1 -1", 45),
]


class Causes(unittest.TestCase):
    def test_of_jobs(self):
        for fault, job, cause in CAUSES:
            ran = crystal("grow", "1", job=job)
            self.assertEqual(ran.returncode, 2, job)
            self.assertTrue(ran.stdout.endswith(f" fault {fault}\n"), (job, ran.stdout))
            self.assertEqual(ran.stderr.split("\n")[1:], [f"crystal: {cause}", ""], job)

    def test_of_words(self):
        for fault, words, cause in CAUSES_IN_WORDS:
            ran = crystal(*words)
            self.assertEqual((ran.stdout, ran.stderr.split("\n")[1:]), (f"refused words {fault}\n", [f"crystal: {cause}", ""]))

    def test_weights_that_no_shape_has(self):
        for kind, rank, rows, size in WEIGHTS:
            head = f"crystal-job 1\ntype {kind} {rank}\n"
            said = crystal("grow", "1", job=f"{head}shape {rows}\n").stderr
            space, start = re.search("a product: (space [^,]*), and behind it (start .*)\n", said).groups()
            graph = graph_of(crystal("grow", "1", job=f"{head}{space}\n{start}\n").stdout)
            self.assertEqual(len(graph), size, rows)
            self.assertIn([Fraction(row) for row in rows.split()], [list(graph.weight(rank)) for rank in range(size)])
        said = crystal("grow", "1", job="crystal-job 1\ntype A 2\nshape 1 0 -1\n").stderr
        self.assertIn("in type A the same number may be added to all rows", said)
        self.assertIn("in type C 2 rows are whole", crystal("grow", "1", job="crystal-job 1\ntype C 2\nshape 3/2 1/2\n").stderr)


class Forms(unittest.TestCase):
    def test_full(self):
        job = "crystal-job 1\ntype A 2\nshape 2 1\n"
        for words, more, said in [
            (["grow", "1"], "cells 7\n", "there are more than 7 elements: raise cells N, at most 1,048,576"),
            (["match", "same"], "start 2 1 1\ncells 7\n", "there are more than 7 pairs: raise cells N, at most 1,048,576"),
        ]:
            ran = crystal(*words, job=job + more)
            self.assertEqual((ran.returncode, ran.stderr), (3, f"crystal: {said}\n"))
        ran = crystal("grow", "1", job="crystal-job 1\ntype A 8\nshape 4 3 2 1\n")
        self.assertEqual(ran.stderr, "crystal: there are more than 65,536 elements: add a line cells N, at most 1,048,576\n")
        self.assertIn("more than 65,536 tableaux", crystal("census", "8", "4", "3", "2", "1").stderr)

    def test_short_forms(self):
        shape = crystal("grow", "1", "ends", job="crystal-job 1\ntype C 3\nshape 2 1\n")
        self.assertEqual(crystal("shape", "C", "3", "2", "1", "ends").stdout, shape.stdout)
        component = crystal("grow", "1", job="crystal-job 1\ntype B 2\nspace s v\nstart +- 0\n")
        self.assertEqual(crystal("component", "B", "2", "s", "v", "--", "+- 0").stdout, component.stdout)
        self.assertEqual(len(graph_of(crystal("shape", "A", "5", "6", "4", "2", "1").stdout)), 92400)

    def test_examples_of_the_help(self):
        for mode in ["grow", "match", "census", "sample", "wide", "shape", "component"]:
            example = crystal("help", mode).stdout.split("Example: ")[1]
            ran = subprocess.run(example, shell=True, cwd=TOP, capture_output=True, text=True)
            self.assertEqual((ran.returncode, ran.stderr), (0, ""), example)


def load_tests(_loader, tests, _pattern):
    tests.addTests(doctest.DocTestSuite(explain_fault))
    return tests


if __name__ == "__main__":
    unittest.main()
