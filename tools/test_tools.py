#!/usr/bin/env python3
"""Tests of crystal_answer.py, and of the help and the refusals of ./crystal, which must be built."""
import shutil
import subprocess
import sys
import tempfile
import types
import unittest
from fractions import Fraction
from pathlib import Path

TOP = Path(__file__).resolve().parents[1]
TOOL = TOP / "tools" / "crystal_answer.py"
WHOLE = """crystal B 2
session 1
absent
1/2 -3/2
session 2
graph 4 3
0 | ++ | 1/2 1/2 | 2:1
1 | +- | 1/2 -1/2 | 1:2
2 | -+ | -1/2 1/2 | 2:3
3 | -- | -1/2 -1/2 | -
statistic character
1/2 1/2 | 1
1/2 -1/2 | 1
-1/2 1/2 | 1
-1/2 -1/2 | 1
statistic strings
1 | 3 | 1
2 | 2 | 1
statistic ends
4
demazure 1 2 | 3
0 | ++
1 | +-
2 | -+
demazure 1 | 1
0 | ++
tops 1 | 1
++ 1 | 3/2 1/2
reflect 2 | 4
0 | 1
1 | 0
2 | 3
3 | 2
end
"""


# The column 1 2 of C_2 below its top, and a string of 301 vertices.
COLUMN = "crystal C 2\ngraph 2 1\n0 | 2 1 | 1 1 | 2:1\n1 | -2 1 | 1 -1 | -\nend\n"
MANY = "crystal A 1\ngraph 301 300\n" + "".join(f"{k} | {k} | {k} 0 | {f'1:{k + 1}' if k < 300 else '-'}\n" for k in range(301)) + "end\n"


def crystal(*words, job=""):
    return subprocess.run([TOP / "crystal", *words], input=job, capture_output=True, text=True)


def setUpModule():
    """Has the program proved and built, which later runs say nothing of."""
    crystal("prove")


class Answers(unittest.TestCase):
    """The command reads an answer and draws its graph."""

    def drawn(self, *words, answer=WHOLE):
        return subprocess.run([sys.executable, TOOL, *words], input=answer, capture_output=True, text=True)

    def told(self, *words, answer=WHOLE):
        ran = self.drawn(*words, answer=answer)
        self.assertEqual((ran.returncode, ran.stderr), (0, ""))
        return ran.stdout

    def test_dot(self):
        text = self.told()
        for line in ['0 -> 1 [label="2", color="red", fontcolor="red"];', '1 -> 2 [label="1", color="blue", fontcolor="blue"];', "{ rank=min; 0 }"]:
            self.assertIn(f"  {line}\n", text)
        self.assertEqual([f'{n} [label="{word}", fillcolor=gold]' in text for n, word in enumerate(["++", "+-", "-+", "--"])], [True, True, True, False])
        self.assertEqual(self.told("--demazure", "2").count("fillcolor=gold"), 1)

    def test_labels(self):
        self.assertIn('0 [label="1/2 1/2"', self.told("--label", "weight"))
        self.assertIn('3 [label="3"]', self.told("--label", "rank"))
        self.assertIn('3 [label=""]', self.told("--label", "none"))
        self.assertIn("<TD>1</TD>", self.told("--label", "tableau", answer=COLUMN))
        self.assertIn(">2</tspan>", self.told("--svg", "--label", "tableau", answer=COLUMN))

    def test_tikz(self):
        text = self.told("--tikz", answer=COLUMN)
        self.assertIn(r"(v1) at (0, -1) {$\overline{2}\,{1}$};", text)
        self.assertIn(r"\draw[->, red] (v0) -- node[auto, font=\scriptsize] {2} (v1);", text)
        whole = self.told("--tikz", "--standalone", "--label", "tableau", answer=COLUMN)
        self.assertTrue(whole.startswith(r"\documentclass") and r"\begin{ytableau}" in whole and whole.endswith("\\end{document}\n"))

    def test_a_part_of_a_graph(self):
        self.assertEqual(self.told("--depth", "1").count("->"), 1)
        self.assertEqual(self.told("--indices", "2").count("->"), 2)
        with tempfile.NamedTemporaryFile("w") as kept:
            kept.write(WHOLE)
            kept.flush()
            self.assertEqual(self.told("--indices", "1", "2", kept.name).count("->"), 3)
        self.assertIn("--indices: no number: x", self.drawn("--indices", "x").stderr)

    def test_sage(self):
        made = []

        class DiGraph:
            def __init__(self, **options):
                self.options = options
                made.append(self)

            def add_vertices(self, words):
                self.vertices = list(words)

            def add_edges(self, edges):
                self.edges = list(edges)

            def set_latex_options(self, **options):
                self.latex = options

        module = types.ModuleType("sage.all")
        module.DiGraph, module.QQ = DiGraph, Fraction
        sys.modules.update({"sage": types.ModuleType("sage"), "sage.all": module})
        names = {}
        try:
            exec(self.told("--sage"), names)
        finally:
            del sys.modules["sage"], sys.modules["sage.all"]
        self.assertEqual(made[0].vertices, ["++", "+-", "-+", "--"])
        self.assertEqual(sorted(made[0].edges), [("++", "+-", 2), ("+-", "-+", 1), ("-+", "--", 2)])
        self.assertEqual(names["weights"]["+-"], (Fraction(1, 2), Fraction(-1, 2)))
        self.assertEqual(made[0].latex["color_by_label"], {1: "blue", 2: "red"})

    def test_page(self):
        self.assertEqual(self.told("--page").count('"rank":'), 4)

    def test_what_is_refused(self):
        for words, answer, said in [
            (["--demazure", "3"], WHOLE, "no Demazure subset 3: the job asks for 2"),
            (["--indices", "3"], WHOLE, "no index of type B_2: 3; the indices are 1 to 2"),
            ([], "crystal A 2\nsession 1\nfull\nfull\nend\n", "the graph is full: give the job more cells"),
            ([], "refused job line 4 fault 9\n", "no answer, but: refused job line 4 fault 9"),
            ([], "crystal A 2\ngraph 1 0\n", "the answer was cut off"),
            ([], WHOLE.replace("graph 4 3", "graph 4 4"), "the answer has 3 arrows in place of 4"),
            ([], "crystal C 4\nwide 36 50\nend\n", "no answer of `grow`: it has no graph"),
            ([], MANY, "a picture of 301 vertices shows nothing: at most 300 are drawn; choose a depth"),
        ]:
            ran = self.drawn(*words, answer=answer)
            self.assertEqual((ran.returncode, ran.stdout, ran.stderr), (1, "", f"crystal_answer: {said}\n"))

    @unittest.skipUnless(shutil.which("dot"), "Graphviz is not installed")
    def test_picture(self):
        drawn = subprocess.run(["dot", "-Tsvg"], input=self.told(), capture_output=True, text=True)
        self.assertEqual((drawn.returncode, drawn.stderr), (0, ""))
        self.assertIn("</svg>", drawn.stdout)


class Script(unittest.TestCase):
    def test_help(self):
        helped = crystal("--help")
        self.assertEqual((helped.returncode, helped.stderr), (0, ""))
        for word in ["grow", "character", "strings", "ends", "docs/JOB.md", "Status"]:
            self.assertIn(word, helped.stdout)

    def test_no_word(self):
        ran = crystal()
        self.assertEqual((ran.returncode, ran.stdout), (1, "refused words 2\n"))
        self.assertEqual(ran.stderr, crystal("--help").stdout + "crystal: fewer than two words (fault 2)\n")

    def test_refusals(self):
        job = "crystal-job 1\ntype A 2\nspace v v v\nstart 2 1 7\n"
        for ran, status, output, said in [
            (crystal("paint", "2"), 1, "refused words 3", "an unknown mode (fault 3): paint 2"),
            (crystal("grow", "1", job=job), 2, "refused job line 4 fault 9", "line 4: no word of the space (fault 9): start 2 1 7"),
            (crystal("grow", "1", job="crystal-job 1\n"), 2, "refused job line 2 fault 12", "a type, a shape or space, or a start is missing (fault 12)"),
            (crystal("grow", "1", job="x" * 1048577), 2, "refused job line 0 fault 14", "more than 1,048,576 bytes (fault 14)"),
        ]:
            self.assertEqual((ran.returncode, ran.stdout, ran.stderr.split("\n")[0]), (status, output + "\n", f"crystal: {said}"))

    def test_every_fault_has_a_meaning(self):
        guide = (TOP / "docs" / "JOB.md").read_text()
        for heading, faults in [("### Refused words", [*range(1, 8), 9, 10, 11]), ("### Refused jobs", [*range(1, 15), 16])]:
            table = guide.split(heading + "\n")[1].split("\n#")[0]
            numbers = sorted(int(row.split("|")[1]) for row in table.split("\n") if row.startswith("| ") and row[2].isdigit())
            self.assertEqual(numbers, faults)

    def test_an_answer_is_left_alone(self):
        ran = crystal("grow", "1", job=(TOP / "jobs" / "first.job").read_text())
        self.assertEqual((ran.returncode, ran.stderr), (0, ""))
        self.assertIn("graph 8 8\n", ran.stdout)


class Documents(unittest.TestCase):
    def blocks(self, name):
        return [block.split("\n", 1)[1] for block in (TOP / name).read_text().split("```")[1::2]]

    def test_the_answers_of_the_readme(self):
        shown = [block.split("\n", 1) for block in self.blocks("README.md") if block.startswith("$ ./crystal") and " < jobs/" in block]
        answers = [(line[2:], answer) for line, answer in shown if answer]
        self.assertGreater(len(answers), 1)
        for line, answer in answers:
            ran = subprocess.run(line, shell=True, cwd=TOP, capture_output=True, text=True)
            self.assertEqual(ran.stdout, answer, line)

    def test_the_jobs_of_the_guide(self):
        blocks = self.blocks("docs/JOB.md")
        jobs = [block for block in blocks if block.startswith("crystal-job") and "    crystal-job" not in block]
        self.assertGreater(len(jobs), 2)
        for job in jobs:
            ran = crystal("grow", "1", job=job)
            self.assertEqual(ran.returncode, 0, job)
            follows = blocks[blocks.index(job) + 1 :][:1]
            if follows and follows[0].startswith("crystal "):
                self.assertEqual(ran.stdout, follows[0])


if __name__ == "__main__":
    unittest.main()
