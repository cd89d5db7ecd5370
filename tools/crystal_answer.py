#!/usr/bin/env python3
"""Draws the graph of an answer of `crystal grow`: a thin command over the package in python/.

  ./crystal grow 1 < JOB | tools/crystal_answer.py | dot -Tsvg > crystal.svg
  ./crystal grow 1 < JOB | tools/crystal_answer.py --page > crystal.html

ANSWER is a file; without it the answer is read from standard input. docs/JOB.md describes the answer.
"""
import argparse
import sys
from pathlib import Path

sys.path.insert(0, str(Path(__file__).resolve().parents[1] / "python"))

from tavkrudd import drawing, page, script  # noqa: E402
from tavkrudd.errors import CrystalError  # noqa: E402
from tavkrudd.graph import read  # noqa: E402
from tavkrudd.picture import LABELS, picture, shape_of, subset  # noqa: E402

FORMS = [
    ("dot", "Graphviz's language, which is meant where no form is named"),
    ("tikz", "a picture for LaTeX"),
    ("svg", "a picture that needs no other program"),
    ("page", "one HTML file for any browser"),
    ("sage", "a script that rebuilds the graph as a DiGraph in Sage"),
]


def words() -> argparse.ArgumentParser:
    """The command's words."""
    parser = argparse.ArgumentParser(description="Draws the graph of an answer of `crystal grow`.")
    form = parser.add_mutually_exclusive_group()
    for name, what in FORMS:
        form.add_argument(f"--{name}", dest="form", action="store_const", const=name, help=what)
    parser.add_argument("--demazure", type=int, metavar="N", help="fill the subset of the Nth demazure ask (the first)")
    parser.add_argument("--label", choices=LABELS, default="word", help="what is written in a vertex (word)")
    parser.add_argument("--depth", type=int, metavar="N", help="the first rows alone, down to N arrows below the tops")
    parser.add_argument("--indices", nargs="+", metavar="I", help="the arrows of these indices alone")
    parser.add_argument("--standalone", action="store_true", help="with --tikz: a whole LaTeX file")
    parser.add_argument("answer", nargs="?", help="a file with the answer (standard input)")
    return parser


def read_words() -> argparse.Namespace:
    """The words of this call. A file may stand behind the indices, which would take it for one of them."""
    parser = words()
    given = parser.parse_args()
    if given.indices and len(given.indices) > 1 and given.answer is None and not given.indices[-1].isdigit():
        given.answer = given.indices.pop()
    for word in given.indices or ():
        if not word.isdigit():
            parser.error(f"argument --indices: no number: {word}")
    given.indices = given.indices and [int(word) for word in given.indices]
    return given


def drawn(given: argparse.Namespace, lines) -> str:
    """The text that is asked for."""
    graph = read(lines)
    if graph.is_full:
        raise CrystalError("the graph is full: give the job more cells")
    for index in given.indices or ():
        if index not in graph.f:
            raise CrystalError(f"no index of type {graph.kind}_{graph.rank}: {index}; the indices are 1 to {graph.rank}")
    if given.form == "sage":
        return script.sage(graph)
    shape, order = shape_of(graph)
    if given.form == "page":
        return page.page_of(graph, shape, order, given.indices, given.depth)
    has_subset = any(head.startswith("demazure ") for head, _ in graph.asks)
    filled = subset(graph, given.demazure or 1) if given.demazure is not None or has_subset else ()
    shown = picture(graph, filled, given.indices, given.depth, shape, order)
    if given.form == "tikz":
        return drawing.tikz(shown, given.label, given.standalone)
    return drawing.svg(shown, given.label) if given.form == "svg" else drawing.dot(shown, given.label)


def main() -> None:
    given = read_words()
    try:
        with open(given.answer, "rb") if given.answer else sys.stdin.buffer as source:
            sys.stdout.write(drawn(given, source))
    except (OSError, CrystalError) as fault:
        sys.exit(f"crystal_answer: {fault}")


if __name__ == "__main__":
    main()
