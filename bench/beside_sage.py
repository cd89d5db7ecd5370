#!/usr/bin/env python3
"""Six tasks of a combinatorialist, by this package and by Sage: lines to type, and seconds. Run by the Python that has
Sage; prints the table of docs/MEASURES.md.

  sage -python bench/beside_sage.py [TASK..]      (all six where none is named, by their numbers)
"""
import sys
import time
from pathlib import Path

sys.path.insert(0, str(Path(__file__).resolve().parents[1] / "python"))

TASKS = [
    (
        "list and character of B(4, 3, 2, 1) in C_4 (65,536 elements)",
        "B = crystal('C', 4, shape=[4, 3, 2, 1])\nwords = B.words\nchi = B.character()",
        "B = crystals.Tableaux(['C', 4], shape=[4, 3, 2, 1])\nwords = B.list()\nchi = B.character()",
    ),
    (
        "Demazure character of 2 3 1 2 over B(2, 1) in C_3",
        "chi = crystal('C', 3, shape=[2, 1]).demazure([2, 3, 1, 2]).character()",
        "B = crystals.Tableaux(['C', 3], shape=[2, 1])\nchi = B.demazure_character([2, 3, 1, 2])",
    ),
    (
        "decomposition of B(2, 1) with itself in A_3",
        "weights = product_tops(crystal('A', 3, shape=[2, 1]), [2, 1])",
        "B = crystals.Tableaux(['A', 3], shape=[2, 1])\nweights = [b.weight() for b in crystals.TensorProduct(B, B).highest_weight_vectors()]",
    ),
    (
        "picture of B(2, 1) in C_3 (64 elements), as text for LaTeX",
        "B = crystal('C', 3, shape=[2, 1])\ntext = tikz(picture(B._graph, shape=(2, 1)), 'tableau')",
        "B = crystals.Tableaux(['C', 3], shape=[2, 1])\ntext = B.latex()",
    ),
    (
        "digraph of B(3, 2, 1) in C_4 as Sage's own",
        "G = to_sage(crystal('C', 4, shape=[3, 2, 1]))",
        "G = crystals.Tableaux(['C', 4], shape=[3, 2, 1]).digraph()",
    ),
    (
        "all elements of B(4, 3, 2, 1) in D_5 (1,048,576 elements) with their arrows",
        "B = crystal('D', 5, shape=[4, 3, 2, 1])\narrows = B.f",
        "B = crystals.Tableaux(['D', 5], shape=[4, 3, 2, 1])\narrows = [[b.f(i) for i in B.index_set()] for b in B]",
    ),
]


def seconds(code: str, names: dict) -> float:
    start = time.monotonic()
    exec(code, dict(names))
    return time.monotonic() - start


def main() -> None:
    from sage.all import crystals

    import tavkrudd
    from tavkrudd.drawing import tikz
    from tavkrudd.picture import picture
    from tavkrudd.sage import to_sage

    chosen = [int(word) for word in sys.argv[1:]] or range(1, len(TASKS) + 1)
    ours = {**vars(tavkrudd), "tikz": tikz, "picture": picture, "to_sage": to_sage}
    theirs = {"crystals": crystals}
    crystals.Tableaux(["A", 1], shape=[1]).list()
    print("| Task | Lines here | Seconds here | Lines in Sage | Seconds in Sage |\n|---|---|---|---|---|")
    for number in chosen:
        name, here, there = TASKS[number - 1]
        a = seconds(here, ours)
        b = seconds(there, theirs)
        print(f"| {name} | {here.count(chr(10)) + 1} | {a:.2f} | {there.count(chr(10)) + 1} | {b:.2f} |", flush=True)


if __name__ == "__main__":
    main()
