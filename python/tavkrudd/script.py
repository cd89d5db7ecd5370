"""A script that rebuilds a graph in Sage, for a machine that has Sage and not this package."""
from __future__ import annotations

from .graph import NONE, Graph
from .picture import COLOURS


def sage(graph: Graph) -> str:
    """The script: the vertices are words, the labels indices; words, weights and arrows stand once each, as texts."""
    words = [graph.word(rank) for rank in range(len(graph))]
    weights = [graph.weights[k].decode("ascii") for k in graph.weight_of]
    arrows = [f"{rank}:{i}:{to}" for i, table in graph.f.items() for rank, to in enumerate(table) if to != NONE]
    colours = {i: COLOURS[i - 1] for i in graph.f}
    return f'''from sage.all import DiGraph, QQ

words = """
{chr(10).join(words)}
""".strip().split("\\n")
weights = {{word: tuple(map(QQ, text.split())) for word, text in zip(words, """
{chr(10).join(weights)}
""".strip().split("\\n"))}}
arrows = """{' '.join(arrows)}""".split()
crystal = DiGraph(multiedges=True)
crystal.add_vertices(words)
crystal.add_edges((words[int(a)], words[int(b)], int(i)) for a, i, b in (arrow.split(":") for arrow in arrows))
crystal.set_latex_options(format="dot2tex", edge_labels=True, color_by_label={colours!r})
'''
