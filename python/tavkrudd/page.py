"""One self-contained HTML page that shows a crystal in any browser: no network, no library."""
from __future__ import annotations

import json
from collections.abc import Iterable
from pathlib import Path
from typing import TYPE_CHECKING

from .graph import NONE, Graph
from .picture import COLOURS, picture

if TYPE_CHECKING:
    from .crystal import Crystal

MOST_ON_A_PAGE = 2_000


def page_of(graph: Graph, shape: tuple[int, ...] = (), order: str = "standard", indices: Iterable[int] | None = None, depth: int | None = None) -> str:
    """The page of a graph. Its Demazure subsets are those that the job asked for."""
    shown = picture(graph, indices=indices, depth=depth, shape=shape, order=order, most=MOST_ON_A_PAGE)
    places = {rank: n for n, rank in enumerate(shown.nodes)}
    lengths = {i: (_lengths(graph.e(i)), _lengths(graph.f[i])) for i in graph.f}
    data = {
        "title": shown.title,
        "colours": COLOURS,
        "all": list(graph.f),
        "indices": list(graph.f if indices is None else indices),
        "nodes": [
            {
                "rank": rank,
                "word": node.word,
                "weight": node.weight,
                "rows": node.rows,
                "row": shown.rows[rank],
                "across": shown.across[rank],
                "eps": [lengths[i][0][rank] for i in graph.f],
                "phi": [lengths[i][1][rank] for i in graph.f],
            }
            for rank, node in shown.nodes.items()
        ],
        "arrows": [(places[a], i, places[b]) for a, i, b in shown.arrows],
        "subsets": [
            {"name": head.rsplit(" | ", 1)[0], "members": [int(line.split(" | ")[0]) for line in lines]}
            for head, lines in graph.asks
            if head.startswith("demazure ")
        ],
    }
    template = (Path(__file__).parent / "page.html").read_text(encoding="utf-8")
    return template.replace("{{DATA}}", json.dumps(data, separators=(",", ":")).replace("</", "<\\/"))


def page(crystal: Crystal, demazure: Iterable[Iterable[int]] = (), **choices) -> str:
    """The page of a crystal, with these Demazure subsets to choose.

    >>> from tavkrudd import crystal
    >>> text = page(crystal("A", 2, shape=[2, 1]), demazure=[[1, 2]])
    >>> text.count('"rank":'), '"demazure 1 2"' in text
    (8, True)
    """
    asks = [f"demazure {' '.join(map(str, crystal._indices(chosen)))}" for chosen in demazure]
    graph = crystal._grown(crystal.job.asking(*asks)) if asks else crystal._graph
    return page_of(graph, crystal.job.shape, crystal.job.order, **choices)


def _lengths(table) -> list[int]:
    """By rank how many arrows follow each other."""
    found = [NONE] * len(table)
    for start in range(len(table)):
        path, here = [], start
        while here != NONE and found[here] == NONE:
            path.append(here)
            here = table[here]
        length = 0 if here == NONE else found[here] + 1
        for rank in reversed(path):
            found[rank] = length
            length += 1
    return found
