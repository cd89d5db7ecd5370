"""What a picture of a crystal shows: chosen vertices with labels, chosen arrows, and a place for each vertex."""
from __future__ import annotations

from collections.abc import Collection, Iterable
from dataclasses import dataclass, field

from .errors import CrystalError, NotAnElement
from .graph import NONE, Graph

MOST_VERTICES = 300
LABELS = ("word", "tableau", "rank", "weight", "none")
# The colours of the indices: Sage 9.5 has those of 1 to 3 (its green is replaced by one that can be read); the rest are
# this project's own.
COLOURS = ("blue", "red", "#007a33", "purple", "#b35900", "magenta", "brown", "black")


class TooLarge(CrystalError):
    """More vertices than a picture can show."""


@dataclass(frozen=True)
class Node:
    """A vertex: its place in the canonical order, what is written in it, and whether it is filled."""

    rank: int
    word: tuple[str, ...]
    weight: str
    rows: tuple[tuple[str, ...], ...] = ()
    is_filled: bool = False

    def label(self, kind: str) -> str:
        """Its label as plain text."""
        if kind == "none":
            return ""
        if kind == "rank":
            return str(self.rank)
        if kind == "weight":
            return self.weight
        if kind == "tableau" and self.rows:
            return "\n".join(" ".join(map(overlined, row)) for row in self.rows)
        return " ".join(map(overlined, self.word))


@dataclass
class Picture:
    """Nodes by rank, arrows as (source, index, target), and for each rank its row from the top and its place across."""

    title: str
    nodes: dict[int, Node] = field(default_factory=dict)
    arrows: list[tuple[int, int, int]] = field(default_factory=list)
    rows: dict[int, int] = field(default_factory=dict)
    across: dict[int, float] = field(default_factory=dict)

    def tops(self) -> list[int]:
        """The vertices of the first row."""
        return [rank for rank in self.nodes if self.rows[rank] == 0]


def is_barred(token: str) -> bool:
    """Whether a token is a negative letter."""
    return token[:1] == "-" and token[1:].isdigit()


def overlined(token: str) -> str:
    """A token with a bar over a negative letter.

    >>> overlined("2"), overlined("-12") == "1\\u03052\\u0305", overlined("+-")
    ('2', True, '+-')
    """
    return "".join(digit + "\u0305" for digit in token[1:]) if is_barred(token) else token


def picture(
    graph: Graph,
    filled: Collection[int] = (),
    indices: Iterable[int] | None = None,
    depth: int | None = None,
    shape: tuple[int, ...] = (),
    order: str = "standard",
    most: int = MOST_VERTICES,
) -> Picture:
    """The picture of a graph: all of it or the first rows down to a depth, all arrows or those of these indices."""
    chosen = tuple(graph.f) if indices is None else tuple(indices)
    rows = depths(graph)
    shown = [rank for rank in range(len(graph)) if depth is None or rows[rank] <= depth]
    if len(shown) > most:
        raise TooLarge(f"a picture of {len(shown):,} vertices shows nothing: at most {most} are drawn; choose a depth")
    made = Picture(f"{graph.kind}_{graph.rank}: {len(graph):,} elements")
    for rank in shown:
        word = tuple(graph.word(rank).split())
        weight = graph.weights[graph.weight_of[rank]].decode("ascii")
        made.nodes[rank] = Node(rank, word, weight, rows_of(word, shape, order), rank in filled)
        made.rows[rank] = rows[rank]
    for index in chosen:
        table = graph.f[index]
        made.arrows += [(rank, index, table[rank]) for rank in shown if table[rank] != NONE and table[rank] in made.nodes]
    made.arrows.sort()
    _place(made)
    return made


def rows_of(word: tuple[str, ...], shape: tuple[int, ...], order: str) -> tuple[tuple[str, ...], ...]:
    """The rows of the tableau whose column reading the word is; none where there is no shape."""
    if not shape or sum(shape) != len(word):
        return ()
    letters = word if order == "standard" else word[::-1]
    rows: list[list[str]] = [[] for _ in shape]
    place = 0
    for column in range(shape[0]):
        for row in reversed(range(sum(length > column for length in shape))):
            rows[row].append(letters[place])
            place += 1
    return tuple(map(tuple, rows))


def shape_of(graph: Graph) -> tuple[tuple[int, ...], str]:
    """The shape whose crystal the graph is, and the tensor order, told by its one top; no row where there is none."""
    tops = [rank for rank in range(len(graph)) if all(graph.e(i)[rank] == NONE for i in graph.f)]
    if len(tops) != 1:
        return (), "standard"
    word, weight = graph.word(tops[0]).split(), graph.weights[graph.weight_of[tops[0]]].decode("ascii").split()
    if any("/" in w or w.startswith("-") for w in weight):
        return (), "standard"
    shape = tuple(n for n in map(int, weight) if n > 0)
    if not shape or list(shape) != sorted(shape, reverse=True):
        return (), "standard"
    reading = [str(row) for column in range(shape[0]) for row in range(sum(n > column for n in shape), 0, -1)]
    if word == reading:
        return shape, "standard"
    return (shape, "kashiwara") if word == reading[::-1] else ((), "standard")


def subset(graph: Graph, number: int) -> set[int]:
    """The members of the Demazure ask of this number, counted from 1; an error where there is no such ask."""
    found = [lines for head, lines in graph.asks if head.startswith("demazure ")]
    if not 1 <= number <= len(found):
        raise NotAnElement(f"no Demazure subset {number}: the job asks for {len(found)}")
    return {int(line.split(" | ")[0]) for line in found[number - 1]}


def depths(graph: Graph) -> list[int]:
    """By rank how many f arrows a vertex lies below the highest weight of its component."""
    found = [NONE] * len(graph)
    row = [rank for rank in range(len(graph)) if all(graph.e(i)[rank] == NONE for i in graph.f)]
    depth = 0
    while row:
        for rank in row:
            found[rank] = depth
        row = list({table[rank] for rank in row for table in graph.f.values()} - {NONE})
        row = [rank for rank in row if found[rank] == NONE]
        depth += 1
    return found


def _place(made: Picture) -> None:
    """Each vertex stands in its row, in the order of the middles of what leads to it; then rows are moved once more up and
    down by the middles of their neighbours."""
    above: dict[int, list[int]] = {}
    below: dict[int, list[int]] = {}
    for source, _, target in made.arrows:
        above.setdefault(target, []).append(source)
        below.setdefault(source, []).append(target)
    lines: dict[int, list[int]] = {}
    for rank in made.nodes:
        lines.setdefault(made.rows[rank], []).append(rank)
    made.across = {rank: 0.0 for rank in made.nodes}
    order = sorted(lines)
    for neighbours, rows in ((above, order), (below, order[::-1]), (above, order)):
        for depth in rows:
            _settle(made.across, lines[depth], neighbours)


def _settle(across: dict[int, float], line: list[int], neighbours: dict[int, list[int]]) -> None:
    def middle(rank: int) -> float:
        near = neighbours.get(rank)
        return sum(across[k] for k in near) / len(near) if near else across[rank]

    line.sort(key=lambda rank: (middle(rank), rank))
    for place, rank in enumerate(line):
        across[rank] = place - (len(line) - 1) / 2
