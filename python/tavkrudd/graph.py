"""The graph of an answer, kept in flat arrays: ranks as numbers, words as bytes."""
from __future__ import annotations

import sys
import time
from array import array
from collections.abc import Iterable, Iterator
from dataclasses import dataclass, field
from fractions import Fraction

from .errors import Interrupted
from .jobs import Weight

NONE = -1
# How many lines are read before the clock is looked at, and the seconds after which progress is told.
MANY, LONG = 65_536, 2.0


@dataclass
class Graph:
    """The vertices in ascending rank, and by index the ranks that the f arrows lead to (-1: zero)."""

    kind: str
    rank: int
    f: dict[int, array] = field(default_factory=dict)
    words: bytearray = field(default_factory=bytearray)
    ends: array = field(default_factory=lambda: array("Q", [0]))
    weights: list[bytes] = field(default_factory=list)
    weight_of: array = field(default_factory=lambda: array("I"))
    reports: dict[str, list[str]] = field(default_factory=dict)
    asks: list[tuple[str, list[str]]] = field(default_factory=list)
    replies: list[list[str]] = field(default_factory=list)
    is_full: bool = False
    _e: dict[int, array] = field(default_factory=dict)

    def __len__(self) -> int:
        return len(self.ends) - 1

    def word(self, rank: int) -> str:
        """The word of a vertex, as the program prints it."""
        return self.words[self.ends[rank] : self.ends[rank + 1]].decode("ascii")

    def weight(self, rank: int) -> Weight:
        """Its weight."""
        return weight_of(self.weights[self.weight_of[rank]])

    def e(self, index: int) -> array:
        """By rank the rank that e of this index leads to (-1: zero): the f arrows turned around."""
        if index not in self._e:
            turned = array("i", [NONE]) * len(self)
            for source, target in enumerate(self.f[index]):
                if target != NONE:
                    turned[target] = source
            self._e[index] = turned
        return self._e[index]


def weight_of(text: str | bytes) -> Weight:
    """A weight by its text: whole coordinates as int, halves as Fraction.

    >>> weight_of("2 -1 0"), weight_of("1/2 -3/2")
    ((2, -1, 0), (Fraction(1, 2), Fraction(-3, 2)))
    """
    return tuple(Fraction(word) if "/" in word else int(word) for word in (text if isinstance(text, str) else text.decode("ascii")).split())


def read(lines: Iterable[bytes], progress: bool | None = None) -> Graph:
    """The graph that these lines of an answer of `grow` tell. A part of an answer is never taken for one.

    >>> graph = read(b"crystal A 1\\ngraph 2 1\\n0 | 1 | 1 0 | 1:1\\n1 | 2 | 0 1 | -\\nend\\n".splitlines(keepends=True))
    >>> len(graph), graph.word(1), graph.weight(1), list(graph.f[1]), list(graph.e(1))
    (2, '2', (0, 1), [1, -1], [-1, 0])
    """
    rest = iter(lines)
    head = next(rest, b"").split()
    if len(head) != 3 or head[0] != b"crystal":
        raise Interrupted("no answer, but: " + b" ".join(head).decode("ascii", "replace"))
    graph, last = Graph(head[1].decode(), int(head[2])), b""
    section: list[str] = []
    for line in rest:
        if line.startswith(b"graph "):
            _vertices(graph, rest, line, progress)
        elif line.startswith(b"session "):
            section = []
            graph.replies.append(section)
        elif line.startswith(b"statistic "):
            section = graph.reports.setdefault(line[10:-1].decode(), [])
        elif line.startswith((b"demazure ", b"tops ", b"reflect ")):
            section = []
            graph.asks.append((line[:-1].decode(), section))
        else:
            section.append(line[:-1].decode())
        last = line
    if last != b"end\n" or section[-1:] != ["end"]:
        raise Interrupted("the answer was cut off")
    section.pop()
    # A reply may be `full` too: the graph is full where this line stands last and there is no graph.
    graph.is_full = not graph.f
    if graph.is_full and section[-1:] != ["full"]:
        raise Interrupted("no answer of `grow`: it has no graph")
    if graph.is_full:
        section.pop()
    return graph


def _vertices(graph: Graph, lines: Iterator[bytes], head: bytes, progress: bool | None) -> None:
    """Reads the lines of the vertices behind their head. The index of an arrow is one digit, so its bytes are taken apart
    by place."""
    numbers = head.split()[1:]
    if len(numbers) != 2 or not head.endswith(b"\n"):
        raise Interrupted("the answer was cut off")
    vertices, arrows = map(int, numbers)
    tables = {48 + i: array("i", [NONE]) * vertices for i in range(1, graph.rank + 1)}
    words, ends, weight_ids, known = graph.words, graph.ends, graph.weight_of, {}
    count, rank, teller = 0, 0, _Teller(vertices, progress)
    for rank in range(vertices):
        parts = next(lines, b"").split(b" | ")
        if len(parts) != 4 or not parts[3].endswith(b"\n"):
            raise Interrupted("the answer was cut off")
        words += parts[1]
        ends.append(len(words))
        weight_ids.append(known.setdefault(parts[2], len(known)))
        if parts[3] != b"-\n":
            for arrow in parts[3].split():
                tables[arrow[0]][rank] = int(arrow[2:])
                count += 1
        if rank % MANY == 0:
            teller.tell(rank)
    teller.end()
    if count != arrows:
        raise Interrupted(f"the answer has {count} arrows in place of {arrows}")
    graph.f = {place - 48: table for place, table in tables.items()}
    graph.weights = list(known)


class _Teller:
    """Tells on standard error how far a long reading is."""

    def __init__(self, many: int, progress: bool | None) -> None:
        self.many, self.start, self.has_told = many, time.monotonic(), False
        self.is_told = sys.stderr.isatty() if progress is None else progress

    def tell(self, done: int) -> None:
        if self.is_told and time.monotonic() - self.start > LONG:
            self.has_told = True
            print(f"\r{done:,} of {self.many:,} elements read", end="", file=sys.stderr, flush=True)

    def end(self) -> None:
        if self.has_told:
            print(f"\r{self.many:,} of {self.many:,} elements read", file=sys.stderr, flush=True)
