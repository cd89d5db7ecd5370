"""A crystal: grown once by the program, and then asked in Python as one asks a crystal of Sage."""
from __future__ import annotations

import os
from collections.abc import Iterable, Iterator, Sequence
from functools import cached_property
from typing import Any

from . import program
from .characters import Character, QDimension
from .element import Element
from .errors import NotAnElement, TooSmall
from .graph import NONE, Graph, read, weight_of
from .jobs import DEFAULT_CELLS, MOST_CELLS, Job, Row, Weight, job_of, word_text
from .subset import Subset


def crystal(
    kind: str | Sequence,
    rank: int | None = None,
    *,
    shape: Iterable[Row] | None = None,
    factors: str | Iterable[str] | None = None,
    start: str | Iterable | None = None,
    order: str = "standard",
    growers: int | None = None,
    cells: int | None = None,
    progress: bool | None = None,
) -> Crystal:
    """The crystal of a shape, or the one that a start word (or several) spans in a product of factors.

    `growers` is the number of threads (as many as there are processors, at most four), `cells` how many elements there
    is room for (as many as are needed, at most 1,048,576), `progress` whether a long reading is told on standard error
    (where it is a terminal).

    >>> B = crystal("C", 3, shape=[2, 1])
    >>> len(B), B[0], B[0].weight(), B("2 1 1").f(1)
    (64, 2 1 1, (2, 1, 0), 2 1 2)
    """
    job = job_of(kind, rank, shape=shape, factors=factors, start=start, order=order, cells=cells)
    return Crystal(job, growers=growers, progress=progress)


class Crystal:
    """The elements that the operators reach from a job's start words, in the program's canonical order, with all arrows."""

    def __init__(self, job: Job, growers: int | None = None, progress: bool | None = None) -> None:
        self.job, self.growers = job, growers or min(4, os.cpu_count() or 1)
        self._progress = progress
        self._graph = self._grown(job, "character")

    def _grown(self, job: Job, *statistics: str) -> Graph:
        """The graph of a job; where no number of cells is asked for, once more with the most where the first are full."""
        for cells in [job.cells] if job.cells is not None else [None, MOST_CELLS]:
            asked = Job(**{**job.__dict__, "cells": cells})
            graph = read(program.lines(("grow", str(self.growers), *statistics), asked.text()), self._progress)
            if not graph.is_full:
                return graph
        raise TooSmall(cells or DEFAULT_CELLS)

    # ---- the elements

    def __len__(self) -> int:
        return len(self._graph)

    def cardinality(self) -> int:
        """The number of elements."""
        return len(self)

    def __iter__(self) -> Iterator[Element]:
        return (Element(self, rank) for rank in range(len(self)))

    def __getitem__(self, rank: int) -> Element:
        """The element with this place in the canonical order."""
        if not -len(self) <= rank < len(self):
            raise IndexError(f"no element with the rank {rank}: there are {len(self):,}")
        return Element(self, rank % len(self))

    def list(self) -> list[Element]:
        """All elements, in canonical order."""
        return list(self)

    def __call__(self, word: str | Iterable) -> Element:
        """The element with this word."""
        text = word_text(word)
        rank = self._rank_of(text)
        if rank is None:
            first = ", ".join(self._graph.word(k) for k in range(min(3, len(self))))
            raise NotAnElement(f"no element of this crystal: {text}; its {len(self):,} elements begin with {first}")
        return Element(self, rank)

    def __contains__(self, word: Any) -> bool:
        if isinstance(word, Element):
            return word.parent() is self
        return self._rank_of(word_text(word)) is not None

    def _rank_of(self, text: str) -> int | None:
        """The rank of a word: the words ascend by the places of their tokens."""
        wanted = self._key(text.split())
        low, high = 0, len(self)
        if wanted is None:
            return None
        while low < high:
            middle = (low + high) // 2
            if self._key(self._graph.word(middle).split()) < wanted:
                low = middle + 1
            else:
                high = middle
        return low if low < len(self) and self._graph.word(low) == text else None

    def _key(self, tokens: Sequence[str]) -> list[int] | None:
        """The places of tokens among those of their factors; none where one is no token."""
        try:
            return [self._place(token) for token in tokens]
        except ValueError:
            return None

    def _place(self, token: str) -> int:
        if len(token) > 1 and token.strip("+-") == "":
            return int("".join("01"[sign == "-"] for sign in token), 2)
        letter = int(token)
        return letter if letter > 0 else self.job.rank + 1 if letter == 0 else 2 * self.job.rank + 2 + letter

    # ---- what it is

    def index_set(self) -> tuple[int, ...]:
        """The indices of its operators."""
        return tuple(range(1, self.job.rank + 1))

    def cartan_type(self) -> list:
        """Its Cartan type, as ['C', 3]."""
        return [self.job.kind, self.job.rank]

    def __repr__(self) -> str:
        what = f"shape {' '.join(map(str, self.job.shape))}" if self.job.shape else f"start words {', '.join(self.job.starts)} in {' '.join(self.job.factors)}"
        return f"The crystal of type {self.job.kind}_{self.job.rank}, {what}, with {len(self):,} elements"

    # ---- in bulk

    @property
    def words(self) -> list[str]:
        """The words of all elements, by rank."""
        return [self._graph.word(rank) for rank in range(len(self))]

    @property
    def weights(self) -> Any:
        """The weights of all elements, by rank: an array of numpy with a row each where numpy is, else a list."""
        known = [weight_of(text) for text in self._graph.weights]
        try:
            import numpy
        except ImportError:
            return [known[k] for k in self._graph.weight_of]
        rows = numpy.array([[float(x) for x in weight] for weight in known])
        return rows[numpy.frombuffer(self._graph.weight_of, dtype=numpy.uint32)]

    @property
    def f(self) -> dict[int, Any]:
        """By index the ranks that f leads to, -1 for zero: arrays of numpy where it is, else of Python."""
        return {i: _shown(self._graph.f[i]) for i in self.index_set()}

    @property
    def e(self) -> dict[int, Any]:
        """The same for e."""
        return {i: _shown(self._graph.e(i)) for i in self.index_set()}

    # ---- its ends and components

    @cached_property
    def module_generators(self) -> list[Element]:
        """The highest-weight elements, one for each component: where all e give zero."""
        return self.highest_weight_vectors()

    def highest_weight_vectors(self, indices: Iterable[int] | None = None) -> list[Element]:
        """The elements at which e gives zero, for each index or for these."""
        return [Element(self, rank) for rank in _zeros([self._graph.e(i) for i in self._indices(indices)], len(self))]

    def lowest_weight_vectors(self, indices: Iterable[int] | None = None) -> list[Element]:
        """The elements at which f gives zero, for each index or for these."""
        return [Element(self, rank) for rank in _zeros([self._graph.f[i] for i in self._indices(indices)], len(self))]

    def _indices(self, indices: Iterable[int] | None) -> tuple[int, ...]:
        chosen = self.index_set() if indices is None else tuple(indices)
        for i in chosen:
            if i not in self.index_set():
                raise NotAnElement(f"no index of type {self.job.kind}_{self.job.rank}: {i}; the indices are 1 to {self.job.rank}")
        return chosen

    @cached_property
    def depths(self) -> list[int]:
        """By rank how many f arrows an element lies below the highest weight of its component."""
        depths = [NONE] * len(self)
        row = [b.rank for b in self.module_generators]
        depth = 0
        while row:
            for rank in row:
                depths[rank] = depth
            below = {table[rank] for rank in row for table in self._graph.f.values()}
            row = [rank for rank in below if rank != NONE and depths[rank] == NONE]
            depth += 1
        return depths

    # ---- what the program counts

    def character(self) -> Character:
        """Its weights with their multiplicities, as the program's statistic tells them."""
        return Character(self.job.kind, self.job.rank, _table(self._graph.reports["character"]))

    def q_dimension(self) -> QDimension:
        """How many elements lie at each depth below the highest weights (the principal grading)."""
        counts: dict[int, int] = {}
        for depth in self.depths:
            counts[depth] = counts.get(depth, 0) + 1
        return QDimension([counts[k] for k in range(len(counts))])

    def demazure(self, indices: Iterable[int], start: str | Iterable | None = None) -> Subset:
        """The Demazure subset of these indices, the last of which acts first, over the first start (or another word)."""
        chosen = self._indices(indices)
        if not chosen:
            raise NotAnElement("a Demazure subset has at least one index")
        job = self.job if start is None else self.job.at(str(self(start)))
        graph = self._grown(job.asking("demazure " + " ".join(map(str, chosen))))
        _, lines = graph.asks[0]
        found = [self._rank_of(line.split(" | ")[1]) for line in lines]
        return Subset(self, [rank for rank in found if rank is not None])

    def subcrystal(self, indices: Iterable[int]) -> list[Subset]:
        """The restriction to these indices: its components, each led by its highest element."""
        chosen, parts = self._indices(indices), []
        for top in self.highest_weight_vectors(chosen):
            row, found = [top.rank], {top.rank}
            while row:
                below = {self._graph.f[i][rank] for rank in row for i in chosen} - {NONE} - found
                found |= below
                row = list(below)
            parts.append(Subset(self, sorted(found), chosen))
        return parts

    def is_isomorphic(self, other: Crystal) -> Any:
        """Whether the component of the first start is that of the other crystal's first start, start beside start."""
        from .compare import compared

        return compared(self, other)

    # ---- to others

    def digraph(self, indices: Iterable[int] | None = None) -> Any:
        """A DiGraph of Sage where Sage is, else of networkx: vertices are words, labels the indices."""
        from .sage import digraph

        return digraph(self, self._indices(indices))

    def draw(self, label: str | None = None, **choices: Any) -> str:
        """The picture as SVG: see `drawing.drawn`; `depth`, `indices` and `filled` choose what is shown."""
        from .drawing import drawn

        return drawn(self, label, **choices)

    def page(self, demazure: Iterable[Iterable[int]] = (), **choices: Any) -> str:
        """One HTML file that shows the crystal in any browser."""
        from .page import page

        return page(self, demazure, **choices)

    def _repr_html_(self) -> str:
        from .drawing import html

        return html(self)


def _zeros(tables: list, many: int) -> list[int]:
    """The ranks at which all tables say zero."""
    return [rank for rank in range(many) if all(table[rank] == NONE for table in tables)]


def _table(lines: list[str]) -> dict[Weight, int]:
    """A weight table of an answer."""
    return {weight_of(weight): int(times) for weight, times in (line.split(" | ") for line in lines)}


def _shown(table: Any) -> Any:
    """The array of numpy over the same numbers, where numpy is."""
    try:
        import numpy
    except ImportError:
        return table
    return numpy.frombuffer(table, dtype=numpy.int32)
