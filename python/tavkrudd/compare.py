"""Whether two crystals are the same: by the program's mode `match` where both stand in one space, else arrow by arrow."""
from __future__ import annotations

from dataclasses import dataclass, field
from typing import TYPE_CHECKING

from . import program
from .errors import TooSmall
from .graph import NONE
from .jobs import MOST_CELLS, Job, top_word

if TYPE_CHECKING:
    from .crystal import Crystal


@dataclass(frozen=True)
class Comparison:
    """The answer of a comparison: true where the components are one crystal, start beside start. Else `walk` is the
    first list of arrows that tells the starts apart: one of them meets zero, or comes back, and the other does not.

    >>> bool(Comparison(8)), bool(Comparison(None, ["f1", "e2"]))
    (True, False)
    """

    pairs: int | None
    walk: list[str] = field(default_factory=list)

    def __bool__(self) -> bool:
        return self.pairs is not None

    def __repr__(self) -> str:
        return f"the same, {self.pairs:,} elements" if self.pairs is not None else f"different, told apart by {' '.join(self.walk)}"


def match(job: Job, how: str = "same") -> Comparison:
    """Compares the components of a job's first two starts; `how` is `same`, or `star` up to the Lusztig involution.

    >>> from .jobs import job_of
    >>> match(job_of("A", 2, factors="v v v", start=["2 1 1", "1 2 1"]))
    the same, 8 elements
    >>> match(job_of("A", 1, factors="v v", start=["1 1", "2 1"]))
    different, told apart by f1
    """
    for cells in [job.cells] if job.cells is not None else [None, MOST_CELLS]:
        asked = Job(**{**job.__dict__, "cells": cells, "asks": ()})
        told = program.answer("match", how, job=asked.text())[1].split()
        if told[0] == "same":
            return Comparison(int(told[1]))
        if told[0] == "differs":
            return Comparison(None, told[1:])
    raise TooSmall(cells or 65_536)


def compared(one: Crystal, other: Crystal) -> Comparison:
    """The components of the first elements that two crystals were grown from, compared."""
    a, b = one.job, other.job
    if (a.kind, a.rank) != (b.kind, b.rank):
        raise ValueError(f"crystals of two types: {a.kind}_{a.rank} and {b.kind}_{b.rank}")
    first, second = _first(one), _first(other)
    if (a.factors, a.order) == (b.factors, b.order):
        return match(a.at(str(first), str(second)))
    return _walked(one, first.rank, other, second.rank)


def _first(whole: Crystal):
    """The element of the first start, which in a shape is its top word."""
    job = whole.job
    return whole(top_word(job.shape, job.order) if job.shape else job.starts[0])


def _walked(one: Crystal, first: int, other: Crystal, second: int) -> Comparison:
    """The same for two spaces, in which the program cannot set one start beside the other. The pairs that one walk leads
    to are listed by the shortest walks first, and of these in the order f1, f2, .., e1, e2, ..: so the walk that is named
    is the first one of which just one end is zero, or just one is its start."""
    arrows = [(f"{way}{i}", _table(one, way, i), _table(other, way, i)) for way in "fe" for i in one.index_set()]
    came: dict[tuple[int, int], tuple[tuple[int, int], str] | None] = {(first, second): None}
    row = [(first, second)]
    while row:
        following = []
        for pair in row:
            for name, left, right in arrows:
                x, y = left[pair[0]], right[pair[1]]
                if (x == NONE) != (y == NONE) or (x == first) != (y == second):
                    return Comparison(None, [*_walk_to(came, pair), name])
                if x != NONE and (x, y) not in came:
                    came[x, y] = pair, name
                    following.append((x, y))
        row = following
    return Comparison(len(came))


def _walk_to(came: dict, pair: tuple[int, int]) -> list[str]:
    """The arrows that led to a pair, the first one first."""
    walk = []
    while came[pair] is not None:
        pair, name = came[pair]
        walk.append(name)
    return walk[::-1]


def _table(whole: Crystal, way: str, index: int):
    return whole._graph.f[index] if way == "f" else whole._graph.e(index)
