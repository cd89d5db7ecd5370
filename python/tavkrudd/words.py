"""Words without a grown crystal, and lists of tableaux: questions of the program that need no object."""
from __future__ import annotations

from collections.abc import Iterable, Sequence

from . import program
from .crystal import Crystal
from .element import Element
from .errors import TooSmall
from .jobs import DEFAULT_CELLS, job_of, word_text
from .tableau import Tableau

MOST_TABLEAUX = 65_536


def word(kind: str | Sequence, rank: int | None, letters: str | Iterable, factors: str | None = None, order: str = "standard") -> Element:
    """The element with this word in the crystal that it spans; vector factors where none are named.

    >>> b = word("C", 3, "-3 1 2")
    >>> top, path = b.to_highest_weight()
    >>> str(top), b.weight()
    ('2 1 1', (1, 1, -1))
    """
    text = word_text(letters)
    return Crystal(job_of(kind, rank, factors=factors or ["v"] * len(text.split()), start=text, order=order))(text)


def census(rank: int, shape: Iterable[int]) -> list[Tableau]:
    """The semistandard tableaux of a shape in type A of this rank, in canonical order, listed without operators.

    >>> [t.rows for t in census(1, [2])]
    [((1, 1),), ((1, 2),), ((2, 2),)]
    """
    rows = tuple(shape)
    lines = program.answer("census", str(rank), *map(str, rows))
    if lines[1] == "full":
        raise TooSmall(MOST_TABLEAUX)
    return [Tableau.of_word(rows, line.split()) for line in lines[2:-1]]


def wide(job: str, growers: int = 1) -> tuple[int, int]:
    """How many words are reached, and how many f arrows there are, where a job's space is taken twice over and its first
    start twice: the answer of the mode `wide` to a job's text. More than the job's cells is `TooSmall`."""
    told = program.answer("wide", str(growers), job=job)[1].split()
    if told[0] == "full":
        cells = [line.split()[1] for line in job.splitlines() if line.split()[:1] == ["cells"]]
        raise TooSmall(int(cells[0]) if cells else DEFAULT_CELLS)
    return int(told[1]), int(told[2])


def reflections(crystal: Crystal, index: int) -> list[Element]:
    """The crystal reflections of all elements at an index, by rank, as the program's ask tells them."""
    graph = crystal._grown(crystal.job.asking(f"reflect {crystal._indices((index,))[0]}"))
    return [Element(crystal, int(line.split(" | ")[1])) for line in graph.asks[0][1]]


def product_tops(crystal: Crystal, shape: Iterable[int]) -> dict[str, tuple]:
    """The highest-weight words of the product of a crystal with that of a shape, with their weights.

    >>> from .crystal import crystal
    >>> product_tops(crystal("A", 1, factors="v", start="1"), [1])
    {'1 1': (2, 0), '2 1': (1, 1)}
    """
    from .graph import weight_of

    graph = crystal._grown(crystal.job.asking("tops " + " ".join(map(str, shape))))
    return {text: weight_of(weight) for text, weight in (line.split(" | ") for line in graph.asks[0][1])}


__all__ = ["census", "product_tops", "reflections", "wide", "word"]
