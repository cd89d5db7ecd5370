"""Job texts: a type, a shape or factors, start words and what is asked, as the program reads them (docs/JOB.md)."""
from __future__ import annotations

import re
from collections.abc import Iterable, Sequence
from dataclasses import dataclass, field, replace
from fractions import Fraction

MOST_CELLS = 1_048_576
DEFAULT_CELLS = 65_536

Coordinate = int | Fraction
Weight = tuple[Coordinate, ...]
Row = int | Fraction | str | float


@dataclass(frozen=True)
class Job:
    """What a job says. `starts` are words as the program prints them; `asks` are whole lines."""

    kind: str
    rank: int
    factors: tuple[str, ...]
    starts: tuple[str, ...]
    shape: tuple[int, ...] = ()
    order: str = "standard"
    cells: int | None = None
    asks: tuple[str, ...] = field(default=())

    def text(self) -> str:
        """The job as a text.

        >>> print(job_of("A", 2, shape=[2, 1]).text(), end="")
        crystal-job 1
        type A 2
        shape 2 1
        """
        lines = ["crystal-job 1" if self.order == "standard" else "crystal-job 2", f"type {self.kind} {self.rank}"]
        if self.order != "standard":
            lines.append(f"order {self.order}")
        if self.shape:
            lines.append("shape " + " ".join(map(str, self.shape)))
        else:
            lines.append("space " + " ".join(self.factors))
        lines += [f"start {word}" for word in self.starts]
        if self.cells is not None:
            lines.append(f"cells {self.cells}")
        return "\n".join([*lines, *self.asks]) + "\n"

    def asking(self, *asks: str) -> Job:
        """The same job with these asks."""
        return replace(self, asks=asks)

    def at(self, *starts: str) -> Job:
        """The job over the same space with these start words in place of its own."""
        return replace(self, shape=(), starts=starts)


def cartan_type(kind: str | Sequence, rank: int | None = None) -> tuple[str, int]:
    """A Cartan type, as ("C", 3), "C3" or ["C", 3].

    >>> cartan_type("C3"), cartan_type(["C", 3]), cartan_type("C", 3)
    (('C', 3), ('C', 3), ('C', 3))
    """
    if rank is None:
        found = re.fullmatch(r"\s*([A-Za-z])\s*(\d+)\s*", kind) if isinstance(kind, str) else None
        parts = found.groups() if found else kind
        if len(parts) != 2 or isinstance(kind, str) and not found:
            raise ValueError(f"no Cartan type: {kind!r}; write ('C', 3), 'C3' or ['C', 3]")
        kind, rank = parts
    return str(kind), int(rank)


def word_text(word: str | Iterable) -> str:
    """A word as the program reads it: its tokens with single blanks between them.

    >>> word_text("-3 1  2"), word_text([-3, 1, 2]), word_text(["+-", 0])
    ('-3 1 2', '-3 1 2', '+- 0')
    """
    tokens = word.split() if isinstance(word, str) else map(str, word)
    return " ".join(tokens)


def job_of(
    kind: str | Sequence,
    rank: int | None = None,
    *,
    shape: Iterable[Row] | None = None,
    factors: str | Iterable[str] | None = None,
    start: str | Iterable | None = None,
    order: str = "standard",
    cells: int | None = None,
) -> Job:
    """The job of a shape, or of factors with a start word or a list of them.

    A shape may have half-whole rows (types B and D) and, in type D, a negative last one: what is meant is the crystal of
    this highest weight, which is reached from a start word of its own.

    >>> job_of("B", 2, shape=[1.5, 0.5]).text().splitlines()[2:]
    ['space s v', 'start ++ 1']
    >>> job_of("D", 4, shape=[1, 1, 1, -1]).text().splitlines()[2:]
    ['space v v v v', 'start -4 3 2 1']
    """
    kind, rank = cartan_type(kind, rank)
    if (shape is None) == (factors is None):
        raise TypeError("give either a shape or factors")
    if shape is not None:
        return _shaped(Job(kind, rank, (), (), order=order, cells=cells), [_row(n) for n in shape], start)
    names = tuple(factors.split() if isinstance(factors, str) else factors)
    return Job(kind, rank, names, tuple(_starts(start)), order=order, cells=cells)


def _starts(start: str | Iterable | None) -> list[str]:
    """One word or several, as texts."""
    if start is None:
        raise TypeError("factors need a start word, or a list of them")
    if isinstance(start, str):
        return [word_text(start)]
    words = list(start)
    if words and all(isinstance(token, int) for token in words):
        return [word_text(words)]
    return [word_text(word) for word in words]


def top_word(shape: Sequence[int], order: str = "standard") -> str:
    """The highest-weight word of a shape: its columns from left to right, each from bottom to top; in Kashiwara's order
    the other way round.

    >>> top_word((2, 1)), top_word((2, 1), "kashiwara")
    ('2 1 1', '1 1 2')
    """
    letters = [str(n) for column in range(shape[0]) for n in range(sum(row > column for row in shape), 0, -1)]
    return " ".join(letters if order == "standard" else letters[::-1])


def _row(value: Row) -> Coordinate:
    """A row of a shape: whole or half-whole."""
    # Numbers of Sage are read by their texts.
    row = Fraction(value) if isinstance(value, (int, str, float, Fraction)) else Fraction(str(value))
    if row.denominator > 2:
        raise ValueError(f"no row of a shape: {value}; rows are whole, or half-whole in the types B and D")
    return int(row) if row.denominator == 1 else row


def _shaped(job: Job, rows: list[Coordinate], start: str | Iterable | None) -> Job:
    """The job of a shape, with further start words where they are given."""
    further = () if start is None else tuple(_starts(start))
    while len(rows) > 1 and rows[-1] == 0:
        rows.pop()
    if not rows:
        raise ValueError("no shape: it has no row")
    if all(isinstance(row, int) and row >= 0 for row in rows):
        whole = tuple(int(row) for row in rows)
        return replace(job, shape=whole, factors=("v",) * sum(whole), starts=further)
    return _by_columns(job, rows, further)


def _by_columns(job: Job, rows: list[Coordinate], further: tuple[str, ...]) -> Job:
    """A half-whole or negative shape: a vector of signs, then the columns, in which -r stands for r where the last
    row is negative."""
    kind, rank = job.kind, job.rank
    half = isinstance(rows[0], Fraction)
    if (kind not in "BD") or (half and any(isinstance(row, int) for row in rows)) or (half and len(rows) != rank):
        raise ValueError(f"no shape of type {kind}: {' '.join(map(str, rows))}; half-whole rows, all {rank} of them, stand in B and D")
    negative = rows[-1] < 0
    if negative and (kind != "D" or len(rows) != rank):
        raise ValueError(f"no shape of type {kind}: only the last of {rank} rows may be negative, in type D")
    heights = [abs(row) - Fraction(1, 2) if half else abs(row) for row in rows]
    if any(a < b for a, b in zip(heights, heights[1:])) or heights[-1] < 0:
        raise ValueError(f"no shape: {' '.join(map(str, rows))}; rows fall")
    last = -rank if negative else rank
    columns = [[sign_last if n == rank else n for n in range(sum(h > c for h in heights), 0, -1)] for c in range(int(heights[0])) for sign_last in [last]]
    letters = [letter for column in columns for letter in column]
    factors, tokens = ["v"] * len(letters), [str(letter) for letter in letters]
    if half:
        factors.insert(0, "s" if kind == "B" else "s-" if negative else "s+")
        tokens.insert(0, "+" * (rank - 1) + ("-" if negative else "+"))
    if job.order == "kashiwara":
        factors.reverse()
        tokens.reverse()
    return replace(job, factors=tuple(factors), starts=(" ".join(tokens), *further))
