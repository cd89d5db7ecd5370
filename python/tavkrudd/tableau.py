"""Tableaux: fillings of a shape, as text, for LaTeX and for a page."""
from __future__ import annotations

from collections.abc import Sequence
from dataclasses import dataclass


@dataclass(frozen=True)
class Tableau:
    """A filling by rows, from the top; a barred letter is a negative number.

    >>> print(Tableau(((1, 1), (-2,))))
     1  1
    -2
    >>> Tableau(((1, 1), (-2,))).latex()
    '\\\\begin{ytableau}1&1\\\\\\\\\\\\overline{2}\\\\end{ytableau}'
    """

    rows: tuple[tuple[int, ...], ...]

    @classmethod
    def of_word(cls, shape: Sequence[int], word: Sequence[str], order: str = "standard") -> Tableau:
        """The filling of this shape whose column reading the word is: columns from left to right, each from bottom to
        top; in Kashiwara's order all the other way round.

        >>> Tableau.of_word((2, 1), "2 1 3".split()).rows
        ((1, 3), (2,))
        """
        letters = [int(token) for token in (word if order == "standard" else reversed(word))]
        rows: list[list[int]] = [[] for _ in shape]
        place = 0
        for column in range(shape[0] if shape else 0):
            for row in reversed(range(sum(length > column for length in shape))):
                rows[row].append(letters[place])
                place += 1
        return cls(tuple(map(tuple, rows)))

    @property
    def shape(self) -> tuple[int, ...]:
        """The lengths of its rows."""
        return tuple(map(len, self.rows))

    def __str__(self) -> str:
        width = max((len(str(n)) for row in self.rows for n in row), default=1)
        width = max(width, 2) if any(n < 0 for row in self.rows for n in row) else width
        return "\n".join(" ".join(f"{n:>{width}}" for n in row).rstrip() for row in self.rows)

    def to_list(self) -> list[list[int]]:
        """Its rows as lists."""
        return [list(row) for row in self.rows]

    def latex(self) -> str:
        """For the package ytableau; barred letters have a bar."""
        return r"\begin{ytableau}" + r"\\".join("&".join(map(barred, row)) for row in self.rows) + r"\end{ytableau}"

    def _repr_html_(self) -> str:
        cell = '<td style="border:1px solid;width:1.6em;height:1.6em;text-align:center">{}</td>'
        rows = ("<tr>" + "".join(cell.format(overlined(n)) for n in row) + "</tr>" for row in self.rows)
        return '<table style="border-collapse:collapse">' + "".join(rows) + "</table>"


def barred(letter: int) -> str:
    """A letter for LaTeX."""
    return rf"\overline{{{-letter}}}" if letter < 0 else str(letter)


def overlined(letter: int) -> str:
    """A letter for a page."""
    return f'<span style="text-decoration:overline">{-letter}</span>' if letter < 0 else str(letter)
