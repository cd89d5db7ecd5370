"""Characters: weights with their multiplicities, as a mapping, a polynomial, and for LaTeX."""
from __future__ import annotations

from collections.abc import Iterator, Mapping
from dataclasses import dataclass
from fractions import Fraction

from .jobs import Coordinate, Weight


class Character(Mapping):
    """The multiplicity of each weight, from the greatest weight down.

    >>> chi = Character("A", 1, {(1, 1): 1, (2, 0): 1, (0, 2): 1})
    >>> list(chi), chi[(2, 0)], chi.dimension()
    ([(2, 0), (1, 1), (0, 2)], 1, 3)
    >>> chi.polynomial(), chi.latex()
    ('x1^2 + x1*x2 + x2^2', 'x_{1}^{2} + x_{1} x_{2} + x_{2}^{2}')
    >>> dict(chi.dominant())
    {(2, 0): 1, (1, 1): 1}
    """

    def __init__(self, kind: str, rank: int, counts: Mapping[Weight, int]) -> None:
        self.kind, self.rank = kind, rank
        self._counts = dict(sorted(counts.items(), reverse=True))

    def __getitem__(self, weight: Weight) -> int:
        return self._counts[tuple(weight)]

    def __iter__(self) -> Iterator[Weight]:
        return iter(self._counts)

    def __len__(self) -> int:
        return len(self._counts)

    def dimension(self) -> int:
        """The sum of all multiplicities."""
        return sum(self._counts.values())

    def dominant(self) -> Character:
        """The dominant weights alone, which determine the character."""
        return Character(self.kind, self.rank, {w: n for w, n in self._counts.items() if is_dominant(self.kind, w)})

    def polynomial(self) -> str:
        """As a Laurent polynomial in x1, x2, ..; half-whole exponents stand in brackets."""
        return self._written("*", lambda k, n: f"x{k}" + ("" if n == 1 else f"^{n}" if n > 0 and isinstance(n, int) else f"^({n})"))

    def latex(self) -> str:
        """The same for LaTeX."""
        return self._written(" ", lambda k, n: f"x_{{{k}}}" + ("" if n == 1 else f"^{{{n}}}"))

    def _written(self, times: str, power) -> str:
        terms = []
        for weight, count in self._counts.items():
            factors = [power(k, n) for k, n in enumerate(weight, 1) if n != 0]
            terms.append(times.join(([str(count)] if count != 1 or not factors else []) + factors))
        return " + ".join(terms) or "0"

    def __repr__(self) -> str:
        return self.polynomial()

    def _repr_latex_(self) -> str:
        return f"${self.latex()}$"


def is_dominant(kind: str, weight: Weight) -> bool:
    """Whether no simple coroot pairs with the weight to less than 0.

    >>> is_dominant("D", (1, 1, -1)), is_dominant("B", (1, -1)), is_dominant("A", (0, 1))
    (True, False, False)
    """
    falls = all(a >= b for a, b in zip(weight, weight[1:]))
    if kind == "A":
        return falls
    last: Coordinate = weight[-1] + weight[-2] if kind == "D" else weight[-1]
    return falls and last >= 0


@dataclass(frozen=True)
class QDimension:
    """How many elements have each depth below the highest weights.

    >>> QDimension([1, 2, 2, 2, 1])
    1 + 2*q + 2*q^2 + 2*q^3 + q^4
    """

    counts: list[int]

    def __call__(self, q: int | Fraction = 1) -> int | Fraction:
        return sum(n * q**k for k, n in enumerate(self.counts))

    def __repr__(self) -> str:
        return self._written("q", "*", lambda k: f"q^{k}")

    def _repr_latex_(self) -> str:
        return "$" + self._written("q", " ", lambda k: f"q^{{{k}}}") + "$"

    def _written(self, one: str, times: str, power) -> str:
        terms = []
        for k, n in enumerate(self.counts):
            step = "" if k == 0 else one if k == 1 else power(k)
            terms.append(str(n) if not step else step if n == 1 else f"{n}{times}{step}")
        return " + ".join(terms)
