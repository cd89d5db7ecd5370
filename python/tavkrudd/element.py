"""An element of a crystal: its operators are answered from the grown graph."""
from __future__ import annotations

from collections.abc import Iterable
from functools import total_ordering
from typing import TYPE_CHECKING

from .errors import NotAnElement
from .graph import NONE
from .jobs import Weight

if TYPE_CHECKING:
    from .crystal import Crystal
    from .tableau import Tableau


@total_ordering
class Element:
    """A vertex. Two are equal where crystal and place are; they are ordered by their places in the canonical order."""

    __slots__ = ("_crystal", "rank")

    def __init__(self, crystal: Crystal, rank: int) -> None:
        self._crystal, self.rank = crystal, rank

    def parent(self) -> Crystal:
        """The crystal that it is an element of."""
        return self._crystal

    def __eq__(self, other: object) -> bool:
        return isinstance(other, Element) and self._crystal is other._crystal and self.rank == other.rank

    def __lt__(self, other: Element) -> bool:
        if self._crystal is not other._crystal:
            raise TypeError("elements of two crystals are not ordered")
        return self.rank < other.rank

    def __hash__(self) -> int:
        return hash((id(self._crystal), self.rank))

    def __str__(self) -> str:
        return self._crystal._graph.word(self.rank)

    __repr__ = __str__

    @property
    def word(self) -> str:
        """Its word, a token of each factor."""
        return str(self)

    def weight(self) -> Weight:
        """Its weight."""
        return self._crystal._graph.weight(self.rank)

    def _step(self, table, index: int) -> Element | None:
        target = table[self.rank]
        return None if target == NONE else Element(self._crystal, target)

    def _checked(self, index: int) -> int:
        return self._crystal._indices((index,))[0]

    def f(self, index: int) -> Element | None:
        """f of this index; None where it is zero."""
        return self._step(self._crystal._graph.f[self._checked(index)], index)

    def e(self, index: int) -> Element | None:
        """e of this index; None where it is zero."""
        return self._step(self._crystal._graph.e(self._checked(index)), index)

    def phi(self, index: int) -> int:
        """How often f of this index can be applied."""
        return _length(self._crystal._graph.f[self._checked(index)], self.rank)

    def epsilon(self, index: int) -> int:
        """How often e of this index can be applied."""
        return _length(self._crystal._graph.e(self._checked(index)), self.rank)

    def f_string(self, indices: Iterable[int]) -> Element | None:
        """The f of these indices, the first one first; None where one is zero."""
        return _walked(self, indices, Element.f)

    def e_string(self, indices: Iterable[int]) -> Element | None:
        """The e of these indices, the first one first; None where one is zero."""
        return _walked(self, indices, Element.e)

    def s(self, index: int) -> Element:
        """The crystal reflection: the element as far from the other end of its string."""
        turns = self.phi(index) - self.epsilon(index)
        walk = self.f_string if turns > 0 else self.e_string
        found = walk([index] * abs(turns))
        assert found is not None
        return found

    def is_highest_weight(self, indices: Iterable[int] | None = None) -> bool:
        """Whether e gives zero for each index, or for these."""
        return all(self.e(i) is None for i in self._crystal._indices(indices))

    def is_lowest_weight(self, indices: Iterable[int] | None = None) -> bool:
        """Whether f gives zero for each index, or for these."""
        return all(self.f(i) is None for i in self._crystal._indices(indices))

    def to_highest_weight(self, indices: Iterable[int] | None = None) -> tuple[Element, list[int]]:
        """The highest-weight element above it, and the indices of the e that lead there, first to last: each time the
        least index that can be raised."""
        return _to_end(self, self._crystal._indices(indices), Element.e)

    def to_lowest_weight(self, indices: Iterable[int] | None = None) -> tuple[Element, list[int]]:
        """The lowest-weight element below it, and the indices of the f that lead there."""
        return _to_end(self, self._crystal._indices(indices), Element.f)

    def lusztig_involution(self) -> Element:
        """Its image under the Lusztig involution of its component, which takes f to e, the index i to its star, and the
        highest element to the lowest."""
        top, path = self.to_highest_weight()
        image, _ = top.to_lowest_weight()
        for index in reversed(path):
            found = image.e(star(self._crystal.job.kind, self._crystal.job.rank, index))
            if found is None:
                raise NotAnElement(f"{self} has no image: its component is no highest-weight crystal")
            image = found
        return image

    def to_tableau(self) -> Tableau:
        """The tableau whose column reading its word is, where the crystal is that of a shape with whole rows."""
        from .tableau import Tableau

        job = self._crystal.job
        if not job.shape:
            raise NotAnElement("only an element of a shape with whole, positive rows is read as a tableau")
        return Tableau.of_word(job.shape, str(self).split(), job.order)

    def _repr_html_(self) -> str:
        try:
            return self.to_tableau()._repr_html_()
        except NotAnElement:
            return f"<code>{self}</code>"


def star(kind: str, rank: int, index: int) -> int:
    """The index that the Lusztig involution takes this one to.

    >>> [star("A", 3, i) for i in (1, 2, 3)], star("B", 3, 1), star("D", 4, 4), star("D", 5, 4)
    ([3, 2, 1], 1, 4, 5)
    """
    if kind == "A":
        return rank + 1 - index
    if kind == "D" and rank % 2 == 1 and index >= rank - 1:
        return 2 * rank - 1 - index
    return index


def _length(table, rank: int) -> int:
    """How many arrows follow each other."""
    length, rank = 0, table[rank]
    while rank != NONE:
        length, rank = length + 1, table[rank]
    return length


def _walked(element: Element, indices: Iterable[int], step) -> Element | None:
    here: Element | None = element
    for index in indices:
        if here is None:
            return None
        here = step(here, index)
    return here


def _to_end(element: Element, indices: tuple[int, ...], step) -> tuple[Element, list[int]]:
    path: list[int] = []
    while True:
        for index in indices:
            found = step(element, index)
            if found is not None:
                element = found
                path.append(index)
                break
        else:
            return element, path
