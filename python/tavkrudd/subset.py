"""Some elements of a crystal: a Demazure subset, or a component of a restriction."""
from __future__ import annotations

from collections.abc import Iterable, Sequence
from typing import TYPE_CHECKING

from .characters import Character
from .element import Element
from .jobs import Weight

if TYPE_CHECKING:
    from .crystal import Crystal


class Subset(Sequence):
    """Some elements of a crystal, ascending, as a Demazure subset or a component of a restriction."""

    def __init__(self, whole: Crystal, ranks: Sequence[int], indices: Iterable[int] | None = None) -> None:
        self.crystal, self.ranks = whole, list(ranks)
        self.indices = tuple(indices) if indices is not None else whole.index_set()

    def __len__(self) -> int:
        return len(self.ranks)

    def __getitem__(self, place):
        return Element(self.crystal, self.ranks[place])

    def __contains__(self, element: object) -> bool:
        return isinstance(element, Element) and element.parent() is self.crystal and element.rank in set(self.ranks)

    def highest(self) -> list[Element]:
        """Its elements at which e of each of its indices gives zero."""
        return [b for b in self if b.is_highest_weight(self.indices)]

    def character(self) -> Character:
        """The weights of its elements with their multiplicities: of a Demazure subset the Demazure character."""
        counts: dict[Weight, int] = {}
        for b in self:
            counts[b.weight()] = counts.get(b.weight(), 0) + 1
        return Character(self.crystal.job.kind, self.crystal.job.rank, counts)

    def __repr__(self) -> str:
        return f"{len(self):,} elements of {self.crystal!r}"
