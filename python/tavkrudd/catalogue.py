"""The names of Sage's catalogue, so that a notebook ports by one import, and many jobs by one call.

>>> from tavkrudd import crystals
>>> len(crystals.Tableaux("C3", shape=[2, 1]))
64
>>> [answer.splitlines()[1] for answer in crystals(["crystal-job 1\\ntype A 2\\nshape 2 1\\n"])]
['graph 8 8']
"""
from __future__ import annotations

from collections.abc import Iterable, Iterator, Sequence
from concurrent.futures import Executor
from itertools import product

from .crystal import Crystal
from .jobs import Job, Row, cartan_type, job_of, word_text
from .many import Answer, crystals_of

MOST_STARTS = 256


def Tableaux(cartan: str | Sequence, shape: Iterable[Row] | None = None, **others) -> Crystal:
    """The crystal of a shape.

    >>> len(Tableaux("C3", shape=[2, 1])), len(Tableaux(["A", 2], [2, 1]))
    (64, 8)
    """
    kind, rank = cartan_type(cartan)
    return Crystal(job_of(kind, rank, shape=shape if shape is not None else ()), **others)


def Letters(cartan: str | Sequence, **others) -> Crystal:
    """The vector crystal.

    >>> [b.word for b in Letters("B2")]
    ['1', '2', '0', '-2', '-1']
    """
    kind, rank = cartan_type(cartan)
    return Crystal(job_of(kind, rank, factors="v", start="1"), **others)


def Spins(cartan: str | Sequence, **others) -> Crystal:
    """The spin crystal of type B.

    >>> [b.word for b in Spins("B2")]
    ['++', '+-', '-+', '--']
    """
    kind, rank = cartan_type(cartan)
    return Crystal(job_of(kind, rank, factors="s", start="+" * rank), **others)


def SpinsPlus(cartan: str | Sequence, **others) -> Crystal:
    """The half of the spin crystal of type D with an even number of minus signs."""
    kind, rank = cartan_type(cartan)
    return Crystal(job_of(kind, rank, factors="s+", start="+" * rank), **others)


def SpinsMinus(cartan: str | Sequence, **others) -> Crystal:
    """The half of the spin crystal of type D with an odd number of minus signs."""
    kind, rank = cartan_type(cartan)
    return Crystal(job_of(kind, rank, factors="s-", start="+" * (rank - 1) + "-"), **others)


def TensorProduct(*parts: Crystal, generators: Iterable[Iterable] | None = None, **others) -> Crystal:
    """The product of crystals, or the part of it that these generators span: each is a list with an element, or a word,
    of each part. Without generators there must be at most 256 elements.

    >>> B = Letters("A1")
    >>> T = TensorProduct(B, B)
    >>> len(T), [str(b) for b in T.module_generators]
    (4, ['1 1', '2 1'])
    >>> [str(b) for b in TensorProduct(B, B, generators=[[B("2"), B("1")]])]
    ['2 1']
    """
    first = parts[0].job
    for part in parts:
        if (part.job.kind, part.job.rank, part.job.order) != (first.kind, first.rank, first.order):
            raise ValueError("a product has parts of one type and one tensor order")
    if generators is None:
        many = 1
        for part in parts:
            many *= len(part)
        if many > MOST_STARTS:
            raise ValueError(f"a product with {many:,} elements: name generators, at most {MOST_STARTS} of them")
        generators = product(*parts)
    starts = [" ".join(word_text(str(piece)) for piece in generator) for generator in generators]
    factors = tuple(factor for part in parts for factor in part.job.factors)
    return Crystal(Job(first.kind, first.rank, factors, tuple(starts), order=first.order), **others)


class Catalogue:
    """The constructors above by their names; called with job texts, it gives their answers."""

    Tableaux = staticmethod(Tableaux)
    Letters = staticmethod(Letters)
    Spins = staticmethod(Spins)
    SpinsPlus = staticmethod(SpinsPlus)
    SpinsMinus = staticmethod(SpinsMinus)
    TensorProduct = staticmethod(TensorProduct)

    def __call__(self, jobs: Iterable[str], executor: Executor | None = None, **others) -> Iterator[Answer]:
        """The answers to these job texts, in their order: see `crystals_of`."""
        return crystals_of(jobs, executor, **others)


crystals = Catalogue()
