"""To Sage and to networkx: a crystal as a DiGraph, its weights in Sage's ambient space, its elements as Sage's own."""
from __future__ import annotations

from collections.abc import Iterable
from typing import TYPE_CHECKING, Any

from .graph import NONE

if TYPE_CHECKING:
    from .crystal import Crystal


def has_sage() -> bool:
    """Whether this Python has Sage."""
    try:
        import sage.all  # noqa: F401
    except ImportError:
        return False
    return True


def arrows(crystal: Crystal, indices: Iterable[int]) -> Iterable[tuple[str, str, int]]:
    """Each f arrow of these indices, as the words of its ends and its index."""
    words = crystal.words
    for index in indices:
        for source, target in enumerate(crystal._graph.f[index]):
            if target != NONE:
                yield words[source], words[target], index


def digraph(crystal: Crystal, indices: Iterable[int]) -> Any:
    """A DiGraph of Sage where Sage is, else of networkx (its edges have the attribute `label`)."""
    if has_sage():
        return to_sage(crystal, indices)
    try:
        import networkx
    except ImportError:
        raise ImportError("neither Sage nor networkx is installed: take one of them, or the arrays in `B.f`") from None
    graph = networkx.MultiDiGraph()
    graph.add_nodes_from((word, {"weight": weight}) for word, weight in zip(crystal.words, _weights(crystal)))
    graph.add_edges_from((a, b, {"label": i}) for a, b, i in arrows(crystal, indices))
    return graph


def to_sage(crystal: Crystal, indices: Iterable[int] | None = None) -> Any:
    """Sage's DiGraph: vertices are words, labels the indices."""
    from sage.all import DiGraph

    graph = DiGraph(multiedges=True)
    graph.add_vertices(crystal.words)
    graph.add_edges(arrows(crystal, crystal._indices(indices)))
    return graph


def weights_in_sage(crystal: Crystal) -> dict[str, Any]:
    """By word the weight in Sage's ambient space of the type."""
    from sage.all import QQ, RootSystem, vector

    space = RootSystem(crystal.cartan_type()).ambient_space()
    weights = _weights(crystal)
    made = {w: space.from_vector(vector(QQ, [QQ(str(x)) for x in w])) for w in set(weights)}
    return {word: made[w] for word, w in zip(crystal.words, weights)}


def _weights(crystal: Crystal) -> list:
    return [b.weight() for b in crystal]


def sage_crystal(crystal: Crystal) -> Any:
    """Sage's crystal of the same shape, or the product of Sage's letters and spins with the same factors."""
    from sage.all import crystals

    job = crystal.job
    if job.shape:
        return crystals.Tableaux(crystal.cartan_type(), shape=list(job.shape))
    made = {"v": crystals.Letters, "s": crystals.Spins, "s+": crystals.SpinsPlus, "s-": crystals.SpinsMinus}
    return crystals.TensorProduct(*[made[factor](crystal.cartan_type()) for factor in _turned(crystal, job.factors)])


def elements_in_sage(crystal: Crystal) -> dict[str, Any]:
    """By word the element of Sage's crystal to which it corresponds: of `crystals.Tableaux` for a shape, else of the
    tensor product. Words in Kashiwara's order are reversed, since Sage follows the other one."""
    whole = sage_crystal(crystal)
    job = crystal.job
    if job.shape:
        return {text: whole(*[int(token) for token in _turned(crystal, text.split())]) for text in crystal.words}
    parts = [{_token(x): x for x in part} for part in whole.crystals]
    return {
        text: whole(*[part[token] for part, token in zip(parts, _turned(crystal, text.split()))]) for text in crystal.words
    }


def _turned(crystal: Crystal, things: Iterable) -> list:
    listed = list(things)
    return listed[::-1] if crystal.job.order == "kashiwara" else listed


def _token(element: Any) -> str:
    """An element of a base crystal of Sage as this project prints it."""
    return element.signature() if hasattr(element, "signature") else str(element.value)


def from_sage(whole: Any) -> Crystal:
    """The crystal of this package that is a crystal of Sage: of a shape, of letters, of spins, or a product of letters and
    spins with generators. Its words are those of Sage's elements.

    >>> from sage.all import crystals                                # doctest: +SKIP
    >>> len(from_sage(crystals.Tableaux(["C", 3], shape=[2, 1])))    # doctest: +SKIP
    64
    """
    from .crystal import Crystal
    from .jobs import Job, job_of

    kind, rank = whole.cartan_type().type(), whole.cartan_type().rank()
    shapes = getattr(whole, "shapes", None)
    if shapes is not None and len(shapes) == 1:
        return Crystal(job_of(kind, rank, shape=list(shapes[0])))
    is_product = hasattr(whole, "crystals")
    factors = tuple(_factor(part) for part in (whole.crystals if is_product else [whole]))
    tops = whole.module_generators if is_product else [[top] for top in whole.module_generators]
    return Crystal(Job(kind, rank, factors, tuple(" ".join(map(_token, top)) for top in tops)))


def _factor(part: Any) -> str:
    """The factor that a base crystal of Sage is."""
    from sage.all import crystals

    cartan = part.cartan_type()
    names = {"v": crystals.Letters}
    if cartan.type() == "B":
        names["s"] = crystals.Spins
    if cartan.type() == "D":
        names |= {"s+": crystals.SpinsPlus, "s-": crystals.SpinsMinus}
    for name, make in names.items():
        if part == make(cartan):
            return name
    raise ValueError(f"no crystal that this package has: {part}")
