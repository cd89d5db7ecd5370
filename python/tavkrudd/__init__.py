"""Crystal graphs of the types A, B, C and D in Python, answered by the proved program of Tavkrudd.

>>> from tavkrudd import crystal
>>> B = crystal("C", 3, shape=[2, 1])
>>> len(B), B.module_generators
(64, [2 1 1])

The package writes jobs, runs the program, and reads its answers; `docs/GUIDE.md` has a part for Python.
"""
from .catalogue import crystals
from .characters import Character, QDimension
from .compare import Comparison, match
from .crystal import Crystal, crystal
from .element import Element
from .errors import (
    CrystalError,
    Interrupted,
    JobRefused,
    NotAnElement,
    OutOfMemory,
    ProgramMissing,
    TooSmall,
    WordsRefused,
)
from .jobs import Job, job_of
from .many import answer_of, crystals_of
from .subset import Subset
from .tableau import Tableau
from .words import census, product_tops, reflections, wide, word

__all__ = [
    "Character",
    "Comparison",
    "Crystal",
    "CrystalError",
    "Element",
    "Interrupted",
    "Job",
    "JobRefused",
    "NotAnElement",
    "OutOfMemory",
    "ProgramMissing",
    "QDimension",
    "Subset",
    "Tableau",
    "TooSmall",
    "WordsRefused",
    "answer_of",
    "census",
    "crystal",
    "crystals",
    "crystals_of",
    "job_of",
    "match",
    "product_tops",
    "reflections",
    "wide",
    "word",
]
