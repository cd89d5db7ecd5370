"""What can go wrong, as exceptions; each says in words what the program refused, and what to do."""
from __future__ import annotations

# The meanings of the program's fault numbers, in the words of docs/JOB.md.
JOB_FAULTS = {
    1: "a byte outside 32..126, or a last line that is not ended by a newline",
    2: "neither `crystal-job 1` nor `crystal-job 2` on line 1",
    3: "no key word of this version, or a wrong number of words behind it, or neither `f` nor `e` behind `look`",
    4: "a key word that is not allowed here",
    5: "a number that is not one to nine digits",
    6: "no such kind of type, or a rank out of range",
    7: "no such shape",
    8: "no such space, or no such order",
    9: "no word of the space",
    10: "no index of the type",
    11: "`cells` out of range",
    12: "a type, a shape or space, or a start is missing",
    13: "too many: the 257th `start`, the 17th `session`, the 4,097th command, the 9th ask, or the 65th index",
    14: "more than 1,048,576 bytes",
    16: "under `match`, fewer than two starts",
}
WORD_FAULTS = {
    1: "a word begins with `-`",
    2: "fewer than two words",
    3: "an unknown mode",
    4: "GROWERS is not one to ten digits of value 1 to 16",
    5: "an unknown statistic",
    6: "a statistic that was named before",
    7: "not just one number behind the growers of `sample`",
    9: "not the rank of a type A and the rows of a shape behind `census`",
    10: "neither just `same` nor just `star` behind `match`",
    11: "a word behind the growers of `wide`",
}


class CrystalError(Exception):
    """Anything that keeps a crystal from being answered."""


class ProgramMissing(CrystalError):
    """There is no program to ask."""


class JobRefused(CrystalError):
    """The program refused the job: `line` (0 where it is none of a line), `fault`, `meaning`, and `text`, that line.

    >>> raise JobRefused(3, 7, "shape 1 2")
    Traceback (most recent call last):
    tavkrudd.errors.JobRefused: line 3: no such shape (fault 7): shape 1 2
    """

    def __init__(self, line: int, fault: int, text: str = "") -> None:
        self.line, self.fault, self.text = line, fault, text
        self.meaning = JOB_FAULTS.get(fault, "a fault that this package does not know")
        place = f"line {line}: " if line else ""
        super().__init__(f"{place}{self.meaning} (fault {fault}){': ' + text if text else ''}")

    def __reduce__(self):
        return type(self), (self.line, self.fault, self.text)


class WordsRefused(CrystalError):
    """The program refused its command words: `fault`, `meaning`, `words`.

    >>> raise WordsRefused(3, ("paint", "2"))
    Traceback (most recent call last):
    tavkrudd.errors.WordsRefused: an unknown mode (fault 3): paint 2
    """

    def __init__(self, fault: int, words: tuple[str, ...] = ()) -> None:
        self.fault, self.words = fault, tuple(words)
        self.meaning = WORD_FAULTS.get(fault, "a fault that this package does not know")
        super().__init__(f"{self.meaning} (fault {fault}): {' '.join(words)}")

    def __reduce__(self):
        return type(self), (self.fault, self.words)


class TooSmall(CrystalError):
    """The answer is `full`: there is more than there is room for. `cells` is how much room there was."""

    def __init__(self, cells: int) -> None:
        self.cells = cells
        super().__init__(f"there are more than {cells:,} elements: give more cells, at most 1,048,576")

    def __reduce__(self):
        return type(self), (self.cells,)


class OutOfMemory(CrystalError):
    """The program found no memory; nothing was answered."""


class Interrupted(CrystalError):
    """The program ended without a whole answer: a stream failed, or it was stopped. A part of one is never taken."""


class NotAnElement(CrystalError, ValueError):
    """There is no such element, index or subset here; the message names those that there are."""
