"""Many jobs: an answer is a function of its job's text, so a study of ten thousand jobs runs on anything."""
from __future__ import annotations

import os
import sys
import time
from collections.abc import Iterable, Iterator
from concurrent.futures import Executor, Future, ThreadPoolExecutor

from . import program
from .errors import CrystalError

Answer = str | CrystalError


def answer_of(text: str, words: tuple[str, ...] = ("grow", "1")) -> str:
    """The whole text of the answer to one job. It can be sent to another machine, where the program is found anew."""
    return b"".join(program.lines(words, text)).decode("ascii")


def caught(text: str, words: tuple[str, ...]) -> Answer:
    """The same, with what was refused as a value, so that it travels from another machine."""
    try:
        return answer_of(text, words)
    except CrystalError as fault:
        return fault


def crystals_of(
    jobs: Iterable[str],
    executor: Executor | None = None,
    words: Iterable[str] = ("grow", "1"),
    progress: bool | None = None,
) -> Iterator[Answer]:
    """The answers to these job texts, in their order; a job that was refused gives its exception, the rest are unharmed.

    Without an executor as many threads as there are processors run the program. Any other of `concurrent.futures`, as
    that of Dask's `Client(..).get_executor()` or mpi4py's `MPIPoolExecutor`, fills what it stands for.

    >>> job = "crystal-job 1\\ntype A 1\\nspace v\\nstart {}\\n"
    >>> answers = list(crystals_of([job.format(1), job.format(3)]))
    >>> answers[0].splitlines()[1], answers[1].fault
    ('graph 2 1', 9)
    """
    texts, chosen = list(jobs), tuple(words)
    is_told = sys.stderr.isatty() if progress is None else progress
    own = ThreadPoolExecutor(os.cpu_count() or 1) if executor is None else None
    engine = own or executor
    assert engine is not None
    try:
        futures = [engine.submit(caught, text, chosen) for text in texts]
        yield from _told(futures, is_told)
    finally:
        if own is not None:
            own.shutdown(cancel_futures=True)


def _told(futures: list[Future], is_told: bool) -> Iterator[Answer]:
    """The results in order, with progress on standard error after two seconds."""
    start, has_told = time.monotonic(), False
    for done, future in enumerate(futures, 1):
        result = future.result()
        if is_told and time.monotonic() - start > 2:
            has_told = True
            print(f"\r{done:,} of {len(futures):,} jobs", end="", file=sys.stderr, flush=True)
        yield result
    if has_told:
        print(file=sys.stderr)
