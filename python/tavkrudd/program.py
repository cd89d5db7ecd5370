"""Where the program is, and how it is run: command words and a job go in, the lines of an answer come out."""
from __future__ import annotations

import os
import re
import shutil
import subprocess
import tempfile
from collections.abc import Iterator
from pathlib import Path

from .errors import Interrupted, JobRefused, OutOfMemory, ProgramMissing, WordsRefused

TOP = Path(__file__).resolve().parents[2]
FULL, NO_MEMORY = 3, 6


def find() -> str:
    """The program: what the variable TAVKRUDD names, else the script `crystal` beside which this package lies, else a
    `crystal` on PATH."""
    named = os.environ.get("TAVKRUDD")
    if named:
        found = shutil.which(named)
        if not found:
            raise ProgramMissing(f"TAVKRUDD names {named}, which is no program that can be run")
        return found
    beside = TOP / "crystal"
    if beside.is_file() and os.access(beside, os.X_OK):
        return str(beside)
    found = shutil.which("crystal")
    if found:
        return found
    raise ProgramMissing(
        "the program is not found: set TAVKRUDD to the script `crystal` of a checkout or of an unpacked release, "
        "or put a link to it on PATH"
    )


def lines(words: tuple[str, ...], job: str = "") -> Iterator[bytes]:
    """The lines of the answer to these command words and this job, each with its newline.

    What the program refused, and what it ended with, is raised behind the last one; so is an answer that was cut off.
    An answer that is `full` is given whole. A reader that stops early stops the program.
    """
    program, first, last = find(), b"", b""
    with tempfile.TemporaryFile() as given, tempfile.TemporaryFile() as said:
        given.write(job.encode("utf-8", "surrogateescape"))
        given.seek(0)
        try:
            process = subprocess.Popen([program, *words], stdin=given, stdout=subprocess.PIPE, stderr=said)
        except OSError as fault:
            raise ProgramMissing(f"the program cannot be run: {fault}") from fault
        assert process.stdout is not None
        try:
            for line in process.stdout:
                first, last = first or line, line
                if not first.startswith(b"refused "):
                    yield line
            status = process.wait()
        finally:
            if process.poll() is None:
                process.kill()
            process.stdout.close()
            process.wait()
        if status not in (0, FULL):
            said.seek(0)
            raise _ended(status, words, job, first.decode("ascii", "replace"), said.read().decode("utf-8", "replace"))
    if last != b"end\n":
        raise Interrupted("the answer was cut off")


def _ended(status: int, words: tuple[str, ...], job: str, first: str, said: str) -> Exception:
    """What a status other than 0 and `full` means."""
    refusal = re.fullmatch(r"refused (?:words (\d+)|job line (\d+) fault (\d+))\n", first)
    if refusal and refusal[1]:
        return WordsRefused(int(refusal[1]), words)
    if refusal:
        line, fault = int(refusal[2]), int(refusal[3])
        texts = job.split("\n")
        return JobRefused(line, fault, texts[line - 1] if 1 <= line <= len(texts) else "")
    if status == NO_MEMORY:
        return OutOfMemory("the program found no memory for this job")
    told = said.strip().splitlines()
    return Interrupted(f"the program ended with the status {status} and no whole answer" + (f": {told[-1]}" if told else ""))


def answer(*words: str, job: str = "") -> list[str]:
    """The lines of a short answer, without their newlines.

    >>> answer("census", "1", "1", "1")
    ['census A 1', 'tableaux 1', '2 1', 'end']
    """
    return [line.decode("ascii").rstrip("\n") for line in lines(words, job)]
