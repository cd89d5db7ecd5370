#!/usr/bin/env python3
"""Makes each allocation of the program fail in turn, one a run, and judges how the run ends.

Usage: tests/refused_memory.py [ROW..]    (five rows of rows/ where none is given)

A small library in C, loaded before the C library, stands in for malloc and realloc and gives nothing at the Nth call, for
N = 1, 2, .. until a run has no Nth call. A run must end with the status 6, with nothing written. A few blocks the program
can do without, and then the run must end as the row says: where there is none for a thread, the caller does the thread's
work; where there is none for as long a vector as was guessed, it asks for a shorter one. The program must be built
(./crystal prove builds it). This is no part of the gate. Where there is no C compiler nothing is tried.
"""
import os
import shutil
import subprocess
import sys
import tempfile
from itertools import count
from pathlib import Path

TOP = Path(__file__).resolve().parents[1]
PROGRAM = TOP / "crates" / "crystal_shell" / "out" / "crystal_shell"
ROWS = ["cells_exactly_fit", "order_of_the_indices", "two_sessions_add_one_word", "strings_and_ends", "wide_letters_of_a1"]
NO_MEMORY = 6
LIBRARY = r"""
#include <stdatomic.h>
#include <stdlib.h>
#include <unistd.h>

void *__libc_malloc(size_t size);
void *__libc_realloc(void *block, size_t size);

static atomic_long calls;

/* Whether this call is the one to fail; it then tells so. */
static int fails(void)
{
    const char *number = getenv("REFUSED_CALL");
    if (!number || atomic_fetch_add(&calls, 1) + 1 != atol(number))
        return 0;
    return write(atoi(getenv("REFUSED_TOLD")), "x", 1) == 1;
}

void *malloc(size_t size)
{
    return fails() ? NULL : __libc_malloc(size);
}

void *realloc(void *block, size_t size)
{
    return fails() ? NULL : __libc_realloc(block, size);
}
"""


def built(folder):
    """The library, or None where there is no C compiler."""
    compiler = shutil.which("cc") or shutil.which("gcc") or shutil.which("clang")
    if not compiler:
        return None
    source, library = Path(folder) / "refused.c", Path(folder) / "refused.so"
    source.write_text(LIBRARY)
    subprocess.run([compiler, "-O1", "-fno-builtin", "-shared", "-fPIC", "-o", library, source], check=True)
    return library


def run(library, row, number):
    """The status and the output of a row's run, and whether its call with this number was made, and failed."""
    told, tells = os.pipe()
    environment = {"LD_PRELOAD": str(library), "REFUSED_CALL": str(number), "REFUSED_TOLD": str(tells)}
    words = (row / "args").read_text().split()
    job = (row / "job").read_bytes()
    ran = subprocess.run([PROGRAM, *words], input=job, capture_output=True, env=environment, pass_fds=[tells], timeout=60)
    os.close(tells)
    with os.fdopen(told, "rb") as pipe:
        return ran.returncode, ran.stdout, pipe.read() != b""


def sweep(library, row):
    """How many runs ended with the status 6, how many did without the block that was refused, and what was wrong."""
    whole = [(int((row / "status").read_text()), file.read_bytes()) for file in row.glob("answer*")]
    if not whole:
        sys.exit(f"{row.name} has no whole answer to compare with")
    refused, without = 0, 0
    for number in count(1):
        status, said, was_refused = run(library, row, number)
        if was_refused and (status, said) == (NO_MEMORY, b""):
            refused += 1
        elif (status, said) in whole:
            if not was_refused:
                return refused, without
            without += 1
        else:
            sys.exit(f"{row.name}: with the allocation {number} refused the status is {status}, {len(said)} bytes are written")


def main(names):
    with tempfile.TemporaryDirectory() as folder:
        library = built(folder)
        if not library:
            print("there is no C compiler: nothing is tried")
            return
        found = []
        for name in names or ROWS:
            found.append(sweep(library, TOP / "tests" / "rows" / name))
            print(f"{name}: {sum(found[-1])} allocations refused, one a run", flush=True)
    refused, without = map(sum, zip(*found))
    if not refused:
        sys.exit("no allocation was refused")
    print(f"{refused + without} runs: {refused} ended with the status {NO_MEMORY} and nothing written, {without} with the whole answer")


main(sys.argv[1:])
