#!/usr/bin/env bash
# Times `wide` on the largest crystal of a shape in C_4 that is twice a shape and fits 1,048,576 cells (989,604 elements), beside
# `grow 1` on the same crystal as one shape: processor time and wall time, the least of several runs, of `wide` by one and by four
# growers; the resident memory of `wide 1` by cell, less the words of arrows, the most that is seen once the table is made (a list of
# as many zeros, of which the kit makes a table, is given back then); and where valgrind is installed and --count is given, the
# instructions of `wide 1` beside those of `grow 1`.
#
# Usage: bench/wide.sh [--count] [RUNS]    (3 runs where none is given)
set -u
cd "$(dirname "$0")/.." || exit 1
count=
[ "${1-}" = --count ] && { count=1; shift; }
runs=${1:-3}
./crystal prove || exit 1
eval "$(grep '^memory' crystal)"
GLIBC_TUNABLES=$memory python3 - "$runs" "$count" <<'PY'
import os, subprocess, sys, tempfile, time
from pathlib import Path

runs, is_counted = int(sys.argv[1]), bool(sys.argv[2])
program = "crates/crystal_shell/out/crystal_shell"
cells, rank = 1_048_576, 4
ways = {"grow 1": "wide_c4_whole", "wide 1": "wide_c4", "wide 4": "wide_c4"}


def ran(words, job, before=()):
    """The wall time, the processor time and the memory of a run, and its second line."""
    with open(f"bench/jobs/{job}.job") as given, tempfile.TemporaryFile() as out:
        begin = time.perf_counter()
        process = subprocess.Popen([*before, program, *words.split()], stdin=given, stdout=out, stderr=subprocess.DEVNULL)
        _, status, used = os.wait4(process.pid, 0)
        wall = time.perf_counter() - begin
        out.seek(0)
        out.readline()
        return wall, used.ru_utime + used.ru_stime, used.ru_maxrss * 1024, out.readline().decode().strip()


def memory_of_growth():
    """The most resident memory behind the peak at which the table is made. Without settings the C library gives blocks back."""
    with open("bench/jobs/wide_c4.job") as given:
        process = subprocess.Popen([program, "wide", "1"], stdin=given, stdout=subprocess.DEVNULL, env={})
        seen = []
        while process.poll() is None:
            lines = Path(f"/proc/{process.pid}/status").read_text().splitlines()
            seen += [int(line.split()[1]) * 1024 for line in lines if line.startswith("VmRSS")]
            time.sleep(0.005)
    return max(seen[seen.index(max(seen)) + 3 :])


best = {}
for _ in range(runs):
    for words, job in ways.items():
        wall, used, memory, said = ran(words, job)
        old = best.get(words, (wall, used, memory, said))
        best[words] = (min(wall, old[0]), min(used, old[1]), min(memory, old[2]), said)
print(f"{'':>8} {'wall s':>8} {'processor s':>12} {'memory MB':>10}   second line")
for words, (wall, used, memory, said) in best.items():
    print(f"{words:>8} {wall:8.2f} {used:12.2f} {memory / 1e6:10.1f}   {said}")
print(f"wide 1 beside grow 1: {best['wide 1'][1] / best['grow 1'][1]:.2f} of the processor time")
print(f"wide 4 is {best['wide 1'][0] / best['wide 4'][0]:.2f} times as fast as wide 1 by the clock")
arrows = 8 * 2 * rank * (cells + 32)
print(f"memory of wide 1 while it grows, without the words of arrows: {(memory_of_growth() - arrows) / (cells + 32):.1f} bytes a cell")
if is_counted:
    counts = {}
    for words in ("grow 1", "wide 1"):
        with tempfile.TemporaryDirectory() as folder:
            log = Path(folder) / "log"
            ran(words, ways[words], ("valgrind", "--tool=callgrind", f"--callgrind-out-file={folder}/out", f"--log-file={log}"))
            counts[words] = int(next(line.split()[-1] for line in log.read_text().splitlines() if "Collected" in line))
    print(f"instructions: grow 1 {counts['grow 1']:,}, wide 1 {counts['wide 1']:,}, {counts['wide 1'] / counts['grow 1']:.2f} times as many")
PY
