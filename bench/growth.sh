#!/usr/bin/env bash
# Times growth on the shared table (crates/graph_bench), by one grower and by four on threads of their own, beside the
# growth of the yardstick (bench/yardstick.rs, plain Rust, one thread, a private table): the jobs c4 and d5 of bench/jobs.
# The shared table has the memory settings of `crystal`, the yardstick runs as it is. From each time of the shared table
# that of a run is taken which makes the table and grows nothing. Prints the least of
# several runs: processor time, user and system, with the ratio to the yardstick, and wall time, with how much faster
# four growers are than one. `bare` is the wall time of the steps alone that write the finished graph into such a table, in
# plain Rust on one thread, without an operator or a second look-up (bare_steps in the yardstick).
#
# Usage: bench/growth.sh [RUNS]    (7 runs where none is given)
set -u
cd "$(dirname "$0")/.." || exit 1
runs=${1:-7}
command -v rustc >/dev/null || { echo "rustc is not installed: nothing is timed"; exit 0; }
mkdir -p bench/out
rustc --edition 2021 -C opt-level=3 -o bench/out/yardstick bench/yardstick.rs || exit 1
(cd crates/graph_bench && rt run > /dev/null) || exit 1
python3 - "$runs" "$(eval "$(grep '^memory' crystal)"; echo "$memory")" <<'PY'
import os, resource, subprocess, sys, time
from pathlib import Path

runs = int(sys.argv[1])
commands = {"yardstick": ["bench/out/yardstick", "growth"]}
for growers in ("0", "1", "4"):
    commands[growers] = ["crates/graph_bench/out/graph_bench", "growth", growers]
settings = {"crates/graph_bench/out/graph_bench": os.environ | {"GLIBC_TUNABLES": sys.argv[2]}}


def processor():
    used = resource.getrusage(resource.RUSAGE_CHILDREN)
    return used.ru_utime + used.ru_stime


def measured(command, text):
    """Processor and wall time of a run in ms, and what it printed."""
    begin, before = time.perf_counter(), processor()
    ran = subprocess.run(command, input=text, capture_output=True, check=True, env=settings.get(command[0]))
    said = ran.stdout.decode().strip()
    return (processor() - before) * 1e3, (time.perf_counter() - begin) * 1e3, said


def bare(text):
    """The milliseconds of the bare steps, by their own clock."""
    return int(subprocess.run(["bench/out/yardstick", "steps"], input=text, capture_output=True, check=True).stdout) / 1e3


print(f"{'job':>4} {'':>9} {'yardstick ms':>13} {'bare ms':>8} {'one ms':>8} {'four ms':>8} {'ratio':>6} {'faster':>7}")
for name in ("c4", "d5"):
    text = Path(f"bench/jobs/{name}.job").read_bytes()
    best = {}
    for _ in range(runs):
        for which, command in commands.items():
            used, wall, said = measured(command, text)
            if said != ("begun" if which == "0" else "closed"):
                sys.exit(f"{name}: {' '.join(command)} says {said}")
            old = best.get(which, (used, wall))
            best[which] = (min(old[0], used), min(old[1], wall))
    steps = min(bare(text) for _ in range(runs))
    for k, word in ((0, "processor"), (1, "wall")):
        plain = best["yardstick"][k]
        one, four = (best[growers][k] - best["0"][k] for growers in ("1", "4"))
        print(f"{name:>4} {word:>9} {plain:13.1f} {steps:8.1f} {one:8.1f} {four:8.1f} {one / plain:6.2f} {one / four:7.2f}")
PY
