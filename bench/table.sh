#!/usr/bin/env bash
# Times adds into the shared table beside the same adds into a plain table of atomic words (bench/table_yardstick.rs):
# so many codes from one seat, and from four on threads of their own. Each time is that of a whole run without that of a
# run that makes the table and adds nothing, best of several. Then the same for 262,144 pairs that are put into a wide graph
# from one seat. Prints processor time, wall time and their ratios.
#
# Usage: bench/table.sh [RUNS [CODES]]    (7 runs of 1,048,576 codes where none is given)
set -u
cd "$(dirname "$0")/.." || exit 1
runs=${1:-7}
codes=${2:-1048576}
command -v rustc >/dev/null || { echo "rustc is not installed: nothing is timed"; exit 0; }
mkdir -p bench/out
rustc --edition 2021 -C opt-level=3 -o bench/out/table_yardstick bench/table_yardstick.rs || exit 1
(cd crates/graph_bench && rt run > /dev/null) || exit 1
python3 - "$runs" "$codes" <<'PY'
import resource, subprocess, sys, time

runs, codes, pairs = int(sys.argv[1]), sys.argv[2], "262144"
programs = {"yardstick": ["bench/out/table_yardstick"], "table": ["crates/graph_bench/out/graph_bench", "adds"]}


def processor():
    used = resource.getrusage(resource.RUSAGE_CHILDREN)
    return used.ru_utime + used.ru_stime


best = {}
for _ in range(runs):
    for name, program in programs.items():
        for seats in ("0", "1", "4", "no-pairs", "pairs"):
            many = pairs if "pairs" in seats else codes
            begin, before = time.perf_counter(), processor()
            said = subprocess.run([*program, seats, many], capture_output=True, check=True).stdout
            wall, used = time.perf_counter() - begin, processor() - before
            if seats not in ("0", "no-pairs") and said != b"new %s\n" % many.encode():
                sys.exit(f"{name} with {seats} seats says {said}")
            old = best.get((name, seats), (wall, used))
            best[name, seats] = (min(old[0], wall), min(old[1], used))


def ns(name, seats, which):
    if seats == "pairs":
        return (best[name, seats][which] - best[name, "no-pairs"][which]) * 1e9 / int(pairs)
    return (best[name, seats][which] - best[name, "0"][which]) * 1e9 / int(codes)


print(f"{'seats':>5} {'':>9} {'yardstick':>10} {'table':>8} {'ratio':>6}   ns an add")
for seats in ("1", "4", "pairs"):
    for which, word in ((1, "processor"), (0, "wall")):
        plain, shared = ns("yardstick", seats, which), ns("table", seats, which)
        print(f"{seats:>5} {word:>9} {plain:10.1f} {shared:8.1f} {shared / plain:6.2f}")
PY
