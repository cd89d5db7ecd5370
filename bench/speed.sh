#!/usr/bin/env bash
# Times the program beside the yardstick (bench/yardstick.rs, plain Rust) on the same jobs in one run: CPU time, user and
# system, the least of several runs of each. Prints their ratio and the time a vertex, for the jobs of bench/jobs, with
# statistics, with sessions and in Kashiwara's order, and checks that both print the same bytes but for replies of sessions.
# Then the time of the text alone, which is that of a run without that of one that tells only the sizes of the same graph,
# and the largest resident memory on the largest job, by vertex. The program runs as `crystal` runs it, with what the C
# library is told of memory; the yardstick runs as it is.
#
# Usage: bench/speed.sh [RUNS]    (5 runs where none is given)
set -u
cd "$(dirname "$0")/.." || exit 1
runs=${1:-5}
command -v rustc >/dev/null || { echo "rustc is not installed: nothing is timed"; exit 0; }
mkdir -p bench/out
rustc --edition 2021 -C opt-level=3 -o bench/out/yardstick bench/yardstick.rs || exit 1
./crystal prove || exit 1
python3 - "$runs" "$(eval "$(grep '^memory' crystal)"; echo "$memory")" <<'PY'
import os, subprocess, sys
from pathlib import Path

runs = int(sys.argv[1])
program = "crates/crystal_shell/out/crystal_shell"
settings = {program: os.environ | {"GLIBC_TUNABLES": sys.argv[2]}}
commands = {"yardstick": ["bench/out/yardstick"], "program": [program, "grow", "1"]}
statistics = ["character", "strings", "ends"]


def job(name):
    return Path(f"bench/jobs/{name}.job").read_text()


def with_sessions(text):
    """The job with sixteen sessions of 1,000 commands each, on words of its own graph."""
    said = subprocess.run(commands["yardstick"], input=text.encode(), capture_output=True).stdout.decode()
    words = [line.split(" | ")[1] for line in said.split("\n") if " | " in line][::29]
    lines = []
    for session in range(16):
        lines.append("session")
        for k in range(500):
            word, index = words[(7 * session + k) % len(words)], k % 4 + 1
            lines.append(f"add {word}" if k % 5 == 0 else f"f {index} {word}")
            lines.append((f"look e {index} {word}", f"wt {word}", f"eps {index} {word}", f"find {word}")[k % 4])
    return text + "\n".join(lines) + "\n"


def in_the_second_order(text):
    header, kind, rest = text.split("\n", 2)
    return f"crystal-job 2\n{kind}\norder kashiwara\n{rest}"


cases = [(name, job(name), []) for name in ("a4", "d4", "a5", "c4", "d5")]
cases += [("c4, statistics", job("c4"), statistics), ("c4, sessions", with_sessions(job("c4")), []),
          ("c4, kashiwara", in_the_second_order(job("c4")), [])]


def ran(command, text, out):
    """What a run used, and what it printed to a pipe."""
    process = subprocess.Popen(command, stdin=subprocess.PIPE, stdout=out, env=settings.get(command[0]))
    process.stdin.write(text.encode())
    process.stdin.close()
    said = process.stdout.read() if process.stdout else b""
    _, status, used = os.wait4(process.pid, 0)
    process.returncode = os.waitstatus_to_exitcode(status)
    return used, said


def measured(command, text, out=subprocess.PIPE):
    """The CPU time of a run, and what it printed."""
    used, said = ran(command, text, out)
    return used.ru_utime + used.ru_stime, said


def bytes_a_vertex(who):
    """The largest resident memory of a run on the largest job. A process begins with what its parent held, so it is measured
    before this one holds much."""
    used, _ = ran(commands[who], job("d5"), subprocess.DEVNULL)
    return used.ru_maxrss * 1024 / 2**20


def text_times(text):
    """The CPU times of the text alone: that of a run without that of one that tells only the sizes of the same graph."""
    tries = {
        ("yardstick", "whole"): (commands["yardstick"], text),
        ("yardstick", "sizes"): (commands["yardstick"] + ["sizes"], text),
        ("program", "whole"): (commands["program"], text),
        ("program", "sizes"): (commands["program"][:1] + ["sample", "1", "2"], ""),
    }
    best = {}
    for _ in range(4 * runs):
        for name, tried in tries.items():
            took, _ = measured(*tried, subprocess.DEVNULL)
            best[name] = min(best.get(name, took), took)
    return [best[who, "whole"] - best[who, "sizes"] for who in commands]


def graph_of(said):
    """The answer without what the sessions were told, which depends on who came first."""
    return said.partition(b"session 1\n")[0] + said[said.find(b"graph ") :]


memory = {who: bytes_a_vertex(who) for who in commands}
print(f"{'job':15} {'vertices':>9} {'yardstick ms':>13} {'program ms':>11} {'ratio':>6} {'ns a vertex':>12}")
worst, differ = 0.0, False
for name, text, words in cases:
    best, said = {}, {}
    for _ in range(runs):
        for who, command in commands.items():
            took, said[who] = measured(command + words, text)
            best[who] = min(best.get(who, took), took)
    counts = [line.split() for line in said["yardstick"].split(b"\n") if line.startswith(b"graph ")]
    vertices = int(counts[0][1]) if counts else 0
    same = graph_of(said["yardstick"]) == graph_of(said["program"])
    differ = differ or not same
    ratio = best["program"] / best["yardstick"]
    worst = max(worst, ratio)
    print(f"{name:15} {vertices:9} {best['yardstick'] * 1e3:13.1f} {best['program'] * 1e3:11.1f} {ratio:6.2f} "
          f"{best['program'] * 1e9 / max(1, vertices):12.0f} {'' if same else 'TEXTS DIFFER'}", flush=True)
print(f"worst ratio {worst:.2f}")
printer = [sys.executable, "tests/peers/sample_peer.py", "text", "2"]
plain, proved = text_times(subprocess.run(printer, capture_output=True, check=True).stdout.decode())
print(f"text of c4 alone: yardstick {plain * 1e3:.1f} ms, program {proved * 1e3:.1f} ms, ratio {proved / plain:.2f}")
print(f"largest resident memory on d5: yardstick {memory['yardstick']:.0f}, program {memory['program']:.0f} bytes a vertex")
sys.exit(1 if differ else 0)
PY
