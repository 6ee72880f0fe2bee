#!/usr/bin/env bash
# Times `backfill run` over graphs of `true`s, by 1, 4, 8 and 64 workers, beside a bare loop in C that starts as many (bench/bare.c), and
# beside one whose threads are handed each program, measures what logs cost, and what it takes itself while its programs sleep. Needs a
# C compiler.
set -euo pipefail

source "$(dirname "$(readlink -f "${BASH_SOURCE[0]}")")/program.sh"
cc -O2 -pthread -o "$work/bare" "$root/bench/bare.c"

python3 - "$program" "$work" <<'PY'
import datetime
import json
import os
import subprocess
import sys
import time

program, work = sys.argv[1:]
FIRST_DAY = datetime.date(2024, 1, 1)


def graph_of(layers, width, command):
    """Layers of so many tasks, each behind ten of the layer before, or all where it has fewer."""
    tasks = []
    for layer in range(layers):
        for place in range(width):
            before = [f"t{layer - 1}-{(place + step) % width}" for step in range(min(10, width))] if layer else []
            tasks.append({"id": f"t{layer}-{place}", "command": command, "upstream": before})
    return json.dumps({"dag_id": "d", "schedule": "@daily", "tasks": tasks})


def measured(words):
    """The least wall and processor time of three runs in seconds."""
    times = []
    for _ in range(3):
        start = time.monotonic()
        child = subprocess.Popen(words, stdout=subprocess.DEVNULL)
        _, status, usage = os.wait4(child.pid, 0)
        times.append((time.monotonic() - start, usage.ru_utime + usage.ru_stime))
        if status != 0:
            sys.exit(f"{' '.join(words)} ended with {status}")
    return tuple(min(column) for column in zip(*times))


def run_of(graph, runs, workers):
    with open(f"{work}/graph.json", "w") as file:
        file.write(graph)
    last = FIRST_DAY + datetime.timedelta(days=runs - 1)
    return [program, "run", f"{work}/graph.json", "--from", f"{FIRST_DAY}", "--to", f"{last}", "--workers", f"{workers}"]


for name, layers, width, runs in (
    ("2,000 side by side", 1, 2_000, 1),
    ("40 layers of 50", 40, 50, 1),
    ("50 runs of 40 side by side", 1, 40, 50),
    ("a chain of 500", 500, 1, 1),
):
    for workers in (1, 4, 8, 64):
        wall, cpu = measured(run_of(graph_of(layers, width, ["true"]), runs, workers))
        loop = [f"{work}/bare", f"{workers}", f"{layers * runs}", f"{width}"]
        bare_wall, bare_cpu = measured(loop)
        handed_wall, handed_cpu = measured([*loop, "handed"])
        print(f"{name}, {workers} workers: {wall:.2f} s of wall and {cpu:.2f} s of processor, bare {bare_wall:.2f} and {bare_cpu:.2f}, "
              f"handed {handed_wall:.2f} and {handed_cpu:.2f}")

plain, _ = measured(run_of(graph_of(1, 2_000, ["true"]), 1, 8))
logged, _ = measured([*run_of(graph_of(1, 2_000, ["true"]), 1, 8), "--logs", f"{work}/logs"])
print(f"2,000 side by side, 8 workers, with logs: {logged:.2f} s of wall, {logged / plain:.2f} times that without")

wall, cpu = measured(run_of(graph_of(1, 8, ["sleep", "10"]), 1, 8))
print(f"8 programs that sleep 10 s, 8 workers: {wall:.2f} s of wall and {cpu:.3f} s of processor, the programs' included")
PY
