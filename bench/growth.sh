#!/usr/bin/env bash
# Counts the instructions of `dry` and `clear`, with starting the program, and tells by which power of a number they grow: of tasks, of edges
# and of the upstreams of one task, each in 100 runs, of the runs of 200 tasks, and of items in 50 runs, each from its half. `clear`
# clears one instance. Counts don't depend on what else the machine does. Needs valgrind, and takes some minutes.
set -euo pipefail

source "$(dirname "$(readlink -f "${BASH_SOURCE[0]}")")/program.sh"

PYTHONPATH=$root/bench python3 -B - "$program" "$work" <<'PY'
import json
import math
import re
import subprocess
import sys

from shapes import days_of, dry_of, file_of, graph_of, items, mapped, range_of, told_by

program, work = sys.argv[1:]


def fan(upstreams):
    """A graph of a task behind so many others."""
    tasks = [{"id": f"t{task}"} for task in range(upstreams)]
    return json.dumps({"dag_id": "d", "schedule": "@daily", "tasks": [*tasks, {"id": "m", "upstream": [task["id"] for task in tasks]}]})


def instructions(words):
    counted = subprocess.run(
        ["valgrind", "--tool=callgrind", "--callgrind-out-file=/dev/null", *words], capture_output=True, check=True, text=True
    )
    return int(re.search(r"Collected : (\d+)", counted.stderr)[1])


def counts(graph, table, runs, last):
    """The instructions of a backfill, and of going on from its report once an instance of its last run is cleared."""
    dry = dry_of(program, work, graph, table, runs)
    report = file_of(work, "report", told_by(dry).decode())
    one = ["--task", last, "--run", f"{days_of(runs)[-1]}"]
    clear = [program, "clear", f"{work}/graph.json", report, "--table", f"{work}/table.json", *range_of(runs), *one]
    return instructions(dry), instructions(clear)


for name, of, half in (
    ("tasks", lambda tasks: (graph_of(tasks), "[]", 100, f"t{tasks - 1}"), 1_000),
    ("runs", lambda runs: (graph_of(200), "[]", runs, "t199"), 200),
    ("edges of 2,000 tasks", lambda edges: (graph_of(2_000, upstreams=edges // 2_000), "[]", 100, "t1999"), 10_000),
    ("upstreams of one task", lambda upstreams: (fan(upstreams), "[]", 100, "m"), 999),
    ("items", lambda count: (mapped(), items(count), 50, "m"), 512),
):
    for what, less, more in zip(("dry", "clear"), counts(*of(half)), counts(*of(2 * half))):
        print(f"{what}, from {half:,} to {2 * half:,} {name}: {less:,} and {more:,} instructions, power {math.log2(more / less):.2f}", flush=True)
PY
