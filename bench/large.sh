#!/usr/bin/env bash
# Times what is as large as a backfill gets, once each, and measures its peak memory: `dry` of 2,000 tasks in 2,048 and in 4,096 runs and
# `show --json` of their reports; and 50 runs of 1,024 instances that each pull a list of 1,024 numbers of five digits, printed and in
# a file, and `clear` of one of them. Needs GNU time, and 3 GB of memory.
set -euo pipefail

source "$(dirname "$(readlink -f "${BASH_SOURCE[0]}")")/program.sh"

PYTHONPATH=$root/bench python3 -B - "$program" "$work" <<'PY'
import json
import os
import sys

from shapes import days_of, dry_of, graph_of, mapped, range_of, run_of

program, work = sys.argv[1:]
report = f"{work}/report"


def tell(name, words):
    seconds, peak = run_of(work, words)
    print(f"{name}: {seconds:.2f} s, {peak / 2**20:,.0f} MiB", flush=True)


for runs in (2_048, 4_096):
    dry = dry_of(program, work, graph_of(2_000), "[]", runs)
    name = f"2,000 tasks x {runs:,} runs"
    tell(name, dry)
    run_of(work, [*dry, "--out", report])
    tell(f"{name}, show --json", [program, "show", "--json", report])

pulled = json.dumps([{"task": "src", "out": json.dumps(list(range(10_000, 11_024)))}])
pulls = mapped(command=["true", {"pull": "src"}])
dry = dry_of(program, work, pulls, pulled, 50)
tell("1,024 instances x 50 runs, each pulls 1,024 numbers", dry)
tell("the same in a file", [*dry, "--out", report])
print(f"its report: {os.path.getsize(report) / 1e6:.0f} MB")
one = ["--task", "m", "--index", "7", "--run", f"{days_of(50)[-1]}"]
tell("clear of one of them", [program, "clear", f"{work}/graph.json", report, "--table", f"{work}/table.json", *range_of(50), *one])
PY
