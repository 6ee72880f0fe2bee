#!/usr/bin/env bash
# Measures what `--journal` costs: a record, by a backfill of 200,000 tries that a table answers; `run` of 2,000 `true`s by 8 workers; and going
# on from 200,000 records, beside `dry` of the same. Of each pair of lines the least of some runs in turn is told.
set -euo pipefail

source "$(dirname "$(readlink -f "${BASH_SOURCE[0]}")")/program.sh"

python3 - "$program" "$work" "$root/bench/graph.py" <<'PY'
import json
import os
import subprocess
import sys
import time

program, work, generator = sys.argv[1:]
TASKS, RUNS = 2_000, 100
RANGE = ["--from", "2000-01-01", "--to", "2000-04-09"]
JOURNAL = f"{work}/journal"


def write(name, text):
    with open(f"{work}/{name}", "w") as file:
        file.write(text)
    return f"{work}/{name}"


def measured(words, out=subprocess.DEVNULL):
    """The wall and the processor time of a line in seconds, its programs included."""
    start = time.monotonic()
    child = subprocess.Popen([program, *words], stdout=out, stderr=subprocess.DEVNULL)
    _, status, usage = os.wait4(child.pid, 0)
    if status != 0:
        sys.exit(f"{' '.join(words)} ended with {status}")
    return time.monotonic() - start, usage.ru_utime + usage.ru_stime


def without_journal():
    if os.path.exists(JOURNAL):
        os.remove(JOURNAL)


def in_turn(rounds, *lines):
    """The least times of each of some lines. Those that begin a journal find none."""
    times = [[] for _ in lines]
    for _ in range(rounds):
        for place, (words, begins) in enumerate(lines):
            if begins:
                without_journal()
            times[place].append(measured(words))
    return [tuple(map(min, zip(*each))) for each in times]


def told(name, times):
    print(f"{name}: {times[0]:.3f} s of wall and {times[1]:.3f} s of processor")


print("load", *os.getloadavg())

# All tries of a range, each cleared, by one worker in a thread of its own.
text = subprocess.run([sys.executable, generator, f"{TASKS}", "9985"], stdout=subprocess.PIPE, check=True, text=True).stdout
deep = json.loads(text)
deep["tasks"][0]["depends_on_past"] = True
graph, table, report = write("graph.json", json.dumps(deep)), write("table.json", "[]"), f"{work}/report"
with open(report, "w") as file:
    measured(["dry", graph, table, *RANGE], file)
clear = ["clear", graph, report, "--table", table, "--task", "t0", "--run", "2000-01-01", *RANGE, "--progress"]
plain, recorded = in_turn(5, (clear, False), ([*clear, "--journal", JOURNAL], True))
count = TASKS * RUNS
told(f"{count} tries that a table answers", plain)
told("the same with a journal", recorded)
print(f"a record: {(recorded[0] - plain[0]) / count * 1e6:.2f} us of wall and {(recorded[1] - plain[1]) / count * 1e6:.2f} us of processor, "
      f"{os.path.getsize(JOURNAL) / count:.0f} bytes")

# The same journal, of `run`.
with open(JOURNAL) as file:
    head, _, records = file.read().partition("\n")
members = json.loads(head)
write("whole", json.dumps(members[:-1], separators=(",", ":")) + "\n" + records)
on = ["run", graph, *RANGE, "--journal", f"{work}/whole"]
dry, gone_on, gone_on_8 = in_turn(5, (["dry", graph, table, *RANGE], False), (on, False), ([*on, "--workers", "8"], False))
told("dry of the same", dry)
told(f"going on from {count} records", gone_on)
told("going on by 8 workers", gone_on_8)
print(f"going on takes {gone_on[0] / dry[0]:.2f} times dry, by 8 workers {gone_on_8[0] / dry[0]:.2f} times")

# Programs that do nothing.
trues = {"dag_id": "d", "schedule": "@daily", "tasks": [{"id": f"t{number}", "command": ["true"]} for number in range(TASKS)]}
run = ["run", write("trues.json", json.dumps(trues)), "--from", "2000-01-01", "--to", "2000-01-01", "--workers", "8"]
plain, recorded = in_turn(40, (run, False), ([*run, "--journal", JOURNAL], True))
told("run of 2,000 trues by 8 workers", plain)
told("the same with a journal", recorded)
print(f"with a journal it takes {recorded[0] / plain[0]:.3f} times as long, {recorded[1] / plain[1]:.3f} times the processor")
print("load", *os.getloadavg())
PY
