#!/usr/bin/env bash
# Clears a task in a run of backfills over graphs and tables that go by chance, and requires that the report is that of a backfill
# from nothing whose table has the new answers where it was cleared and the old ones elsewhere: tests/long/clearing.sh [CASES [SEED]], by
# itself 200 cases and the seed 1. The last line is the sum, and the status is 1 where a case differs.
set -euo pipefail

source "$(dirname "$(readlink -f "${BASH_SOURCE[0]}")")/../../bench/program.sh"

python3 - "$program" "$work" "${1:-200}" "${2:-1}" <<'PY'
import json
import random
import re
import subprocess
import sys

program, work = sys.argv[1:3]
cases, seed = map(int, sys.argv[3:])
WAITING = ["all_success", "all_failed", "all_skipped", "all_done", "none_failed", "none_failed_min_one_success", "none_skipped"]
EARLY = ["one_success", "one_failed", "one_done", "always"]


def graph_of(chance):
    """A graph by chance, with sources, branches, pulls, retries, pools and tasks that depend on their past."""
    tasks = []
    for place in range(chance.randint(1, 9)):
        before = [task["id"] for task in tasks]
        upstream = chance.sample(before, min(len(before), chance.choice([0, 1, 1, 2, 2, 3])))
        task = {"id": f"t{place}", "upstream": upstream, "retries": chance.choice([0, 0, 1, 2]), "retry_delay": chance.choice([0, 3600]),
                "depends_on_past": chance.random() < 0.3, "rule": chance.choice(WAITING + EARLY if chance.random() < 0.3 else ["all_success", "all_done", "none_failed"]),
                "pool": chance.choice(["default_pool", "p"]), "command": ["word"]}
        if task["rule"] in WAITING and upstream:
            if chance.random() < 0.35:
                task["expand"] = chance.choice(upstream)
            task["command"] += [{"pull": each} for each in chance.sample(upstream, chance.randint(0, len(upstream)))]
        if "expand" not in task and chance.random() < 0.2:
            task["kind"] = "branch"
        tasks.append(task)
    return {"dag_id": "d", "schedule": "@daily", "max_active_runs": chance.randint(1, 4), "pools": {"p": 1}, "tasks": tasks}


def answers_of(chance, graph, dates):
    """A table with an entry for each try that may be asked for, by its task and run."""
    tasks = graph["tasks"]
    sources = {task["expand"] for task in tasks if "expand" in task}
    table = {}
    for number, task in enumerate(tasks):
        below = [each["id"] for each in tasks if task["id"] in each["upstream"]]
        for run, date in enumerate(dates):
            entries = table[run, number] = []
            for index in range(-1, 4):
                for attempt in range(1, task["retries"] + 2):
                    status = chance.choice([0, 0, 0, 0, 0, 1, 99])
                    if task.get("kind") == "branch":
                        out = json.dumps(chance.sample(below, chance.randint(0, len(below))))
                    elif task["id"] in sources and index == -1:
                        out = json.dumps([chance.choice([None, 1, "b", [2], True]) for _ in range(chance.randint(0, 4))])
                    else:
                        out = chance.choice(["", "7", "b", "[1,2]", "-", "null", "1.5"])
                    entries.append({"task": task["id"], "run": date, "index": index, "try": attempt, "status": status, "out": out})
    return table


def dependents_of(graph, runs, run, number):
    """The task in the run, and all that follows from it."""
    tasks = graph["tasks"]
    found = {(run, number)}
    while True:
        more = {(r, t) for r in range(runs) for t, task in enumerate(tasks)
                if any((r, u) in found and tasks[u]["id"] in task["upstream"] for u in range(len(tasks)))
                or task["depends_on_past"] and (r - 1, t) in found}
        if more <= found:
            return found
        found |= more


def printed(command, graph, table, dates, workers, *words):
    with open(f"{work}/graph.json", "w") as file:
        json.dump(graph, file)
    with open(f"{work}/table.json", "w") as file:
        json.dump([entry for entries in table.values() for entry in entries], file)
    files = [f"{work}/graph.json", f"{work}/table.json"] if command == "dry" else [f"{work}/graph.json", f"{work}/report", "--table", f"{work}/table.json"]
    ended = subprocess.run([program, command, *files, "--from", dates[0], "--to", dates[-1], "--workers", f"{workers}", *words],
                           capture_output=True, text=True)
    return ended.returncode, ended.stdout, ended.stderr


differing = 0
for case in range(cases):
    chance = random.Random(f"{seed} {case}")
    graph = graph_of(chance)
    dates = [f"2024-01-{day:02}T00:00:00Z" for day in range(1, chance.randint(1, 4) + 1)]
    old, new = answers_of(chance, graph, dates), answers_of(chance, graph, dates)
    run, number = chance.randrange(len(dates)), chance.randrange(len(graph["tasks"]))
    cleared = dependents_of(graph, len(dates), run, number)
    _, report, errors = printed("dry", graph, old, dates, chance.choice([1, 2, 8]))
    if errors:
        sys.exit(f"case {case}: {errors}")
    wanted = printed("dry", graph, {key: (new if key in cleared else old)[key] for key in old}, dates, 1)
    for version in (1, 2):
        text = report if version == 2 else re.sub(r"(?m)^@(item|pull) .*\n", "", report.replace("@backfill 2 ", "@backfill 1 "))
        with open(f"{work}/report", "w") as file:
            file.write(text)
        found = printed("clear", graph, new, dates, chance.choice([1, 2, 8]), "--task", graph["tasks"][number]["id"], "--run", dates[run])
        if found != wanted:
            differing += 1
            print(f"case {case} of seed {seed} differs from a report of version {version}: {json.dumps(graph)}", wanted, found, sep="\n")
print(f"{2 * cases - differing} passed, {differing} failed")
sys.exit(1 if differing else 0)
PY
