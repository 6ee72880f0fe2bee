#!/usr/bin/env bash
# Runs many real programs that end by chance, beside `dry` by the table of the same answers, and requires equal reports. Says how long
# that took, how much memory it had at most, and what it left behind: tests/long/soak.sh [TASKS [RUNS [WORKERS [SEED]]]], by itself 1,990
# tasks and 20 runs, whose answers just fit a table, 64 workers and the seed 1. Needs a C compiler. The last line is `equal`, and the
# status is 1 where it isn't.
set -euo pipefail

source "$(dirname "$(readlink -f "${BASH_SOURCE[0]}")")/../../bench/program.sh"
cc -O2 -o "$work/soak" "$root/tests/long/soak.c"

python3 - "$program" "$work" "${1:-1990}" "${2:-20}" "${3:-64}" "${4:-1}" <<'PY'
import datetime
import json
import os
import subprocess
import sys
import time

program, work = sys.argv[1:3]
count, runs, workers, seed = map(int, sys.argv[3:])
DATES = [f"{datetime.date(2024, 1, 1) + datetime.timedelta(days=day)}" for day in range(runs)]
GROUP = 10
MOST_ITEMS = 5
RULES = ["all_done", "none_failed", "all_done", "none_skipped", "all_done", "all_success", "all_done", "one_done"]

# Programs find this folder and the one for temporary files empty, and they bear this mark.
here = f"{work}/here"
temporary = f"{work}/temporary"
mark = f"SOAK_TEST={work}"
os.mkdir(here)
os.mkdir(temporary)
environment = {**os.environ, "TMPDIR": temporary, "SOAK_TEST": work}

# At the end of the last run it looks at the runner, when no other program runs any more.
LOOK = f"""
[ "$1" = {DATES[-1]}T00:00:00Z ] || exit 0
until [ "$(pgrep -c -P "$PPID")" = 1 ]; do sleep 0.1; done
sleep 0.3
descriptors=$(ls "/proc/$PPID/fd" | wc -l)
threads=$(ls "/proc/$PPID/task" | wc -l)
dead=$(cat /proc/[0-9]*/stat 2> /dev/null | grep -c ") Z $PPID ")
echo "$descriptors descriptors, $threads threads, $dead dead children" > {work}/seen
"""


def task(name, place, upstream, **keys):
    """A task whose program answers by chance."""
    words = [f"{work}/soak", f"{seed}", {"context": "task_id"}, {"context": "map_index"}, {"context": "logical_date"}, {"context": "try_number"}]
    return {"id": name, "upstream": upstream, "command": words + keys.pop("more", []), "retries": place % 4,
            "pool": "small" if place % 7 == 0 else "default_pool", "priority_weight": place % 5, **keys}


def graph_of(groups):
    """Groups of tasks: a source, a task over its list, one that pulls, and others, each behind a group some way before."""
    tasks = []
    for group in range(groups):
        before = [f"t{(group - groups // 8 - 1) * GROUP + place}" for place in (4, 7)] if group > groups // 8 else []
        first = group * GROUP
        tasks.append(task(f"s{first}", first, before, rule="all_done"))
        tasks.append(task(f"m{first + 1}", first + 1, [f"s{first}"], expand=f"s{first}", more=[{"item": True}]))
        tasks.append(task(f"t{first + 2}", first + 2, [f"m{first + 1}"], rule="none_failed", more=[{"pull": f"m{first + 1}"}]))
        for place in range(3, GROUP):
            number = first + place
            tasks.append(task(f"t{number}", number, before + ([f"t{number - 1}"] if place % 3 == 0 else []),
                              rule=RULES[number % len(RULES)], depends_on_past=place == GROUP - 1))
    # What depends on its past may be blocked, and would block the last task.
    surely_settled = [each for each in tasks if not each.get("depends_on_past")]
    has_downstream = {upstream for each in surely_settled for upstream in each["upstream"]}
    leaves = [each["id"] for each in surely_settled if each["id"] not in has_downstream]
    tasks.append({"id": "last", "upstream": leaves, "rule": "all_done", "depends_on_past": True,
                  "command": ["sh", "-c", LOOK, "look", {"context": "logical_date"}]})
    return {"dag_id": "soak", "schedule": "@daily", "pools": {"small": 3}, "tasks": tasks}


def write_table(graph):
    """The table of all tries that may be asked for."""
    lines = []
    for each in graph["tasks"][:-1]:
        indexes = range(MOST_ITEMS) if "expand" in each else (-1,)
        lines += [f"{each['id']} {index} {date}T00:00:00Z {attempt}\n"
                  for date in DATES for index in indexes for attempt in range(1, each["retries"] + 2)]
    with open(f"{work}/table.json", "w") as table:
        subprocess.run([f"{work}/soak", f"{seed}"], input="".join(lines), text=True, stdout=table, check=True)
    return len(lines)


def ended(name, *words):
    """The status of a command, its wall time in seconds, and the most memory that it had in MB. What it prints goes to this file."""
    start = time.monotonic()
    with open(f"{work}/{name}", "w") as out:
        child = subprocess.Popen([program, *words, "--from", DATES[0], "--to", DATES[-1]], cwd=here, env=environment, stdout=out)
    _, status, usage = os.wait4(child.pid, 0)
    return os.waitstatus_to_exitcode(status), time.monotonic() - start, usage.ru_maxrss / 1024


def seen_after(groups, name):
    """What the last program sees of its runner behind so many groups of tasks, and how the run ended."""
    graph = graph_of(groups)
    with open(f"{work}/graph.json", "w") as file:
        json.dump(graph, file)
    how = ended(name, "run", f"{work}/graph.json", "--workers", f"{workers}")
    with open(f"{work}/seen") as file:
        return graph, file.read().strip(), how


def marked():
    """The processes that bear the mark."""
    found = []
    for process in filter(str.isdigit, os.listdir("/proc")):
        try:
            with open(f"/proc/{process}/environ") as file:
                if mark in file.read().split("\0"):
                    found.append(process)
        except OSError:
            pass
    return found


_, alone, _ = seen_after(0, "alone")
graph, seen, (status, wall, memory) = seen_after(count // GROUP, "ran")
tries = write_table(graph)
size = os.path.getsize(f"{work}/table.json")
print(f"{len(graph['tasks'])} tasks, {runs} runs, {workers} workers, seed {seed}: {tries} tries may be asked for, a table of {size} bytes")
with open(f"{work}/ran") as file:
    words = [line.split(" ") for line in file if line[0] != "@"]
states = {state: sum(1 for each in words if each[2] == state) for state in sorted({each[2] for each in words})}
print(f"run: status {status}, {wall:.1f} s, {memory:.1f} MB, {sum(int(each[3]) for each in words)} programs, {states}")
dry_status, dry_wall, dry_memory = ended("dry", "dry", f"{work}/graph.json", f"{work}/table.json", "--workers", f"{workers}")
print(f"dry: status {dry_status}, {dry_wall:.1f} s, {dry_memory:.1f} MB")
print(f"the last program saw {seen}; without the others {alone}")
processes, files = marked(), os.listdir(here) + os.listdir(temporary)
print(f"left: processes {processes}, files {files}")
with open(f"{work}/ran", "rb") as ran, open(f"{work}/dry", "rb") as dry:
    is_equal = ran.read() == dry.read()
print("equal" if is_equal else "the reports differ")
sys.exit(0 if is_equal and status == dry_status and seen == alone and not processes and not files else 1)
PY
