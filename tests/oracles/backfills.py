#!/usr/bin/env python3
"""Graphs and tables that go by chance, and what the program is to print of them: backfills.py FOLDER FIRST COUNT

For each seed from FIRST on, COUNT of them, a folder of its name has graph.json and table.json, and the reports `single` and
`dry_2` that the program is to print; `dry_1`, the latter in version 1; mended.json and again.json, by which a task is cleared in
either; and `clear_1` and `clear_2`, the reports that come of it. The file `seeds` names several tasks and instances; `several` is the report
that comes of clearing them in version 2, `failed` that of clearing all that failed there, and `several_plan` and `failed_plan` are what `--plan`
prints of either. With shape.json, the graph in another shape, and anew.json another range is run, where the report is kept in either version:
`keep_1` and `keep_2`. The file `cases` has a line for each seed: the seed, the moments
of the first and the last run, the task and the run that are cleared, the moments of the first and the last run of that other range, and the exit
statuses of `single`, `dry`, `clear` from version 1 and from version 2, of several and of what failed, and of what is kept of either. The graphs
are such as `check` lets pass.
"""
import copy
import datetime
import json
import pathlib
import random
import re
import sys

import recursion

IDS = ["a", "b", "c", "load", "load.2", "x-y", "_", "-", "7", "true", "null", "Z", "99", "join"]
UNSETTLED = [*recursion.EARLY, "always"]
WAITING = [rule for rule in recursion.VERDICTS if rule not in UNSETTLED]
# Lines that are JSON of a value, of something else, and none.
LINES = [
    *["", "null", "true", "7", "-12", " 7", "\t[1 , 2]", '"x"', '"-"', '""', "[]", "[null]", '[1,[2,[]],"b"]', "[" * 64 + "]" * 64],
    *["9223372036854775807", "-9223372036854775808", r'"\u00e9\ud83d\ude00"', r'"\u0000\b\u001f\u007f\/\\\""'],
    *["9223372036854775808", "-0", "[-0]", "1.5", "[1.5]", "1e2", "1e999", '{"a":1}', "[{}]", "[" * 65 + "]" * 65, "[" * 128 + "]" * 128],
    *["x y", "-", "01", "[1,]", "[1] 2", '"x', "nul", "NaN", r'"\ud800"', "é\u2028\u00a0", "\x0b7", "\ufeff7"],
]
PIECES = ["[", "]", ",", '"', "\\", "u00e9", "-", "0", ".5", "e1", " ", "\t", "{", "}", ":", "\x01", "null", "a"]
ITEMS = [None, True, False, 0, -7, 2**63 - 1, -(2**63), "", "x", "-", "two words", "é\n\"", [], [1, ["b", None]], ["-"]]
WORDS = ["echo", "", "--all", {"context": "logical_date"}, {"context": "map_index"}, {"context": "try_number"}]
WORDS += ["$BACKFILL_DATE_NODASH", "[AIRFLOW_CTX_EXECUTION_DATE]", "$BACKFILL_TASK_ID, $BACKFILL_INTERVAL_END"]


def some(chance, among, *counts):
    """Some of these, each at most once."""
    return chance.sample(among, min(len(among), chance.choice(counts)))


def happens(chance, percent):
    return chance.random() * 100 < percent


# Graphs.


def settled_ancestors(graph, task):
    """The tasks from which it may pull."""
    if graph.tasks[task]["rule"] in UNSETTLED:
        return set()
    return set().union(*({upstream} | settled_ancestors(graph, upstream) for upstream in graph.upstreams(task)))


def is_sound(graph):
    for task, keys in graph.tasks.items():
        source = graph.source(task)
        if source is not None and (keys["rule"] in UNSETTLED or graph.is_branch(task) or source not in graph.upstreams(task)):
            return False
        if not set(graph.pulls(task)) <= settled_ancestors(graph, task) or source is None and {"item": True} in keys["command"]:
            return False
    return True


def rule(chance):
    return chance.choice(["all_success", "all_done", "none_failed"] if happens(chance, 25) else WAITING + UNSETTLED)


def task_of(chance, task, before):
    """A task behind those before it. What it pulls is chosen once its ancestors are known."""
    upstream = some(chance, before, 0, 1, 1, 2, 2, 2, 3, 3)
    keys = {"id": task, "upstream": upstream, "rule": rule(chance)}
    keys.update(retries=chance.choice([0, 0, 1, 1, 2]), depends_on_past=happens(chance, 40))
    if keys["rule"] in WAITING and upstream and happens(chance, 50):
        keys["expand"] = chance.choice(upstream)
    elif happens(chance, 30):
        keys["kind"] = "branch"
    if happens(chance, 30):
        keys.update(retry_delay=chance.choice([1, 86400]), pool=chance.choice(["p", "default_pool"]), priority_weight=chance.randint(0, 9),
                    weight_rule=chance.choice(["downstream", "upstream", "absolute"]))
    keys["upstream"] = upstream + (upstream[:1] if happens(chance, 10) else [])
    return keys


def graph_of(chance):
    tasks = []
    for task in chance.sample(IDS, chance.choice([1, 2, 3, 4, 5, 6, 7, 8, 8])):
        tasks.append(task_of(chance, task, [each["id"] for each in tasks]))
        ancestors = settled_ancestors(recursion.Graph({"dag_id": "d", "tasks": tasks}), task)
        pulls = [{"pull": each} for each in some(chance, sorted(ancestors), 0, 1, 1, 2, 3)]
        items = [{"item": True}] if "expand" in tasks[-1] else []
        tasks[-1]["command"] = some(chance, WORDS + pulls[:1] + items, 0, 1, 3) + pulls
    chance.shuffle(tasks)
    return {"dag_id": "d", "schedule": "@daily", "max_active_runs": chance.choice([1, 2, 16]), "pools": {"p": 1}, "tasks": tasks}


def change(chance, task):
    """Changes one key of a task, which needn't be good."""
    key = chance.choice(["rule", "retries", "depends_on_past", "kind", "expand", "upstream"])
    if key in ("kind", "expand"):
        task.pop("kind", None)
        task.pop("expand", None)
        task.update({"kind": "branch"} if key == "kind" else {"expand": chance.choice(task["upstream"] or ["a"])})
    elif key == "upstream":
        task["upstream"] = task["upstream"][1:]
    else:
        task[key] = {"rule": rule(chance), "retries": chance.randint(0, 3), "depends_on_past": happens(chance, 50)}[key]


def mended(chance, graph):
    """The graph, or one like it that `clear` takes with its report: the ids of the tasks in order, and their pulls, are the same."""
    good = graph
    for place in some(chance, range(len(graph["tasks"])), 0, 1, 2, 8):
        new = copy.deepcopy(good)
        change(chance, new["tasks"][place])
        good = new if is_sound(recursion.Graph(new)) else good
    return good


def is_acyclic(graph):
    left = set(graph.tasks)
    while ready := {task for task in left if not left & set(graph.upstreams(task))}:
        left -= ready
    return not left


def without(tasks, gone):
    """The tasks but for one, which none of the others names any more."""
    left = [task for task in tasks if task["id"] != gone]
    for task in left:
        task["upstream"] = [upstream for upstream in task["upstream"] if upstream != gone]
        expanded = task.get("expand") == gone and task.pop("expand") == gone
        task["command"] = [word for word in task["command"] if word != {"pull": gone} and not (expanded and word == {"item": True})]
    return left


def reshaped(chance, tasks):
    """One task more or less, another order, an edge more, a pull more or less, or another key. It needn't be good."""
    tasks = copy.deepcopy(tasks)
    ids = [task["id"] for task in tasks]
    spare = sorted(set(IDS) - set(ids))
    task = chance.choice(tasks)
    edit = chance.choice(["fewer", "more", "order", "edge", "pull", "key", "key"])
    if edit == "fewer" and len(tasks) > 1:
        return without(tasks, task["id"])
    if edit == "more" and spare:
        new = task_of(chance, chance.choice(spare), ids)
        tasks.insert(chance.randint(0, len(tasks)), {**new, "command": some(chance, [{"pull": each} for each in new["upstream"]], 0, 1, 2)})
    elif edit == "order":
        chance.shuffle(tasks)
    elif edit == "edge":
        task["upstream"].append(chance.choice(ids))
    elif edit == "pull":
        word = {"pull": chance.choice(ids)}
        task["command"] = [each for each in task["command"] if each != word] if word in task["command"] else [*task["command"], word]
    else:
        change(chance, task)
    return tasks


def in_another_shape(chance, graph):
    """A graph of the same id, some steps away."""
    good = graph
    for _ in range(chance.choice([1, 2, 3, 5, 8])):
        new = {**good, "tasks": reshaped(chance, good["tasks"])}
        shape = recursion.Graph(new)
        good = new if is_acyclic(shape) and is_sound(shape) else good
    return good


# Tables.


def line_of(chance):
    """A line of each kind, or one with a piece put somewhere into it."""
    line = chance.choice(LINES)
    place = chance.randint(0, len(line))
    return line if happens(chance, 70) else line[:place] + chance.choice(PIECES) + line[place:]


def names(chance, graph, task):
    """A line of a branch: direct downstreams mostly, as a list, one text in JSON, or one as it stands."""
    direct = graph.downstreams(task)
    if happens(chance, 80):
        named = some(chance, direct, 0, 1, 1, 2, 3)
        return named[0] if named and happens(chance, 20) else json.dumps(named[0] if len(named) == 1 and happens(chance, 30) else named)
    anyone = chance.choice(list(graph.tasks))
    return json.dumps(chance.choice([direct + ["nobody"], [anyone], anyone, [7], [None], [direct], True, 7, "nobody", None]))


def output_of(chance, graph, task):
    is_source = any(graph.source(other) == task for other in graph.tasks)
    if graph.is_branch(task) and happens(chance, 90):
        line = names(chance, graph, task)
    elif is_source and graph.source(task) is None and happens(chance, 95):
        line = json.dumps(some(chance, ITEMS, 0, 1, 2, 2, 3, 3, 4))
    else:
        line = "x" * chance.choice([65534, 65535]) if happens(chance, 1) else line_of(chance)
    end = "\n\n" if happens(chance, 5) else chance.choice(["", "\n", " \t\r\n"])
    return chance.choice(["", "", "", "first\n", "7\n\n"]) + line + end


def entry_of(chance, graph, task, dates):
    entry = {"task": task, "out": output_of(chance, graph, task)}
    indexes = [-1, -1, 0] if graph.source(task) is None else [0, 1, 2]
    for key, percent, among in ("run", 40, dates), ("try", 50, [1, 1, 1, 2, 3, 0]), ("index", 60, indexes):
        if happens(chance, percent):
            entry[key] = chance.choice(among)
    is_rare = entry.get("try", 1) > 1 or entry.get("index", -1) >= 0
    return entry | {"status": chance.choice([0, 1, 99] if is_rare else [0, 0, 0, 0, 0, 0, 0, 0, 1, 2, 99])}


def table_of(chance, graph, dates):
    """Some entries for each task, and behind them one for all that is left of it."""
    entries = [entry_of(chance, graph, task, dates) for task in graph.tasks for _ in range(chance.randint(0, 5))]
    chance.shuffle(entries)
    if happens(chance, 5):
        entries.insert(chance.randint(0, len(entries)), {"run": chance.choice(dates), "status": chance.choice([0, 1, 99])})
    for task in graph.tasks:
        if happens(chance, 85):
            entries.append({"task": task, "out": output_of(chance, graph, task)})
    return entries


# Cases.


def days_from(first, count):
    """The data intervals of so many days."""
    moments = [f"{first + datetime.timedelta(days=number)}T00:00:00Z" for number in range(count + 1)]
    return list(zip(moments, moments[1:]))


def intervals_of(chance):
    return days_from(datetime.date(2024, 2, 27), chance.randint(3, 4))


def other_intervals(chance):
    """Days before and behind those, some of them or none."""
    return days_from(datetime.date(2024, 2, chance.randint(25, 29)), chance.randint(1, 6))


def several_of(chance, graph, dates):
    """Some tasks to clear, each with a run and a map index or None."""
    indexes = [None, None, -1, 0, 1, 2, 2147483647]
    return [(chance.choice(list(graph.tasks)), chance.choice(dates), chance.choice(indexes)) for _ in range(chance.choice([0, 2, 3, 4, 5]))]


def in_version_1(report):
    return re.sub(r"(?m)^@(item|pull) .*\n", "", report.replace("@backfill 2 ", "@backfill 1 ", 1))


def write_case(folder, seed):
    """Writes the files of a seed, and answers its line."""
    chance = random.Random(seed)
    intervals = intervals_of(chance)
    dates = [start for start, _ in intervals]
    files = {"graph.json": graph_of(chance)}
    graph = recursion.Graph(files["graph.json"])
    files["table.json"] = table = table_of(chance, graph, dates)
    files["single"], single = recursion.report_by_table(graph, table, [(dates[0], dates[0])], {})
    files["dry_2"], dry = recursion.report_by_table(graph, table, intervals, {})
    files["dry_1"] = in_version_1(files["dry_2"])
    files["mended.json"] = mended(chance, files["graph.json"])
    graph = recursion.Graph(files["mended.json"])
    files["again.json"] = table = table_of(chance, graph, dates)
    task, run = chance.choice(list(graph.tasks)), chance.choice(dates[:2])
    statuses = [single, dry]
    for version in 1, 2:
        kept = recursion.kept_outcomes(graph, files[f"dry_{version}"], [(task, run, None)])
        files[f"clear_{version}"], status = recursion.report_by_table(graph, table, intervals, kept)
        statuses.append(status)
    several = several_of(chance, graph, dates)
    files["seeds"] = "".join(f"{start} {task}{'' if index is None else f' {index}'}\n" for task, start, index in several)
    for name, cleared in ("several", several), ("failed", recursion.failed_in(files["dry_2"])):
        files[f"{name}_plan"] = recursion.plan_of(graph, dates, cleared)
        files[name], status = recursion.report_by_table(graph, table, intervals, recursion.kept_outcomes(graph, files["dry_2"], cleared))
        statuses.append(status)
    files["shape.json"] = in_another_shape(chance, files["graph.json"])
    graph = recursion.Graph(files["shape.json"])
    others = other_intervals(chance)
    files["anew.json"] = table = table_of(chance, graph, [start for start, _ in others])
    for version in 1, 2:
        kept = recursion.kept_by_ids(graph, files[f"dry_{version}"], others)
        files[f"keep_{version}"], status = recursion.report_by_table(graph, table, others, kept)
        statuses.append(status)
    (folder / f"{seed}").mkdir()
    for name, content in files.items():
        text = content if isinstance(content, str) else json.dumps(content) + "\n"
        (folder / f"{seed}" / name).write_bytes(text.encode())
    return " ".join(map(str, [seed, dates[0], dates[-1], task, run, others[0][0], others[-1][0], *statuses])) + "\n"


def write_cases(write_case, usage):
    """Writes the files of the seeds that the line asks for, and the file `cases`, of the line that each seed has or of none."""
    if len(sys.argv) != 4:
        sys.exit(usage)
    folder, first, count = pathlib.Path(sys.argv[1]), int(sys.argv[2]), int(sys.argv[3])
    (folder / "cases").write_text("".join(write_case(folder, seed) for seed in range(first, first + count)))


if __name__ == "__main__":
    write_cases(write_case, __doc__)
