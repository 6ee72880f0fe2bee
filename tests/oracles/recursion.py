#!/usr/bin/env python3
"""The report of a backfill by a plain recursion over dates, read off docs/SPECIFICATION.md and docs/FORMATS.md.

    recursion.py GRAPH TABLE INTERVALS                     what `dry` and `single` print
    recursion.py GRAPH TABLE INTERVALS REPORT TASK RUN     what `clear --table` prints

INTERVALS has a line `START END` for each run, as `list` prints them, and RUN is the start of one. The exit status is that of
the program. There are no scheduler, pool, weight, worker and delay here, since none of them changes a report; and the files are
taken to be good.
"""
import collections
import json
import pathlib
import sys

MOST_ITEMS = 1024
LONGEST_VALUE = 65536
DEEPEST_LISTS = 64
SKIP_CODE = 99
DEFAULTS = {"upstream": [], "rule": "all_success", "kind": "program", "command": [], "expand": None, "depends_on_past": False, "retries": 0}

# An instance of a task in a run. One with 0 tries stands for a task that is skipped, upstream_failed or blocked without a try. Its
# value is None where nothing was pushed, and `given` has the lines of the report that tell its item and what it pulled.
Instance = collections.namedtuple("Instance", "index state tries value given")

# A run has the instances of each task that is decided. The previous run of the first is None.
Run = collections.namedtuple("Run", "start end previous instances")

# The verdict of each rule, by how many instances of the upstreams are success, failed, upstream_failed and skipped.
VERDICTS = {
    "all_success": lambda s, f, u, k: "upstream_failed" if f + u >= 1 else "skipped" if k >= 1 else "run",
    "all_failed": lambda s, f, u, k: "run" if f + u == s + f + u + k else "skipped",
    "all_skipped": lambda s, f, u, k: "run" if k == s + f + u + k else "skipped",
    "all_done": lambda s, f, u, k: "run",
    "one_success": lambda s, f, u, k: "run" if s >= 1 else "skipped" if k == s + f + u + k else "upstream_failed",
    "one_failed": lambda s, f, u, k: "run" if f + u >= 1 else "skipped",
    "one_done": lambda s, f, u, k: "run" if s + f >= 1 else "skipped",
    "none_failed": lambda s, f, u, k: "upstream_failed" if f + u >= 1 else "run",
    "none_failed_min_one_success": lambda s, f, u, k: "upstream_failed" if f + u >= 1 else "run" if s >= 1 else "skipped",
    "none_skipped": lambda s, f, u, k: "skipped" if k >= 1 else "run",
    "always": lambda s, f, u, k: "run",
}
EARLY = ["one_success", "one_failed", "one_done"]


class Graph:
    """A graph file: its tasks by id, in the order of the file."""

    def __init__(self, file):
        self.dag_id = file["dag_id"]
        self.tasks = {task["id"]: {**DEFAULTS, **task} for task in file["tasks"]}

    def upstreams(self, task):
        return list(dict.fromkeys(self.tasks[task]["upstream"]))

    def downstreams(self, task):
        return [other for other in self.tasks if task in self.upstreams(other)]

    def reaches(self, task, other):
        return any(below == other or self.reaches(below, other) for below in self.downstreams(task))

    def rank(self, task):
        return max((1 + self.rank(upstream) for upstream in self.upstreams(task)), default=0)

    def is_branch(self, task):
        return self.tasks[task]["kind"] == "branch"

    def source(self, task):
        """The task that it is expanded over, or None."""
        return self.tasks[task]["expand"]

    def pulls(self, task):
        words = self.tasks[task]["command"]
        return list(dict.fromkeys(word["pull"] for word in words if isinstance(word, dict) and "pull" in word))


# The value of a line.


def text_of(value):
    """The compact JSON text of a value."""
    return json.dumps(value, ensure_ascii=False, separators=(",", ":"))


def last_line(output):
    return output.removesuffix("\n").rpartition("\n")[2].rstrip(" \t\r")


def refuse(_):
    raise ValueError("kept as text")


def whole_number(digits):
    number = int(digits)
    return number if -(2**63) <= number < 2**63 and digits != "-0" else refuse(digits)


def depth(value):
    return 1 + max(map(depth, value), default=0) if isinstance(value, list) else 0


def value_of(line):
    """None, or the truth value, whole number, text or list that the line is in JSON. Any other line is a text."""
    if line == "":
        return None
    try:
        value = json.loads(line, parse_int=whole_number, parse_float=refuse, parse_constant=refuse, object_hook=refuse)
        text_of(value).encode()  # refuses half of a pair of surrogates
        return value if depth(value) <= DEEPEST_LISTS else line
    except (ValueError, RecursionError):
        return line


# Programs and grades.


def names_of(pushed):
    """What a branch names by what it pushed."""
    return [] if pushed is None else pushed if isinstance(pushed, list) else [pushed]


def may_push(graph, task, value):
    if value is not None and len(text_of(value).encode()) > LONGEST_VALUE:
        return False
    if graph.is_branch(task) and not all(name in graph.downstreams(task) for name in names_of(value)):
        return False
    if graph.source(task) is None and any(graph.source(other) == task for other in graph.tasks):
        return isinstance(value, list) and len(value) <= MOST_ITEMS
    return True


def grade(graph, task, status, output):
    """The state of a try, and what it pushed."""
    if status == SKIP_CODE:
        return "skipped", None
    value = value_of(last_line(output))
    return ("success", value) if status == 0 and may_push(graph, task, value) else ("failed", None)


def answer(table, name):
    """The exit code and the output of the first entry that matches a try."""
    for entry in table:
        if all(key not in entry or entry[key] == name[key] for key in name):
            return entry.get("status", 0), entry.get("out", "")
    return 0, ""


# Deciding a task in a run.


def is_blocked(instances):
    return instances[0].state == "no_status"


def follows(graph, pushed, task):
    return any(name == task or graph.reaches(name, task) for name in names_of(pushed))


def verdict(graph, task, run):
    """What the upstreams say: run, skipped, upstream_failed or blocked."""
    upstreams = {upstream: run.instances[upstream] for upstream in graph.upstreams(task)}
    if not upstreams:
        return "run"
    branches = [instances for upstream, instances in upstreams.items() if graph.is_branch(upstream)]
    if any(branch.state == "success" and not follows(graph, branch.value, task) for [branch] in branches):
        return "skipped"
    if any(map(is_blocked, branches)):
        return "blocked"
    states = [instance.state for instances in upstreams.values() for instance in instances]
    counts = [states.count(state) for state in ("success", "failed", "upstream_failed", "skipped")]
    rule = graph.tasks[task]["rule"]
    if rule in EARLY + ["always"] and VERDICTS[rule](*counts) == "run":
        return "run"
    if any(map(is_blocked, upstreams.values())):
        return "blocked"
    return VERDICTS[rule](*counts)


def past_has_succeeded(graph, task, run):
    """Nothing is asked of the past in the first run of the range."""
    if not graph.tasks[task]["depends_on_past"] or run.previous is None:
        return True
    return all(instance.state in ("success", "skipped") for instance in run.previous.instances[task])


# Pulls, expansion and tries.


def pulled(graph, task, run):
    """What a pull from a task gives, or None. A task that is expanded over it gets the same for its items."""
    instances = run.instances[task]
    if graph.source(task) is None:
        return instances[0].value
    if instances[0].tries == 0:
        return None
    return [instance.value for instance in instances if instance.value is not None]


def given(graph, task, run, index, items):
    """The lines that tell what all tries of an instance are given."""
    lines = [f"@item {text_of(items[index])}"] if index >= 0 else []
    for upstream in graph.pulls(task):
        value = pulled(graph, upstream, run)
        lines.append(f"@pull {upstream} {'-' if value is None else text_of(value)}")
    return lines


def instance_of(retries, place, lines, outcome):
    """The instance of a run, a task and a map index: tried until a try doesn't fail, or its retries are used up."""
    for number in range(1, retries + 2):
        state, value = outcome(*place, number, lines)
        if state != "failed":
            break
    return Instance(place[2], state, number, value, lines)


def without_try(state):
    return [Instance(-1, state, 0, None, [])]


def instances_of(graph, task, run, outcome):
    """The instances of a task in a run in which all its upstreams are decided."""
    state = verdict(graph, task, run)
    if state == "blocked" or state == "run" and not past_has_succeeded(graph, task, run):
        return without_try("no_status")
    if state != "run":
        return without_try(state)
    indexes, items = [-1], None
    if graph.source(task) is not None:
        items = pulled(graph, graph.source(task), run)
        if items is None:
            return without_try("upstream_failed")
        if items == []:
            return without_try("skipped")
        indexes = range(len(items))
    retries = graph.tasks[task]["retries"]
    return [instance_of(retries, (run.start, task, index), given(graph, task, run, index, items), outcome) for index in indexes]


def backfill(graph, intervals, outcome):
    """The runs by date, and in each the tasks by their depth in the graph."""
    runs = []
    for start, end in intervals:
        run = Run(start, end, runs[-1] if runs else None, {})
        for task in sorted(graph.tasks, key=graph.rank):
            run.instances[task] = instances_of(graph, task, run, outcome)
        runs.append(run)
    return runs


# Reports.


def is_failed(graph, run):
    leaves = [task for task in graph.tasks if not graph.downstreams(task)]
    states = [instance.state for task in leaves for instance in run.instances[task]]
    return "failed" in states or "upstream_failed" in states or any(map(is_blocked, run.instances.values()))


def report_of(graph, runs):
    """The text of a report, and the exit status."""
    lines = [f"@backfill 2 {graph.dag_id}"]
    for run in runs:
        lines.append(f"@run {run.start} {run.end} {'failed' if is_failed(graph, run) else 'success'}")
        for task in graph.tasks:
            for index, state, tries, value, given_lines in run.instances[task]:
                lines.append(f"{task} {index} {state} {tries} {'-' if value is None else text_of(value)}")
                lines += given_lines
    lines.append(f"@end {len(runs)}")
    return "".join(f"{line}\n" for line in lines), int(any(is_failed(graph, run) for run in runs))


def read_report(report):
    """The version of a report, and its runs."""
    head, *lines, _ = report.removesuffix("\n").split("\n")
    runs = []
    for line in lines:
        if line.startswith("@run "):
            runs.append(Run(*line.split(" ")[1:3], None, {}))
        elif line.startswith("@"):
            last.given.append(line)
        else:
            task, index, state, tries, value = line.split(" ", 4)
            last = Instance(int(index), state, int(tries), None if value == "-" else json.loads(value), [])
            runs[-1].instances.setdefault(task, []).append(last)
    return int(head.split(" ")[1]), runs


# Clearing.


def cleared_by(graph, starts, seeds):
    """What is cleared, with all that follows from it, of seeds that are each a task, the start of a run, and a map index or None: each the
    start of a run, a task, and the map index of an instance, or None where all of the task is cleared."""
    cleared = set()
    left = [(starts.index(start), task, index) for task, start, index in seeds]
    while left:
        run, task, index = left.pop()
        if run < len(starts) and (starts[run], task, index) not in cleared:
            cleared.add((starts[run], task, index))
            left += [(run, below, None) for below in graph.downstreams(task)]
            left += [(run + 1, task, None)] if graph.tasks[task]["depends_on_past"] else []
    return cleared


def failed_in(report):
    """The seeds of the instances that failed."""
    _, runs = read_report(report)
    instances = [(run.start, task, instance) for run in runs for task, told in run.instances.items() for instance in told]
    return [(task, start, instance.index) for start, task, instance in instances if instance.state == "failed"]


def plan_of(graph, starts, seeds):
    """What `clear --plan` prints."""
    cleared = cleared_by(graph, starts, seeds)
    tasks = {}
    for start in starts:
        for task in graph.tasks:
            indexes = sorted(index for at, of, index in cleared if (at, of) == (start, task) and index is not None)
            if (start, task, None) in cleared:
                tasks[start, task] = [f"{start} {task}"]
            elif indexes:
                tasks[start, task] = [f"{start} {task} {index}" for index in indexes]
    lines = [line for told in tasks.values() for line in told]
    return "".join(f"{line}\n" for line in [*lines, f"{len(tasks)} tasks in {len({start for start, _ in tasks})} runs"])


def worked_out(graph, task, run, index):
    """What an instance was given by a report of version 1, which doesn't tell it; None where its source gives no such item."""
    items = pulled(graph, graph.source(task), run) if graph.source(task) is not None else None
    if index >= 0 and not (isinstance(items, list) and index < len(items)):
        return None
    return given(graph, task, run, index, items)


def values_given(lines):
    """The text of an item, or None, and those of the pulled values, by the lines that tell them."""
    item = [line.split(" ", 1)[1] for line in lines if line.startswith("@item ")] or [None]
    return [*item, *[line.split(" ", 2)[2] for line in lines if line.startswith("@pull ")]]


def outcomes_in(graph, version, runs, cleared):
    """The outcomes of the tries that runs tell of and that are kept: by run, task, map index and try, and by what they were given."""
    kept = {}
    for run in runs:
        for task, instances in run.instances.items():
            for index, state, tries, value, lines in instances:
                if version == 1:
                    lines = worked_out(graph, task, run, index)
                if tries == 0 or lines is None or {(run.start, task, None), (run.start, task, index)} & cleared:
                    continue
                for number in range(1, tries):
                    kept[run.start, task, index, number, *values_given(lines)] = "failed", None
                if state != "success" or may_push(graph, task, value):
                    kept[run.start, task, index, tries, *values_given(lines)] = state, value
    return kept


def kept_outcomes(graph, report, seeds):
    """Those that are kept where these are cleared."""
    version, runs = read_report(report)
    return outcomes_in(graph, version, runs, cleared_by(graph, [run.start for run in runs], seeds))


def kept_by_ids(graph, report, intervals):
    """Those that are kept of a report of another range, or of the graph in another shape."""
    version, runs = read_report(report)
    told = {(run.start, run.end): run.instances for run in runs}
    tasks = [(start, end, told.get((start, end), {})) for start, end in intervals]
    runs = [Run(start, end, None, {task: held.get(task, without_try("no_status")) for task in graph.tasks}) for start, end, held in tasks]
    return outcomes_in(graph, version, runs, set())


def report_by_table(graph, table, intervals, kept, made=None):
    """The report where each try is answered by the kept one of its name that was given the same, and else by the table: the outcomes of
    those are put into `made`, as they are kept."""

    def outcome(start, task, index, number, lines):
        name = start, task, index, number, *values_given(lines)
        if name in kept:
            return kept[name]
        graded = grade(graph, task, *answer(table, {"run": start, "task": task, "index": index, "try": number}))
        if made is not None:
            made[name] = graded
        return graded

    return report_of(graph, backfill(graph, intervals, outcome))


def main():
    if len(sys.argv) not in (4, 7):
        sys.exit(__doc__)
    graph, table, intervals, *clearing = [pathlib.Path(path).read_text("utf-8") for path in sys.argv[1:5]]
    graph = Graph(json.loads(graph))
    kept = kept_outcomes(graph, clearing[0], [(*sys.argv[5:], None)]) if clearing else {}
    report, status = report_by_table(graph, json.loads(table), [line.split() for line in intervals.splitlines()], kept)
    sys.stdout.write(report)
    return status


if __name__ == "__main__":
    sys.exit(main())
