#!/usr/bin/env python3
"""The grid that `show` prints of a report of a graph, read off docs/FORMATS.md ("Grid")."""
import collections
import datetime
import itertools
import re

from showing import FAILED, NO_STATUS, SKIPPED, STATES, SUCCESS, UPSTREAM_FAILED

Asked = collections.namedtuple("Asked", "start end failed width colored")

LETTERS = {SUCCESS: ".", FAILED: "F", UPSTREAM_FAILED: "u", SKIPPED: "s", NO_STATUS: "n"}
MEANINGS = {".": "success", ":": "retried", "F": "failed", "u": "upstream_failed", "s": "skipped", "n": "no_status"}
WORST_FIRST = "Fun:.s"
COLORS = {".": "32", ":": "32", "F": "1;97;41", "u": "30;43", "s": "35", "n": "36"}
# What stands above columns at least so many seconds apart: how many characters of a moment say the group, and where the two digits stand.
DAY = 86_400
SCALES = [(300 * DAY, 3, 2), (28 * DAY, 4, 5), (DAY // 4, 7, 8), (900, 10, 11), (0, 13, 14)]


def short(moment):
    return moment.removesuffix("T00:00:00Z")


def plural(count, noun):
    return f"{count:,} {noun}" + "s" * (count != 1)


def named(starts):
    names = [short(start) for start in starts]
    if len(names) > 4:
        names[3:] = [f"{len(names) - 3:,} more"]
    return re.sub(", ([^,]*)$", r" and \1", ", ".join(names))


def rows_of(graph):
    """Sources in file order, and behind each task those of its downstreams that wait for nothing more."""
    waits = [set(upstreams) for upstreams in graph.up]
    rows, left = [], [task for task in range(len(waits)) if not waits[task]]
    while left:
        task, *left = left
        rows.append(task)
        freed = [below for below in range(len(waits)) if task in waits[below] and waits[below] <= set(rows)]
        left = freed + left
    return rows


def mark_of(instances):
    states = {instance.state for instance in instances}
    if FAILED in states:
        return "F"
    if SUCCESS in states:
        return ":" if any(instance.tries > 1 for instance in instances) else "."
    return LETTERS[instances[0].state]


def is_bad(instances):
    return any(instance.state in (FAILED, UPSTREAM_FAILED, NO_STATUS) for instance in instances)


def sums_of(instances):
    return [sum(instance.state == state for instance in instances) for state in range(len(STATES))]


def scale_of(starts):
    seconds = [datetime.datetime.fromisoformat(start).timestamp() for start in starts]
    least = min((after - before for before, after in itertools.pairwise(seconds)), default=DAY)
    return next(scale for scale in SCALES if least >= scale[0])


def groups_line(starts, size):
    groups = [(group + "0s" * (size == 3), len(list(same))) for group, same in itertools.groupby(start[:size] for start in starts)]
    line = ""
    for place, (label, count) in enumerate(groups):
        room = count if place + 1 < len(groups) else max(count, 99)
        shown = label if len(label) < room else label[-3:] if len(label) > 5 and room > 3 else ""
        line += shown.ljust(count)
    return line


def cut(name, room):
    front = (room - 2) // 2
    return name if len(name) <= room else name[:front] + ".." + name[front - room + 2 :]


def grid(graph, report, asked):
    def painted(code, text):
        return f"\x1b[{code}m{text}\x1b[0m" if asked.colored else text

    every = report.runs
    head = [painted(1, graph.dag_id), *[f"{short(every[0].start)} to {short(every[-1].start)}"] * bool(every)]
    lines = ["  ".join([*head, f"{plural(len(every), 'run')}, {sum(run.state == 'failed' for run in every):,} failed"])]
    runs = [run for run in every if asked.start <= run.start <= (asked.end or "~") and (not asked.failed or any(map(is_bad, run.tasks)))]
    tasks = [task for task in rows_of(graph) if not asked.failed or any(is_bad(run.tasks[task]) for run in runs)]
    if every and (len(runs) < len(every) or len(tasks) < len(graph.tasks)):
        lines.append(f"shown: {len(runs):,} of {plural(len(every), 'run')}, {len(tasks):,} of {plural(len(graph.tasks), 'task')}")
    if not runs:
        return "\n".join(lines) + "\n"

    sums = {task: sums_of([instance for run in runs for instance in run.tasks[task]]) for task in tasks}
    of_runs = [sum(run.state == word for run in runs) for word in ("success", "failed")] + [0, 0, 0]
    total = [sum(column) for column in zip([0] * 5, *sums.values())]
    states = [state for state in range(5) if total[state] or state == FAILED and of_runs[FAILED]]
    widths = {state: len(f"{max(total[state], of_runs[state]):,}") for state in states}
    names = min(max([3] + [len(graph.id(task)) for task in tasks]), max(12, asked.width // 3))
    room = max(8, asked.width - names - 4 - sum(width + 1 for width in widths.values()))
    each = -(-len(runs) // room)
    columns = [runs[place : place + each] for place in range(0, len(runs), each)]
    if each > 1:
        lines.append(f"a column is {each} runs, and shows the worst of them")

    def row(name, marks, counts):
        shown = "".join(painted(COLORS[mark], "".join(same)) for mark, same in itertools.groupby(marks))
        beside = "".join(" " + (f"{counts[state]:,}" if counts[state] else "").rjust(widths[state]) for state in states)
        return f"{cut(name, names).ljust(names)}  {shown}  {beside}".rstrip()

    starts = [column[0].start for column in columns]
    _, size, place = scale_of(starts)
    beside = "".join(" " + LETTERS[state].rjust(widths[state]) for state in states)
    above = [groups_line(starts, size), "".join(start[place] for start in starts), "".join(start[place + 1] for start in starts) + "  " + beside]
    lines += ["", *((" " * (names + 2) + line).rstrip() for line in above)]
    lines.append(row("run", ["F" if any(run.state == "failed" for run in column) else "." for column in columns], of_runs))
    for task in tasks:
        lines.append(row(graph.id(task), [min((mark_of(run.tasks[task]) for run in column), key=WORST_FIRST.index) for column in columns], sums[task]))
    seen = {mark_of(run.tasks[task]) for run in runs for task in tasks}
    if seen:
        lines += ["", "  ".join(f"{painted(COLORS[mark], mark)} {meaning}" for mark, meaning in MEANINGS.items() if mark in seen)]

    failing = [(task, [run.start for run in runs if any(instance.state == FAILED for instance in run.tasks[task])]) for task in tasks]
    failing = sorted((pair for pair in failing if pair[1]), key=lambda pair: -len(pair[1]))
    if failing:
        told = [(graph.id(task), plural(len(found), "run"), named(found)) for task, found in failing[:20]]
        id_width, runs_width = max(len(task) for task, _, _ in told), len(told[0][1])
        lines += ["", "tasks that failed themselves"]
        lines += [f"  {task.ljust(id_width)}  {count.rjust(runs_width)}  {found}" for task, count, found in told]
        lines += [f"  and {len(failing) - 20} more"] * (len(failing) > 20)
    return "\n".join(lines) + "\n"


# ---- by chance


def longer(chance, report_text):
    """A report of the same graph with up to 60 runs, which are those of a report in turn, at moments so far apart."""
    head, *lines = report_text.removesuffix("\n").split("\n")[:-1]
    blocks = []
    for line in lines:
        if line.startswith("@run "):
            blocks.append([])
        blocks[-1].append(line)
    if not blocks:
        return report_text
    step = datetime.timedelta(minutes=chance.choice([5, 60, 24 * 60, 31 * 24 * 60, 366 * 24 * 60]))
    start = datetime.datetime(2000, 1, 1, 6) - chance.choice([datetime.timedelta(0), datetime.timedelta(hours=6)])
    count, text = chance.choice([1, 2, 9, 40, 60]), [head]
    for at in range(count):
        first, *instances = chance.choice(blocks)
        begun, ended = start + at * step, start + (at + 1) * step
        text += [f"@run {begun:%Y-%m-%dT%H:%M:%SZ} {ended:%Y-%m-%dT%H:%M:%SZ} {first.split(' ')[3]}", *instances]
    return "\n".join([*text, f"@end {count}\n"])


def asked_by_chance(chance, report):
    """What is asked of a grid, and the options that ask for it."""
    starts = sorted(chance.choice(["", *(run.start for run in report.runs)]) for _ in range(2))
    start, end = (moment * (chance.random() < 0.6) for moment in starts)
    failed, colored, width = chance.random() < 0.4, chance.random() < 0.3, chance.choice([20, 30, 60, 80, 200])
    options = ["--width", str(width)] + ["--failed"] * failed + ["--color=always"] * colored
    options += ["--from", short(start)] * bool(start) + ["--to", end] * bool(end)
    return Asked(start, end, failed, width, colored), options
