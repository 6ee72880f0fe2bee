"""What `single`, `dry` and `clear --table` tell of their files, in the order in which these are looked at. It is a plain reading of
docs/FORMATS.md ("Table of answers", "Moments", "Order of looking", "What the program prints") and docs/SPECIFICATION.md ("Clearing"),
by somebody who hasn't seen the code. Graphs are looked at by faults.py, ranges by intervals.py, and what comes of sound files by
recursion.py. Reports are taken to be good but at their end, and zones to be UTC.
"""
import collections
import json
import re

import faults
import intervals
import recursion

DEEPEST_JSON = 127
LENGTH_OF_MOMENT = 20
ENTRY_KEYS = {"task": str, "index": int, "run": str, "try": int, "status": int, "out": str}
CLEAR_WORDS = {30: "bad line: {}", 32: "truncated", 40: "unknown task", 41: "unknown run", 42: "report mismatch"}

# The words of a command, of which the moments and the task are texts as they stand on the line. Each file is its bytes, or None where
# it can't be read. The report, the task and the run are None but for `clear`.
Case = collections.namedtuple("Case", "command graph table first last report task run")


class Refused(Exception):
    """A whole line that is told, with its exit status."""


def refuse(number, words):
    raise Refused(2, f"refused {number} {words}\n")


# Tables.


def fraction(digits):
    """A number that is no whole one. One that is too large for a float is no JSON to the reader."""
    number = float(digits)
    return number if abs(number) != float("inf") else recursion.refuse(digits)


def number_of(digits):
    try:
        return recursion.whole_number(digits)
    except ValueError:
        return fraction(digits)


def nesting(value):
    held = value.values() if type(value) is dict else value if type(value) is list else None
    return 0 if held is None else 1 + max(map(nesting, held), default=0)


def json_of(content):
    """The value of a file, or a ValueError where the reader takes it for no JSON."""
    value = json.loads(content.decode(), parse_int=number_of, parse_float=fraction, parse_constant=recursion.refuse)
    json.dumps(value, ensure_ascii=False).encode()  # refuses half of a pair of surrogates
    return value if nesting(value) <= DEEPEST_JSON else recursion.refuse(content)


def is_moment(text):
    try:
        intervals.moment_of(text)
    except intervals.Refused:
        return False
    return len(text) == LENGTH_OF_MOMENT


def is_entry(entry):
    if type(entry) is not dict:
        return False
    for key, value in entry.items():
        if type(value) is not ENTRY_KEYS.get(key):
            return False
        if key == "run" and not is_moment(value) or key == "status" and not 0 <= value <= 255:
            return False
    return True


def read_table(content):
    if len(content) > faults.MOST_BYTES:
        refuse(19, "bad table: file")
    try:
        table = json_of(content)
    except ValueError:
        refuse(19, "bad table: file")
    if type(table) is not list:
        refuse(19, "bad table: file")
    for place, entry in enumerate(table):
        if not is_entry(entry):
            refuse(19, f"bad table: {place}")
    return table


# What is told, in the order of looking.


def moment_of(text):
    try:
        return intervals.moment_of(text)
    except intervals.Refused:
        refuse(28, intervals.WORDS[28])


def read_file(content, path):
    if content is None:
        raise Refused(3, f"fault: cannot read {path}\n")
    return content


def read_graph(content):
    status, line = faults.told(content.decode(), None)
    if status != 0:
        raise Refused(status, f"{line}\n")
    return recursion.Graph(json.loads(content))


def runs_of(case, graph_file, first, last):
    """The data intervals of the range. The one of `single` starts and ends at its moment."""
    try:
        if case.command == "single":
            intervals.bounded(first, intervals.FIRST_MOMENT, intervals.LAST_MOMENT, 25)
            return [(intervals.spelled(first),) * 2]
        pairs = intervals.intervals(intervals.Schedule(graph_file["schedule"]), intervals.Zone(0), first, last)
        return [(intervals.spelled(start), intervals.spelled(end)) for start, end in pairs]
    except intervals.Refused as refused:
        refuse(refused.args[0], intervals.WORDS[refused.args[0]])


def look_at_end(report):
    """A report that is good but at its end: what is missing there, or stands behind it."""
    end = re.search(r"(?m)^@end [0-9]+\n", report)
    if end is None:
        refuse(32, CLEAR_WORDS[32])
    if end.end() < len(report):
        refuse(30, CLEAR_WORDS[30].format(report[:end.end()].count("\n") + 1))


def pulls_differ(graph, task, instance):
    return instance.tries > 0 and [line.split(" ")[1] for line in instance.given if line.startswith("@pull ")] != graph.pulls(task)


def is_of_other(graph, runs, report):
    """Whether a report is of another graph or range."""
    version, reported = recursion.read_report(report)
    dag_id = report.partition("\n")[0].split(" ")[2]
    if dag_id != graph.dag_id or [(run.start, run.end) for run in reported] != runs:
        return True
    if any(list(run.instances) != list(graph.tasks) for run in reported):
        return True
    lines = [(task, instance) for run in reported for task, instances in run.instances.items() for instance in instances]
    return version == 2 and any(pulls_differ(graph, *line) for line in lines)


def kept_of(case, folder, graph, runs, run):
    """The tries that are kept of the report, once it and the seed are looked at."""
    report = read_file(case.report, folder / "report").decode()
    look_at_end(report)
    if case.task not in graph.tasks:
        refuse(40, CLEAR_WORDS[40])
    if run not in [moment_of(start) for start, _ in runs]:
        refuse(41, CLEAR_WORDS[41])
    if is_of_other(graph, runs, report):
        refuse(42, CLEAR_WORDS[42])
    return recursion.kept_outcomes(graph, report, [(case.task, intervals.spelled(run), None)])


def told(case, folder):
    """What is printed of the files in a folder, and the exit status."""
    try:
        first, last, *run = [moment_of(text) for text in (case.first, case.last, case.run) if text is not None]
        content, table = read_file(case.graph, folder / "graph.json"), read_file(case.table, folder / "table.json")
        graph = read_graph(content)
        table = read_table(table)
        runs = runs_of(case, json.loads(content), first, last)
        kept = kept_of(case, folder, graph, runs, *run) if run else {}
        return recursion.report_by_table(graph, table, runs, kept)
    except Refused as refused:
        return refused.args[1], refused.args[0]
