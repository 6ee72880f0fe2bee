#!/usr/bin/env python3
"""What is kept of a journal, and what is recorded in one: docs/FORMATS.md ("Journal") and docs/SPECIFICATION.md ("Going on from a
journal"), read by somebody who hasn't seen the code.

    journaling.py GRAPH TABLE INTERVALS REPORT TASK RUN JOURNAL     what `clear --table --journal` prints to standard output

As with recursion.py, whose outcomes are kept by run, task, map index and try, and by what the tries were given.
"""
import json
import pathlib
import sys

import recursion

STATES = ["success", "failed", "skipped"]
LEAST_INDEX, MOST_INDEX = -(2**31), 2**31 - 1
MOST_TRY = 2**32 - 1


class Refused(Exception):
    """A journal that is refused, with the words that are told."""


# Lines.


def head_of(graph, intervals, cleared):
    """The first line of a journal. What is cleared is a list of tasks and runs, or None for `run`."""
    tasks = [[task, *graph.pulls(task)] for task in graph.tasks]
    members = ["backfill journal", 1, graph.dag_id, tasks, [list(pair) for pair in intervals]]
    return recursion.text_of(members if cleared is None else [*members, cleared]) + "\n"


def record_of(name, outcome):
    """The members of a record but for its times. What isn't there is a list of none."""
    start, task, index, number, item, *pulled = name
    state, value = outcome
    optional = [[] if text in (None, "-") else [json.loads(text)] for text in [item, *pulled]]
    return [start, task, index, number, state, [] if value is None else [value], optional[0], optional[1:]]


# Reading.


def is_optional(value):
    return isinstance(value, list) and len(value) <= 1


def is_number(value, least, most):
    return type(value) is int and least <= value <= most


def members_of(line):
    """The nine members of a record, or a ValueError."""
    refuse = recursion.refuse
    members = json.loads(line.decode(), parse_int=recursion.whole_number, parse_float=refuse, parse_constant=refuse, object_hook=refuse)
    json.dumps(members, ensure_ascii=False).encode()  # refuses half of a pair of surrogates
    return members if isinstance(members, list) and len(members) == 9 else refuse(line)


def tried(graph, starts, line):
    """The name and the outcome that a record tells, or None where it tells of no try. What was pushed is a list of one or of none."""
    try:
        start, task, index, number, state, pushed, item, pulled, _ = members_of(line)
    except (ValueError, RecursionError):
        return None
    if start not in starts or task not in list(graph.tasks) or state not in STATES:
        return None
    if not is_number(index, LEAST_INDEX, MOST_INDEX) or not is_number(number, 0, MOST_TRY):
        return None
    if not is_optional(pushed) or not is_optional(item) or not isinstance(pulled, list) or not all(map(is_optional, pulled)):
        return None
    if state != "success" and pushed:
        return None
    item = recursion.text_of(item[0]) if item else None
    return (start, task, index, number, item, *[recursion.text_of(value[0]) if value else "-" for value in pulled]), (state, pushed)


def may_be(graph, task, state, pushed):
    """Whether a try of the task may end so."""
    if state != "success" or not pushed:
        return state != "success" or recursion.may_push(graph, task, None)
    return pushed[0] is not None and recursion.depth(pushed[0]) <= recursion.DEEPEST_LISTS and recursion.may_push(graph, task, pushed[0])


def whole_of(head, content):
    """The whole lines of a journal behind its head, or None where it is to be begun anew, and how many bytes were cut short."""
    if head.startswith(content) and content != head:
        return None, len(content)
    if not content.startswith(head):
        raise Refused("43 journal mismatch")
    *lines, torn = content[len(head):].split(b"\n")
    return lines, len(torn)


def last_outcomes(graph, starts, lines):
    """By the name of each try the last outcome that it may have, with what it was given."""
    last = {}
    for place, line in enumerate(lines):
        told = tried(graph, starts, line)
        if told is None:
            raise Refused(f"33 bad record: {place + 2}")
        name, (state, pushed) = told
        if may_be(graph, name[1], state, pushed):
            last[name[:4]] = name, (state, pushed[0] if pushed else None)
    return last


def without_failed(graph, last):
    """But for the failed tries of instances of which no try that the task may have has succeeded or was skipped."""

    def has_passed(start, task, index, _):
        numbers = range(1, graph.tasks[task]["retries"] + 2)
        return any(last.get((start, task, index, number), (0, ("failed",)))[1][0] != "failed" for number in numbers)

    return {name: told for name, told in last.items() if told[1][0] != "failed" or has_passed(*name)}


def kept_since(last, before):
    """What is kept of a journal, and of the tries that it doesn't have what was kept before."""
    return {name: outcome for name, outcome in before.items() if name[:4] not in last} | dict(last.values())


def main():
    if len(sys.argv) != 8:
        sys.exit(__doc__)
    graph, table, intervals, report = [pathlib.Path(path).read_text("utf-8") for path in sys.argv[1:5]]
    task, run = sys.argv[5:7]
    graph = recursion.Graph(json.loads(graph))
    runs = [line.split() for line in intervals.splitlines()]
    try:
        lines, _ = whole_of(head_of(graph, runs, [[task, run]]).encode(), pathlib.Path(sys.argv[7]).read_bytes())
        last = last_outcomes(graph, [start for start, _ in runs], lines or [])
    except Refused as refused:
        sys.exit(f"refused {refused}")
    text, status = recursion.report_by_table(graph, json.loads(table), runs, kept_since(last, recursion.kept_outcomes(graph, report, [(task, run, None)])))
    sys.stdout.write(text)
    return status


if __name__ == "__main__":
    sys.exit(main())
