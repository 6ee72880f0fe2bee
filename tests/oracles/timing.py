#!/usr/bin/env python3
"""The times that a page has of a journal, read off docs/FORMATS.md ("Page", "Journal") by somebody who hasn't seen the code.

    timing.py GRAPH REPORT JOURNAL     prints them, or `refused ` and why
"""
import json
import pathlib
import sys

import journaling
import recursion


def intervals_of(report):
    """Where the data intervals of a report start and end."""
    return [line.split(" ")[1:3] for line in report.splitlines() if line.startswith("@run ")]


def is_head(graph, intervals, line):
    """Whether it is the head of a journal of the graph and the runs, whatever it says is cleared."""
    head = journaling.head_of(graph, intervals, None).encode().removesuffix(b"]\n")
    return line.startswith(head) and line[len(head):len(head) + 1] in (b"]", b",")


def times_of(line):
    """The start, the end and the code of a record, or None where its last member isn't these."""
    last = journaling.members_of(line)[8]
    if not isinstance(last, list) or len(last) != 3 or any(type(number) is not int for number in last):
        return None
    return last


def times_text(graph_text, report_text, journal):
    graph, intervals = recursion.Graph(json.loads(graph_text)), intervals_of(report_text)
    starts = [start for start, _ in intervals]
    head, *lines, _ = journal.split(b"\n") if b"\n" in journal else [b"", b""]
    if not is_head(graph, intervals, head):
        raise journaling.Refused("43 journal mismatch")
    text = "@times 1\n"
    for place, line in enumerate(lines):
        told = journaling.tried(graph, starts, line)
        if told is None:
            raise journaling.Refused(f"33 bad record: {place + 2}")
        times = times_of(line)
        if times:
            text += " ".join(map(str, [*told[0][:4], *times])) + "\n"
    return text


def main():
    if len(sys.argv) != 4:
        sys.exit(__doc__)
    graph, report = [pathlib.Path(path).read_text("utf-8") for path in sys.argv[1:3]]
    try:
        sys.stdout.write(times_text(graph, report, pathlib.Path(sys.argv[3]).read_bytes()))
    except journaling.Refused as refused:
        sys.exit(f"refused {refused}")


if __name__ == "__main__":
    main()
