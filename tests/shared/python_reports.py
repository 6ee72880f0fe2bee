#!/usr/bin/env python3
"""Tries python/backfill_report.py over reports: python_reports.py FOLDER COUNT

What it reads of the examples and of COUNT reports that go by chance is what recursion.py reads, also behind a way through a database, and
what reports.py refuses of them it refuses in the same words. The last line is how many were right, and how many not.
"""
import contextlib
import io
import json
import pathlib
import sqlite3
import sys

ROOT = pathlib.Path(__file__).resolve().parents[2]
sys.path[:0] = [str(ROOT / "tests/oracles"), str(ROOT / "python")]
import backfill_report  # noqa: E402
import recursion  # noqa: E402
import reports  # noqa: E402
from rows import holds, tell  # noqa: E402

FOLDER, COUNT = pathlib.Path(sys.argv[1]), int(sys.argv[2])


def lines_of(text):
    return io.BytesIO(text.encode())


def wanted_rows(text):
    """The rows of a report as recursion.py reads it, but for the states of its runs."""
    _, runs = recursion.read_report(text)
    states = [line.split(" ")[3] for line in text.split("\n") if line.startswith("@run ")]
    for run, state in zip(runs, states):
        for task, instances in run.instances.items():
            for instance in instances:
                items = [json.loads(line[6:]) for line in instance.given if line.startswith("@item ")]
                pulls = [line.split(" ", 2)[1:] for line in instance.given if line.startswith("@pull ")]
                yield (
                    *(run.start, run.end, state, task, instance.index, instance.state, instance.tries, instance.value),
                    *(items, {key: None if value == "-" else json.loads(value) for key, value in pulls}),
                )


def found_rows(text):
    for row in backfill_report.read_report(lines_of(text)):
        given = [row.item] if row.has_item else []
        yield row.run, row.end, row.run_state, row.task, row.index, row.state, row.tries, row.value, given, row.pulls


def stored_rows(text):
    path = FOLDER / "report.db"
    backfill_report.to_sqlite(backfill_report.read_report(lines_of(text)), str(path))
    database = sqlite3.connect(path)
    for *fields, value, item, pulls in database.execute("SELECT * FROM report ORDER BY rowid"):
        read = [None if text is None else json.loads(text) for text in (value, pulls)]
        yield *fields, read[0], [] if item is None else [json.loads(item)], read[1] or {}
    database.close()


def is_read(name, text):
    wanted = list(wanted_rows(text))
    holds(f"{name}, as it is read", list(found_rows(text)) == wanted)
    holds(f"{name}, in a database", list(stored_rows(text)) == wanted)


def refusal_of(report):
    """The number and words by which a report is refused, or None."""
    try:
        for _ in backfill_report.read_report(report):
            pass
    except backfill_report.ReportError as error:
        return f"{error.number} {error.words}"
    return None


def fails(name, words, text):
    """Bytes, a text and a list of lines are refused alike."""
    for report in (lines_of(text), io.StringIO(text, newline="\n"), text.splitlines(keepends=True)):
        holds(f"{name}, in {type(report).__name__}", refusal_of(report) == words)


def is_refused(name, content, words):
    found = refusal_of(io.BytesIO(content))
    holds(f"{name}: {found} in place of {words}", found == words)


RUN = "@run 2024-01-01T00:00:00Z 2024-01-02T00:00:00Z success\n"
fails("no bytes", "32 truncated", "")
fails("another head", "30 bad line: 1", "@backfill 3 d\n@end 0\n")
fails("no end", "32 truncated", f"@backfill 2 d\n{RUN}")
fails("an end that was cut", "32 truncated", "@backfill 2 d\n@end 0")
fails("another number of runs", "30 bad line: 3", f"@backfill 2 d\n{RUN}@end 2\n")
fails("a line behind the end", "30 bad line: 3", "@backfill 2 d\n@end 0\n\n")
fails("an instance of no run", "30 bad line: 2", "@backfill 2 d\na -1 success 1 -\n@end 0\n")
fails("an item of no instance", "30 bad line: 3", f"@backfill 2 d\n{RUN}@item 1\n@end 1\n")
fails("a state that isn't there", "30 bad line: 3", f"@backfill 2 d\n{RUN}a -1 running 1 -\n@end 1\n")
fails("a value that is no JSON", "30 bad line: 3", f"@backfill 2 d\n{RUN}a -1 success 1 x\n@end 1\n")
fails("a value that is no number", "30 bad line: 3", f"@backfill 2 d\n{RUN}a -1 success 1 NaN\n@end 1\n")
fails("a value of too many lists", "30 bad line: 3", f"@backfill 2 d\n{RUN}a -1 success 1 {'[' * 30000}{']' * 30000}\n@end 1\n")
fails("half of a pair of surrogates", "30 bad line: 3", f'@backfill 2 d\n{RUN}a -1 success 1 "\\ud800"\n@end 1\n')
fails("a huge index", "30 bad line: 3", f"@backfill 2 d\n{RUN}a 99999999999999999999 success 1 -\n@end 1\n")
fails("a huge number of tries", "30 bad line: 3", f"@backfill 2 d\n{RUN}a -1 success 99999999999999999999 -\n@end 1\n")
fails("a line that is too long", "31 line too long: 3", f"@backfill 2 d\n{RUN}{'a' * 66001}\n@end 1\n")
with contextlib.suppress(backfill_report.ReportError):
    backfill_report.to_sqlite(backfill_report.read_report(lines_of(f"@backfill 2 d\n{RUN}a -1 success 1 7\n@end 1\n")), str(FOLDER / "kept.db"))
    backfill_report.to_sqlite(backfill_report.read_report(lines_of("@backfill 2 d\n")), str(FOLDER / "kept.db"))
kept = sqlite3.connect(FOLDER / "kept.db").execute("SELECT task, value FROM report").fetchall()
holds("a database behind what is no report", kept == [("a", "7")])
for path in sorted((ROOT / "examples").glob("*/*")):
    if path.is_file() and path.read_bytes().startswith(b"@backfill "):
        is_read(path.relative_to(ROOT), path.read_text())
for seed in range(1, COUNT + 1):
    content = reports.report_by_chance(seed)
    answer = reports.answer(content)
    if answer.startswith("42"):
        is_read(f"seed {seed}", content.decode())
    else:
        is_refused(f"seed {seed}", content, answer)
tell()
