#!/usr/bin/env python3
"""Reports that go by chance, and the tables of answers that the program is to make of them: answering.py FOLDER FIRST COUNT

For each seed a folder of its name has the files of backfills.py; `answers`, the table of the reports `dry_1` and `dry_2`; and `answers_single`, that of the
report `single`. Over these `dry` and `single` are to print `dry_2` and `single` again. The tables are read off docs/FORMATS.md ("Table of answers"). The file
`cases` has a line for each seed: the seed, the moments of the first and the last run, and the exit statuses of `single` and `dry`.
"""
import json

import backfills
import showing

STATUSES = {showing.FAILED: 1, showing.SKIPPED: 99}


def entries_of(run, task, instance):
    """An entry for each try that has to have one."""
    for attempt in range(1, instance.tries + 1):
        state, value = (instance.state, instance.value) if attempt == instance.tries else (showing.FAILED, "-")
        entry = {"task": task, "index": instance.index, "run": run.start, "try": attempt}
        if state in STATUSES:
            yield {**entry, "status": STATUSES[state]}
        elif value != "-":
            yield {**entry, "out": value}


def table(report_text):
    report = showing.Report(report_text, None)
    entries = [
        json.dumps(entry, ensure_ascii=False, separators=(",", ":"))
        for run in report.runs
        for task, instances in zip(report.names, run.tasks)
        for instance in instances
        for entry in entries_of(run, task, instance)
    ]
    return "[\n" + ",\n".join(entries) + "\n]\n" if entries else "[]\n"


def write_case(folder, seed):
    words = backfills.write_case(folder, seed).split(" ")
    place = folder / f"{seed}"
    for name, report in (("answers", "dry_2"), ("answers_single", "single")):
        (place / name).write_bytes(table((place / report).read_bytes().decode()).encode())
    return f"{seed} {words[1]} {words[2]} {words[7]} {words[8]}\n"


if __name__ == "__main__":
    backfills.write_cases(write_case, __doc__)
