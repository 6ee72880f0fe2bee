#!/usr/bin/env python3
"""Reports that go by chance, and what `explain` is to print of them: explanations.py FOLDER FIRST COUNT

For each seed a folder of its name has the files of backfills.py; `asked`, a line for each text, with its name, the graph, the report and the words behind
them; and the texts. Of `dry_1`, `dry_2` and the report of `single`, and of `dry_2` with mended.json where that has its tasks and pulls, each run is
explained, each task of one run, and one instance of each of these that is expanded.
"""
import random

import backfills
import explaining
import showing


def asked_of(chance, explaining_of):
    """What is asked of a report, as words of the line, and the texts."""
    for at, run in enumerate(explaining_of.runs):
        yield f"--run {run.start}", explaining_of.run(at)
    at = chance.randrange(len(explaining_of.runs))
    run = explaining_of.runs[at]
    for task, instances in enumerate(run.tasks):
        words = f"--run {run.start} --task={explaining_of.graph.id(task)}"
        yield words, explaining_of.task(at, task)
        index = chance.choice(instances).index
        yield f"{words} --index={index}", explaining_of.task(at, task, index)


def write_case(folder, seed):
    backfills.write_case(folder, seed)
    place, chance = folder / f"{seed}", random.Random(seed)
    lines = []
    for graph, report in ("graph.json", "dry_1"), ("graph.json", "dry_2"), ("graph.json", "single"), ("mended.json", "dry_2"):
        paths = [f"{place}/{name}" for name in (graph, report)]
        try:
            explained = explaining.Explaining(*paths, *((place / name).read_bytes().decode() for name in (graph, report)))
        except showing.Mismatch:
            continue
        for words, text in asked_of(chance, explained):
            name = f"explained_{len(lines)}"
            (place / name).write_bytes(text.encode())
            lines.append(f"{name} {graph} {report} {words}\n")
    (place / "asked").write_text("".join(lines))
    return f"{seed}\n"


if __name__ == "__main__":
    backfills.write_cases(write_case, __doc__)
