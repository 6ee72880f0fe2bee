#!/usr/bin/env python3
"""Reports that go by chance, and what the program is to show of them: views.py FOLDER FIRST COUNT

For each seed a folder of its name has the files of backfills.py, and `json_1` and `json_2`, what `show --json` prints of the reports `dry_1` and
`dry_2`; `page_1` and `page_2`, the pages of graph.json and these; `states`, the second of them without the report; `page_single`, that of the report of
`single`; and `page_mended`, that of mended.json and `dry_2`. `grid` is what `show` prints of the second, and `grid_0` to `grid_3` what it prints of the
report `long` with the options in `options_0` to `options_3`, one a line. `journal` is a journal of `dry_2`, or nearly one, and `page_journal` the page with
its times, or `told` why it is refused. The file `cases` has a line for each seed: the seed, whether mended.json has other tasks or pulls than that report, so
that it is refused, and whether the journal is.
"""
import json
import pathlib
import random

import backfills
import grids
import journaling
import recursion
import showing
import timing

FIXED = list(showing.pieces(pathlib.Path(__file__).resolve().parents[2]).values())


def records_of(chance, graph, report):
    """A record for each try of a report, in any order, of which some have no times or are there twice."""
    records = []
    for run in report.runs:
        for task, instances in enumerate(run.tasks):
            for instance in instances:
                for number in range(1, instance.tries + 1):
                    state = showing.STATES[instance.state if number == instance.tries else showing.FAILED]
                    start = chance.randrange(1_700_000_000_000, 1_800_000_000_000)
                    times = [start, start + chance.randrange(-5, 100_000), chance.choice([0, 1, 99, 137, -1])]
                    times = chance.choice([times] * 8 + [times[:2], [*times, 0], [*times[:2], "0"], [*times[:2], None], None, "", [times]])
                    records += [[run.start, graph.id(task), instance.index, number, state, [], [], [], times]] * chance.choice([1] * 9 + [2])
    chance.shuffle(records)
    return records


def journal_of(chance, texts):
    """A journal of the report `dry_2`, or nearly one."""
    file = json.loads(texts["graph.json"])
    graph = showing.Graph(texts["graph.json"])
    report = showing.Report(texts["dry_2"], graph)
    intervals = timing.intervals_of(texts["dry_2"])
    if chance.random() < 0.1:
        file["dag_id"] += "x"
    if chance.random() < 0.1:
        intervals = intervals[1:]
    cleared = [[graph.id(0), run.start] for run in report.runs] if chance.random() < 0.3 else None
    head = journaling.head_of(recursion.Graph(file), intervals, cleared)
    lines = [recursion.text_of(record) for record in records_of(chance, graph, report)]
    if chance.random() < 0.1:
        lines.insert(chance.randint(0, len(lines)), chance.choice(["", "[]", '["2024-01-01T00:00:00Z"]', "{}", "1,2"]))
    whole = (head + "".join(f"{line}\n" for line in lines)).encode()
    return whole[:chance.randint(len(head), len(whole))] if chance.random() < 0.3 else whole


def write_case(folder, seed):
    backfills.write_case(folder, seed)
    place = folder / f"{seed}"
    texts = {name: (place / name).read_bytes().decode() for name in ("graph.json", "mended.json", "single", "dry_1", "dry_2")}

    def page(graph, report, states_only=False):
        return showing.page(FIXED, [f"{place}/{graph}", f"{place}/{report}"], texts[graph], texts[report], states_only)

    files = {
        "json_1": showing.json_lines(texts["dry_1"]),
        "json_2": showing.json_lines(texts["dry_2"]),
        "page_1": page("graph.json", "dry_1"),
        "page_2": page("graph.json", "dry_2"),
        "states": page("graph.json", "dry_2", True),
        "page_single": page("graph.json", "single"),
    }
    chance = random.Random(seed)
    graph = showing.Graph(texts["graph.json"])
    files["grid"] = grids.grid(graph, showing.Report(texts["dry_2"], graph), grids.Asked("", "", False, 80, False))
    files["long"] = grids.longer(chance, texts["dry_2"])
    report = showing.Report(files["long"], graph)
    for n in range(4):
        asked, options = grids.asked_by_chance(chance, report)
        files[f"grid_{n}"] = grids.grid(graph, report, asked)
        files[f"options_{n}"] = "".join(f"{option}\n" for option in options)
    journal = journal_of(chance, texts)
    (place / "journal").write_bytes(journal)
    is_refused = 0
    try:
        times = timing.times_text(texts["graph.json"], texts["dry_2"], journal)
        paths = [f"{place}/graph.json", f"{place}/dry_2"]
        files["page_journal"] = showing.page(FIXED, paths, texts["graph.json"], texts["dry_2"], times=times)
    except journaling.Refused as refused:
        is_refused = 1
        files["told"] = f"refused {refused}\n"
    is_other = 0
    try:
        files["page_mended"] = page("mended.json", "dry_2")
    except showing.Mismatch:
        is_other = 1
    for name, text in files.items():
        (place / name).write_bytes(text.encode())
    return f"{seed} {is_other} {is_refused}\n"


if __name__ == "__main__":
    backfills.write_cases(write_case, __doc__)
