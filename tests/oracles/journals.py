#!/usr/bin/env python3
"""Journals that go by chance, whole, cut short and bad, and what `clear --table --journal` is to make of them: journals.py FOLDER FIRST COUNT

For each seed from FIRST on, COUNT of them, a folder of its name has the files that the line reads, and `line`, its words each on a line,
but for the journal; `journal`, what that holds at first; `wanted` and `told`, what is printed; `stands`, the bytes of the journal that stay or
are written first; and `made`, the records behind them without their times, in order. `again` and `told_again` are what is printed where the
line is given once more, without --retry-failed. The file `cases` has a line for each seed: the seed, the exit status, and that of the
second time. What is kept is told by journaling.py, and what comes of it by recursion.py.
"""
import json
import random

import backfills as graphs
import journaling
import recursion
from backfills import happens, some, write_cases

GOOD_TIMES = [[0, 0, 0], [1795789483113, 1795789483115, 0], [1795789483113, 1795789483115, -1], [0, 0, 137]]
ODD_MEMBERS = [None, True, 7, -1, 2**31, 2**32, 1.5, "", "a", "nobody", "Success", "2024-02-26T00:00:00Z", "2024-02-28", [], [None], [1, 2], {}]
NO_RECORDS = ["", "null", "[]", "{}", "7", "nonsense", "[1,2,3,4,5,6,7,8,9]", '["backfill journal",1]', "\x00" * 40]


def records_of(chance, graph, table, intervals, kept):
    """The tries that a backfill of the graph records, all that it makes, or the first, or some in any order."""
    made = {}
    recursion.report_by_table(graph, table, intervals, kept, made)
    records = [journaling.record_of(*each) for each in made.items()]
    if happens(chance, 40):
        return records[: chance.randint(0, len(records))]
    return records if happens(chance, 50) else some(chance, records, 0, 1, 2, 5, len(records))


def spelled(chance, record):
    """A record with its times, as the program writes it or in another way."""
    members = [*record, chance.choice(GOOD_TIMES)]
    if happens(chance, 80):
        return recursion.text_of(members)
    text = json.dumps(members, ensure_ascii=happens(chance, 50), separators=chance.choice([(",", ":"), (", ", ": "), (" ,\t", ":")]))
    return chance.choice(["", " ", "\t"]) + text + chance.choice(["", " ", "\r"])


def spoiled(chance, record):
    """A record that tells of no try, or of another one."""
    members = [*record, chance.choice(GOOD_TIMES)]
    form = chance.choice(["member", "member", "member", "less", "more", "other", "text"])
    if form == "member":
        members[chance.randint(0, 7)] = chance.choice(ODD_MEMBERS)
    elif form == "less":
        del members[chance.randint(0, 8)]
    elif form == "more":
        members.insert(chance.randint(0, 9), chance.choice(ODD_MEMBERS))
    text = recursion.text_of(members)
    if form == "text":
        place = chance.randint(0, len(text) - 1)
        return text[:place] + chance.choice(["", "x", "[", ",", '"']) + text[place + 1 :]
    return chance.choice(NO_RECORDS) if form == "other" else text


def other_head(chance, graph, intervals, cleared):
    """The head of another backfill, or something like a head."""
    head = journaling.head_of(graph, intervals, cleared)
    [[task, run]] = cleared
    forms = [head.replace("journal", "Journal"), head.replace(",1,", ",2,", 1), head.replace(",", ", "), " " + head, head[1:], "nonsense\n", "\n"]
    forms += [journaling.head_of(graph, intervals, None), journaling.head_of(graph, intervals[1:], cleared)]
    forms += [journaling.head_of(graph, intervals, [[task, other]]) for other, _ in intervals if other != run]
    forms += [journaling.head_of(graph, intervals, [[other, run]]) for other in graph.tasks if other != task]
    place = chance.randint(0, len(head) - 2)
    return chance.choice([*forms, head[:place] + ("x" if head[place] != "x" else "y") + head[place + 1 :]])


def journal_of(chance, head, records):
    """The bytes of a journal with these records, or with less or more."""
    lines = [spelled(chance, record) for record in records]
    for line in some(chance, lines, 0, 0, 1, 3):
        lines.insert(chance.randint(0, len(lines)), line)
    if records and happens(chance, 12):
        lines.insert(chance.randint(0, len(lines)), spoiled(chance, chance.choice(records)))
    content = (head + "".join(f"{line}\n" for line in lines)).encode()
    if happens(chance, 8):
        return content[: chance.randint(0, len(head.encode()))]
    if happens(chance, 30):
        return content[: chance.randint(len(head.encode()), len(content))]
    return content + chance.choice([b"\0" * 300, b"[", b"\xff"]) if happens(chance, 10) else content


def gone_on(known, intervals, head, content, before, table, retry_failed):
    """The report of the line, its status, what is told beside it, what stands in the journal at first, and the records behind that."""
    lines, torn = journaling.whole_of(head, content)
    last = journaling.last_outcomes(known, [start for start, _ in intervals], lines or [])
    if retry_failed:
        last = journaling.without_failed(known, last)
    made = {}
    report, status = recursion.report_by_table(known, table, intervals, journaling.kept_since(last, before), made)
    told = f"journal: {torn} bytes of a record that was cut short are dropped\n" if torn else ""
    told += "" if lines is None else f"journal: goes on behind {len(lines)} tries\n"
    stands = head if lines is None else content[: len(content) - torn]
    records = [recursion.text_of(journaling.record_of(*each))[:-1] for each in made.items()]
    return report, status, told, stands, records


def write_case(folder, seed):
    """Writes the files of a seed, and answers its line."""
    chance = random.Random(seed)
    intervals = graphs.intervals_of(chance)
    dates = [start for start, _ in intervals]
    sound = graphs.graph_of(chance)
    report, _ = recursion.report_by_table(recursion.Graph(sound), graphs.table_of(chance, recursion.Graph(sound), dates), intervals, {})
    graph = graphs.mended(chance, sound)
    known = recursion.Graph(graph)
    task, run = chance.choice(list(known.tasks)), chance.choice(dates[:2])
    before = recursion.kept_outcomes(known, report, [(task, run, None)])
    # What was recorded is by the same graph, and by one that was mended since.
    records = records_of(chance, known, graphs.table_of(chance, known, dates), intervals, before)
    if happens(chance, 40):
        older = recursion.Graph(sound)
        records += records_of(chance, older, graphs.table_of(chance, older, dates), intervals, {})
    head = journaling.head_of(known, intervals, [[task, run]])
    content = journal_of(chance, other_head(chance, known, intervals, [[task, run]]) if happens(chance, 6) else head, records)
    table = graphs.table_of(chance, known, dates)
    retry_failed = happens(chance, 25)
    try:
        wanted, status, told, stands, made = gone_on(known, intervals, head.encode(), content, before, table, retry_failed)
        after = stands + "".join(f"{record},[0,0,0]]\n" for record in made).encode()
        again, status_again, told_again, _, _ = gone_on(known, intervals, head.encode(), after, before, table, False)
    except journaling.Refused as refused:
        wanted, status, told, stands, made = "", 2, f"refused {refused}\n", content, []
        again, status_again, told_again = wanted, status, told
    place = folder / f"{seed}"
    place.mkdir()
    words = ["clear", place / "graph.json", place / "report", f"--table={place / 'table.json'}", f"--from={dates[0]}", f"--to={dates[-1]}"]
    words += [f"--task={task}", f"--run={run}"]
    files = {"graph.json": json.dumps(graph), "report": report, "table.json": json.dumps(table), "wanted": wanted, "told": told}
    files |= {"again": again, "told_again": told_again, "made": "".join(f"{record}\n" for record in sorted(made))}
    files |= {"line": "".join(f"{word}\n" for word in words), "option": "--retry-failed\n" if retry_failed else ""}
    for name, text in files.items():
        (place / name).write_bytes(text.encode())
    (place / "journal").write_bytes(content)
    (place / "stands").write_bytes(stands)
    return f"{seed} {status} {status_again}\n"


if __name__ == "__main__":
    write_cases(write_case, __doc__)
