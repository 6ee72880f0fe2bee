#!/usr/bin/env python3
"""Tables with faults and reports that don't fit, both by chance, and what the program is to print: tables_and_clearing.py FOLDER FIRST COUNT

For each seed from FIRST on, COUNT of them, a folder of its name has the files that `single`, `dry` or `clear` reads, `line`, the words
of its command each on a line, and `wanted`, what is printed: to standard output where the status is 0 or 1, else to standard error. The
file `cases` has a line for each seed: the seed and the exit status. What is wanted is told by looking.py.
"""
import copy
import json
import random
import re

import backfills as graphs
import faults
import intervals
import recursion
from backfills import happens, some, write_cases
from looking import ENTRY_KEYS, Case, told

# A sound table for a graph of one or two tasks, and the faults that are planted in it. A text between two `@@` is written as it stands.

AT = "2024-02-28T00:00:00Z"
WHOLE_NUMBERS = [-1, -1, 0, 0, 1, 1, 2, 3, 7, -(2**63), 2**63 - 1, 2**31, 2**32 - 1, 2**32 + 1]
ODD_NUMBERS = [*faults.ODD_NUMBERS, "@@-1@@", "@@256@@", "@@-0.0@@", "@@1E+2@@", "@@9223372036854775807@@", "@@-9223372036854775808@@"]
ODD_NUMBERS += ["@@18446744073709551615@@", "@@1e-400@@", "@@255.0@@", "@@-0e0@@", 255, 256, -1, -256, 2**32, 1000]
NO_JSON = [
    *["01", "+1", "1.", ".5", "1e", "0x1", "1e999", "-1e999", "9" * 400, "-", "NaN", "-Infinity", "Infinity", "nul", "True", "'x'", ""],
    *[r'"\ud800"', r'"\ude00\ud83d"', r'"\ud83d\u0061"', r'"\x"', r'"\u12"', '"a\nb"', '"\x01"', "1_0", "[1,]", '{"a":1,}', "1 2", "/**/1"],
    *['"\\\n"', "-01", "{1:2}", "[" * 126 + "]" * 126, "[" * 200 + "]" * 200],
]
JSON_STILL = [r'"\ud83d\ude00"', r'"\/\b\f\n\r\t\"\\\u0000"', '"\x7f\x80\u2028"', '"\ufeff"']
JSON_STILL += ["[" * 125 + "]" * 125, "1e308", "9" * 300, "1e+2"]
MOMENTS = [*intervals.BAD_MOMENTS, *intervals.OUTSIDE_MOMENTS]
MOMENTS += ["2024-02-28", "2024-02-28T00:00:00z", "2024-02-28T00:00:00", "2024-02-28T00:00:00Z ", " 2024-02-28T00:00:00Z"]
MOMENTS += ["2024-02-29T23:59:59Z", "2023-02-29T00:00:00Z", "2000-02-29T00:00:00Z", "1900-02-29T00:00:00Z", "0000-02-29T00:00:00Z"]
MOMENTS += ["9999-12-31T23:59:60Z", "2024-02-28T00:00:00Z\0", "２024-02-28T00:00:00Z"]
NO_ENTRY_KEYS = [*faults.UNKNOWN_KEYS, "Task", "code", "output", "try_number", "$schema"]
# The keys that are given a value, and the values, of which some are good.
PLANTS = [
    *[(list(ENTRY_KEYS), faults.ODD_VALUES), (["index", "try", "status"], ODD_NUMBERS), (["index", "try"], WHOLE_NUMBERS)],
    *[(["run"], MOMENTS), (NO_ENTRY_KEYS, ["a", 1, None]), ([*ENTRY_KEYS, "x"], [f"@@{text}@@" for text in NO_JSON])],
    *[(["out"], [f"@@{text}@@" for text in JSON_STILL]), (["status"], [0, 1, 99, 100, 254, 255, 256, -1])],
]
OUTPUTS = ["", "[1,2]", "[]", "7", '"b"', "b", '["b"]', "x\n[3]\n", " \n", "é\0", "[0,null]\r\n", *graphs.LINES]


def small_graph(chance):
    """Two tasks in either order, or one, or none."""
    first = {"id": "a", "retries": chance.choice([0, 1, 2])}
    second = {"id": "b", "upstream": ["a"], "retries": chance.choice([0, 1, 2]), "rule": chance.choice(list(recursion.VERDICTS))}
    if second["rule"] in graphs.WAITING and happens(chance, 60):
        second["expand"] = "a"
    elif happens(chance, 20):
        first["kind"] = "branch"
    tasks = chance.sample([first, second], 2) if happens(chance, 80) else chance.choice([[first]] * 5 + [[]])
    return {"dag_id": "d", "schedule": "@daily", "tasks": tasks}


def small_entry(chance):
    likely = {"task": ["a", "b", "b", "c", "A", "", "é"], "index": WHOLE_NUMBERS, "run": [AT, AT, AT, "2024-02-29T00:00:00Z"]}
    likely |= {"try": WHOLE_NUMBERS, "status": [0, 0, 1, 99, 255], "out": OUTPUTS}
    most = chance.choice([30, 60, 95])
    entry = {key: chance.choice(values) for key, values in likely.items() if happens(chance, most)}
    return entry | {"out": "x" * 2**20 + "\n[7]"} if happens(chance, 0.2) else entry


def plant(chance, table):
    keys, values = chance.choice(PLANTS)
    chance.choice(table)[chance.choice(keys)] = chance.choice(values)


def planted_table(chance):
    """A table with none to three faults. One that is no entry, at times the values of one in order, is put between the others last."""
    table = [small_entry(chance) for _ in range(chance.choice([1, 1, 2, 3, 4, 6]))]
    for _ in range(chance.choice([0, 1, 1, 1, 2, 3])):
        plant(chance, table)
    if happens(chance, 10):
        values = ["a", -1, AT, 1, 0, ""]
        table.insert(chance.randint(0, len(table)), chance.choice([*faults.ODD_VALUES, values, values[:1], [[]], [table[0]], {"a": {}}]))
    return table if happens(chance, 97) else chance.choice([[], {}, table[0], {"entries": table}, [table], None, 7, "x", [[]]])


def spoil_text(chance, text):
    """Changes a file as a whole: what stands around it, or a place in it."""
    place = chance.randint(0, len(text))
    before, behind = text[:place], text[place:]
    forms = ["", " ", text + text, text.replace('"', "'"), before, before + behind[1:], before + " " + behind]
    forms += [f"\ufeff{text}", f"\f{text}", f"// x\n{text}", f"{text},", f"{text}]", f"{text}\0", f"{text}\u00a0", f"{text}\n\t\r "]
    return chance.choice(forms)


def table_text(chance, table):
    text = json.dumps(faults.shuffled(chance, table), ensure_ascii=happens(chance, 50), indent=chance.choice([None, None, 1, "\t"]))
    text = re.sub('"@@([^@]*)@@"', lambda found: json.loads(f'"{found[1]}"', strict=False), text)
    if happens(chance, 10):
        text = re.sub('"([a-z])', lambda found: rf'"\u{ord(found[1]):04x}', text)
    return spoil_text(chance, text) if happens(chance, 6) else text


def table_bytes(chance, table):
    content = table_text(chance, table).encode()
    if happens(chance, 1):
        place = chance.randint(0, len(content))
        return content[:place] + chance.choice([b"\xff", b"\xc3", b"\xed\xa0\x80", b"\xc0\x80"]) + content[place:]
    if happens(chance, 1):
        return content.ljust(faults.MOST_BYTES + chance.choice([0, 1]))
    return content


def moment_text(chance, text):
    """A moment of the line, which is seldom bad or outside."""
    if happens(chance, 3):
        return chance.choice(intervals.BAD_MOMENTS if happens(chance, 50) else intervals.OUTSIDE_MOMENTS)
    return text[:10] if text.endswith("T00:00:00Z") and happens(chance, 20) else text


def graph_bytes(chance, graph):
    """Seldom one that is refused, or none."""
    for task in some(chance, graph["tasks"], 1) if happens(chance, 2) else []:
        task["rule"] = "dummy"
    return None if happens(chance, 0.5) else json.dumps(graph).encode()


def table_case(chance):
    command = chance.choice(["single", "single", "single", "dry"])
    table = None if happens(chance, 0.5) else table_bytes(chance, planted_table(chance))
    first = moment_text(chance, chance.choice([AT] * 9 + ["2024-02-28T00:00:01Z"]))
    lasts = [AT, "2024-02-28T12:00:00Z", "2024-02-29T12:00:00Z", "2024-02-29T12:00:00Z", "2024-02-27T12:00:00Z"]
    last = first if command == "single" else moment_text(chance, chance.choice(lasts))
    return Case(command, graph_bytes(chance, small_graph(chance)), table, first, last, None, None, None)


# Reports that don't fit what they are cleared with.


def change_ids(chance, graph, runs):
    """The id of the graph, or what tasks there are and in which order. No other task names one that goes."""
    tasks = graph["tasks"]
    named = json.dumps([[task["upstream"], task["command"]] for task in tasks])
    unnamed = [task for task in tasks if f'"{task["id"]}"' not in named]
    form = chance.choice(["dag_id", "order", "more", "other", "fewer"])
    if form == "dag_id":
        graph["dag_id"] = chance.choice(["D", "d.", "dd", "e", "2"])
    elif form == "order":
        chance.shuffle(tasks)
    elif form == "more":
        tasks.insert(chance.randint(0, len(tasks)), {"id": chance.choice(["more", "A", "0"]), "upstream": [], "command": []})
    elif form == "other":
        chance.choice(unnamed)["id"] = chance.choice(["other", "nobody"])
    elif len(tasks) > 1:
        tasks.remove(chance.choice(unnamed))


def change_pulls(chance, graph, runs):
    """Fewer pulls, or others, or the same in another order."""
    known = recursion.Graph(graph)
    task = chance.choice([task for task in graph["tasks"] if graphs.settled_ancestors(known, task["id"])] or graph["tasks"])
    ancestors = sorted(graphs.settled_ancestors(known, task["id"]))
    others = [word for word in task["command"] if type(word) is not dict or "pull" not in word]
    pulls = some(chance, [word for word in task["command"] if word not in others], 0, 1, 2, 9)
    task["command"] = others + pulls + [{"pull": each} for each in some(chance, ancestors, 0, 0, 1, 2)]


def change_moment(chance, graph, runs):
    """An end, or a start and an end, so that the starts still rise."""
    for place in some(chance, range(len(runs)), 1):
        start, end = runs[place]
        other_end = chance.choice([f"{end[:-2]}1Z", end.replace("2024", "2208"), start])
        runs[place] = chance.choice([(start, other_end), (start, other_end), (f"{start[:-2]}1Z", end)])


def change_runs(chance, graph, runs):
    """Fewer runs, or one more, or the one of `single`."""
    if happens(chance, 25):
        runs.append((runs[-1][1], runs[-1][1].replace("T00", "T12")))
    elif happens(chance, 15):
        runs[:] = chance.choice([[], [(runs[0][0], runs[0][0])]])
    else:
        runs.remove(chance.choice(runs))


def other_value(chance, before):
    return before + " " + chance.choice(["-", "7", "true", "[]", "[1,2]", "[null,[]]", '"a"', '["b"]', '"-"'])


def edit_line(chance, lines, place, number):
    """Changes what a good report tells, so that it stays good."""
    words = lines[place].split(" ")
    if words[0] == "@run":
        lines[place] = " ".join([*words[:3], chance.choice(["success", "failed"])])
    elif words[0] == "@item":
        lines[place] = other_value(chance, "@item").replace("@item -", "@item null")
    elif words[0] == "@pull" and happens(chance, 40):
        lines[place] = other_value(chance, f"@pull {words[1]}")
    elif words[0] == "@pull" and happens(chance, 50) and lines[place + 1].startswith("@pull "):
        lines[place:place + 2] = lines[place + 1], lines[place]
    elif words[0] == "@pull":
        lines[place:place + 1] = chance.choice([[], [f"@pull strange{number} -"], [lines[place], f"@pull strange{number} 7"]])
    elif words[0][0] != "@" and words[3] != "0":
        state = chance.choice(["success", "success", "failed", "skipped"])
        line = f"{words[0]} {words[1]} {state} {chance.choice([1, 1, 2, 3, 101])}"
        lines[place] = other_value(chance, line) if state == "success" else f"{line} -"


def edited(chance, report):
    lines = report[:-1].split("\n")
    for number in range(chance.choice([1, 1, 2, 5])):
        told_given = [place for place, line in enumerate(lines) if line.startswith(("@item ", "@pull "))]
        places = told_given if told_given and happens(chance, 50) else range(len(lines))
        edit_line(chance, lines, chance.choice(places), number)
    return "".join(f"{line}\n" for line in lines)


def report_for(chance, graph, runs):
    """A report of the graph and these runs, or of others like them."""
    graph, runs = copy.deepcopy(graph), list(runs)
    for change, percent in (change_pulls, 35), (change_ids, 20), (change_runs, 12), (change_moment, 7):
        if happens(chance, percent):
            change(chance, graph, runs)
    graph = recursion.Graph(graph)
    dates = [start for start, _ in runs] or [AT]
    report, _ = recursion.report_by_table(graph, graphs.table_of(chance, graph, dates), runs, {})
    report = graphs.in_version_1(report) if happens(chance, 30) else report
    report = edited(chance, report) if happens(chance, 40) else report
    if happens(chance, 3):
        return report[:-1] if happens(chance, 30) else report[:chance.randint(0, len(report) - 1)]
    return report + chance.choice(["\n", "x", "\0", report, "x" * 70000]) if happens(chance, 2) else report


def range_for(chance, runs):
    """The first and the last moment of these runs; or others, of which some give the same runs."""
    first, last = runs[0][0], runs[-1][0]
    if happens(chance, 15):
        last = chance.choice([last.replace("T00", "T23"), runs[-1][1], runs[-2][0], runs[-1][1].replace("T00", "T12")])
    if happens(chance, 15):
        first = chance.choice([runs[1][0], first.replace("T00:00:00", "T00:00:01"), "2024-02-26T00:00:01Z", "2024-02-26T00:00:00Z", last])
    if happens(chance, 3):
        first, last = (runs[0][0].replace("T00", hour) for hour in ("T01", "T02"))
    return (last, first) if happens(chance, 2) else (first, last)


def clear_case(chance):
    runs = graphs.intervals_of(chance)
    sound = graphs.graph_of(chance)
    report = report_for(chance, sound, runs)
    graph = graphs.mended(chance, sound)
    first, last = range_for(chance, runs)
    known = recursion.Graph(graph)
    task = chance.choice(list(known.tasks)) if happens(chance, 85) else chance.choice(["nobody", "", "é", "A", "other", "more", "a b"])
    strange = ["2024-02-26T00:00:00Z", "2024-02-27T12:00:00Z", runs[-1][1], "2024-02-28T00:00:01Z", *intervals.OUTSIDE_MOMENTS[:7]]
    run = chance.choice([start for start, _ in runs] if happens(chance, 85) else strange)
    table = graphs.table_of(chance, known, [start for start, _ in runs])
    table = table_bytes(chance, planted_table(chance)) if happens(chance, 6) else json.dumps(table).encode()
    first, last, run = (moment_text(chance, each) if happens(chance, 30) else each for each in (first, last, run))
    return Case("clear", graph_bytes(chance, graph), table, first, last, None if happens(chance, 0.5) else report.encode(), task, run)


# Cases.


def words_of(case, folder):
    """The words of the line."""
    words = [case.command, f"{folder / 'graph.json'}"]
    if case.command == "single":
        return [*words, f"{folder / 'table.json'}", f"--at={case.first}"]
    span = [f"--from={case.first}", f"--to={case.last}"]
    if case.command == "dry":
        return [*words, f"{folder / 'table.json'}", *span]
    return [*words, f"{folder / 'report'}", f"--table={folder / 'table.json'}", *span, f"--task={case.task}", f"--run={case.run}"]


def write_case(folder, seed):
    """Writes the files of a seed, and answers its line."""
    chance = random.Random(seed)
    case = table_case(chance) if happens(chance, 55) else clear_case(chance)
    place = folder / f"{seed}"
    place.mkdir()
    wanted, status = told(case, place)
    files = {"graph.json": case.graph, "table.json": case.table, "report": case.report, "wanted": wanted.encode()}
    files["line"] = "".join(f"{word}\n" for word in words_of(case, place)).encode()
    for name, content in files.items():
        if content is not None:
            (place / name).write_bytes(content)
    return f"{seed} {status}\n"


if __name__ == "__main__":
    write_cases(write_case, __doc__)
