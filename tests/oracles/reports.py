#!/usr/bin/env python3
"""Reports that go by chance, good ones and bad, and what `clear` is to say of each: reports.py FOLDER FIRST COUNT

This is a plain reading of docs/FORMATS.md ("Report, version 1", "Reading a report", "Report, version 2", "Moments" and the table of
refusals), by somebody who hasn't seen the code. For each seed from FIRST on, COUNT of them, a folder of its name has `report`,
and the file `cases` a line: the seed, and the refusal that `clear` prints. A report that is read is refused too, as
42, where the graph is of a dag id that no report here has.
"""
import copy
import datetime
import itertools
import json
import random
import re

from backfills import ITEMS, graph_of, happens, in_version_1, intervals_of, some, table_of, write_cases
from intervals import BAD_MOMENTS, DAY, FIRST_MOMENT, LAST_DAY, LAST_MOMENT, OUTSIDE_MOMENTS, Refused, moment_of, spelled
import recursion

LONGEST_LINE = 66000
LONGEST_PULL_LINE = 68000000
LONGEST_PULL = 67109889
MOST_RUNS = 4096
MOST_TASKS = 2000
MOST_TRIES = 101
MOST_PULLS = 16
LAST_END = (LAST_DAY + 1) * DAY - 1
ID = re.compile("[A-Za-z0-9._-]{1,250}")
NUMBER = re.compile("0|[1-9][0-9]{0,18}")


# Reading.


def is_value(text, most_bytes=recursion.LONGEST_VALUE, most_lists=recursion.DEEPEST_LISTS):
    """Whether it is the compact JSON text of a value or of null: the one in which it is written."""
    try:
        refuse = recursion.refuse
        value = json.loads(text, parse_int=recursion.whole_number, parse_float=refuse, parse_constant=refuse, object_hook=refuse)
        is_spelled_so = recursion.text_of(value) == text
        return is_spelled_so and len(text.encode()) <= most_bytes and recursion.depth(value) <= most_lists
    except (ValueError, RecursionError):
        return False


def moment_until(text, last):
    """The moment of a long form, or None where it isn't one of 1970 to this."""
    try:
        moment = moment_of(text)
    except Refused:
        return None
    return moment if len(text) == 20 and FIRST_MOMENT <= moment <= last else None


def may_stand(index, state, tries, value):
    """Whether the table of states has such a line."""
    if tries == 0:
        return index == -1 and state in ("skipped", "upstream_failed", "no_status") and value == "-"
    if tries > MOST_TRIES or value != "-" and (state != "success" or value == "null" or not is_value(value)):
        return False
    return state in ("success", "failed", "skipped")


class Reader:
    """What is known of a report by the lines so far."""

    def __init__(self):
        self.version = None
        self.runs = 0
        self.start = -1
        self.tasks = None  # the ids, once the first run has ended
        self.met = {}  # the ids of the present run
        self.next_index = None  # the only one that a further line of the last task may have
        self.wants_item = False
        self.pulls = None  # what the last instance has pulled, or None where it may pull nothing
        self.has_ended = False

    def takes(self, line):
        """Whether the line may stand in its place."""
        try:
            line = line.decode()
        except UnicodeDecodeError:
            return False
        if self.version is None:
            return self.takes_head(line)
        if line.startswith("@item "):
            return self.takes_item(line)
        if self.wants_item:
            return False
        if line.startswith("@pull "):
            return self.takes_pull(line)
        if line.startswith("@run "):
            return self.takes_run(line)
        if line.startswith("@end "):
            return self.takes_end(line)
        return self.takes_instance(line)

    def takes_head(self, line):
        word, version, dag_id = [*line.split(" "), "", ""][:3]
        self.version = {"1": 1, "2": 2}.get(version)
        return word == "@backfill" and self.version is not None and line.count(" ") == 2 and ID.fullmatch(dag_id) is not None

    def run_is_whole(self):
        """Whether the run so far, if there is one, has all tasks. Those of the first are all by themselves."""
        if self.runs == 1:
            self.tasks = list(self.met)
        return self.runs == 0 or len(self.met) == len(self.tasks)

    def takes_run(self, line):
        fields = line.split(" ")
        if not self.run_is_whole() or self.runs == MOST_RUNS or len(fields) != 4 or fields[3] not in ("success", "failed"):
            return False
        start, end = moment_until(fields[1], LAST_MOMENT), moment_until(fields[2], LAST_END)
        if start is None or end is None or not self.start < start <= end:
            return False
        self.runs, self.start, self.met, self.next_index, self.pulls = self.runs + 1, start, {}, None, None
        return True

    def takes_end(self, line):
        self.has_ended = self.run_is_whole() and line == f"@end {self.runs}"
        return self.has_ended

    def is_next(self, task, index):
        """Whether the task may have a line of this index now."""
        if task in self.met:
            return task == list(self.met)[-1] and index == self.next_index and index < recursion.MOST_ITEMS
        if index not in (-1, 0):
            return False
        if self.tasks is None:
            return len(self.met) < MOST_TASKS
        return len(self.met) < len(self.tasks) and task == self.tasks[len(self.met)]

    def takes_instance(self, line):
        task, index, state, tries, value = [*line.split(" ", 4), "", "", "", ""][:5]
        if self.runs == 0 or not ID.fullmatch(task) or not NUMBER.fullmatch(tries) or not (index == "-1" or NUMBER.fullmatch(index)):
            return False
        index, tries = int(index), int(tries)
        if not self.is_next(task, index) or not may_stand(index, state, tries, value):
            return False
        self.met[task] = True
        self.next_index = index + 1 if index >= 0 else None
        told = self.version == 2 and tries > 0
        self.wants_item = told and index >= 0
        self.pulls = set() if told else None
        return True

    def takes_item(self, line):
        wanted, self.wants_item = self.wants_item, False
        return wanted and is_value(line.removeprefix("@item "))

    def takes_pull(self, line):
        task, _, value = line.removeprefix("@pull ").partition(" ")
        if self.pulls is None or len(self.pulls) == MOST_PULLS or task in self.pulls or not ID.fullmatch(task):
            return False
        self.pulls.add(task)
        return value == "-" or value != "null" and is_value(value, LONGEST_PULL, recursion.DEEPEST_LISTS + 1)


def answer(content):
    """The first fault, or the mismatch with a graph that it isn't of."""
    reader, place = Reader(), 0
    for number in itertools.count(1):
        if reader.has_ended:
            return "42 report mismatch" if place == len(content) else f"30 bad line: {number}"
        end = content.find(b"\n", place)
        length = (len(content) if end < 0 else end) - place
        if length > (LONGEST_PULL_LINE if content.startswith(b"@pull ", place) else LONGEST_LINE):
            return f"31 line too long: {number}"
        if end < 0:
            return "32 truncated"
        if not reader.takes(content[place:end]):
            return f"30 bad line: {number}"
        place = end + 1


# What follows goes by chance: good reports.

IDS = ["a", "b", "c", "load", "load.2", "x-y", "_", "-", ".", "-1", "7", "true", "null", "success", "Z" * 250]
TEXTS = ["", "-", " ", "two  words", "null", "é", "\u20ac\U0001f600\U0010ffff", "\x7f\x80\u2028\ufeff\uffff"]
TEXTS += ['"\\/', "\b\f\n\r\t", "\x00\x01\x1f\x0b"]


def value(chance, lists=2):
    """A value of any form but null."""
    form = chance.random()
    if form < 0.3 and lists > 0:
        return [value(chance, lists - 1) if happens(chance, 85) else None for _ in range(chance.randint(0, 3))]
    if form < 0.6:
        return "".join(some(chance, TEXTS, 0, 1, 2, 3))
    return chance.choice(ITEMS[1:]) if form < 0.9 else chance.choice([10, -1]) ** chance.randint(0, 18)


def value_text(chance, nothing=50):
    return "-" if happens(chance, nothing) else recursion.text_of(value(chance))


def instances_of(chance, version, task, pulls):
    if happens(chance, 25):
        return [f"{task} -1 {chance.choice(['skipped', 'upstream_failed', 'no_status'])} 0 -"]
    lines = []
    for index in range(chance.choice([1, 2, 3, 11])) if happens(chance, 35) else [-1]:
        state = chance.choice(["success", "success", "failed", "skipped"])
        text = value_text(chance) if state == "success" else "-"
        lines.append(f"{task} {index} {state} {chance.choice([1, 1, 2, 10, 101])} {text}")
        if version == 2:
            lines += [f"@item {recursion.text_of(value(chance))}"] * (index >= 0)
            lines += [f"@pull {each} {value_text(chance, 30)}" for each in pulls]
    return lines


def starts_of(chance, count):
    """Rising starts, by a second or by years, within the years."""
    starts = {chance.choice([FIRST_MOMENT, LAST_MOMENT, chance.randint(FIRST_MOMENT, LAST_MOMENT)])}
    while len(starts) < count:
        starts.add(min(max(chance.choice([*starts]) + chance.choice([-1, 1]) * chance.choice([1, 3600, DAY, 9999 * DAY]), 0), LAST_MOMENT))
    return sorted(starts)[:count]


def report_by_rules(chance):
    version = chance.choice([1, 2, 2])
    tasks = {task: some(chance, IDS, 0, 0, 1, 2, 15) for task in some(chance, IDS, 0, 1, 2, 3, 4)}
    lines = [f"@backfill {version} {chance.choice(IDS)}"]
    starts = starts_of(chance, chance.choice([0, 1, 1, 2, 2, 3]))
    for start in starts:
        end = min(start + chance.choice([0, 1, DAY, 9999 * DAY]), LAST_END)
        lines.append(f"@run {spelled(start)} {spelled(end)} {chance.choice(['success', 'failed'])}")
        for task, pulls in tasks.items():
            lines += instances_of(chance, version, task, pulls)
    return lines + [f"@end {len(starts)}"]


def report_of_graph(chance):
    """What `dry` prints of a graph, or that in version 1."""
    file, intervals = graph_of(chance), intervals_of(chance)
    graph = recursion.Graph(file)
    report, _ = recursion.report_by_table(graph, table_of(chance, graph, [start for start, _ in intervals]), intervals, {})
    return (report if happens(chance, 70) else in_version_1(report)).removesuffix("\n").split("\n")


# Small reports, whose one fault is the only thing that can be seen.


def report_of_value(chance):
    """One value, which needn't be one, in one of its places."""
    text = chance.choice(NOT_COMPACT)
    return chance.choice([
        lambda: in_one_run(f"a -1 success 1 {text}", version=chance.choice([1, 2])),
        lambda: in_one_run("a 0 success 1 -", f"@item {text}"),
        lambda: in_one_run("a -1 success 1 -", f"@pull b {text}"),
    ])()


def report_of_field(chance):
    """One field of a short report, which needn't be good."""
    version = chance.choice([1, 2, 2])
    index = chance.choice([-1, 0])
    lines = [f"a {index} {chance.choice(STATES[:3])} {chance.choice([1, 101])} -", *["@item 1"][:version - 1 if index == 0 else 0]]
    lines += [*["@pull b -"][:version - 1], "b -1 no_status 0 -"]
    second = [f"@run {spelled(LAST_MOMENT)} {spelled(LAST_END)} failed", *lines] if happens(chance, 30) else []
    lines = [line.encode() for line in [*in_one_run(*lines, version=version)[:-1], *second, f"@end {2 if second else 1}"]]
    change_field(chance, lines)
    return [line.decode(errors="surrogateescape") for line in lines]


def walk_line(chance, runs=1):
    """One of few lines, so that it often fits to those before it, and often almost does."""
    task, index, version = chance.choice("aab"), chance.choice([-1, -1, 0, 0, 1, 2]), chance.choice([1, 2])
    row = f"{chance.choice(STATES[:5])} {chance.choice([0, 1, 1, 2, 101, 102])} {chance.choice(['-', '-', '-', '1', 'null'])}"
    day = min(runs + chance.choice([0, 1, 1, 1]), 9)
    next_day, count = chance.choice([day, min(day + 1, 9), 9]), chance.choice([runs, runs, runs, runs + 1])
    return chance.choice([
        *[f"{task} {index} {row}"] * 3,
        *[f"{task} {index} success {version} -", f"{task} -1 no_status 0 -", f"{chance.choice(IDS)} {index} {row}"],
        *[f"@item {chance.choice(['1', 'null', '-'])}", f"@pull {task} {chance.choice(['1', '-', 'null'])}"],
        f"@pull {chance.choice(IDS)} []",
        *[f"@run 2024-01-0{day}T00:00:00Z 2024-01-0{next_day}T00:00:00Z success", f"@end {count}"],
    ])


def report_by_walk(chance):
    """Lines of which each may stand in its place, but for the last where a bad one comes."""
    reader, lines = Reader(), [f"@backfill {chance.choice([1, 2, 2])} d"]
    reader.takes(lines[0].encode())
    while not reader.has_ended and len(lines) < 30:
        line = walk_line(chance, reader.runs)
        if copy.deepcopy(reader).takes(line.encode()):
            if not line.startswith("@end") or happens(chance, 20):
                lines.append(line)
                reader.takes(line.encode())
        elif happens(chance, 8):
            return [*lines, line, *(walk_line(chance) for _ in "12")]
    return lines


# At the limits, and one beyond.

SHORT_RUN = "@run 2024-01-01T00:00:00Z 2024-01-02T00:00:00Z success"


def in_one_run(*lines, version=2):
    return [f"@backfill {version} d", SHORT_RUN, *lines, "@end 1"]


def text_of_bytes(count):
    return '"' + "x" * (count - 2) + '"'


def lists(count):
    return "[" * count + "]" * count


def many_runs(count):
    days = [datetime.date(2024, 1, 1) + datetime.timedelta(days=number) for number in range(count)]
    return ["@backfill 2 d", *(f"@run {day}T00:00:00Z {day}T00:00:00Z success" for day in days), f"@end {count}"]


def report_at_limit(chance):
    more = chance.choice([0, 1])
    version = chance.choice([1, 2])
    text = text_of_bytes(recursion.LONGEST_VALUE + more)
    deep = recursion.DEEPEST_LISTS + more
    expanded = [line for index in range(recursion.MOST_ITEMS + more) for line in [f"a {index} success 1 -", "@item 1"][:version]]
    name = "i" * (250 + more)
    return chance.choice([
        lambda: many_runs(MOST_RUNS + more),
        lambda: in_one_run(*(f"t{number} -1 no_status 0 -" for number in range(MOST_TASKS + more)), version=version),
        lambda: in_one_run(*expanded, version=version),
        lambda: in_one_run("a -1 success 1 -", *(f"@pull p{number} -" for number in range(MOST_PULLS + more))),
        lambda: in_one_run(f"a -1 success {MOST_TRIES + more} -", version=version),
        lambda: in_one_run(f"{name} 10 success 1 1" if more else f"{name} -1 success 101 {text}", version=version),
        lambda: in_one_run("a -1 success 1 -", f"@pull {name} -"),
        lambda: [f"@backfill {version} {name}", "@end 0"],
        lambda: ["@backfill 2 d", f"@run {spelled(LAST_MOMENT + more)} {spelled(LAST_END)} success", "@end 1"],
        lambda: ["@backfill 2 d", f"@run {spelled(LAST_MOMENT)} {spelled(LAST_END + more)} success", "@end 1"],
        lambda: in_one_run(f"a -1 success 1 {text}", version=version),
        lambda: in_one_run(f"a -1 success 1 {text_of_bytes(recursion.LONGEST_VALUE - 1 + more)[:-2]}é\"", version=version),
        lambda: in_one_run("a 0 success 1 -", f"@item {text}"),
        lambda: in_one_run("a -1 success 1 -", f"@pull b {text_of_bytes(chance.choice([65537, 66000, 99999]))}"),
        lambda: in_one_run(f"a -1 success 1 {lists(deep)}", version=version),
        lambda: in_one_run("a 0 success 1 -", f"@item [1,{lists(deep - 1)}]"),
        lambda: in_one_run("a -1 success 1 -", f"@pull b {lists(deep + 1)}"),
        lambda: in_one_run("a -1 success 1 -", f"@pull b {lists(chance.choice([126, 127, 128, 129, 20000]))}"),
        lambda: in_one_run(f"a -1 success 1 {lists(chance.choice([127, 128, 129, 20000]))}"),
    ])()


def with_long_line(chance, lines):
    """A line of about as many bytes as a line may have, somewhere."""
    starts = ["", "a -1 success 1 \"", "@item \"", "@end ", "@pull", "@pull\t", "@pull ", "@pull b \"", "@pull b \"", "@backfill 2 "]
    start = chance.choice(starts)
    if happens(chance, 60):
        lines[:] = map(str.encode, in_one_run("a -1 success 1 -"))
    place = chance.randint(0, len(lines))
    lines.insert(place, start.encode().ljust(LONGEST_LINE + chance.choice([-1, 0, 1, 1, 9]), b"x"))


def with_huge_pull(chance, lines):
    """A value of as many bytes as a pulled one may have, or a line of as many as such a line may have."""
    long = chance.choice([LONGEST_PULL, LONGEST_PULL + 1, 0, 0])
    line = f"@pull b {text_of_bytes(long)}".ljust(0 if long else LONGEST_PULL_LINE + chance.choice([0, 1]), "x")
    if happens(chance, 60):
        lines[:] = map(str.encode, in_one_run("a -1 success 1 -", version=chance.choice([1, 2, 2, 2, 2])))
        lines.insert(3, line.encode())
    else:
        lines.insert(chance.randint(0, len(lines)), line.encode())


# Changes.

NO_UTF_8 = [b"\xff", b"\x80", b"\xc3", b"\xc0\x80", b"\xed\xa0\x80", b"\xf4\x90\x80\x80", b"\xe2\x82", b"\xf0\x80\x80\x80"]
NOT_COMPACT = [
    *[f'"{each.decode(errors="surrogateescape")}"' for each in NO_UTF_8],
    *["", " ", "-", "--", "null", "[null]", "true", "True", "nul", "NaN", "Infinity", "-Infinity", "0", "-0", "00", "01", "-01", "+1"],
    *["1.0", "1e2", "1E2", ".5", "1.", "0x1", "9223372036854775807", "9223372036854775808", "-9223372036854775808", "-9223372036854775809"],
    *["18446744073709551616", "1" * 400, "1e999", "[-0]", "[1.0]", "[1e400]", "[9223372036854775808]", "{}", '{"a":1}', "[{}]"],
    *["[1, 2]", "[1 ,2]", "[ 1]", "[1 ]", "[1,]", "[,1]", "[1 2]", "[1]]", "[[1]", "[1]x", "[1]\r", "1 ", " 1", "\t1", "1\t", "1 2", "[]"],
    *['"', '""', '"x', 'x"', "x", "'x'", '"a"b"', '"-"', r'"\/"', "\"/\"", r'"\""', r'"\\"', r'"\x"', r'"\'"', r'"\u0041"', r'"\u00e9"'],
    *[r'"\u0000"', r'"\u001f"', r'"\u001F"', r'"\u000a"', r'"\u000A"', r'"\u0008"', r'"\u000b"', r'"\u000B"', r'"\u0022"', r'"\u005c"'],
    *[r'"\b\f\n\r\t"', r'"\B"', r'"\v"', r'"\u7f"', r'"\u007f"', '"\x7f"', '"\x1f"', '"\t"', '"\r"', '"\0"'],
    *[r'"\ud83d\ude00"', r'"\ud800"'],
    *['"\u2028\u0085\xa0"', '"\ufeff"', '\ufeff""', '""\ufeff', '"\U0010ffff\uffff"', "\xa01", "１", '["\\u0001",""]', r'["\u20aC"]'],
]
PIECES = [b" ", b"\t", b"\r", b"\x00", b"\n", b"\n\n", b"@", b"-", b"0", b"1", b"+", b'"', b"\\", b",", b"[", b"]", "é".encode(), *NO_UTF_8]
NUMBERS = ["-1", "-0", "-2", "0", "00", "1", "01", "+1", "2", "3", "10", "100", "101", "102", "1023", "1024", "1.0", "1e0", "0x1"]
NUMBERS += ["", "x", "１"]
HUGE = ["4294967295", "4294967296", "4294967297", "9223372036854775808", "18446744073709551615", "18446744073709551616", "1" + "0" * 40]
STATES = ["success", "failed", "skipped", "upstream_failed", "no_status", "Success", "succes", "success."]
STATES += ["running", "blocked", "removed", ""]
NAMES = [*IDS, "", "é", "a/b", "a b", "@a", "@run", "a:b", "a\t", "Z" * 251, "a\0", "ａ", "nobody"]
MOMENTS = [
    *["1970-01-01T00:00:00Z", "2024-02-29T23:59:59Z", "2199-12-31T23:59:59Z", "2200-01-01T00:00:00Z", "2208-12-31T23:59:59Z"],
    *["2209-01-01T00:00:00Z", "2024-02-30T00:00:00Z", "2200-02-29T00:00:00Z", "2204-02-29T00:00:00Z", "2000-02-29T00:00:00Z"],
    *["0000-02-29T00:00:00Z", "9999-12-31T23:59:59Z", "2024-01-01T00:00:60Z", "2024-01-01T24:00:00Z", "2024-01-01"],
    *[*BAD_MOMENTS, *OUTSIDE_MOMENTS],
]
ADDED = ["", " ", "# x", "@", "@item", "@pull", "@pull a", "@end", "@run", "@item ", "@pull a ", "@Item 1", "@retry 1", "@backfill 2 d"]
HEADS = ["@backfill", "@Backfill", "backfill", "@backfill ", "@backfil", "\ufeff@backfill", "@run"]
KINDS = {"@run": [MOMENTS, MOMENTS, STATES], "@end": [NUMBERS + HUGE], "@item": [NOT_COMPACT], "@pull": [NAMES, NOT_COMPACT]}


def other_field(chance, field, others):
    """A field spelled otherwise, or another one."""
    text = field.decode(errors="surrogateescape")
    spellings = ["", f"0{text}", f"+{text}", f"-{text}", f"{text} ", f" {text}", f"{text}0"]
    spellings += [text.upper(), text[:-1], f"{text}\r", f"{text}\t"]
    return chance.choice(spellings if happens(chance, 25) else others).encode(errors="surrogateescape")


def change_field(chance, lines):
    """Changes a field of a line. All behind the value's first byte is one field."""
    place = chance.randrange(len(lines))
    word = lines[place].split(b" ")[0].decode(errors="replace")
    others = KINDS.get(word, [NUMBERS + HUGE, STATES, NUMBERS + HUGE, NOT_COMPACT])
    others = [["1", "2", "2", "3", "", "02", "-2"], NAMES] if word == "@backfill" else others
    fields = lines[place].split(b" ", len(others))
    number = chance.randrange(len(fields))
    first = HEADS if word == "@backfill" else [*KINDS] if word in KINDS else NAMES
    fields[number] = other_field(chance, fields[number], [first, *others][number])
    lines[place] = b" ".join(fields)


def put_piece(chance, lines):
    place = chance.randrange(len(lines))
    at = chance.randint(0, len(lines[place]))
    lines[place] = lines[place][:at] + chance.choice(PIECES) + lines[place][at + chance.choice([0, 0, 1]):]


def move_line(chance, lines):
    """A line is left out, doubled, swapped with its neighbour, moved, or said again elsewhere."""
    place, to = chance.randrange(len(lines)), chance.randrange(len(lines))
    form = chance.choice(["left out", "left out", "doubled", "swapped", "moved", "again"])
    line = lines.pop(place)
    at = {"doubled": place, "swapped": place + 1, "moved": to, "again": to}.get(form)
    lines[place:place] = [line] if form in ("doubled", "again") else []
    lines[at or 0:at or 0] = [line] if at is not None else []


def add_line(chance, lines):
    place = chance.choice([chance.randint(0, len(lines)), len(lines) - 1, len(lines)])
    lines.insert(place, chance.choice([*ADDED, walk_line(chance)]).encode())


CHANGES = [*[change_field] * 5, *[move_line] * 4, add_line, put_piece]


def change_end(chance, content):
    """Cut at a byte, without its last line feed, or with something behind its end."""
    form = chance.choice(["cut", "cut", "no line feed", "behind", "first"])
    if form == "cut":
        return content[:chance.randint(0, len(content))]
    if form == "no line feed":
        return content.removesuffix(b"\n")
    pieces = [b"\n", b" ", b"\0", b"\r", b"x", b"@end 1\n", b"\xff", b"x" * 66001, b"@pull ", content]
    return content + chance.choice(pieces) if form == "behind" else chance.choice([b"\n", b" ", b"\xef\xbb\xbf", b"\r"]) + content


# Of each hundred reports as many are of a kind, and of each hundred of these as many are changed.
KINDS_OF_REPORTS = {
    report_by_rules: (20, 85),
    report_of_graph: (8, 85),
    report_by_walk: (30, 5),
    report_of_value: (15, 0),
    report_of_field: (15, 5),
    report_at_limit: (12, 5),
}


def report_by_chance(seed):
    chance = random.Random(seed)
    kind, = chance.choices([*KINDS_OF_REPORTS], [often for often, _ in KINDS_OF_REPORTS.values()])
    lines = [line.encode(errors="surrogateescape") for line in kind(chance)]
    if happens(chance, KINDS_OF_REPORTS[kind][1]):
        for _ in range(chance.choice([1, 1, 1, 1, 1, 2, 3])):
            chance.choice(CHANGES)(chance, lines or [b""])
    if happens(chance, 5):
        with_long_line(chance, lines)
    if happens(chance, 0.25):
        with_huge_pull(chance, lines)
    content = b"\r\n".join([*lines, b""]) if happens(chance, 0.5) else b"".join(line + b"\n" for line in lines)
    return change_end(chance, content) if happens(chance, 8) else content


def write_case(folder, seed):
    """Writes the report of a seed, and answers its line."""
    content = report_by_chance(seed)
    (folder / f"{seed}").mkdir()
    (folder / f"{seed}" / "report").write_bytes(content)
    return f"{seed} {answer(content)}\n"


if __name__ == "__main__":
    write_cases(write_case, __doc__)
