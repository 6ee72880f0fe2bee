#!/usr/bin/env python3
"""Random values there and back: random_values.py PROGRAM WORK COUNT [SEED]

Each value is pushed by one program and handed to another by `backfill run`, as a pull, as an item of a list, and in the list that an expanded task
pushes. What comes back by the package's codec has to be the value, and so has what docs/FORMATS.md makes of the report. The last line has how many
rows were right, and how many wrong.
"""
from __future__ import annotations

import datetime
import decimal
import json
import math
import pathlib
import random
import subprocess
import sys
from typing import Any, Dict, List

import reading
from backfill_airflow import codec

# (more than so many values at once pass what a graph file may have of tasks)
AT_ONCE = 500
PULLS = 16
TEXTS = [
    *("", "7", "x", "a b", " 7", "null", "true", "[1]", '["7"]', '{"a":1}', '"q"', "\n", "a\nb", "\0", "é", "NaN", "-0", "1e5", "1.5", "Infinity", "\t7"),
    *("'", "\\", '"', '{"__airflow__":"set","v":[]}', "9" * 30, "[" * 70 + "]" * 70, "[" * 200, "\u2028", "2024-01-01", " ", "\r", "-", "--pull", "\ud800"),
]
UTC = datetime.timezone.utc
ATOMS = [
    *(None, True, False, 0, -1, 42, 2**63, -(2**63), 2**63 - 1, 10**40, 0.0, -0.0, 1.5, 1e300, 5e-324, math.inf, -math.inf),
    *(datetime.date(2024, 2, 29), datetime.timedelta(days=3, seconds=3), datetime.timedelta(microseconds=-1), decimal.Decimal("1.10")),
    *(datetime.datetime(2024, 1, 2, 3, 4, 5, 6), datetime.datetime(2024, 1, 2, tzinfo=UTC)),
    datetime.datetime(2024, 7, 1, 12, tzinfo=datetime.timezone(datetime.timedelta(hours=-3, minutes=-30))),
]


class Values:
    """Values by chance."""

    def __init__(self, seed: int) -> None:
        self.chance = random.Random(seed)

    def text(self) -> str:
        if self.chance.random() < 0.7:
            return self.chance.choice(TEXTS)
        ranges = [(32, 127), (0, 0x2000), (0xE000, 0x11000)]
        return "".join(chr(self.chance.randrange(*self.chance.choice(ranges))) for _ in range(self.chance.randrange(6)))

    def value(self, depth: int = 0) -> Any:
        kind = self.chance.randrange(10)
        if depth > 4 or kind < 4:
            return self.text() if kind % 2 else self.chance.choice(ATOMS)
        several = [self.value(depth + 1) for _ in range(self.chance.randrange(4))]
        if kind < 7:
            return several
        if kind == 7:
            return {self.chance.choice([*TEXTS, codec.TAG]): each for each in several}
        if kind == 8:
            return tuple(several)
        return self.chance.choice([set, frozenset])([self.text(), self.chance.randrange(9)])

    def pushed(self) -> Any:
        """A value that can be pushed: there is one, and it isn't too long."""
        while True:
            made = self.value()
            if made is not None and len(codec.encode(made, most=None).encode()) < 60000:
                return made


def plain(value: Any) -> Any:
    """A value with its moments as texts, so that those of pendulum, of a stand-in and of a report compare."""
    if isinstance(value, reading.Moment):
        return ("moment", value.at.isoformat())
    if isinstance(value, datetime.datetime):
        return ("moment", value.isoformat())
    if isinstance(value, dict):
        return {key: plain(each) for key, each in value.items()}
    if isinstance(value, (list, tuple)):
        return type(value)(plain(each) for each in value)
    return value


# Writes its words to the file of the first, with a NUL behind each.
WRITE = ["sh", "-c", "for word; do printf '%s\\0' \"$word\"; done > words/$0"]
WRITE_ITEM = ["sh", "-c", "printf '%s\\0' \"$2\" > words/$0.$1"]


class Round:
    """As many values as go into a graph."""

    def __init__(self, program: str, work: pathlib.Path, values: List[Any]) -> None:
        self.program, self.work, self.values = program, work, values
        self.right = 0
        self.wrong: List[str] = []
        self.lists = [number for number, value in enumerate(values) if type(value) is list]
        # (of some values, which an expanded task pushes, the whole list is pulled)
        self.parts = range(0, len(values), 4 * PULLS)

    def row(self, wanted: Any, got: Any, words: str) -> None:
        if reading.same(plain(wanted), plain(got)):
            self.right += 1
        else:
            self.wrong.append(f"{words} {ascii(wanted)}: {ascii(got)}")

    def graph(self) -> Dict[str, Any]:
        ids = [f"push.{number}" for number in range(len(self.values))]
        tasks: List[Dict[str, Any]] = [{"id": name, "command": ["cat", f"lines/{name[5:]}"]} for name in ids]
        for start in range(0, len(ids), PULLS):
            names = ids[start : start + PULLS]
            tasks.append({"id": f"pull.{start}", "upstream": names, "command": [*WRITE, f"pull.{start}", *({"pull": name} for name in names)]})
        for number in self.lists:
            command = [*WRITE_ITEM, f"item.{number}", {"context": "map_index"}, {"item": True}]
            tasks.append({"id": f"item.{number}", "upstream": [ids[number]], "expand": ids[number], "command": command})
        for start in self.parts:
            places = list(range(start, min(start + PULLS, len(ids))))
            tasks.append({"id": f"places.{start}", "command": ["echo", json.dumps(places)]})
            command = ["sh", "-c", "cat lines/$0", {"item": True}]
            each = {"id": f"each.{start}", "upstream": [f"places.{start}"], "expand": f"places.{start}", "command": command}
            tasks += [each, {"id": f"all.{start}", "upstream": [each["id"]], "command": [*WRITE, f"all.{start}", {"pull": each["id"]}]}]
        return {"dag_id": "values", "schedule": "@daily", "tasks": tasks}

    def run(self) -> None:
        for folder in ("lines", "words"):
            (self.work / folder).mkdir(parents=True, exist_ok=True)
            for path in (self.work / folder).iterdir():
                path.unlink()
        for number, value in enumerate(self.values):
            (self.work / "lines" / str(number)).write_bytes(codec.encode(value, most=None).encode() + b"\n")
        (self.work / "graph.json").write_text(json.dumps(self.graph()))
        command = [self.program, "run", "graph.json", "--from", "2024-01-01", "--to", "2024-01-01", "--workers", "4"]
        report = subprocess.run(command, cwd=self.work, capture_output=True, text=True).stdout
        self.compare_report(report)
        self.compare_words()

    def compare_report(self, report: str) -> None:
        pushed = {place[0]: what[2] for _, place, what in reading.instances(report) if place[0].startswith("push.")}
        for number, value in enumerate(self.values):
            self.row(value, pushed.get(f"push.{number}"), "in the report")

    def words(self, name: str) -> List[str]:
        path = self.work / "words" / name
        return [each.decode("utf-8", "surrogateescape") for each in path.read_bytes().split(b"\0")[:-1]] if path.exists() else []

    def compare_words(self) -> None:
        for start in range(0, len(self.values), PULLS):
            words = self.words(f"pull.{start}")
            for place, value in enumerate(self.values[start : start + PULLS]):
                self.row(value, codec.decode_word(words[place]) if place < len(words) else "not run", "as a pull")
        for number in self.lists:
            for place, item in enumerate(self.values[number]):
                words = self.words(f"item.{number}.{place}")
                self.row(item, codec.decode_word(words[0], item=True) if words else "not run", "as an item")
        for start in self.parts:
            words = self.words(f"all.{start}")
            self.row(self.values[start : start + PULLS], codec.decode_word(words[0]) if words else "not run", "in the list that an expanded task pushes")


def main(program: str, folder: str, count: str, seed: str = "1") -> None:
    values = Values(int(seed))
    right = wrong = left = 0
    left = int(count)
    while left:
        some = Round(program, pathlib.Path(folder) / "values", [values.pushed() for _ in range(min(left, AT_ONCE))])
        some.run()
        left -= len(some.values)
        right += some.right
        wrong += len(some.wrong)
        for words in some.wrong[:5]:
            print(f"differs: {words}")
    print(right, wrong)


if __name__ == "__main__":
    main(*sys.argv[1:])
