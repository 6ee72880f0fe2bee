"""Reads the reports of `backfill`, of both versions, a row for each task instance.

    from backfill_report import read_report

    for row in read_report(open("report.txt", "rb")):
        if row.state == "failed":
            print(row.run, row.task, row.tries)

For pandas: `pandas.DataFrame(map(vars, read_report(open("report.txt", "rb"))))`. From a terminal, `python3 backfill_report.py report.txt` prints the
rows as JSON, one a line, and `--sqlite report.db` puts them into the table `report` of a database, where value, item and pulls are JSON.

It reads just the reports that `backfill show` reads. Any other is a ReportError with the number and the words of the program's refusal.
"""

from __future__ import annotations

import argparse
import contextlib
import dataclasses
import datetime
import json
import os
import re
import sqlite3
import sys
from typing import Any, Dict, Iterable, Iterator, List, Mapping, NoReturn, Optional, Set, Tuple, Union

__all__ = ["ReportError", "Row", "read_report", "to_sqlite"]

MOST_RUNS = 4_096
MOST_TASKS = 2_000
MOST_ITEMS = 1_024
MOST_TRIES = 101
MOST_PULLS = 16
# In bytes.
LONGEST_LINE = 66_000
LONGEST_PULL_LINE = 68_000_000
LONGEST_VALUE = 65_536
LONGEST_PULL = 67_109_889
# How many lists may stand in one another.
DEEPEST_VALUE = 64
DEEPEST_PULL = 65
# A run starts in these years, and ends in these.
START_YEARS = (1970, 2199)
END_YEARS = (1970, 2208)

_ID = re.compile("[A-Za-z0-9._-]{1,250}")
_NUMBER = re.compile("0|[1-9][0-9]{0,18}")
_MOMENT = re.compile("([0-9]{4})-([0-9]{2})-([0-9]{2})T([0-9]{2}):([0-9]{2}):([0-9]{2})Z")


class ReportError(ValueError):
    """A text that is no report: the number of `backfill`'s refusal, 30 to 32, and its words."""

    def __init__(self, number: int, words: str) -> None:
        super().__init__(f"refused {number} {words}")
        self.number = number
        self.words = words


@dataclasses.dataclass
class Row:
    """An instance of a task in a run: the run's data interval and state, the map index (-1 where the task isn't expanded), the state, the
    number of its tries, the value that it pushed, its item, and the values that it pulled by task. What isn't there is None; an item may
    be None too, and then `has_item` tells it."""

    run: str
    end: str
    run_state: str
    task: str
    index: int
    state: str
    tries: int
    value: Any = None
    item: Any = None
    has_item: bool = False
    pulls: Dict[str, Any] = dataclasses.field(default_factory=dict)

    def to_dict(self) -> Dict[str, Any]:
        """The row without what isn't there: the members of a line of `backfill show --json`, in their order."""
        keys = vars(self).copy()
        absent = {"has_item", *(() if self.has_item else ("item",)), *(key for key in ("value", "pulls") if keys[key] in (None, {}))}
        return {key: value for key, value in keys.items() if key not in absent}


# ---- the parts of a line. Each raises a ValueError for what no report has there.


def _refuse(what: object) -> NoReturn:
    raise ValueError(what)


def _whole_number(text: str) -> int:
    number = int(text)
    return number if -(2**63) <= number < 2**63 else _refuse(text)


def _compact(value: Any) -> str:
    return json.dumps(value, ensure_ascii=False, separators=(",", ":"))


def _depth(value: Any) -> int:
    """How many lists stand in one another."""
    return 1 + max(map(_depth, value), default=0) if isinstance(value, list) else 0


def _json(text: str, longest: int = LONGEST_VALUE, deepest: int = DEEPEST_VALUE) -> Any:
    """A value or null by its compact text, which is the only one that it has."""
    value = json.loads(text, parse_int=_whole_number, parse_float=_refuse, parse_constant=_refuse, object_pairs_hook=_refuse)
    if _compact(value) != text or len(text.encode()) > longest or _depth(value) > deepest:
        _refuse(text)
    return value


def _value(text: str, longest: int = LONGEST_VALUE, deepest: int = DEEPEST_VALUE) -> Any:
    """What was pushed or pulled, and None for `-`."""
    if text == "-":
        return None
    value = _json(text, longest, deepest)
    return _refuse(text) if value is None else value


def _id(text: str) -> str:
    return text if _ID.fullmatch(text) else _refuse(text)


def _number(text: str) -> int:
    return int(text) if _NUMBER.fullmatch(text) else _refuse(text)


def _moment(text: str, years: Tuple[int, int]) -> str:
    match = _MOMENT.fullmatch(text) or _refuse(text)
    numbers = [int(group) for group in match.groups()]
    if not years[0] <= numbers[0] <= years[1]:
        _refuse(text)
    datetime.datetime(numbers[0], numbers[1], numbers[2], numbers[3], numbers[4], numbers[5])
    return text


class _Reading:
    """What is known of a report by its lines so far."""

    def __init__(self) -> None:
        self.version = ""
        self.runs = 0
        self.run = ("", "", "")
        # The tasks of each run, once the first has ended.
        self.tasks: Optional[List[str]] = None
        # The tasks of this run, by how many lines each has.
        self.met: Dict[str, int] = {}
        self.row: Optional[Row] = None
        self.wants_item = False
        self.is_whole = False

    def take(self, line: str) -> Optional[Row]:
        """Takes the next line, and gives the instance before it once nothing more can belong to it."""
        if not self.version:
            self._take_head(line)
        elif line.startswith("@item "):
            self._take_item(line[6:])
        elif self.wants_item:
            _refuse(line)
        elif line.startswith("@pull "):
            self._take_pull(line[6:])
        else:
            return self._take_next(line)
        return None

    def _take_next(self, line: str) -> Optional[Row]:
        row, self.row = self.row, None
        if line.startswith("@run "):
            self._take_run(line)
        elif line.startswith("@end "):
            self._end_run()
            self.is_whole = line == f"@end {self.runs}" or _refuse(line)
        else:
            self._take_instance(line)
        return row

    def _take_head(self, line: str) -> None:
        word, version, dag_id = line.split(" ")
        if word != "@backfill" or version not in ("1", "2"):
            _refuse(line)
        _id(dag_id)
        self.version = version

    def _end_run(self) -> None:
        """Sees that the run so far, if there is one, has all tasks."""
        if self.runs == 1:
            self.tasks = list(self.met)
        if self.tasks is not None and len(self.met) != len(self.tasks):
            _refuse(self.met)

    def _take_run(self, line: str) -> None:
        _, start, end, state = line.split(" ")
        self._end_run()
        # (moments of one form and length stand in the order of their texts)
        is_later = self.run[0] < _moment(start, START_YEARS) <= _moment(end, END_YEARS)
        if not is_later or state not in ("success", "failed") or self.runs == MOST_RUNS:
            _refuse(line)
        self.runs, self.run, self.met = self.runs + 1, (start, end, state), {}

    def _is_next(self, task: str, index: int) -> bool:
        """Whether the task may have a line of this index now."""
        if task in self.met:
            # (only the last task goes on, and only where it is expanded)
            return task == next(reversed(self.met)) and 0 < index == self.met[task] < MOST_ITEMS
        is_known = self.tasks is None or task == (self.tasks[len(self.met)] if len(self.met) < len(self.tasks) else None)
        return index in (-1, 0) and is_known and len(self.met) < MOST_TASKS

    def _take_instance(self, line: str) -> None:
        task, index_text, state, tries_text, value_text = line.split(" ", 4)
        index, tries = -1 if index_text == "-1" else _number(index_text), _number(tries_text)
        row = Row(*self.run, _id(task), index, state, tries, _value(value_text))
        was_tried = 1 <= tries <= MOST_TRIES and state in ("success", "failed", "skipped")
        was_not = tries == 0 and index == -1 and state in ("skipped", "upstream_failed", "no_status")
        if self.runs == 0 or not self._is_next(task, index) or not (was_tried or was_not) or value_text != "-" and state != "success":
            _refuse(line)
        self.met[task] = index + 1
        self.row = row
        self.wants_item = self.version == "2" and index >= 0

    def _take_item(self, text: str) -> None:
        if self.row is None or not self.wants_item:
            _refuse(text)
        self.row.item, self.row.has_item, self.wants_item = _json(text), True, False

    def _take_pull(self, text: str) -> None:
        task, value = text.split(" ", 1)
        if self.row is None or self.version == "1" or self.row.tries == 0 or task in self.row.pulls or len(self.row.pulls) == MOST_PULLS:
            _refuse(text)
        self.row.pulls[_id(task)] = _value(value, LONGEST_PULL, DEEPEST_PULL)


# ---- reports

Piece = Union[str, bytes]


def _pieces(report: Iterable[Piece]) -> Iterator[bytes]:
    """The lines of a report, each with its line feed. Of one of a file that is too long, only as much as shows it."""
    readline = getattr(report, "readline", None)
    if readline is None:
        for line in report:
            yield line.encode() if isinstance(line, str) else line
        return
    while True:
        piece = readline(LONGEST_LINE + 2)
        if piece[:6] in ("@pull ", b"@pull ") and piece[-1:] not in ("\n", b"\n"):
            piece += readline(LONGEST_PULL_LINE + 2 - len(piece))
        if not piece:
            return
        yield piece.encode() if isinstance(piece, str) else piece


def read_report(report: Iterable[Piece]) -> Iterator[Row]:
    """The rows of a report, as they are read: of a file that is open for bytes or text, or of other lines. Raises a ReportError at the first
    fault; the rows before it were good."""
    reading = _Reading()
    try:
        number = 0
        for number, piece in enumerate(_pieces(report), 1):
            if reading.is_whole:
                _refuse(piece)
            if len(piece) - piece.endswith(b"\n") > (LONGEST_PULL_LINE if piece.startswith(b"@pull ") else LONGEST_LINE):
                raise ReportError(31, f"line too long: {number}")
            if not piece.endswith(b"\n"):
                break
            row = reading.take(piece[:-1].decode())
            if row is not None:
                yield row
    except ReportError:
        raise
    except (ValueError, RecursionError) as error:
        raise ReportError(30, f"bad line: {max(number, 1)}") from error
    if not reading.is_whole:
        raise ReportError(32, "truncated")


def to_sqlite(rows: Iterable[Row], path: str) -> None:
    """Puts rows into the table `report` of a database, in place of those that are there."""

    def columns(row: Row) -> List[Any]:
        given: Mapping[str, Any] = row.to_dict()
        texts = [json.dumps(given[key], ensure_ascii=False) if key in given else None for key in ("value", "item", "pulls")]
        return [row.run, row.end, row.run_state, row.task, row.index, row.state, row.tries, *texts]

    # (one transaction, so that what is no report leaves the table as it was)
    with contextlib.closing(sqlite3.connect(path)) as database, database:
        database.execute("BEGIN")
        database.execute("DROP TABLE IF EXISTS report")
        database.execute(
            'CREATE TABLE report (run TEXT, "end" TEXT, run_state TEXT, task TEXT, "index" INTEGER, state TEXT, tries INTEGER,'
            " value TEXT, item TEXT, pulls TEXT)"
        )
        database.executemany("INSERT INTO report VALUES (?, ?, ?, ?, ?, ?, ?, ?, ?, ?)", map(columns, rows))


def print_rows(rows: Iterable[Row]) -> None:
    """Prints rows as JSON in UTF-8, whatever the locale is."""
    for row in rows:
        sys.stdout.buffer.write(_compact(row.to_dict()).encode() + b"\n")
    sys.stdout.flush()


def main(words: List[str]) -> int:
    parser = argparse.ArgumentParser(description="Prints the rows of a report as JSON, one a line, or puts them into a database.")
    parser.add_argument("report", help="the report, or - for standard input")
    parser.add_argument("--sqlite", metavar="PATH", help="the database whose table `report` gets the rows")
    asked = parser.parse_args(words)
    try:
        with sys.stdin.buffer if asked.report == "-" else open(asked.report, "rb") as report:
            if asked.sqlite:
                to_sqlite(read_report(report), asked.sqlite)
            else:
                print_rows(read_report(report))
    except ReportError as error:
        print(error, file=sys.stderr)
        return 2
    except BrokenPipeError:
        # Whoever reads the rows has enough of them, as `head`. (What is flushed at the end goes nowhere.)
        os.dup2(os.open(os.devnull, os.O_WRONLY), sys.stdout.fileno())
        return 141
    except (OSError, sqlite3.Error) as error:
        print(f"fault: {error}", file=sys.stderr)
        return 3
    return 0


if __name__ == "__main__":
    sys.exit(main(sys.argv[1:]))
