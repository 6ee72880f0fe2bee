"""Reads the values of a report as docs/FORMATS.md states them, without the package: a value that has a form stands for itself, a text that is JSON
for that value, any other text for itself; what JSON lacks is an object with the key __airflow__."""
from __future__ import annotations

import datetime
import decimal
import json
from typing import Any, Dict, Iterator, List, Tuple

TAG = "__airflow__"
NOTHING = type("Nothing", (), {"__repr__": lambda self: "-"})()


class Keys(dict):
    """What a task pushed under several keys."""

    def __repr__(self) -> str:
        return f"keys({', '.join(f'{key}={value!r}' for key, value in self.items())})"


class Pair(tuple):
    """An entry of a dict over which a task is expanded."""

    def __repr__(self) -> str:
        return f"pair{tuple(self)!r}"


class Moment:
    """A date and time as it stands in a report: what the clock shows, and its offset."""

    def __init__(self, text: str) -> None:
        self.at = datetime.datetime.fromisoformat(text)

    def __eq__(self, other: Any) -> bool:
        return isinstance(other, Moment) and self.at == other.at and self.at.utcoffset() == other.at.utcoffset()

    def __repr__(self) -> str:
        return f"moment({self.at.isoformat()!r})"


def _refuse(text: str) -> Any:
    raise ValueError(text)


def _loads(text: str) -> Any:
    return json.loads(text, parse_constant=_refuse)


def _moment(text: str, offset: Any, _zone: Any) -> Moment:
    at = datetime.datetime.fromisoformat(text)
    return Moment((at if offset is None else at.replace(tzinfo=datetime.timezone(datetime.timedelta(seconds=offset)))).isoformat())


KINDS = {
    "float": float,
    "list": lambda inner: _inner(inner),
    "tuple": lambda inner: tuple(_inner(inner)),
    "set": lambda inner: set(_inner(inner)),
    "frozenset": lambda inner: frozenset(_inner(inner)),
    "pair": lambda inner: Pair(_inner(inner)),
    "dict": lambda inner: {key: _inner(value) for key, value in inner},
    "keys": lambda inner: Keys({key: _inner(value) for key, value in inner.items()}),
    "datetime": lambda inner: _moment(*inner),
    "date": lambda inner: datetime.date(*inner),
    "timedelta": lambda inner: datetime.timedelta(*inner),
    "decimal": decimal.Decimal,
    "skip": lambda inner: "(skipped)",
    "file": lambda inner: "(file)",
}


def _inner(value: Any) -> Any:
    """Of JSON in a text."""
    if isinstance(value, list):
        return [_inner(each) for each in value]
    if isinstance(value, dict):
        return KINDS[value[TAG]](value["v"]) if TAG in value else {key: _inner(each) for key, each in value.items()}
    return value


def value_of(kept: Any) -> Any:
    """Of a value as a report has it, read as JSON."""
    if isinstance(kept, list):
        return [value_of(each) for each in kept]
    if isinstance(kept, str):
        try:
            return _inner(_loads(kept))
        except ValueError:
            return kept
    return kept


def same(one: Any, other: Any) -> bool:
    """Whether two values are alike, and of one type at every depth."""
    if type(one) is not type(other):
        return False
    if isinstance(one, (list, tuple)):
        return len(one) == len(other) and all(map(same, one, other))
    if isinstance(one, dict):
        return one.keys() == other.keys() and all(same(one[key], other[key]) for key in one)
    return bool(one == other) and (not isinstance(one, float) or repr(one) == repr(other))


def instances(report: str) -> Iterator[Tuple[str, Tuple[str, str], Any]]:
    """The lines of a report: the run, the task with its map index, then state, tries and value; of a run itself its end and state."""
    run = ""
    for line in report.split("\n")[:-1]:
        words = line.split(" ", 4)
        if words[0] == "@run":
            run = words[1]
            yield run, ("@run", ""), (words[2], words[3])
        elif not words[0].startswith("@"):
            task, index, state, tries, text = words
            value = NOTHING if text == "-" else value_of(json.loads(text))
            yield run, (task, "" if index == "-1" else index), (state, int(tries), value)


def names() -> Dict[str, Any]:
    """What an expected value may be written with."""
    return {
        "keys": lambda **values: Keys(values),
        "pair": lambda *values: Pair(values),
        "moment": Moment,
        "date": datetime.date,
        "timedelta": datetime.timedelta,
        "Decimal": decimal.Decimal,
    }


def expected_instances(lines: List[str]) -> Iterator[Tuple[str, Tuple[str, str], Any]]:
    """The same of lines `@run START END STATE` and `TASK STATE TRIES VALUE` or `TASK[INDEX] STATE TRIES VALUE`, with VALUE as Python writes it."""
    run = ""
    for line in lines:
        words = line.split(" ", 3)
        if words[0] == "@run":
            run = words[1]
            yield run, ("@run", ""), (words[2], words[3])
        else:
            task, _, index = words[0].rstrip("]").partition("[")
            value = NOTHING if words[3] == "-" else eval(words[3], names())
            yield run, (task, index), (words[1], int(words[2]), value)
