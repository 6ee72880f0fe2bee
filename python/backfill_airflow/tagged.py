"""Python values as JSON, for the texts by which values that `backfill` has no form for go between tasks.

Truth values, numbers, texts, None, lists and dicts are what JSON makes of them; the keys of a dict become texts, as they do in Airflow's XCom.
Every other value is an object with two members, `{"__airflow__": KIND, "v": VALUE}`:

| kind | stands for | v |
|---|---|---|
| `float` | an infinite fraction or NaN | its text |
| `tuple`, `set`, `frozenset` | the like | the list of its members, those of sets in the order of their JSON |
| `dict` | a dict with the key `__airflow__` | the list of its entries, each a list of key and value |
| `date` | a date | year, month, day |
| `datetime` | a moment | the text of the clock, the offset from UTC in seconds or null, the name of the zone or null |
| `timedelta` | a duration | days, seconds, microseconds |
| `decimal` | a Decimal | its text |
| `list` | a list below which lists lie deeper than `backfill` keeps them | the list |
| `keys` | what a task pushed under several keys | an object of them; `return_value` is what it returned |
| `pair` | an entry of a dict over which a task is expanded | a tuple of key and value |
| `skip` | an item that a function of `.map()` skipped | null |
| `file` | a longer value, in a file of the folder BACKFILL_AIRFLOW_SPILL | the name of the file, without `.json` |
"""

from __future__ import annotations

import json

TYPE_CHECKING = False
if TYPE_CHECKING:
    from typing import Any, NoReturn

TAG = "__airflow__"


class CodecError(Exception):
    """A value that can't go between tasks. Its words say which part, and what to do instead."""


class Bundle(dict):  # type: ignore[type-arg]  # (a subscript would run at import in Python 3.9, too)
    """What a task pushed under several keys."""


class Pair(tuple):  # type: ignore[type-arg]
    """An entry of a dict over which a task is expanded."""


class SkippedItem:
    """An item whose function of `.map()` raised AirflowSkipException."""


SKIPPED_ITEM = SkippedItem()


def _refuse_constant(text: str) -> NoReturn:
    raise ValueError(text)


_decoder = json.JSONDecoder(parse_constant=_refuse_constant)


def loads(text: str) -> Any:
    """The value of a JSON text; NaN and the infinities aren't JSON. Raises a ValueError or RecursionError for any other text."""
    return _decoder.decode(text)


def dumps(value: Any) -> str:
    """The compact JSON of what `plain` made, in ASCII."""
    try:
        return json.dumps(value, ensure_ascii=True, separators=(",", ":"), allow_nan=False)
    except RecursionError:
        raise CodecError("a value that is nested too deep") from None


def tagged(kind: str, value: Any) -> Any:
    """The object that stands for a value of a kind."""
    return {TAG: kind, "v": value}


# ---- from Python to JSON


def plain(value: Any, path: str) -> Any:
    """A value as JSON alone. `path` names it in a CodecError."""
    kind = type(value)
    if value is None or kind is bool or kind is int or kind is str:
        return value
    if kind is float:
        finite = value == value and value not in (float("inf"), float("-inf"))
        return value if finite else tagged("float", repr(value))
    if kind is list:
        return [plain(each, f"{path}[{place}]") for place, each in enumerate(value)]
    if kind is Pair:
        return tagged("pair", [plain(each, path) for each in value])
    if kind is Bundle:
        return tagged("keys", {key: plain(each, f"{path}[{key!r}]") for key, each in value.items()})
    if kind is tuple:
        return tagged("tuple", [plain(each, f"{path}[{place}]") for place, each in enumerate(value)])
    if kind in (set, frozenset):
        return tagged(kind.__name__, sorted((plain(each, path) for each in value), key=dumps))
    if isinstance(value, dict):
        made = {_key(key, path): plain(each, f"{path}[{key!r}]") for key, each in value.items()}
        return tagged("dict", [[key, each] for key, each in made.items()]) if TAG in made else made
    if value is SKIPPED_ITEM:
        return tagged("skip", None)
    return _plain_of_others(value, path)


def _key(key: Any, path: str) -> str:
    if isinstance(key, str):
        return str.__str__(key)
    if key is None or isinstance(key, (bool, int, float)):
        return json.dumps(key)
    raise CodecError(f"{path} is a dict with a key of type {type(key).__name__}, which JSON doesn't have")


def _plain_of_others(value: Any, path: str) -> Any:
    """Of a value whose type is none of those of JSON itself: subclasses of them, dates, and numbers of numpy."""
    import datetime
    import decimal
    import enum

    if isinstance(value, enum.Enum):
        return plain(value.value, path)
    if isinstance(value, str):
        return str.__str__(value) if type(value).__str__ is str.__str__ else str(value)
    for base in (bool, int, float, list):
        if isinstance(value, base):
            return plain(base(value), path)
    if isinstance(value, tuple):
        return plain(tuple(value), path)
    if isinstance(value, datetime.datetime):
        return _plain_of_moment(value)
    if isinstance(value, datetime.date):
        return tagged("date", [value.year, value.month, value.day])
    if isinstance(value, datetime.timedelta):
        return tagged("timedelta", [value.days, value.seconds, value.microseconds])
    if isinstance(value, decimal.Decimal):
        return tagged("decimal", str(value))
    if type(value).__module__ == "numpy" and getattr(value, "shape", None) == ():
        return plain(value.item(), path)
    raise CodecError(
        f"{path} is a {type(value).__module__}.{type(value).__qualname__}, which can't be handed on between tasks: "
        "return a dict, list, text, number or date of it, or write it to a file and return its path"
    )


def _plain_of_moment(value: Any) -> Any:
    clock = type(value).isoformat(value.replace(tzinfo=None))
    offset = value.utcoffset()
    if offset is None:
        return tagged("datetime", [clock, None, None])
    zone = getattr(value.tzinfo, "key", None) or getattr(value.tzinfo, "name", None)
    return tagged("datetime", [clock, offset.total_seconds(), zone if isinstance(zone, str) else None])


# ---- from JSON to Python


def unplain(value: Any) -> Any:
    """The value that JSON stands for. Raises a CodecError for an unknown kind."""
    if isinstance(value, list):
        return [unplain(each) for each in value]
    if not isinstance(value, dict):
        return value
    if TAG in value:
        return _untagged(value[TAG], value.get("v"))
    return {key: unplain(each) for key, each in value.items()}


def _untagged(kind: Any, inner: Any) -> Any:
    if kind in ("tuple", "set", "frozenset", "pair"):
        return {"tuple": tuple, "set": set, "frozenset": frozenset, "pair": Pair}[kind](unplain(inner))
    if kind == "float":
        return float(inner)
    if kind == "list":
        return unplain(inner)
    if kind == "dict":
        return {key: unplain(each) for key, each in inner}
    if kind == "keys":
        return Bundle({key: unplain(each) for key, each in inner.items()})
    if kind == "skip":
        return SKIPPED_ITEM
    if kind == "file":
        from .spill import read_spilled

        return unplain(loads(read_spilled(inner)))
    return _untagged_date(kind, inner)


def _untagged_date(kind: Any, inner: Any) -> Any:
    if kind == "datetime":
        from .moments import make_moment

        return make_moment(*inner)
    if kind == "decimal":
        import decimal

        return decimal.Decimal(inner)
    import datetime

    if kind == "date":
        return datetime.date(*inner)
    if kind == "timedelta":
        return datetime.timedelta(*inner)
    raise CodecError(f"a value of the unknown kind {kind!r}: is it of a newer version of backfill_airflow?")
