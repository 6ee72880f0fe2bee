"""Values between tasks: a Python value, the last line of a program, and a word of a command.

`backfill` keeps truth values, whole numbers of 64 bits, texts, lists of these, and null inside lists. It takes any other line for a text, and a
word doesn't tell a text from a value: the text `7` and the number 7 are one word, and the empty word is nothing or an empty text. So there is one rule,
which holds at every depth of lists, down to 60:

* a value that has a form goes as it is: a truth value, a whole number of 64 bits, a text, a list, and null inside a list;
* a value that has none (a dict, a fraction, a longer number, a date, ..) goes as the text of its JSON, in which `tagged` says what JSON lacks;
* a text that could be read as JSON, is empty, or has U+0000 or half a surrogate pair, goes as the text of its JSON.

Reading turns it round: a text that is JSON stands for the value of that JSON, any other text for itself. Inside such a JSON text all texts stand for
themselves. A task that returns None pushes nothing: its line is empty. A longer line than 65,536 bytes is refused, or goes to a file (see `spill`).
"""

from __future__ import annotations

import json

from .tagged import Bundle, CodecError, Pair, SKIPPED_ITEM, TAG, dumps, loads, plain, tagged, unplain

TYPE_CHECKING = False
if TYPE_CHECKING:
    from typing import Any, Dict, Optional

__all__ = ["Bundle", "CodecError", "Pair", "SKIPPED_ITEM", "TAG", "as_pushed", "decode_value", "decode_word", "encode", "encode_pairs"]

MOST_BYTES = 65_536
# So many lists in one another go as they are; `backfill` keeps 64, of which a list of all instances' values takes one.
DEEPEST = 60
MOST_ITEMS = 1_024


class _TooDeep(Exception):
    pass


def as_pushed(value: Any) -> Any:
    """A value as Airflow's XCom hands it on: JSON makes lists of the tuples in lists and dicts; a tuple that is the whole value stays one."""
    if isinstance(value, tuple):
        return tuple(value)
    try:
        return _without_tuples(value)
    except RecursionError:
        return value


def _without_tuples(value: Any) -> Any:
    if isinstance(value, (list, tuple)):
        return [_without_tuples(each) for each in value]
    if isinstance(value, dict):
        return {key: _without_tuples(each) for key, each in value.items()}
    return value


def _is_json(text: str) -> bool:
    try:
        loads(text)
    except (ValueError, RecursionError):
        return False
    return True


def _is_ambiguous(text: str) -> bool:
    """Whether a text can't go as it is."""
    return text == "" or "\0" in text or _is_json(text) or any("\ud800" <= character <= "\udfff" for character in text)


def _text(value: Any, path: str) -> str:
    """The text that stands for a value without a form. (A list as JSON would be read as the list.)"""
    try:
        made = plain(value, path)
    except RecursionError:
        raise CodecError(f"{path} is nested too deep") from None
    return dumps(tagged("list", made) if isinstance(made, list) else made)


def _native(value: Any, path: str, depth: int) -> Any:
    """A value as `backfill` keeps it."""
    kind = type(value)
    if value is None and depth or kind is bool:
        return value
    if kind is int and -(2**63) <= value < 2**63:
        return value
    if kind is str:
        return dumps(value) if _is_ambiguous(value) else value
    if kind is not list:
        return _text(value, path)
    if depth == DEEPEST:
        raise _TooDeep
    try:
        return [_native(each, f"{path}[{place}]", depth + 1) for place, each in enumerate(value)]
    except _TooDeep:
        if depth:
            raise
        return _text(value, path)


def _line(native: Any, name: str, most: Optional[int]) -> str:
    line = json.dumps(native, ensure_ascii=False, separators=(",", ":"))
    size = len(line.encode())
    if most is not None and size > most:
        raise CodecError(
            f"{name} has {size:,} bytes, and backfill hands on at most {most:,} between tasks: write it to a file and return its path, "
            "or set BACKFILL_AIRFLOW_SPILL to a folder, into which longer values are then written"
        )
    return line


def encode(value: Any, name: str = "the value", most: Optional[int] = MOST_BYTES) -> str:
    """The line that pushes a value, empty for None: at most so many bytes, or a CodecError that calls it by its name."""
    if value is None:
        return ""
    native = _native(value, name, 0)
    try:
        return _line(native, name, most)
    except CodecError:
        from .spill import spill

        spilled = spill(_text(value, name))
        if spilled is None:
            raise
        return json.dumps(dumps(tagged("file", spilled)))


def encode_pairs(value: Dict[Any, Any], name: str = "the value") -> str:
    """The line of a dict over which a task is expanded: the list of its entries."""
    return _line([_text(Pair(each), name) for each in value.items()], name, MOST_BYTES)


def decode_value(value: Any) -> Any:
    """The Python value of one that `backfill` keeps. A list of entries is the dict that they make."""
    if isinstance(value, list):
        made = [decode_value(each) for each in value]
        return dict(made) if made and all(isinstance(each, Pair) for each in made) else made
    if isinstance(value, str):
        try:
            return unplain(loads(value))
        except (ValueError, RecursionError):
            return value
    return value


def decode_word(word: str, item: bool = False) -> Any:
    """The Python value of a word of a command. The empty word is a pull that gave nothing, None; as an item it is a text."""
    if word == "" and not item:
        return None
    try:
        value = loads(word)
    except (ValueError, RecursionError):
        return word
    # A list comes as the compact JSON of what is kept, anything else as the JSON of a text that stood for it.
    return decode_value(value) if isinstance(value, list) else unplain(value)
