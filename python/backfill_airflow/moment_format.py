"""Texts of moments by pendulum's tokens, as `YYYY-MM-DD HH:mm:ss`, and moments of such texts. Names are English ones."""

from __future__ import annotations

import datetime as dt
import re

from .moments import DateTime, by_the_clock, zone_of

TYPE_CHECKING = False
if TYPE_CHECKING:
    from typing import Any, Callable, Dict, Match, Optional

MONTHS = ("January", "February", "March", "April", "May", "June", "July", "August", "September", "October", "November", "December")
DAYS = ("Monday", "Tuesday", "Wednesday", "Thursday", "Friday", "Saturday", "Sunday")
# Text in brackets, a character behind a backslash, or a token.
PATTERN = re.compile(
    r"\[([^\[]*)\]|\\(.)|(Mo|MM?M?M?|Do|DDDo|DD?D?D?|ddd?d?|do?|E{1,4}|w[ow]?|W[ow]?|Qo?|YYYY|YY|Y|gg(?:ggg?)?|GG(?:GGG?)?|a|A|hh?|HH?|kk?|mm?|ss?"
    r"|S{1,9}|x|X|zz?|ZZ?|LTS|LT|LL?L?L?)"
)


def _ordinal(number: int) -> str:
    ending = "th" if number % 100 in (11, 12, 13) else {1: "st", 2: "nd", 3: "rd"}.get(number % 10, "th")
    return f"{number}{ending}"


def _offset(moment: Any, colon: str) -> str:
    minutes = (moment.offset or 0) // 60
    return f"{'-' if minutes < 0 else '+'}{abs(minutes) // 60:02}{colon}{abs(minutes) % 60:02}"


def _fraction(size: int) -> Callable[[Any], str]:
    return lambda at: f"{at.microsecond:06}"[:size]


TOKENS: Dict[str, Callable[[Any], str]] = {
    "YYYY": lambda at: f"{at.year:d}", "YY": lambda at: f"{at.year:d}"[2:], "Y": lambda at: f"{at.year:d}",
    "Q": lambda at: f"{at.quarter}", "Qo": lambda at: _ordinal(at.quarter),
    "MMMM": lambda at: MONTHS[at.month - 1], "MMM": lambda at: MONTHS[at.month - 1][:3], "MM": lambda at: f"{at.month:02}",
    "M": lambda at: f"{at.month}", "Mo": lambda at: _ordinal(at.month),
    "DDDD": lambda at: f"{at.day_of_year:03}", "DDD": lambda at: f"{at.day_of_year}", "DD": lambda at: f"{at.day:02}", "D": lambda at: f"{at.day}",
    "Do": lambda at: _ordinal(at.day), "DDDo": lambda at: _ordinal(at.day_of_year),
    "dddd": lambda at: DAYS[at.weekday()], "ddd": lambda at: DAYS[at.weekday()][:3], "E": lambda at: f"{at.isoweekday()}",
    "HH": lambda at: f"{at.hour:02}", "H": lambda at: f"{at.hour}", "hh": lambda at: f"{at.hour % 12 or 12:02}", "h": lambda at: f"{at.hour % 12 or 12}",
    "mm": lambda at: f"{at.minute:02}", "m": lambda at: f"{at.minute}", "ss": lambda at: f"{at.second:02}", "s": lambda at: f"{at.second}",
    **{"S" * size: _fraction(size) for size in range(1, 7)},
    "A": lambda at: "PM" if at.hour >= 12 else "AM",
    "X": lambda at: f"{at.int_timestamp}", "x": lambda at: f"{at.int_timestamp * 1000 + at.microsecond // 1000}",
    "zz": lambda at: at.tzname() or "", "z": lambda at: at.timezone_name or "", "Z": lambda at: _offset(at, ":"), "ZZ": lambda at: _offset(at, ""),
}
# Of tokens in texts to read: a pattern, and the field.
READ = {
    "YYYY": (r"\d{4}", "year"), "MM": (r"\d\d", "month"), "M": (r"\d\d?", "month"), "DD": (r"\d\d", "day"), "D": (r"\d\d?", "day"),
    "HH": (r"\d\d", "hour"), "H": (r"\d\d?", "hour"), "mm": (r"\d\d", "minute"), "m": (r"\d\d?", "minute"), "ss": (r"\d\d", "second"),
    "s": (r"\d\d?", "second"), "SSSSSS": (r"\d{6}", "microsecond"),
}


def formatted(moment: DateTime, pattern: str, locale: Optional[str] = None) -> str:
    """The text of a moment. Raises a ValueError for a token or a locale that takes pendulum itself."""
    if locale not in (None, "en"):
        raise ValueError(f"the locale {locale!r} takes pendulum: install it, and import it in the DAG file")

    def one(match: Match[str]) -> str:
        bracketed, escaped, token = match.group(1), match.group(2), match.group(3)
        if token is None:
            return bracketed if bracketed is not None else escaped
        if token not in TOKENS:
            raise ValueError(f"the token {token!r} of a format takes pendulum: install it, and import it in the DAG file")
        return TOKENS[token](moment)

    return PATTERN.sub(one, pattern)


def read(text: str, pattern: str, zone: Any = None) -> DateTime:
    """The moment of a text. Raises a ValueError where it isn't of this pattern, or the pattern takes pendulum itself."""
    fields = []
    expression, place = "", 0
    for match in PATTERN.finditer(pattern):
        expression += re.escape(pattern[place : match.start()])
        place = match.end()
        token = match.group(3)
        if token is None:
            expression += re.escape(match.group(1) if match.group(1) is not None else match.group(2))
            continue
        if token not in READ:
            raise ValueError(f"the token {token!r} of from_format takes pendulum: install it")
        expression += f"({READ[token][0]})"
        fields.append(READ[token][1])
    found = re.fullmatch(expression + re.escape(pattern[place:]), text)
    if found is None or not {"year", "month", "day"} <= set(fields):
        raise ValueError(f"String does not match format {pattern}")
    return by_the_clock(dt.datetime(**dict(zip(fields, map(int, found.groups())))), zone_of(zone))  # type: ignore[arg-type]
