#!/usr/bin/env python3
"""Compares the package's stand-in for pendulum with pendulum itself, over moments and amounts by chance: random_moments.py COUNT [SEED]

It needs pendulum. Names in which versions 2 and 3 of pendulum differ are left out. The last line has how many results were alike, and how many not.
"""
from __future__ import annotations

import datetime
import random
import sys
from functools import partial
from typing import Any, Callable, Dict, Iterator, Tuple

import pendulum

from backfill_airflow import pendulum_standin

ZONES = ["UTC", "Europe/Paris", "America/New_York", "Asia/Kolkata"]
# Days on which clocks of one of these go forward or back, and two days of zones that changed their rules.
CHANGES = [(2024, 3, 31), (2024, 10, 27), (2024, 3, 10), (2024, 11, 3), (2017, 10, 15), (2018, 2, 17)]
UNITS = ["years", "months", "weeks", "days", "hours", "minutes", "seconds"]
PARTS = ["second", "minute", "hour", "day", "week", "month", "year"]
VALUES = ["int_timestamp", "float_timestamp", "day_of_year", "week_of_year", "quarter", "days_in_month", "offset", "offset_hours", "timezone_name"]
TEXTS = [
    *("to_date_string", "to_datetime_string", "to_time_string", "to_iso8601_string", "to_rfc3339_string", "to_day_datetime_string", "to_formatted_date_string"),
    *("is_leap_year", "is_dst", "is_utc"),
]
PATTERNS = ["YYYY-MM-DD HH:mm:ss", "dddd Do MMMM YYYY [at] h:mm A", "ddd MMM D YY Q DDDD DDD", "X x Z ZZ zz z", "SSS SSSSSS Mo Qo"]
LENGTHS = ["in_weeks", "in_days", "in_hours", "in_minutes", "in_seconds", "total_days", "total_hours", "total_seconds"]
DURATION = ["years", "months", "weeks", "days", "hours", "minutes", "seconds", "remaining_days", "remaining_seconds"]


class Turn:
    """What is asked of both modules alike."""

    def __init__(self, chance: random.Random) -> None:
        if chance.random() < 0.3:
            day, clock = chance.choice(CHANGES), (chance.randrange(4), chance.choice([0, 30]))
        else:
            day, clock = (chance.randrange(2015, 2025), chance.randrange(1, 13), chance.randrange(1, 29)), (chance.randrange(24), chance.randrange(60))
        self.at = (*day, *clock)
        self.zone, self.other = chance.choice(ZONES), chance.choice(ZONES)
        self.amounts: Dict[str, int] = {unit: chance.randrange(-40, 40) for unit in chance.sample(UNITS, chance.randrange(1, 4))}
        if "years" in self.amounts:
            self.amounts["years"] %= 5
        self.delta = datetime.timedelta(days=chance.randrange(-5, 5), hours=chance.randrange(-100, 100))
        self.apart = chance.randrange(-2000, 2000)
        self.length = {"months": chance.randrange(14), "days": chance.randrange(40), "hours": chance.randrange(30)}

    def results(self, module: Any) -> Iterator[Tuple[str, Callable[[], Any]]]:
        """Each question, and how it is answered."""
        at = module.datetime(*self.at, tz=self.zone)
        length = module.Duration(**self.length)
        apart = at - at.add(hours=self.apart)
        yield "the moment", lambda: at
        yield f"add({self.amounts})", lambda: at.add(**self.amounts)
        yield f"subtract({self.amounts})", lambda: at.subtract(**self.amounts)
        yield f"+ {self.delta}", lambda: at + self.delta
        yield f"- {self.delta}", lambda: at - self.delta
        yield f"+ {self.length}", lambda: at + length
        yield f"- {self.length}", lambda: at - length
        yield "set(hour=2, minute=30)", lambda: at.set(hour=2, minute=30)
        yield f"in {self.other}", lambda: at.in_timezone(self.other)
        for part in PARTS:
            yield f"start_of({part})", partial(at.start_of, part)
            yield f"end_of({part})", partial(at.end_of, part)
        for name in VALUES:
            yield name, partial(getattr, at, name)
        for name in TEXTS:
            yield name, getattr(at, name)
        for pattern in PATTERNS:
            yield f"format({pattern})", partial(at.format, pattern)
        for name in LENGTHS:
            yield f"{name} of what lies between", getattr(apart, name)
        for name in DURATION:
            yield f"{name} of {self.length}", partial(getattr, length, name)


def told(answer: Callable[[], Any]) -> str:
    """An answer as a text by which both modules' compare."""
    value = answer()
    return value.isoformat() if isinstance(value, datetime.datetime) else repr(value)


def main(count: str, seed: str = "7") -> None:
    chance = random.Random(int(seed))
    right = wrong = 0
    for _ in range(int(count)):
        turn = Turn(chance)
        for (what, one), (_, other) in zip(turn.results(pendulum_standin), turn.results(pendulum)):
            if told(one) == told(other):
                right += 1
                continue
            wrong += 1
            if wrong < 6:
                print(f"differs: {turn.at} {turn.zone}, {what}: {told(one)} for {told(other)}")
    print(right, wrong)


if __name__ == "__main__":
    main(*sys.argv[1:])
