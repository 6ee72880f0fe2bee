"""Durations and intervals with the methods of pendulum's that DAGs use."""

from __future__ import annotations

import datetime as dt

TYPE_CHECKING = False
if TYPE_CHECKING:
    from typing import Any, Iterator

    from .moments import DateTime

SECONDS_OF_DAY = 86_400
DAYS_OF_YEAR, DAYS_OF_MONTH = 365, 30


class Duration(dt.timedelta):
    """A duration, with years and months that count as 365 and 30 days but where it is added to a moment. Its parts have its sign."""

    years = months = 0

    def __new__(
        cls, days: float = 0, seconds: float = 0, microseconds: float = 0, milliseconds: float = 0, minutes: float = 0, hours: float = 0,
        weeks: float = 0, years: int = 0, months: int = 0,
    ) -> Duration:
        whole = days + DAYS_OF_YEAR * years + DAYS_OF_MONTH * months
        made = super().__new__(cls, whole, seconds, microseconds, milliseconds, minutes, hours, weeks)
        made.years, made.months = years, months
        return made

    def __neg__(self) -> Duration:
        negative: Duration = self * -1
        return negative

    def __mul__(self, number: Any) -> Any:
        if not isinstance(number, int):
            return dt.timedelta(seconds=self.total_seconds()) * number
        rest = self.total_seconds() - (DAYS_OF_YEAR * self.years + DAYS_OF_MONTH * self.months) * SECONDS_OF_DAY
        return Duration(years=self.years * number, months=self.months * number, seconds=rest * number)

    __rmul__ = __mul__

    def _whole(self, seconds: int) -> int:
        """How often so many seconds go into it, towards nothing."""
        return int(self.total_seconds() / seconds)

    def _sign(self) -> int:
        return -1 if self.total_seconds() < 0 else 1

    # (pendulum rounds towards nothing what timedelta rounds down)

    @property
    def days(self) -> int:
        return self._whole(SECONDS_OF_DAY)

    @property
    def seconds(self) -> int:
        return abs(self._whole(1)) % SECONDS_OF_DAY * self._sign()

    @property
    def weeks(self) -> int:
        return int(self._days_beside_months() / 7)

    @property
    def remaining_days(self) -> int:
        return self._days_beside_months() - 7 * self.weeks

    def _days_beside_months(self) -> int:
        return self.days - DAYS_OF_YEAR * self.years - DAYS_OF_MONTH * self.months

    @property
    def hours(self) -> int:
        return abs(self.seconds) // 3600 * self._sign()

    @property
    def minutes(self) -> int:
        return abs(self.seconds) // 60 % 60 * self._sign()

    @property
    def remaining_seconds(self) -> int:
        return abs(self.seconds) % 60 * self._sign()

    def total_minutes(self) -> float:
        return self.total_seconds() / 60

    def total_hours(self) -> float:
        return self.total_seconds() / 3600

    def total_days(self) -> float:
        return self.total_seconds() / SECONDS_OF_DAY

    def total_weeks(self) -> float:
        return self.total_days() / 7

    def in_seconds(self) -> int:
        return self._whole(1)

    def in_minutes(self) -> int:
        return self._whole(60)

    def in_hours(self) -> int:
        return self._whole(3600)

    def in_days(self) -> int:
        return self._whole(SECONDS_OF_DAY)

    def in_weeks(self) -> int:
        return self._whole(7 * SECONDS_OF_DAY)

    def as_timedelta(self) -> dt.timedelta:
        return dt.timedelta(seconds=self.total_seconds())


class Interval(Duration):
    """What lies between two moments."""

    start: Any
    end: Any

    def __new__(cls, start: DateTime, end: DateTime, absolute: bool = False) -> Interval:
        from .moments import plain

        if absolute and end < start:
            start, end = end, start
        made = super().__new__(cls, seconds=0)
        passed = plain(end).astimezone(dt.timezone.utc) - plain(start).astimezone(dt.timezone.utc) if start.tzinfo else plain(end) - plain(start)
        made = dt.timedelta.__new__(cls, passed.days, passed.seconds, passed.microseconds)
        made.start, made.end = start, end
        return made

    def in_days(self) -> int:
        """How many days lie between the dates, whatever the times. Raises a ValueError for moments in two zones."""
        if self.start.tzinfo != self.end.tzinfo:
            raise ValueError("in_days() between moments in two zones takes pendulum, which isn't installed")
        return int(self.end.toordinal() - self.start.toordinal())

    def in_weeks(self) -> int:
        return int(self.in_days() / 7)

    def as_duration(self) -> Duration:
        return Duration(seconds=self.total_seconds())

    def range(self, unit: str, amount: int = 1) -> Iterator[DateTime]:
        """The moments from the start on, so many `days`, `hours` or the like apart, up to the end."""
        number, moment = 0, self.start
        while moment <= self.end:
            yield moment
            number += amount
            moment = self.start.add(**{unit: number})

    def __iter__(self) -> Iterator[DateTime]:
        return self.range("days")

    def __contains__(self, moment: Any) -> bool:
        return bool(self.start <= moment <= self.end)

    def __repr__(self) -> str:
        return f"<Interval [{self.start} -> {self.end}]>"

    __str__ = __repr__

    def __reduce__(self) -> Any:
        return (Interval, (self.start, self.end))
