"""Moments: a subclass of datetime with the methods of pendulum's DateTime that DAGs use.

What it lacks is asked of pendulum, where that is installed. Where the DAG file has imported pendulum itself, moments are pendulum's own. As with pendulum,
days and longer units count by the clock of the zone, hours and shorter ones and a timedelta by the time that passes.
"""

from __future__ import annotations

import datetime as dt
import os
import sys

TYPE_CHECKING = False
if TYPE_CHECKING:
    from typing import Any, Dict, Optional

    from .durations import Interval

UTC = dt.timezone.utc
UNITS = ("years", "months", "weeks", "days", "hours", "minutes", "seconds", "microseconds")
FIELDS = ("year", "month", "day", "hour", "minute", "second", "microsecond")
LESS_THAN_A_MONTH = 28
_zones: Dict[str, dt.tzinfo] = {}


# ---- zones


def zone_of(name: Any) -> dt.tzinfo:
    """The zone of a name, of an offset from UTC in hours, or the zone itself; UTC of None. Raises a ValueError where no such zone is installed."""
    if isinstance(name, dt.tzinfo):
        return name
    if name is None or str(name).upper() in ("UTC", "ETC/UTC", "Z"):
        return UTC
    if isinstance(name, (int, float)):
        return dt.timezone(dt.timedelta(hours=name))
    if name not in _zones:
        _zones[name] = _local_zone() if name == "local" else _named_zone(name)
    return _zones[name]


def _local_zone() -> dt.tzinfo:
    name = os.environ.get("TZ", "").lstrip(":") or os.path.realpath("/etc/localtime").rpartition("zoneinfo/")[2]
    found = dt.datetime.now().astimezone().tzinfo
    assert found is not None
    try:
        return found if name.startswith("/") else zone_of(name or "UTC")
    except ValueError:
        return found


def _named_zone(name: str) -> dt.tzinfo:
    import zoneinfo

    class Timezone(zoneinfo.ZoneInfo):
        """A zone that has its name as pendulum's has."""

        @property
        def name(self) -> str:
            return str(self.key)

    try:
        return Timezone(name)
    except (zoneinfo.ZoneInfoNotFoundError, OSError) as error:
        raise ValueError(f"no time zone {name!r} is installed (Debian: tzdata)") from error


def name_of(zone: Optional[dt.tzinfo]) -> Optional[str]:
    """The name of a zone, or its text where it has none."""
    if zone is None:
        return None
    for attribute in ("key", "name", "zone"):
        found = getattr(zone, attribute, None)
        if isinstance(found, str):
            return found
    return "UTC" if zone.utcoffset(None) == dt.timedelta(0) else str(zone)


# ---- plain datetimes


def plain(value: dt.datetime) -> dt.datetime:
    """The same as a datetime without methods of pendulum."""
    return dt.datetime(value.year, value.month, value.day, value.hour, value.minute, value.second, value.microsecond, value.tzinfo, fold=value.fold)


def by_the_clock(clock: dt.datetime, zone: Optional[dt.tzinfo]) -> DateTime:
    """The moment at which the clock of a zone shows this: of two the later, and where the clock leaves it out, as much later."""
    clock = plain(clock).replace(tzinfo=None, fold=0)
    if zone is None or isinstance(zone, dt.timezone):
        return DateTime.of(clock.replace(tzinfo=zone))
    later = clock.replace(tzinfo=zone, fold=1)
    shown = later.astimezone(UTC).astimezone(zone)
    if shown.replace(tzinfo=None, fold=0) == clock:
        return DateTime.of(shown)
    return DateTime.of(clock.replace(tzinfo=zone).astimezone(UTC).astimezone(zone))


class DateTime(dt.datetime):
    """A moment with the methods of pendulum's DateTime."""

    @classmethod
    def of(cls, value: dt.datetime) -> DateTime:
        """The moment of a datetime."""
        return cls(value.year, value.month, value.day, value.hour, value.minute, value.second, value.microsecond, value.tzinfo, fold=value.fold)

    @classmethod
    def now(cls, tz: Any = None) -> DateTime:
        return cls.of(dt.datetime.now(zone_of(tz) if tz is not None else None))

    @classmethod
    def fromtimestamp(cls, timestamp: float, tz: Any = None) -> DateTime:
        return cls.of(dt.datetime.fromtimestamp(timestamp, tz))

    # ---- sums and differences

    def add(self, **amounts: float) -> DateTime:
        """So much later: `years`, `months`, `weeks`, `days`, `hours`, `minutes`, `seconds`, `microseconds`."""
        unknown = sorted(set(amounts) - set(UNITS))
        if unknown:
            raise TypeError(f"add() got an unexpected keyword argument {unknown[0]!r}")
        passing = dt.timedelta(**{unit: amounts.get(unit, 0) for unit in UNITS[4:]})
        if not any(amounts.get(unit) for unit in UNITS[:4]):
            return self._later(passing)
        months = int(12 * amounts.get("years", 0) + amounts.get("months", 0))
        year, month = divmod(self.year * 12 + self.month - 1 + months, 12)
        import calendar

        day = min(self.day, calendar.monthrange(year, month + 1)[1])
        clock = plain(self).replace(tzinfo=None, year=year, month=month + 1, day=day)
        days = dt.timedelta(days=amounts.get("days", 0), weeks=amounts.get("weeks", 0))
        return by_the_clock(clock + days + passing, self.tzinfo)

    def subtract(self, **amounts: float) -> DateTime:
        """So much earlier, by the units of `add`."""
        return self.add(**{unit: -amount for unit, amount in amounts.items()})

    def _later(self, passing: dt.timedelta) -> DateTime:
        """The moment when so much time has passed."""
        if self.tzinfo is None or isinstance(self.tzinfo, dt.timezone):
            return DateTime.of(plain(self) + passing)
        return DateTime.of((plain(self).astimezone(UTC) + passing).astimezone(self.tzinfo))

    def _plus(self, other: Any, sign: int) -> DateTime:
        years, months = getattr(other, "years", 0), getattr(other, "months", 0)
        if years or months:
            rest = dt.timedelta.total_seconds(other) - (365 * years + 30 * months) * 86400
            return self.add(years=sign * years, months=sign * months, seconds=sign * rest)
        if hasattr(other, "start") and abs(other.days) >= LESS_THAN_A_MONTH:
            raise TypeError("an interval of 28 days or more, added to a moment, counts as months: it takes pendulum, which isn't installed")
        return self._later(dt.timedelta(seconds=sign * dt.timedelta.total_seconds(other)))

    def __add__(self, other: Any) -> Any:
        return self._plus(other, 1) if isinstance(other, dt.timedelta) else NotImplemented

    __radd__ = __add__

    def __sub__(self, other: Any) -> Any:
        if isinstance(other, dt.timedelta):
            return self._plus(other, -1)
        return self._since(other) if isinstance(other, dt.datetime) else NotImplemented

    def __rsub__(self, other: Any) -> Any:
        return DateTime.of(other)._since(self) if isinstance(other, dt.datetime) else NotImplemented

    def _since(self, other: dt.datetime) -> Interval:
        from .durations import Interval

        return Interval(DateTime.of(other), self)

    def diff(self, other: Optional[dt.datetime] = None, abs: bool = True) -> Interval:
        """The interval from this moment to another, or to the present one; of either order a positive one where `abs` is true."""
        end = DateTime.now(self.tzinfo) if other is None else DateTime.of(other)
        return self._since(end) if abs and end < self else end._since(self)

    # ---- parts

    def _first_clock(self, unit: str) -> dt.datetime:
        clock = plain(self).replace(tzinfo=None)
        if unit == "week":
            return dt.datetime(clock.year, clock.month, clock.day) - dt.timedelta(days=clock.weekday())
        first: Any = {name: (1 if name in ("month", "day") else 0) for name in FIELDS[FIELDS.index(unit) + 1 :]}
        return clock.replace(**first)

    def start_of(self, unit: str) -> DateTime:
        """The first moment of the `second`, `minute`, `hour`, `day`, `week`, `month` or `year`."""
        if unit != "week" and unit not in FIELDS:
            return DateTime.of(self._pendulum("start_of").start_of(unit))
        return by_the_clock(self._first_clock(unit), self.tzinfo)

    def end_of(self, unit: str) -> DateTime:
        """The last moment of a unit of `start_of`."""
        if unit != "week" and unit not in FIELDS:
            return DateTime.of(self._pendulum("end_of").end_of(unit))
        following = plain(DateTime.of(self._first_clock(unit)).add(**{f"{unit}s": 1}))
        return by_the_clock(following - dt.timedelta(microseconds=1), self.tzinfo)

    def set(self, **fields: Any) -> DateTime:
        """The moment with other fields, or `tz`."""
        zone = zone_of(fields.pop("tz")) if "tz" in fields else self.tzinfo
        return by_the_clock(plain(self).replace(tzinfo=None, **fields), zone)

    def on(self, year: int, month: int, day: int) -> DateTime:
        return self.set(year=year, month=month, day=day)

    def at(self, hour: int, minute: int = 0, second: int = 0, microsecond: int = 0) -> DateTime:
        return self.set(hour=hour, minute=minute, second=second, microsecond=microsecond)

    def in_timezone(self, tz: Any) -> DateTime:
        """The same moment by the clock of another zone."""
        return self.astimezone(zone_of(tz))

    in_tz = in_timezone

    def astimezone(self, tz: Optional[dt.tzinfo] = None) -> DateTime:
        return DateTime.of(plain(self).astimezone(tz))

    def naive(self) -> DateTime:
        """The clock, without the zone."""
        return DateTime.of(plain(self).replace(tzinfo=None))

    # ---- texts

    def __str__(self) -> str:
        return self.isoformat(separator())

    def __format__(self, pattern: str) -> str:
        if not pattern:
            return str(self)
        return self.strftime(pattern) if "%" in pattern else self.format(pattern)

    def format(self, pattern: str, locale: Optional[str] = None) -> str:
        """The text of pendulum's tokens, as `YYYY-MM-DD`."""
        from .moment_format import formatted

        return formatted(self, pattern, locale)

    def to_date_string(self) -> str:
        return self.strftime("%Y-%m-%d")

    def to_datetime_string(self) -> str:
        return self.strftime("%Y-%m-%d %H:%M:%S")

    def to_time_string(self) -> str:
        return self.strftime("%H:%M:%S")

    def to_iso8601_string(self) -> str:
        text = self.isoformat()
        return f"{text[:-6]}Z" if self.tzinfo is not None and name_of(self.tzinfo) == "UTC" else text

    def to_rfc3339_string(self) -> str:
        return self.isoformat()

    def to_day_datetime_string(self) -> str:
        return self.format("ddd, MMM D, YYYY h:mm A")

    def to_formatted_date_string(self) -> str:
        return self.format("MMM DD, YYYY")

    # ---- properties

    @property
    def int_timestamp(self) -> int:
        return int((plain(self) - dt.datetime(1970, 1, 1, tzinfo=UTC if self.tzinfo else None)) // dt.timedelta(seconds=1))

    @property
    def float_timestamp(self) -> float:
        return self.timestamp()

    @property
    def day_of_year(self) -> int:
        return self.timetuple().tm_yday

    @property
    def week_of_year(self) -> int:
        return self.isocalendar()[1]

    @property
    def days_in_month(self) -> int:
        import calendar

        return calendar.monthrange(self.year, self.month)[1]

    @property
    def quarter(self) -> int:
        return (self.month - 1) // 3 + 1

    @property
    def timezone(self) -> Any:
        return self.tzinfo

    tz = timezone

    @property
    def timezone_name(self) -> Optional[str]:
        return name_of(self.tzinfo)

    @property
    def offset(self) -> Optional[int]:
        """The offset from UTC in seconds."""
        found = self.utcoffset()
        return None if found is None else int(found.total_seconds())

    @property
    def offset_hours(self) -> Optional[float]:
        return None if self.offset is None else self.offset / 3600

    def is_leap_year(self) -> bool:
        import calendar

        return calendar.isleap(self.year)

    def is_utc(self) -> bool:
        return self.offset == 0

    def is_dst(self) -> bool:
        return bool(self.dst())

    def is_past(self) -> bool:
        return self < DateTime.now(self.tzinfo)

    def is_future(self) -> bool:
        return self > DateTime.now(self.tzinfo)

    def is_same_day(self, other: dt.datetime) -> bool:
        return self.to_date_string() == DateTime.of(other).in_timezone(self.tzinfo).to_date_string()

    # ---- what isn't here

    def _pendulum(self, name: str) -> Any:
        pendulum: Any = None
        try:
            import pendulum
        except ImportError:
            pass
        if pendulum is None or getattr(pendulum, "STAND_IN", False):
            raise AttributeError(lacking(name))
        return pendulum_moment(pendulum, self)

    def __getattr__(self, name: str) -> Any:
        if name.startswith("_"):
            raise AttributeError(name)
        return getattr(self._pendulum(name), name)


def lacking(name: str) -> str:
    """What is said of a method of pendulum that isn't here."""
    return f"DateTime.{name} isn't in backfill_airflow: install pendulum, and import it in the DAG file"


def separator() -> str:
    """What stands between date and time in the text of a moment: a space with pendulum 3 (Airflow from 2.9 on) and without pendulum, T with pendulum 2."""
    global _separator
    if not _separator:
        old = any(os.path.isfile(os.path.join(folder, "pendulum", "period.py")) for folder in sys.path)
        _separator = "T" if old else " "
    return _separator


_separator = ""

# ---- moments of Airflow


def moment(value: dt.datetime) -> Any:
    """Of a datetime the kind of moment that Airflow would hand out: pendulum's, where the DAG file has imported it."""
    pendulum = sys.modules.get("pendulum")
    if pendulum is not None and not getattr(pendulum, "STAND_IN", False):
        return pendulum_moment(pendulum, value)
    return DateTime.of(value)


def pendulum_moment(pendulum: Any, value: dt.datetime) -> Any:
    """The moment of pendulum itself, with a zone of the same name."""
    value = plain(value)
    if value.tzinfo is None:
        return pendulum.naive(*(getattr(value, name) for name in FIELDS))
    utc = value.astimezone(UTC)
    made = pendulum.datetime(*(getattr(utc, name) for name in FIELDS), tz="UTC")
    name = str(name_of(value.tzinfo))
    fixed = isinstance(value.tzinfo, dt.timezone) and name != "UTC"
    return made.in_timezone(pendulum.instance(value).timezone if fixed else name)


def parse_utc(text: str) -> Any:
    """The moment of a text as reports spell it: `2024-03-05T00:00:00Z`."""
    return moment(dt.datetime.fromisoformat(text.rstrip("Z")).replace(tzinfo=UTC))


def make_moment(text: str, offset: Optional[float], zone: Optional[str]) -> Any:
    """The datetime of a clock, its offset from UTC in seconds and its zone: a moment, or a datetime where there is no offset."""
    value = dt.datetime.fromisoformat(text)
    if offset is None:
        return value
    fixed = value.replace(tzinfo=dt.timezone(dt.timedelta(seconds=offset)))
    if zone:
        return moment(fixed.astimezone(zone_of(zone)))
    return moment(fixed.astimezone(UTC) if offset == 0 else fixed)
