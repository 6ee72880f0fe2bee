"""A module `pendulum`, where it isn't installed: what DAG files use of it. Other names say that they take pendulum itself."""

from __future__ import annotations

import datetime as dt
import sys
import types

from .durations import Duration, Interval
from .errors import Refused
from .moments import DateTime, UTC, by_the_clock, zone_of
from .reading import where

TYPE_CHECKING = False
if TYPE_CHECKING:
    from typing import Any, Dict, Optional


class StandIn(types.ModuleType):
    """The module or one inside it."""

    STAND_IN = True
    __version__ = "3.0.0+backfill"
    __path__: Any = ()

    def __getattr__(self, name: str) -> Any:
        if name.startswith("__"):
            raise AttributeError(name)
        raise Refused(f"{self.__name__}.{name} isn't in the stand-in for pendulum, which isn't installed", "pip install pendulum", where=where())


def datetime(
    year: int, month: int, day: int, hour: int = 0, minute: int = 0, second: int = 0, microsecond: int = 0, tz: Any = "UTC", fold: int = 1
) -> DateTime:
    """The moment at which the clock of a zone shows this."""
    clock = dt.datetime(year, month, day, hour, minute, second, microsecond)
    return naive(*clock.timetuple()[:6], microsecond) if tz is None else by_the_clock(clock, zone_of(tz))


def naive(year: int, month: int, day: int, hour: int = 0, minute: int = 0, second: int = 0, microsecond: int = 0) -> DateTime:
    return DateTime(year, month, day, hour, minute, second, microsecond)


def local(year: int, month: int, day: int, hour: int = 0, minute: int = 0, second: int = 0, microsecond: int = 0) -> DateTime:
    return datetime(year, month, day, hour, minute, second, microsecond, tz="local")


def now(tz: Any = None) -> DateTime:
    return DateTime.now(zone_of("local" if tz is None else tz))


def today(tz: Any = "local") -> DateTime:
    return now(tz).start_of("day")


def tomorrow(tz: Any = "local") -> DateTime:
    return today(tz).add(days=1)


def yesterday(tz: Any = "local") -> DateTime:
    return today(tz).subtract(days=1)


def instance(value: dt.datetime, tz: Any = "UTC") -> DateTime:
    """The moment of a datetime, in this zone where it has none."""
    if isinstance(value, DateTime):
        return value
    return DateTime.of(value) if value.tzinfo is not None else by_the_clock(value, None if tz is None else zone_of(tz))


def parse(text: str, tz: Any = "UTC", strict: bool = True, exact: bool = False, **_: Any) -> DateTime:
    """The moment of an ISO 8601 text. Raises a ValueError for any other."""
    if exact:
        raise ValueError("pendulum.parse(.., exact=True) isn't in backfill_airflow: install pendulum")
    try:
        value = dt.datetime.fromisoformat(text.strip().replace("Z", "+00:00"))
    except ValueError:
        raise ValueError(f"Unable to parse string [{text}]: it takes pendulum, or a text as 2024-03-04T05:06:07+00:00") from None
    return instance(value, tz)


def from_format(text: str, fmt: str, tz: Any = "UTC", locale: Optional[str] = None) -> DateTime:
    """The moment of a text by pendulum's tokens."""
    from .moment_format import read

    return read(text, fmt, tz)


def from_timestamp(timestamp: float, tz: Any = "UTC") -> DateTime:
    return DateTime.of(dt.datetime.fromtimestamp(timestamp, UTC)).in_timezone(tz)


def interval(start: dt.datetime, end: dt.datetime, absolute: bool = False) -> Interval:
    return Interval(instance(start), instance(end), absolute)


def local_timezone() -> dt.tzinfo:
    return zone_of("local")


NAMES: Dict[str, Any] = {
    **{each.__name__: each for each in (datetime, naive, local, now, today, tomorrow, yesterday, instance, parse, from_format, from_timestamp)},
    **dict(interval=interval, period=interval, local_timezone=local_timezone, timezone=zone_of, duration=Duration, UTC=UTC),
    **dict(DateTime=DateTime, Duration=Duration, Interval=Interval, Period=Interval, Date=dt.date, Time=dt.time, date=dt.date, time=dt.time),
}
OF_MODULES: Dict[str, Dict[str, Any]] = {
    "pendulum.tz": dict(timezone=zone_of, UTC=UTC, local_timezone=local_timezone, fixed_timezone=lambda offset: zone_of(offset / 3600)),
    "pendulum.tz.timezone": dict(Timezone=dt.tzinfo, UTC=UTC, FixedTimezone=lambda offset, name=None: zone_of(offset / 3600)),
    "pendulum.datetime": dict(DateTime=DateTime),
    "pendulum.parser": dict(parse=parse),
}


def make_modules() -> StandIn:
    """The stand-in for pendulum; the modules in it stand in sys.modules already."""
    module = StandIn("pendulum")
    vars(module).update(NAMES)
    for name, names in OF_MODULES.items():
        inner = sys.modules[name] = StandIn(name)
        vars(inner).update(names)
    vars(module)["tz"] = sys.modules["pendulum.tz"]
    return module
