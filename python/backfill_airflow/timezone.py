"""What DAG files take from airflow.utils.timezone."""

from __future__ import annotations

import datetime as dt

from . import moments

TYPE_CHECKING = False
if TYPE_CHECKING:
    from typing import Any

utc = moments.UTC


def utcnow() -> Any:
    """The moment that it is, in UTC."""
    return moments.moment(dt.datetime.now(dt.timezone.utc))


def datetime(*args: Any, **keys: Any) -> Any:
    """A moment, in UTC where no zone is given."""
    keys.setdefault("tzinfo", moments.UTC)
    return moments.DateTime(*args, **keys)


def parse(text: str, timezone: Any = None) -> Any:
    """The moment of an ISO 8601 text, in this zone where the text names none."""
    value = dt.datetime.fromisoformat(text.replace("Z", "+00:00"))
    return moments.moment(value if value.tzinfo else value.replace(tzinfo=moments.zone_of(timezone)))


def make_aware(value: dt.datetime, timezone: Any = None) -> Any:
    """The moment of a clock in a zone. Raises a ValueError where the clock has a zone."""
    if is_localized(value):
        raise ValueError(f"make_aware expects a naive datetime, got {value}")
    return moments.moment(value.replace(tzinfo=moments.zone_of(timezone)))


def make_naive(value: dt.datetime, timezone: Any = None) -> dt.datetime:
    """The clock of a moment in a zone. Raises a ValueError where the moment has none."""
    if not is_localized(value):
        raise ValueError("make_naive() cannot be applied to a naive datetime")
    return value.astimezone(moments.zone_of(timezone)).replace(tzinfo=None)


def convert_to_utc(value: Any) -> Any:
    """The same moment in UTC, which a datetime without a zone is taken to be in."""
    if value is None:
        return None
    aware = value if is_localized(value) else value.replace(tzinfo=moments.UTC)
    return moments.moment(aware.astimezone(moments.UTC))


def coerce_datetime(value: Any, tz: Any = None) -> Any:
    """A moment of Airflow's kind, in this zone or UTC where it has none."""
    if value is None:
        return None
    return moments.moment(value if value.tzinfo else value.replace(tzinfo=moments.zone_of(tz)))


def is_localized(value: dt.datetime) -> bool:
    """Whether a datetime has a zone."""
    return value.utcoffset() is not None


def is_naive(value: dt.datetime) -> bool:
    """Whether a datetime has no zone."""
    return value.utcoffset() is None
