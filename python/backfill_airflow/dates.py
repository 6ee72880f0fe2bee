"""The zone of moments that name none, and moments in it."""

from __future__ import annotations

import datetime as dt
import os

from .moments import zone_of

TYPE_CHECKING = False
if TYPE_CHECKING:
    from typing import Any


def default_zone() -> dt.tzinfo:
    """AIRFLOW__CORE__DEFAULT_TIMEZONE, or UTC."""
    name = os.environ.get("AIRFLOW__CORE__DEFAULT_TIMEZONE")
    return zone_of("local" if name == "system" else name)


def aware(moment: Any) -> Any:
    """A datetime, or one of an ISO 8601 text, in its zone or the default one; any other value as it is."""
    if isinstance(moment, str):
        moment = dt.datetime.fromisoformat(moment.replace("Z", "+00:00"))
    if isinstance(moment, dt.datetime) and moment.tzinfo is None:
        return moment.replace(tzinfo=default_zone())
    return moment
