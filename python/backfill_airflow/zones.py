"""Time zones as a graph file has them."""

from __future__ import annotations

import datetime as dt
import io
import os
import re
import struct
import zoneinfo
from typing import Any, Optional

from . import moments

# The years up to which a rule has to be that of the zone.
LAST_DAY = dt.datetime(2037, 12, 31, tzinfo=dt.timezone.utc)
HOUR, DAY = dt.timedelta(hours=1), dt.timedelta(days=1)
# Where nothing says when a DAG begins.
FIRST_DAY = dt.datetime(2000, 1, 1, tzinfo=dt.timezone.utc)


def offset_text(zone: Any) -> Optional[str]:
    """A zone without a name as `UTC` or `+01:00`; None where it has a name to look up."""
    name = moments.name_of(zone)
    if name in (None, "UTC", "Etc/UTC", "Z", "+00:00"):
        return "UTC"
    if isinstance(zone, dt.timezone):
        seconds = int(zone.utcoffset(None).total_seconds())
        return f"{'-' if seconds < 0 else '+'}{abs(seconds) // 3600:02}:{abs(seconds) % 3600 // 60:02}"
    return str(name) if re.fullmatch("[+-][0-9]{2}:[0-9]{2}", str(name)) else None


def posix_rule(zone: Any, start: Optional[dt.datetime]) -> Optional[str]:
    """The POSIX rule at the end of a zone's file, where it is the zone's from `start` on; None where it isn't, or there is no such file."""
    rule, name = _last_line(zone), str(moments.name_of(zone))
    if rule is None or not re.fullmatch(r"[A-Za-z<>0-9+,./:-]+", rule):
        return None
    whole, alone = zoneinfo.ZoneInfo(name), _zone_of_rule(rule)
    first = start.astimezone(dt.timezone.utc) if start is not None and start.tzinfo else FIRST_DAY
    at = dt.datetime(first.year, first.month, first.day, first.hour, tzinfo=dt.timezone.utc)
    while at < LAST_DAY:
        changes = at.astimezone(whole).utcoffset() != (at + DAY).astimezone(whole).utcoffset()
        hours = range(25) if changes else range(1)
        if any((at + HOUR * hour).astimezone(alone).utcoffset() != (at + HOUR * hour).astimezone(whole).utcoffset() for hour in hours):
            return None
        at += DAY
    return rule


def zone_file(zone: Any) -> str:
    """The file of a zone in the tz database; where it isn't installed, the path that it usually has."""
    name = str(moments.name_of(zone))
    paths = [os.path.join(folder, name) for folder in zoneinfo.TZPATH]
    return next(filter(os.path.isfile, paths), f"/usr/share/zoneinfo/{name}")


def _last_line(zone: Any) -> Optional[str]:
    """The last line of a zone's file."""
    path = zone_file(zone)
    if not os.path.isfile(path):
        return None
    with open(path, "rb") as file:
        return file.read().rstrip(b"\n").rsplit(b"\n", 1)[-1].decode("ascii", "replace")


def _zone_of_rule(rule: str) -> zoneinfo.ZoneInfo:
    """The zone of a rule alone: a file of the tz database with no changes but the rule."""
    header = b"TZif2" + b"\0" * 15 + struct.pack(">6I", 0, 0, 0, 0, 1, 4)
    empty = header + struct.pack(">lBB", 0, 0, 0) + b"UTC\0"
    return zoneinfo.ZoneInfo.from_file(io.BytesIO(empty + empty + b"\n" + rule.encode() + b"\n"))
