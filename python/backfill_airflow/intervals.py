"""The schedule of a DAG as cron in a zone."""

from __future__ import annotations

import datetime as dt
import re
from typing import Any, Optional, Tuple

from backfill_graph import FIELDS, Graph, GraphError

from . import moments
from .draft import Draft
from .schedules import CronDataIntervalTimetable, Dataset, DatasetAny, DeltaDataIntervalTimetable
from .zones import FIRST_DAY, offset_text, posix_rule, zone_file

PRESETS = {"@midnight": "@daily", "@annually": "@yearly"}
FIELD_NAMES = ("minute", "hour", "day of the month", "month", "weekday")
# The number of the refusal of a schedule that can't be read.
BAD_CRON = 11
KNOWN_PRESETS = ("@hourly", "@daily", "@weekly", "@monthly", "@quarterly", "@yearly")
OVERRIDE = "give one on the line, as --schedule '@daily'"
# What stands in a graph whose schedule is refused.
ANY = ("@daily", "UTC")
HOUR, DAY, WEEK = 60, 1440, 10080


def schedule_of(draft: Draft) -> Tuple[str, str]:
    """The schedule and the zone of the graph file. What has no form there is refused."""
    zone = draft.dag.timezone
    if draft.options.schedule is not None:
        draft.findings.note(f"schedule: {draft.options.schedule}, as --schedule says")
        return _of_cron(draft, draft.options.schedule, zone)
    given: Any = draft.dag.schedule_interval
    if isinstance(given, CronDataIntervalTimetable):
        return _of_cron(draft, given.cron, moments.zone_of(given.timezone) if given.timezone else zone)
    if isinstance(given, DeltaDataIntervalTimetable):
        given = given.delta
    if isinstance(given, dt.timedelta):
        return _of_delta(draft, given)
    if given in (None, "None", "@once", "@continuous"):
        draft.findings.refuse(f"schedule={given!r}: there are no data intervals to run", OVERRIDE)
    elif isinstance(given, (Dataset, DatasetAny, list, tuple)):
        draft.findings.refuse("a schedule of datasets", OVERRIDE)
    elif isinstance(given, str):
        return _of_cron(draft, given, zone)
    else:
        draft.findings.refuse(f"a schedule of type {type(given).__name__}", f"cron, a preset or a timedelta in the DAG; or {OVERRIDE}")
    return ANY


def _of_cron(draft: Draft, given: str, zone: Any) -> Tuple[str, str]:
    text = PRESETS.get(given, given)
    fault = cron_fault(text)
    if fault:
        instead = "five fields of cron, each of *, a, a-b, */n, a-b/n and lists of them; or --schedule"
        draft.findings.refuse(f"schedule {given!r}: {fault}", instead)
        return ANY
    name = _zone(draft, zone)
    fields = text.split()
    if name != "UTC" and (text == "@hourly" or len(fields) == 5 and not re.fullmatch("[0-9]+", fields[1])):
        draft.findings.note(
            "schedule: several fires a day in a zone whose clocks change; on these two days backfill fires by the clock, Airflow by elapsed time"
        )
    return text, name


def _of_delta(draft: Draft, delta: dt.timedelta) -> Tuple[str, str]:
    cron = cron_of_delta(delta, draft.dag.start_date, draft.dag.timezone)
    if cron is None:
        draft.findings.refuse(f"schedule: {delta!r} has no form in cron", "a cron schedule in the DAG; or --schedule with the cron that you mean")
        return ANY
    draft.findings.note(f"schedule: a timedelta counts from start_date in UTC; written as {cron} in UTC")
    return cron, "UTC"


def _zone(draft: Draft, zone: Any) -> str:
    text = offset_text(zone)
    if text is not None:
        return text
    name = moments.name_of(zone)
    rule = posix_rule(zone, draft.dag.start_date)
    if rule is not None:
        draft.findings.note(f"time zone {name}: written as the rule {rule}, which is that of the zone from start_date on")
        return rule
    draft.findings.note(f"time zone {name}: give --zone-file {zone_file(zone)} to backfill run")
    return "file"


def cron_of_delta(delta: dt.timedelta, start: Optional[dt.datetime], zone: Any) -> Optional[str]:
    """Cron in UTC for fires so far apart, counted from a start: where they divide an hour or a day, or are a day or a week; else None."""
    start = FIRST_DAY if start is None else start
    start = (start if start.tzinfo else start.replace(tzinfo=zone)).astimezone(dt.timezone.utc)
    seconds = delta.total_seconds()
    if seconds <= 0 or seconds % 60 or start.second or start.microsecond:
        return None
    minutes = int(seconds) // 60
    if minutes < HOUR and HOUR % minutes == 0:
        return f"{_stepped(start.minute % minutes, minutes, 60)} * * * *"
    if minutes < DAY and minutes % HOUR == 0 and DAY % minutes == 0:
        hours = minutes // HOUR
        return f"{start.minute} {_stepped(start.hour % hours, hours, 24)} * * *"
    if minutes in (DAY, WEEK):
        return f"{start.minute} {start.hour} * * {'*' if minutes == DAY else start.isoweekday() % 7}"
    return None


def _stepped(first: int, step: int, end: int) -> str:
    """Each so many values of a field, from the first on."""
    if step == 1:
        return "*"
    return f"*/{step}" if first == 0 else ",".join(map(str, range(first, end, step)))


def cron_fault(text: str) -> str:
    """What of a schedule backfill can't read; empty where it can."""
    fields = text.split()
    if text.startswith("@"):
        return "" if text in KNOWN_PRESETS else "no preset that backfill knows"
    if len(fields) != len(FIELD_NAMES):
        return f"{len(fields)} fields in place of 5" + (" (seconds aren't there)" if len(fields) == 6 else "")
    for place, field in enumerate(fields):
        # (each by itself, among fields that match always)
        if _number_of_refusal(" ".join(field if each == place else "*" for each in range(len(fields)))) == BAD_CRON:
            return _fault_of_field(place, field)
    return "it never fires" if _number_of_refusal(text) is not None else ""


def _number_of_refusal(schedule: str) -> Optional[int]:
    """By which number `backfill check` refuses a schedule, or None."""
    try:
        Graph("d", schedule=schedule)
    except GraphError as error:
        return error.number
    return None


def _fault_of_field(place: int, field: str) -> str:
    least, greatest, names = FIELDS[place]
    named = f" or names as {'jan' if place == 3 else 'mon'}" if names else ""
    if re.search(r"[LW#?HR]", re.sub("[A-Za-z]{3}", "", field)):
        return f"{FIELD_NAMES[place]}: {field!r} is beyond crontab(5)"
    step = re.fullmatch("([0-9]+)/([0-9]+)", field)
    meant = f" (it means {step.group(1)}-{greatest}/{step.group(2)})" if step is not None else ""
    return f"{FIELD_NAMES[place]}: {field!r} isn't *, */n, or numbers from {least} to {greatest}{named}, each alone or as a-b or a-b/n{meant}"
