"""Small things that DAG files take from airflow.utils and its neighbours."""

from __future__ import annotations

import datetime as dt
import enum
import os
import sys

from . import moments
from .errors import NOTSET, AirflowException

TYPE_CHECKING = False
if TYPE_CHECKING:
    from typing import Any, List, TypeVar

    Thing = TypeVar("Thing")

CRON_PRESETS = {
    **{"@hourly": "0 * * * *", "@daily": "0 0 * * *", "@weekly": "0 0 * * 0", "@monthly": "0 0 1 * *"},
    **{"@quarterly": "0 0 1 */3 *", "@yearly": "0 0 1 1 *"},
}


def days_ago(n: int, hour: int = 0, minute: int = 0, second: int = 0, microsecond: int = 0) -> dt.datetime:
    """The midnight in UTC so many days before today, or a time of that day."""
    today = dt.datetime.now(dt.timezone.utc).replace(hour=hour, minute=minute, second=second, microsecond=microsecond)
    return moments.DateTime.of(today - dt.timedelta(days=n))


def date_range(start_date: dt.datetime, end_date: Any = None, num: Any = None, delta: Any = None) -> List[dt.datetime]:
    """The moments from one on, a timedelta apart, up to another or as many as `num`."""
    if not isinstance(delta, dt.timedelta) or (end_date is None) == (num is None):
        raise AirflowException("date_range takes a timedelta and one of end_date and num")
    made = [start_date]
    while (made[-1] + delta <= end_date) if num is None else len(made) < num:
        made.append(made[-1] + delta)
    return made


def parse_date(text: str) -> dt.datetime:
    """The datetime of an ISO 8601 text."""
    return dt.datetime.fromisoformat(text)


def same(thing: Thing) -> Thing:
    """For decorators that change nothing here."""
    return thing


class _Text(str, enum.Enum):
    """An enum of texts, each of which is its own value."""

    def __str__(self) -> str:
        return str(self.value)


class TriggerRule(_Text):
    """The names of trigger rules."""

    ALL_SUCCESS = "all_success"
    ALL_FAILED = "all_failed"
    ALL_DONE = "all_done"
    ALL_DONE_SETUP_SUCCESS = "all_done_setup_success"
    ONE_SUCCESS = "one_success"
    ONE_FAILED = "one_failed"
    ONE_DONE = "one_done"
    NONE_FAILED = "none_failed"
    NONE_SKIPPED = "none_skipped"
    DUMMY = "dummy"
    ALWAYS = "always"
    NONE_FAILED_OR_SKIPPED = "none_failed_or_skipped"
    NONE_FAILED_MIN_ONE_SUCCESS = "none_failed_min_one_success"
    ALL_SKIPPED = "all_skipped"


class WeightRule(_Text):
    """The names of weight rules."""

    DOWNSTREAM = "downstream"
    UPSTREAM = "upstream"
    ABSOLUTE = "absolute"


class TaskInstanceState(_Text):
    """The names of states of task instances."""

    REMOVED = "removed"
    SCHEDULED = "scheduled"
    QUEUED = "queued"
    RUNNING = "running"
    SUCCESS = "success"
    RESTARTING = "restarting"
    FAILED = "failed"
    UP_FOR_RETRY = "up_for_retry"
    UP_FOR_RESCHEDULE = "up_for_reschedule"
    UPSTREAM_FAILED = "upstream_failed"
    SKIPPED = "skipped"
    DEFERRED = "deferred"


class DagRunState(_Text):
    """The names of states of runs."""

    QUEUED = "queued"
    RUNNING = "running"
    SUCCESS = "success"
    FAILED = "failed"


class DagRunType(_Text):
    """The names of types of runs."""

    BACKFILL_JOB = "backfill"
    SCHEDULED = "scheduled"
    MANUAL = "manual"
    DATASET_TRIGGERED = "dataset_triggered"


class State:
    """The names of states, of both kinds."""

    NONE = None
    REMOVED = TaskInstanceState.REMOVED
    SCHEDULED = TaskInstanceState.SCHEDULED
    QUEUED = TaskInstanceState.QUEUED
    RUNNING = TaskInstanceState.RUNNING
    SUCCESS = TaskInstanceState.SUCCESS
    FAILED = TaskInstanceState.FAILED
    UP_FOR_RETRY = TaskInstanceState.UP_FOR_RETRY
    UP_FOR_RESCHEDULE = TaskInstanceState.UP_FOR_RESCHEDULE
    UPSTREAM_FAILED = TaskInstanceState.UPSTREAM_FAILED
    SKIPPED = TaskInstanceState.SKIPPED
    DEFERRED = TaskInstanceState.DEFERRED


class LoggingMixin:
    """Gives a class the logger `log`."""

    @property
    def log(self) -> Any:
        import logging

        return logging.getLogger(f"{type(self).__module__}.{type(self).__name__}")


class Plugin:
    """AirflowPlugin, of which nothing is loaded."""

    name: Any = None


def send_email(*_: Any, **__: Any) -> None:
    """Sends nothing, and says so."""
    print("backfill_airflow: no e-mail is sent", file=sys.stderr)


class XCom:
    """airflow.models.XCom, whose database isn't here."""

    @classmethod
    def get_one(cls, *_: Any, **__: Any) -> Any:
        raise AirflowException("XCom.get_one: there is no database; use ti.xcom_pull(task_ids=..)")

    get_many = get_value = set = get_one


class Configuration:
    """airflow.configuration.conf: what the environment says in AIRFLOW__SECTION__KEY."""

    def get(self, section: str, key: str, fallback: Any = NOTSET, **_: Any) -> Any:
        """The text of a key. Raises an AirflowException where there is none, nor a fallback."""
        variable = f"AIRFLOW__{section.upper()}__{key.upper()}"
        value = os.environ.get(variable)
        if value is not None:
            return value
        if (section, key) == ("core", "dags_folder"):
            from .reading import Reading

            return os.path.dirname(os.path.abspath(Reading.path))
        if fallback is NOTSET:
            raise AirflowException(f"section/key [{section}/{key}] not found in config: give it as {variable}")
        return fallback

    def getint(self, section: str, key: str, fallback: Any = NOTSET) -> int:
        return int(self.get(section, key, fallback))

    def getfloat(self, section: str, key: str, fallback: Any = NOTSET) -> float:
        return float(self.get(section, key, fallback))

    def getboolean(self, section: str, key: str, fallback: Any = NOTSET) -> bool:
        return str(self.get(section, key, fallback)).lower() in ("true", "t", "1")


conf = Configuration()
