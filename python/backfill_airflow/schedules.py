"""Datasets and timetables, as a DAG's schedule or a task's outlets name them."""

from __future__ import annotations

TYPE_CHECKING = False
if TYPE_CHECKING:
    import datetime as dt
    from typing import Any


class Dataset:
    """A dataset, which tells nobody."""

    def __init__(self, uri: str, extra: Any = None, **_: Any) -> None:
        self.uri, self.extra = uri, extra

    def __or__(self, other: Any) -> DatasetAny:
        return DatasetAny(self, other)

    def __and__(self, other: Any) -> DatasetAll:
        return DatasetAll(self, other)

    def __hash__(self) -> int:
        return hash(self.uri)

    def __eq__(self, other: Any) -> bool:
        return isinstance(other, Dataset) and self.uri == other.uri


class DatasetAlias(Dataset):
    """A name for datasets that a task tells of."""

    def __init__(self, name: str = "", **_: Any) -> None:
        super().__init__(name)
        self.name = name


class DatasetAny:
    """Datasets one of which a DAG waits for."""

    def __init__(self, *objects: Any) -> None:
        self.objects = objects

    def __or__(self, other: Any) -> DatasetAny:
        return DatasetAny(self, other)

    def __and__(self, other: Any) -> DatasetAll:
        return DatasetAll(self, other)


class DatasetAll(DatasetAny):
    """Datasets all of which a DAG waits for."""


class Timetable:
    """A timetable of one's own, and the base of Airflow's."""

    def __init__(self, *_: Any, **__: Any) -> None:
        pass


class CronDataIntervalTimetable(Timetable):
    """Data intervals from one fire of cron to the next."""

    def __init__(self, cron: str, timezone: Any = None) -> None:
        self.cron, self.timezone = cron, timezone


class DeltaDataIntervalTimetable(Timetable):
    """Data intervals of one length."""

    def __init__(self, delta: dt.timedelta) -> None:
        self.delta = delta


class CronTriggerTimetable(Timetable):
    """Fires without data intervals."""


class DeltaTriggerTimetable(Timetable):
    """Fires at a distance, without data intervals."""


class EventsTimetable(Timetable):
    """Moments of a list."""


class DatasetOrTimeSchedule(Timetable):
    """Datasets, or a timetable."""


class ContinuousTimetable(Timetable):
    """A run behind the other."""
