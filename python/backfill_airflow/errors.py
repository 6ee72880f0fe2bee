"""Airflow's exceptions, and that by which a DAG file is refused."""

from __future__ import annotations


class AirflowException(Exception):
    """What a task raises to fail; the base of the others."""


class AirflowSkipException(AirflowException):
    """Ends a try as skipped."""


class AirflowFailException(AirflowException):
    """Fails a task whatever tries it has left."""


class AirflowSensorTimeout(AirflowException):
    """A sensor has waited as long as its `timeout`."""


class AirflowTaskTimeout(BaseException):
    """A try has run as long as `execution_timeout`. No `except Exception` of a task takes it."""


class AirflowNotFoundException(AirflowException):
    """A connection that nobody has defined."""


class AirflowBadRequest(AirflowException):
    """A request that can't be answered."""


class AirflowConfigException(AirflowException):
    """A configuration that lacks something."""


class AirflowTimetableInvalid(AirflowException):
    """A timetable that can't be."""


class AirflowOptionalProviderFeatureException(AirflowException):
    """A part of a provider that isn't installed."""


class AirflowRescheduleException(AirflowException):
    """Asks for another poke of a sensor later."""


class AirflowDagCycleException(AirflowException):
    """A task that is upstream of itself."""


class AirflowDagInconsistent(AirflowException):
    """Options of a DAG that don't go together."""


class AirflowDagDuplicatedIdException(AirflowException):
    """Two DAGs of one id."""


class DuplicateTaskIdFound(AirflowException):
    """Two tasks, or a task and a group, of one id."""


class TaskNotFound(AirflowNotFoundException):
    """A task that a DAG doesn't have."""


class DagNotFound(AirflowNotFoundException):
    """A DAG that isn't there."""


class XComNotFound(AirflowException):
    """An argument whose task has pushed nothing under its key."""


class ParamValidationError(AirflowException):
    """A param without a value."""


class Refused(Exception):
    """Something that a graph can't carry: `where` as `FILE:LINE`, the task's id, what it is, and what to do instead. Empty texts are left out."""

    def __init__(self, what: str, instead: str = "", task: str = "", where: str = "") -> None:
        super().__init__(what)
        self.what, self.instead, self.task, self.where = what, instead, task, where

    def __str__(self) -> str:
        place = f"{self.where}: " if self.where else ""
        task = f"task {self.task}: " if self.task else ""
        return f"refused: {place}{task}{self.what}" + (f"\n  instead: {self.instead}" if self.instead else "")


class NotSet:
    """The type of NOTSET, in the place of an argument that isn't given."""

    def __bool__(self) -> bool:
        return False

    def __repr__(self) -> str:
        return "NOTSET"


NOTSET = NotSet()

# (a traceback names them as Airflow does)
for _error in [each for each in vars().values() if isinstance(each, type) and issubclass(each, BaseException) and each is not Refused]:
    _error.__module__ = "airflow.exceptions"
