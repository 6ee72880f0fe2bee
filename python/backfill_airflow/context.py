"""What a try's code is told of itself: Airflow's template context."""

from __future__ import annotations

import datetime as dt
import sys

from . import moments
from .connections import Connection, Variable
from .errors import AirflowException
from .instances import DagRun, NotDeclared, TaskInstance
from .params import ParamsDict

TYPE_CHECKING = False
if TYPE_CHECKING:
    from typing import Any, Dict

    from .base_operator import BaseOperator

__all__ = ["Context", "DagRun", "NotDeclared", "TaskInstance", "make_context"]

DAILY_OR_HOURLY = ("@daily", "@midnight", "@hourly")
OF_RUNS_BEFORE = (
    *("prev_data_interval_start_success", "prev_data_interval_end_success", "prev_start_date_success", "prev_end_date_success"),
    "prev_execution_date_success",
)


class _VariableAccessor:
    """`var.value` and `var.json` of templates."""

    def __init__(self, as_json: bool) -> None:
        self._json = as_json

    def __getattr__(self, name: str) -> Any:
        if name.startswith("__"):
            raise AttributeError(name)
        return Variable.get(name, deserialize_json=self._json)

    def get(self, name: str, default: Any = None) -> Any:
        return Variable.get(name, default, deserialize_json=self._json)


class _Variables:
    value, json = _VariableAccessor(False), _VariableAccessor(True)


class _Connections:
    """`conn` of templates."""

    def __getattr__(self, name: str) -> Connection:
        if name.startswith("__"):
            raise AttributeError(name)
        return Connection.get_connection_from_secrets(name)

    def get(self, name: str, default: Any = None) -> Any:
        try:
            return Connection.get_connection_from_secrets(name)
        except AirflowException:
            return default


class _Absent:
    """A value of the context that isn't here: an error where it is used."""

    def __init__(self, name: str, why: str) -> None:
        self._words = f"{name} isn't known to backfill: {why}"

    def _raise(self, *_: Any, **__: Any) -> Any:
        raise AirflowException(self._words)

    __str__ = __repr__ = __add__ = __sub__ = __format__ = __iter__ = __bool__ = __lt__ = __gt__ = _raise

    def __getattr__(self, name: str) -> Any:
        if name.startswith("__"):
            raise AttributeError(name)
        return self._raise()


class Context(dict):  # type: ignore[type-arg]  # (a subscript would run at import in Python 3.9, too)
    """The context of a try, by Airflow's names."""

    def everything(self) -> Dict[str, Any]:
        """A copy, as `**context` takes one."""
        return dict(self)

    def environment(self) -> Dict[str, str]:
        """The variables that Airflow sets for a task."""
        instance = self["ti"]
        return {
            "AIRFLOW_CTX_DAG_OWNER": self["task"].owner,
            "AIRFLOW_CTX_DAG_ID": instance.dag_id,
            "AIRFLOW_CTX_TASK_ID": instance.task_id,
            "AIRFLOW_CTX_EXECUTION_DATE": instance.execution_date.isoformat(),
            "AIRFLOW_CTX_TRY_NUMBER": str(instance.try_number),
            "AIRFLOW_CTX_DAG_RUN_ID": instance.run_id,
        }


def make_context(task: BaseOperator, start_text: str, end_text: str, map_index: int, try_number: int, given: Dict[str, Any]) -> Context:
    """The context of a try of a task: its data interval as in reports, and what it pulls by the ids of the tasks that pushed it."""
    from .macros import macros
    from .utilities import conf

    dag: Any = task.dag
    run = DagRun(dag, moments.parse_utc(start_text), moments.parse_utc(end_text))
    instance = TaskInstance(task, run, map_index, try_number, given)
    context = Context(
        conf=conf, dag=dag, dag_run=run, data_interval_start=run.data_interval_start, data_interval_end=run.data_interval_end,
        logical_date=run.logical_date, execution_date=run.logical_date, run_id=run.run_id, task=task, ti=instance, task_instance=instance,
        test_mode=False, templates_dict=None, inlets=task.inlets, outlets=task.outlets, params=ParamsDict({**dag.params, **task.params}),
        var=_Variables(), conn=_Connections(), macros=macros, try_number=try_number, expanded_ti_count=None, triggering_dataset_events={},
        map_index_template=None, exception=None,
    )
    context.update(_dates(dag, run))
    context["task_instance_key_str"] = f"{dag.dag_id}__{task.task_id}__{context['ds_nodash']}"
    return context


def _dates(dag: Any, run: DagRun) -> Dict[str, Any]:
    """The dates of a run, those with `_ds` in UTC, as in Airflow."""
    start, end = run.data_interval_start, run.data_interval_end
    day = dt.timedelta(days=1)
    previous = _previous(dag, start, end)
    made: Dict[str, Any] = {"next_execution_date": end, "prev_execution_date": previous}
    for name, moment in (("ds", start), ("yesterday_ds", start - day), ("tomorrow_ds", start + day), ("next_ds", end), ("prev_ds", previous)):
        date = moment.strftime("%Y-%m-%d") if isinstance(moment, dt.datetime) else moment
        made[name] = date
        made[f"{name}_nodash"] = date.replace("-", "") if isinstance(date, str) else date
    made["ts"] = start.isoformat()
    made["ts_nodash"] = start.strftime("%Y%m%dT%H%M%S")
    made["ts_nodash_with_tz"] = made["ts"].replace("-", "").replace(":", "")
    for name in OF_RUNS_BEFORE:
        made[name] = _Absent(name, "which run before succeeded isn't told to a program")
    return made


def _previous(dag: Any, start: Any, end: Any) -> Any:
    """The logical date of the run before, where the schedule alone tells it."""
    if not has_even_intervals(dag):
        return _Absent("prev_ds", "it has no date of the run before; compute it from data_interval_start")
    return start - (end - start)


def has_even_intervals(dag: Any) -> bool:
    """Whether all data intervals of a DAG are as long as each other: those of a timedelta, and of cron by the day or the hour in UTC."""
    schedule = dag.schedule_interval
    if isinstance(schedule, dt.timedelta):
        return True
    if not isinstance(schedule, str) or moments.name_of(dag.timezone) not in ("UTC", "Etc/UTC"):
        return False
    minute, hour, *days = [*schedule.split(), "", ""]
    return schedule in DAILY_OR_HOURLY or minute.isdigit() and (hour == "*" or hour.isdigit()) and days == ["*", "*", "*", "", ""]


def __getattr__(name: str) -> Any:
    """What DAG files take from airflow.utils and its neighbours, imported when it is asked for."""
    import importlib

    for module in ("utilities", "macros", "timezone"):
        found = getattr(importlib.import_module(f"backfill_airflow.{module}"), name, sys)
        if found is not sys:
            return found
    raise AttributeError(f"module {__name__!r} has no attribute {name!r}")
