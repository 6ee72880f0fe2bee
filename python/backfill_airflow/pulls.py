"""From which tasks a task pulls: by its arguments, its templates and its source."""

from __future__ import annotations

import types
from typing import Any, Dict, Iterator, List, NamedTuple, Optional, Sequence, Set, Tuple

from .base_operator import BaseOperator
from .context import OF_RUNS_BEFORE, has_even_intervals
from .errors import Refused
from .known_values import UNKNOWN, Several
from .source_scan import SourceScan, refuse_unknown
from .standins import MissingValue, Unknown
from .template_scan import TemplateScan
from .xcom_arg import xcoms_in

# Variables of the context that tell of the run before, where data intervals are as long as each other.
OF_RUN_BEFORE = ("prev_execution_date", "prev_ds", "prev_ds_nodash")
CALLBACKS = ("execute", "success", "failure", "retry", "skipped")


class Found(NamedTuple):
    """A pull: from which tasks (None where that isn't known before a try), where it stands, and whether it is an argument."""

    ids: Optional[List[str]]
    where: str
    is_argument: bool


class Scan:
    """What the code and the templates of a task have: `found` pulls, what is `refused`, the origins of `missing_callbacks`, the `exceptions` that it
    names, and the `printed_moments`, variables that its templates print as they are. `folders` hold the DAG's own files."""

    def __init__(self, task: Any, folders: Sequence[str]) -> None:
        self.task, self.dag = task, task.dag
        self.found: List[Found] = []
        self.refused: List[Refused] = []
        self.missing_callbacks: List[str] = []
        self.exceptions: Set[str] = set()
        self.printed_moments: Set[str] = set()
        self.operator: Any = task.operator_class if task.is_mapped else type(task)
        self.exts: Sequence[str] = self.operator.template_ext
        keys = task.partial_kwargs if task.is_mapped else vars(task)
        rendered = task.in_templates() if task.is_mapped else {}
        self.fields = {field: rendered.get(field) if task.is_mapped else getattr(task, field, None) for field in self.operator.template_fields}
        self.callable = keys.get("python_callable")
        self._source = SourceScan(self, dict(keys.get("op_kwargs") or {}), folders)

    def run(self) -> Scan:
        """Looks through it all."""
        for arg in xcoms_in([self.fields, self.task.partial_kwargs if self.task.is_mapped else None]):
            self.found += [Found([source.task_id], self.task.made_at, True) for source in arg.sources()]
        for field, value in self.fields.items():
            TemplateScan(self).field(value, field)
        self._source.function(self.callable)
        for callback in callbacks_of(self.task):
            if isinstance(callback, (Unknown, MissingValue)):
                self.missing_callbacks.append(callback.origin)
            else:
                self._source.function(callback)
        for value in _within(list(self.fields.values())):
            if isinstance(value, (Unknown, MissingValue)):
                refuse_unknown(self, value.origin)
        for method in _own_methods(self.operator):
            self._source.function(method)
        return self

    def refuse(self, what: str, instead: str = "", where: str = "") -> None:
        """Refuses something of the task, in its own line where no other is given."""
        self.refused.append(Refused(what, instead, self.task.task_id, where or self.task.made_at))

    def variable(self, name: str, what: str, where: str = "") -> None:
        """Refuses a variable of the context that a try isn't told, by its name."""
        if name in OF_RUNS_BEFORE:
            self.refuse(f"{what}: which run before succeeded isn't told to a program", "compute the date from data_interval_start", where)
        elif name in OF_RUN_BEFORE and not has_even_intervals(self.dag):
            self.refuse(f"{what}: the date of the run before isn't told to a program", "compute the date from data_interval_start", where)

    def pull(self, values: Dict[str, Any], text: str, where: str) -> None:
        """Notes a call of xcom_pull by its arguments, which are UNKNOWN where they aren't known before a try."""
        fault = self._fault_of(values)
        if fault is not None:
            what, instead = fault
            self.refuse(what, instead, where)
            return
        ids = values["task_ids"]
        if ids is UNKNOWN:
            self.found.append(Found(None, where, False))
            return
        each = ids if isinstance(ids, Several) else [ids]
        flat = [one for many in each for one in ([many] if isinstance(many, str) else many)]
        self.found.append(Found([str(one) for one in flat], where, False))

    def _fault_of(self, values: Dict[str, Any]) -> Optional[Tuple[str, str]]:
        """What of a call of xcom_pull can't be carried over, and what to do instead."""
        if values.get("include_prior_dates", False) is not False:
            return "xcom_pull(include_prior_dates=..): a value is of its own run alone", "keep what goes from day to day in a file or a table"
        if values.get("map_indexes") is not None:
            return "xcom_pull(map_indexes=..)", "pull the list of all instances, and take from it"
        if values.get("run_id") is not None:
            return "xcom_pull(run_id=..): a value is of its own run alone", "keep what goes from day to day in a file or a table"
        other = values.get("dag_id")
        if other not in (None, self.dag.dag_id):
            named = "by a name that is known in a try alone" if other is UNKNOWN else other
            return f"xcom_pull from another DAG ({named})", "read what that DAG leaves: its report by --out, or a file"
        if values.get("task_ids") is None:
            return "xcom_pull without task_ids takes whatever was pushed last", "name the task: xcom_pull(task_ids='extract', ..)"
        if values.get("key", "return_value") is None and not isinstance(values["task_ids"], str):
            return "xcom_pull(key=None) of several tasks takes all that they pushed", "name the key, or pull from each task"
        return None


def callbacks_of(task: BaseOperator) -> List[Any]:
    """The callbacks of a task."""
    made: List[Any] = []
    for name in CALLBACKS:
        callback = getattr(task, f"on_{name}_callback", None)
        made += callback if isinstance(callback, (list, tuple)) else [] if callback is None else [callback]
    return made


def _own_methods(operator: type) -> Iterator[Any]:
    """The functions of an operator's classes that aren't this package's."""
    for each in operator.__mro__:
        if each is not object and not each.__module__.startswith("backfill_airflow"):
            for value in vars(each).values():
                if isinstance(value, (types.FunctionType, staticmethod, classmethod)):
                    yield getattr(value, "__func__", value)


def _within(value: Any) -> Iterator[Any]:
    if isinstance(value, dict):
        value = list(value.values())
    if isinstance(value, (list, tuple, set)):
        for each in value:
            yield from _within(each)
    else:
        yield value
