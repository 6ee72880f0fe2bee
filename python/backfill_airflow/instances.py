"""The run and the task instance that a try's code is handed, and what they pull and push."""

from __future__ import annotations

import datetime as dt

from . import moments
from .codec import Bundle, as_pushed
from .errors import NOTSET, AirflowException

TYPE_CHECKING = False
if TYPE_CHECKING:
    from typing import Any, Dict, Optional

    from .base_operator import BaseOperator


class NotDeclared(AirflowException):
    """A pull that the words of a try don't give."""


class DagRun:
    """The run of a data interval."""

    def __init__(self, dag: Any, start: Any, end: Any) -> None:
        self.dag, self.dag_id = dag, dag.dag_id
        self.logical_date = self.execution_date = self.data_interval_start = start
        self.data_interval_end = end
        self.run_type = "backfill"
        self.run_id = f"backfill__{start.isoformat()}"
        self.conf: Dict[str, Any] = {}
        self.external_trigger = False
        self.start_date = self.queued_at = moments.moment(dt.datetime.now(dt.timezone.utc))
        self.state = "running"

    def __repr__(self) -> str:
        return (
            f"<DagRun {self.dag_id} @ {self.execution_date}: {self.run_id}, state:{self.state}, queued_at: {self.queued_at}. "
            f"externally triggered: {self.external_trigger}>"
        )


class TaskInstance:
    """The instance of a task in a run. `given` has what the try pulls, by the ids of the tasks that pushed it: of an expanded task, and of one in a
    mapped group, a list of what its instances pushed."""

    def __init__(self, task: BaseOperator, dag_run: DagRun, map_index: int, try_number: int, given: Dict[str, Any]) -> None:
        self.task: Any = task
        self.dag_run, self.map_index, self.try_number = dag_run, map_index, try_number
        self.task_id, self.dag_id, self.run_id = task.task_id, dag_run.dag_id, dag_run.run_id
        self.execution_date = self.logical_date = dag_run.logical_date
        self.max_tries, self.state, self.log_url, self.hostname = task.retries, "running", "", ""
        self.start_date = moments.moment(dt.datetime.now(dt.timezone.utc))
        self.end_date: Any = None
        self.duration: Optional[float] = None
        self.pool, self.queue, self.operator = task.pool, task.queue or "default", task.task_type
        self.given = given
        self.pushed: Dict[str, Any] = {}

    def __repr__(self) -> str:
        index = f"map_index={self.map_index} " if self.map_index != -1 else ""
        return f"<TaskInstance: {self.dag_id}.{self.task_id} {self.run_id} {index}[{self.state}]>"

    @property
    def key(self) -> Any:
        return (self.dag_id, self.task_id, self.run_id, self.try_number, self.map_index)

    def get_dagrun(self, *_: Any, **__: Any) -> DagRun:
        return self.dag_run

    def get_template_context(self, *_: Any, **__: Any) -> Any:
        from .running import get_current_context

        return get_current_context()

    def xcom_push(self, key: str, value: Any, execution_date: Any = None, session: Any = None) -> None:
        """Pushes a value under a key, once the try has succeeded."""
        self.pushed[key] = as_pushed(value)

    def pull_of(self, operator: BaseOperator, key: Optional[str], default: Any = None) -> Any:
        """What a task has pushed under a key, or the default. Raises NotDeclared where the try wasn't given what that task pushed."""
        task_id = operator.task_id
        if task_id == self.task_id:
            return self.pushed.get(str(key), default)
        if task_id not in self.given:
            raise NotDeclared(
                f"task {self.task_id} pulls from {task_id}, which its graph doesn't declare: make the graph again with --pull {self.task_id}={task_id}"
            )
        value = self.given[task_id]
        if not self._is_of_all(operator):
            return _under_key(operator, value, key, default)
        each = [_under_key(operator, one, key, NOTSET) for one in value or ()]
        return [one for one in each if one is not NOTSET] or default

    def _is_of_all(self, operator: BaseOperator) -> bool:
        """Whether a pull from a task gives a list of what its instances pushed: within a mapped group it is of the same map index."""
        group = operator.mapped_group
        if operator.task_id == self.task_id:
            return False
        return operator.is_mapped or group is not None and group is not self.task.mapped_group

    def xcom_pull(
        self, task_ids: Any = None, dag_id: Any = None, key: Optional[str] = "return_value", include_prior_dates: Any = False, session: Any = None,
        *, map_indexes: Any = None, default: Any = None, run_id: Any = None,
    ) -> Any:
        """Of one id the value of that task, of several the list of those that there are."""
        if dag_id not in (None, self.dag_id):
            raise AirflowException(f"xcom_pull from another DAG ({dag_id}): values go between tasks of a run alone")
        if run_id not in (None, self.run_id):
            raise AirflowException(f"xcom_pull from another run ({run_id}): values go between tasks of a run alone")
        if include_prior_dates:
            raise AirflowException("xcom_pull(include_prior_dates=True): values are of their own run alone; keep what goes from day to day in a file")
        if map_indexes is not None:
            raise AirflowException("xcom_pull(map_indexes=..): pull the whole list, and take from it")
        if task_ids is None:
            raise AirflowException("xcom_pull without task_ids: say from which task, as xcom_pull(task_ids='extract')")
        tasks = self.task.dag.task_dict
        if isinstance(task_ids, str):
            return self.pull_of(tasks[task_ids], key, default) if task_ids in tasks else default
        if key is None:
            raise AirflowException("xcom_pull(key=None) of several tasks: name the key, or pull from each task")
        found = []
        for each in (tasks[task_id] for task_id in task_ids if task_id in tasks):
            value = self.pull_of(each, key, NOTSET)
            # (each instance of an expanded task has a value of its own)
            found += [] if value is NOTSET else value if self._is_of_all(each) else [value]
        return found


def _under_key(operator: BaseOperator, value: Any, key: Optional[str], default: Any) -> Any:
    """What a task pushed under a key; under None what it pushed last, which is what it returned, if it returned anything."""
    if isinstance(value, Bundle):
        return value.get("return_value", list(value.values())[-1]) if key is None else value.get(key, default)
    if value is None:
        return default
    if key in (None, "return_value"):
        # (of several outputs each is a value of its own, and they are one together)
        return as_pushed(value) if operator.multiple_outputs else value
    if operator.multiple_outputs and isinstance(value, dict):
        return value.get(key, default)
    return default
