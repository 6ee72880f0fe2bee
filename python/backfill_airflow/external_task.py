"""ExternalTaskSensor, which looks at the report or journal of another DAG's graph."""

from __future__ import annotations

from .errors import AirflowException
from .python_operators import EmptyOperator
from .sensors import BaseSensorOperator

TYPE_CHECKING = False
if TYPE_CHECKING:
    from typing import Any, Optional, Sequence


class ExternalTaskSensor(BaseSensorOperator):
    """Waits for a DAG, for tasks of it, or for a group of them, in the run of a logical date. Its arguments are attributes of the same names."""

    template_fields: Sequence[str] = ("external_dag_id", "external_task_id", "external_task_ids", "external_task_group_id")

    def __init__(
        self, *, external_dag_id: str, external_task_id: Optional[str] = None, external_task_ids: Any = None,
        external_task_group_id: Optional[str] = None, allowed_states: Any = None, skipped_states: Any = None, failed_states: Any = None,
        execution_delta: Any = None, execution_date_fn: Any = None, check_existence: bool = False, poll_interval: float = 2.0, **arguments: Any,
    ) -> None:
        super().__init__(**arguments)
        if execution_delta is not None and execution_date_fn is not None:
            raise ValueError("Only one of `execution_delta` or `execution_date_fn` may be provided to ExternalTaskSensor; not both.")
        if external_task_id is not None and external_task_ids is not None:
            raise ValueError("Only one of `external_task_id` or `external_task_ids` may be provided to ExternalTaskSensor; use one at a time.")
        if external_task_group_id is not None and (external_task_id is not None or external_task_ids is not None):
            raise ValueError("Only one of `external_task_group_id` or `external_task_ids` may be provided to ExternalTaskSensor; not both.")
        self.external_dag_id, self.external_task_id, self.external_task_group_id = external_dag_id, external_task_id, external_task_group_id
        self.external_task_ids = [external_task_id] if external_task_id is not None else external_task_ids
        self.allowed_states = list(allowed_states) if allowed_states else ["success"]
        self.skipped_states, self.failed_states = list(skipped_states or []), list(failed_states or [])
        if len({*self.allowed_states, *self.skipped_states, *self.failed_states}) < len(
            [*self.allowed_states, *self.skipped_states, *self.failed_states]
        ):
            raise AirflowException("Duplicate values provided across allowed_states, skipped_states and failed_states.")
        self.execution_delta, self.execution_date_fn, self.check_existence = execution_delta, execution_date_fn, check_existence

    def poke(self, context: Any) -> bool:
        from .external import poke

        return bool(poke(self, context))


class ExternalTaskMarker(EmptyOperator):
    """Marks a task of another DAG that depends on this one; it does nothing in a run."""

    def __init__(
        self, *, external_dag_id: str, external_task_id: str, execution_date: Any = None, recursion_depth: int = 10, **arguments: Any
    ) -> None:
        super().__init__(**arguments)
        self.external_dag_id, self.external_task_id = external_dag_id, external_task_id
        self.execution_date, self.recursion_depth = execution_date, recursion_depth
