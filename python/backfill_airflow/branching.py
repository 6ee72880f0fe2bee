"""Operators that follow some of the tasks behind them, and skip the others."""

from __future__ import annotations

from collections.abc import Iterable

from .errors import AirflowException
from .base_operator import BaseOperator
from .python_operators import PythonOperator

TYPE_CHECKING = False
if TYPE_CHECKING:
    from typing import Any, List


def named_tasks(dag: Any, ids: Any) -> List[str]:
    """The tasks that a branch names: of a group its roots. Raises an AirflowException for what names none."""
    if not isinstance(ids, (str, Iterable, type(None))):
        raise AirflowException(f"'branch_task_ids' must be either None, a task ID, or an Iterable of IDs, but got {type(ids).__name__!r}.")
    named: List[str] = []
    for name in [ids] if isinstance(ids, str) else ids or ():
        if not isinstance(name, str):
            raise AirflowException(f"'branch_task_ids' expected all task IDs are strings. Invalid tasks found: {{({name!r}, {type(name).__name__!r})}}.")
        if name in dag.groups:
            named += [root.task_id for root in dag.groups[name].roots]
        elif name in dag.task_dict:
            named.append(name)
        else:
            raise AirflowException(f"'branch_task_ids' must contain only valid task_ids. Invalid tasks found: {{{name!r}}}.")
    return named


def follow(task: BaseOperator, ids: Any) -> List[str]:
    """Of the tasks right behind a branch those that it follows: named, or below one that is named."""
    task.dag.settle()
    named = named_tasks(task.dag, ids)
    reached = set(named)
    for name in named:
        reached |= task.dag.task_dict[name].get_flat_relative_ids()
    return [each for each in task.dag.task_dict if each in task.downstream_task_ids and each in reached]


class BranchMixIn:
    """Follows what `do_branch` is given."""

    operator_kind = "branch"
    # What the branch returned, which is what Airflow pushes.
    branch_returned: Any = None

    def do_branch(self, context: Any, branches_to_execute: Any) -> Any:
        """What is followed, as the value to push: what was given, where that names tasks right behind this one alone; else those that are followed."""
        ids = branches_to_execute
        if ids is not None and not isinstance(ids, str) and isinstance(ids, Iterable):
            ids = list(ids)
        self.branch_returned = ids
        task: Any = self
        chosen = follow(task, ids)
        if ids is not None and all(each in chosen for each in ([ids] if isinstance(ids, str) else ids)):
            return ids
        return chosen


class BaseBranchOperator(BranchMixIn, BaseOperator):
    """A branch by a method of its own."""

    def choose_branch(self, context: Any) -> Any:
        """The id or ids of tasks or groups to follow, or None."""
        raise NotImplementedError

    def execute(self, context: Any) -> Any:
        return self.do_branch(context, self.choose_branch(context))


class BranchPythonOperator(BranchMixIn, PythonOperator):
    """A branch by a function."""

    def execute(self, context: Any) -> Any:
        return self.do_branch(context, super().execute(context))
