"""Marks of setup and teardown, and the `with` blocks that put work between them."""

from __future__ import annotations

from .edges import each_of
from .errors import AirflowException

TYPE_CHECKING = False
if TYPE_CHECKING:
    from typing import Any, List, Optional

    from .base_operator import BaseOperator

RULE_OF_TEARDOWN = "all_done_setup_success"


class Scope:
    """A `with` block of setups or teardowns: the tasks made inside are put behind the setups and before the teardowns."""

    # Those that are open, the innermost last.
    opened: List[Scope] = []

    def __init__(self, marked: List[BaseOperator]) -> None:
        if not marked or not all(task.is_setup or task.is_teardown for task in marked):
            raise AirflowException("Only setup/teardown tasks can be used as context managers.")
        self.setups = [task for task in marked if task.is_setup]
        self.teardowns = [task for task in marked if task.is_teardown]
        # The setups of teardowns and the teardowns of setups are those that an edge joins to them.
        if not self.setups:
            self.setups = _unique(up for task in self.teardowns for up in task.upstream_list if up.is_setup)
        elif not self.teardowns:
            self.teardowns = _unique(down for task in self.setups for down in task.downstream_list if down.is_teardown)
        self.work: List[BaseOperator] = []

    def add_task(self, task: Any) -> None:
        """Puts a task that was made outside into the block."""
        for each in task.roots:
            if not each.is_setup and not each.is_teardown and each not in self.work:
                self.work.append(each)

    def close(self, outer: Optional[Scope]) -> None:
        """Sets the edges of the block, and those to the block around it."""
        # (setups and teardowns made inside are marked once they are made, so they are among these: the outer setup comes before the inner one)
        roots = [task for task in self.work if not task.upstream_task_ids] or self.work[:1]
        leaves = [task for task in self.work if not task.downstream_task_ids] or self.work[-1:]
        for root in roots:
            for setup in self.setups:
                root.add_upstream(setup)
        for teardown in self.teardowns:
            for leaf in leaves:
                teardown.add_upstream(leaf)
        if outer is None:
            return
        for setup in self.setups:
            for around in outer.setups:
                setup.add_upstream(around)
        for teardown in self.teardowns:
            for around in outer.teardowns:
                around.add_upstream(teardown)


def _unique(tasks: Any) -> List[BaseOperator]:
    return list({task.task_id: task for task in tasks}.values())


def open_scope(marked: Any) -> Scope:
    """Opens a block of a task or of a list of them."""
    scope = Scope([root for each in each_of(marked) for root in each.roots])
    Scope.opened.append(scope)
    return scope


def close_scope() -> None:
    """Closes the innermost block."""
    scope = Scope.opened.pop()
    scope.close(Scope.opened[-1] if Scope.opened else None)


class SetupTeardownMarks:
    """The marks of a task."""

    task_id: str
    trigger_rule: str
    _is_setup = _is_teardown = _on_failure_fail_dagrun = False

    def add_upstream(self, task: Any) -> None:
        """Sets the edge from a task to this one."""
        raise NotImplementedError

    @property
    def is_setup(self) -> bool:
        return self._is_setup

    @is_setup.setter
    def is_setup(self, value: bool) -> None:
        if value and self._is_teardown:
            raise ValueError(f"Cannot mark task '{self.task_id}' as setup; task is already a teardown.")
        self._is_setup = value

    @property
    def is_teardown(self) -> bool:
        return self._is_teardown

    @is_teardown.setter
    def is_teardown(self, value: bool) -> None:
        if value and self._is_setup:
            raise ValueError(f"Cannot mark task '{self.task_id}' as teardown; task is already a setup.")
        self._is_teardown = value

    @property
    def on_failure_fail_dagrun(self) -> bool:
        return self._on_failure_fail_dagrun

    @on_failure_fail_dagrun.setter
    def on_failure_fail_dagrun(self, value: bool) -> None:
        if value and not self._is_teardown:
            raise ValueError(f"Cannot set task on_failure_fail_dagrun for '{self.task_id}' because it is not a teardown task.")
        self._on_failure_fail_dagrun = value

    def as_setup(self) -> Any:
        """Marks the task as a setup."""
        self.is_setup = True
        return self

    def as_teardown(self, *, setups: Any = (), on_failure_fail_dagrun: bool = False) -> Any:
        """Marks the task as the teardown of some setups."""
        self.is_teardown = True
        self.trigger_rule = RULE_OF_TEARDOWN
        self.on_failure_fail_dagrun = on_failure_fail_dagrun
        for each in each_of(setups):
            for setup in each.leaves:
                setup.is_setup = True
                self.add_upstream(setup)
        return self

    def __enter__(self) -> Scope:
        return open_scope(self)

    def __exit__(self, *_: Any) -> None:
        close_scope()


class context_wrapper(list):  # type: ignore[type-arg]
    """A list of setups or teardowns for a `with` block."""

    def __enter__(self) -> Scope:
        return open_scope(list(self))

    def __exit__(self, *_: Any) -> None:
        close_scope()
