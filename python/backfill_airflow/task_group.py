"""Groups of tasks, and those that are expanded."""

from __future__ import annotations

import itertools
import re

from .edges import DependencyMixin
from .errors import AirflowException, DuplicateTaskIdFound, Refused
from .reading import current_dag, where
from .xcom_arg import ResolveMixin, items_of, resolved, within

TYPE_CHECKING = False
if TYPE_CHECKING:
    from typing import Any, Dict, Iterable, Iterator, List, Optional, Sequence

    from .base_operator import BaseOperator


def next_number(base: str, ids: Iterable[str]) -> int:
    """One more than the greatest N of the ids BASE__N."""
    prefix = f"{base}__"
    endings = [each[len(prefix) :] for each in ids if each.startswith(prefix)]
    return max((int(each) for each in endings if each.isdecimal()), default=0) + 1


class TaskGroup(DependencyMixin):
    """A group of tasks, whose id stands before theirs."""

    # Of a group that is expanded: its arguments with the literal lists or values over which, or for expand_kwargs() the list of dicts.
    mapped: Optional[Dict[str, Any]] = None
    over: Any = None

    def __init__(
        self, group_id: Optional[str] = None, prefix_group_id: bool = True, parent_group: Optional[TaskGroup] = None, dag: Any = None,
        default_args: Optional[Dict[str, Any]] = None, tooltip: str = "", ui_color: str = "CornflowerBlue", ui_fgcolor: str = "#000",
        add_suffix_on_collision: bool = False,
    ) -> None:
        self.made_at = where()
        self.dag: Any = dag or (parent_group.dag if parent_group is not None else current_dag())
        if self.dag is None:
            raise RuntimeError("TaskGroup can only be used inside a dag")
        parent: TaskGroup = parent_group if parent_group is not None else self.dag.task_group.innermost()
        self.parent: Optional[TaskGroup] = parent
        self.prefix_group_id, self.tooltip, self.ui_color, self.ui_fgcolor = prefix_group_id, tooltip, ui_color, ui_fgcolor
        self.default_args: Dict[str, Any] = {**parent.default_args, **(default_args or {})}
        self.label = self._free_label(parent, group_id or "", add_suffix_on_collision)
        self.group_id: Optional[str] = parent.child_id(self.label)
        self.children: Dict[str, Any] = {}
        self.opened: List[TaskGroup] = []
        self.dag.groups[self.group_id] = self
        parent.children[self.group_id] = self

    @classmethod
    def root_of(cls, dag: Any) -> TaskGroup:
        """The group of a whole DAG, which has no id."""
        group = cls.__new__(cls)
        group.made_at, group.dag, group.parent, group.prefix_group_id, group.default_args = "", dag, None, True, {}
        group.label, group.group_id, group.children, group.opened, group.tooltip = "", None, {}, [], ""
        return group

    def _free_label(self, parent: TaskGroup, label: str, add_suffix: bool) -> str:
        """A label whose id is free. As in Airflow, one that is itself an id of the DAG gets a suffix, too, where suffixes are asked for."""
        taken = self._is_used(parent.child_id(label))
        if taken and not add_suffix:
            raise DuplicateTaskIdFound(f"group_id '{parent.child_id(label)}' has already been added to the DAG")
        if not taken and not (add_suffix and self._is_used(label)):
            return label
        base = re.split(r"__\d+$", label)[0]
        ids = [*self.dag.groups, *self.dag.task_dict]
        return f"{base}__{max(next_number(base, ids), next_number(parent.child_id(base), ids))}"

    def _is_used(self, name: str) -> bool:
        return name in self.dag.groups or name in self.dag.task_dict

    # ---- ids

    @property
    def is_root(self) -> bool:
        return self.group_id is None

    def child_id(self, label: str) -> str:
        """The id of a task or group of this label inside."""
        return f"{self.group_id}.{label}" if self.prefix_group_id and self.group_id else label

    def has_task(self, task: BaseOperator) -> bool:
        return any(each is task for each in self.iter_tasks())

    def get_child_by_label(self, label: str) -> Any:
        return self.children[self.child_id(label)]

    # ---- with

    def innermost(self) -> TaskGroup:
        """Of the root: the group whose `with` block is open, or the root."""
        return self.opened[-1] if self.opened else self

    def __enter__(self) -> TaskGroup:
        self._opens_dag = current_dag() is not self.dag
        if self._opens_dag:
            self.dag.__enter__()
        self.dag.task_group.opened.append(self)
        return self

    def __exit__(self, *_: Any) -> None:
        self.dag.task_group.opened.pop()
        if self._opens_dag:
            self.dag.__exit__()

    def add(self, node: Any) -> Any:
        """Puts a task that is in no group yet into this one."""
        node.task_group = self
        node.put_into(self.dag)
        return node

    # ---- tasks and edges

    def iter_tasks(self) -> Iterator[BaseOperator]:
        """The tasks inside, those of inner groups, too."""
        for child in list(self.children.values()):
            if isinstance(child, TaskGroup):
                yield from child.iter_tasks()
            else:
                yield child

    __iter__ = iter_tasks

    def all_tasks(self) -> List[BaseOperator]:
        return list(self.iter_tasks())

    @property
    def roots(self) -> Sequence[BaseOperator]:
        tasks = self.all_tasks()
        inside = {task.task_id for task in tasks}
        return [task for task in tasks if task.upstream_task_ids.isdisjoint(inside)]

    @property
    def leaves(self) -> Sequence[BaseOperator]:
        """The tasks without downstreams inside. In the place of a teardown stand those before it, but for its setups."""
        tasks = self.all_tasks()
        inside = {task.task_id for task in tasks}
        found: Dict[str, BaseOperator] = {}
        for task in tasks:
            if task.downstream_task_ids.isdisjoint(inside):
                for each in _before_teardowns(task, inside) if task.is_teardown else (task,):
                    found[each.task_id] = each
        return list(found.values())

    def get_roots(self) -> Sequence[BaseOperator]:
        return self.roots

    def get_leaves(self) -> Sequence[BaseOperator]:
        return self.leaves

    # ---- expanded groups

    @property
    def is_mapped(self) -> bool:
        return self.mapped is not None or self.over is not None

    def mapped_above(self) -> Optional[TaskGroup]:
        """The nearest group that is expanded, this one or one around it."""
        group: Optional[TaskGroup] = self
        while group is not None and not group.is_mapped:
            group = group.parent
        return group

    def items(self, context: Any) -> List[Dict[str, Any]]:
        """The arguments of each instance of an expanded group, in the order of their indices."""
        if self.mapped is None:
            return [resolved(each, context) for each in items_of(resolved(self.over, context))]
        lists = [items_of(resolved(value, context)) for value in self.mapped.values()]
        return [dict(zip(self.mapped, each)) for each in itertools.product(*lists)]

    def __repr__(self) -> str:
        return f"<TaskGroup: {self.group_id}>"


def _before_teardowns(teardown: BaseOperator, inside: Any) -> Iterator[BaseOperator]:
    for task in teardown.upstream_list:
        if task.task_id not in inside:
            continue
        if task.is_teardown:
            yield from _before_teardowns(task, inside)
        elif not task.is_setup:
            yield task


class MappedTaskGroup(TaskGroup):
    """A group that is expanded: it runs once for each item."""

    def __init__(self, mapped: Optional[Dict[str, Any]], over: Any, **options: Any) -> None:
        super().__init__(**options)
        self.partial_kwargs: Dict[str, Any] = {}
        outer = self.parent.mapped_above() if self.parent is not None else None
        if outer is not None:
            raise Refused(f"the expanded group {self.group_id} inside the expanded group {outer.group_id}", "expand one of both", where=where())
        self.mapped, self.over = mapped, over

    def sources(self) -> Iterator[BaseOperator]:
        """The tasks of whose values the arguments are."""
        for each in within([self.mapped, self.over]):
            yield from each.sources()

    def __exit__(self, *error: Any) -> None:
        for source in self.sources():
            for root in self.roots:
                root.add_upstream(source)
        super().__exit__(*error)


class MappedArgument(ResolveMixin):
    """An argument of an expanded group, inside it."""

    def __init__(self, group: MappedTaskGroup, key: str) -> None:
        self.group, self.key = group, key

    def sources(self) -> Iterator[BaseOperator]:
        return self.group.sources()

    def resolve(self, context: Any) -> Any:
        """The argument of the instance; `context["group_item"]` has all of them."""
        item = context["group_item"]
        if not isinstance(item, dict):
            raise AirflowException(f"expand_kwargs() expects a list[dict], but an item is of type {type(item).__name__}")
        return item[self.key]
