"""Tasks that are expanded: `.partial(..)`, `.expand(..)` and `.expand_kwargs(..)`."""

from __future__ import annotations

import itertools

from .errors import AirflowException, Refused
from .base_operator import BASE_ARGUMENTS, BaseOperator
from .operator_meta import takes
from .reading import Reading, current_dag, where
from .task_group import MappedArgument
from .xcom_arg import RETURN_VALUE, XComArg, items_of, resolved, within

TYPE_CHECKING = False
if TYPE_CHECKING:
    from typing import Any, Container, Dict, List, Optional

# (those of unmap() are given by the group and the DAG that the task is in)
OF_PLACE = ("task_id", "dag", "task_group")


def check_arguments(name: str, mapped: Dict[str, Any], taken: Container[str]) -> None:
    """Raises what Airflow raises for arguments of expand() that are taken already, or can't be expanded over."""
    if not mapped:
        raise TypeError("no arguments to expand against")
    for key, value in mapped.items():
        if key in taken:
            raise TypeError(f"{name}.expand() got an unmappable or already specified argument {key!r}")
        if not isinstance(value, (list, tuple, dict, XComArg, MappedArgument)):
            raise ValueError(f"{name}.expand() got an unexpected type {type(value).__name__!r} for keyword argument {key!r}")


def check_list_of_dicts(over: Any) -> None:
    """Raises a TypeError for what expand_kwargs() doesn't take."""
    if isinstance(over, (list, tuple)):
        if all(isinstance(each, (dict, XComArg)) for each in over):
            return
    elif isinstance(over, (XComArg, MappedArgument)):
        return
    raise TypeError(f"expected XComArg or list[dict], not {type(over).__name__}")


class OperatorPartial:
    """The arguments that all instances of an expanded task share."""

    def __init__(self, operator_class: Any, arguments: Dict[str, Any]) -> None:
        self.operator_class, self.arguments = operator_class, arguments
        self._check_names("partial", arguments)

    def _check_names(self, method: str, arguments: Dict[str, Any]) -> None:
        if Reading.trying:
            return
        unknown = set(arguments) - BASE_ARGUMENTS - set(takes(self.operator_class))
        if unknown:
            raise TypeError(f"{self.operator_class.__name__}.{method}() got an unexpected keyword argument {min(unknown)!r}")

    def expand(self, **mapped: Any) -> MappedOperator:
        """An instance for each member of an argument, and for each combination of several."""
        check_arguments(self.operator_class.__name__, mapped, {*self.arguments, *BASE_ARGUMENTS})
        self._check_names("expand", mapped)
        return expanded(self.operator_class, self.arguments, mapped, None)

    def expand_kwargs(self, over: Any, strict: bool = True) -> MappedOperator:
        """An instance for each dict of a list, which has its arguments."""
        check_list_of_dicts(over)
        return expanded(self.operator_class, self.arguments, {}, over)


def expanded(operator_class: Any, arguments: Dict[str, Any], mapped: Dict[str, Any], over: Any, into: Optional[str] = None) -> MappedOperator:
    """An expanded task. With `into`, the arguments that differ are members of that argument."""
    base = {key: value for key, value in arguments.items() if key in BASE_ARGUMENTS}
    dag = arguments.get("dag") or current_dag()
    group = arguments.get("task_group") or (dag.task_group.innermost() if dag is not None else None)
    if group is not None and group.mapped_above() is not None:
        raise Refused(
            f"an expanded task inside the expanded group {group.mapped_above().group_id}",
            "a task of the group that takes the whole list; or expand the task outside of the group",
            group.child_id(arguments.get("task_id", "")), where(),
        )
    return MappedOperator(operator_class=operator_class, partial_kwargs=arguments, mapped=mapped, over=over, into=into, **base)


class MappedOperator(BaseOperator):
    """An expanded task. `mapped` has the arguments over which it is expanded, `over` the list of dicts of expand_kwargs(), else None."""

    is_mapped = True

    def __init__(
        self, operator_class: Any = None, partial_kwargs: Any = None, mapped: Any = None, over: Any = None, into: Optional[str] = None, **base: Any
    ) -> None:
        super().__init__(**base)
        self.operator_class = operator_class
        self.partial_kwargs: Dict[str, Any] = {key: value for key, value in partial_kwargs.items() if key not in OF_PLACE}
        self.mapped: Dict[str, Any] = mapped
        self.over, self.into = over, into
        self.operator_kind = getattr(operator_class, "operator_kind", "program")
        self.is_sensor = getattr(operator_class, "is_sensor", False)

    def set_edges_of_values(self) -> None:
        self._set_edges_of([self.partial_kwargs, self.mapped, self.over])

    @property
    def task_type(self) -> str:
        return str(self.operator_class.__name__)

    def lone(self) -> Optional[XComArg]:
        """The one value of a task over which this one is expanded, where nothing has to be made of it before; else None."""
        values = [self.over] if self.over is not None else list(self.mapped.values())
        if len(values) == 1 and type(values[0]) is XComArg and values[0].key == RETURN_VALUE:
            return values[0]
        return None

    def items(self, context: Any) -> List[Any]:
        """What the instances differ in, in the order of their indices: of one argument its members, of several a dict each."""
        if self.over is not None:
            return [resolved(each, context) for each in items_of(resolved(self.over, context))]
        lists = [items_of(resolved(value, context)) for value in self.mapped.values()]
        if len(lists) == 1:
            return lists[0]
        return [dict(zip(self.mapped, each)) for each in itertools.product(*lists)]

    def _values_of(self, item: Any) -> Dict[str, Any]:
        if self.over is None and len(self.mapped) == 1:
            return {next(iter(self.mapped)): item}
        if not isinstance(item, dict):
            raise AirflowException(f"expand_kwargs() expects a list[dict], but an item is of type {type(item).__name__}")
        return dict(item)

    def literals(self) -> Dict[str, List[Any]]:
        """Of the arguments whose values all stand in the DAG file these values, which are rendered. (What tasks pushed isn't.)"""
        made: Dict[str, List[Any]] = {}
        if self.over is None:
            made = {key: items_of(value) for key, value in self.mapped.items() if isinstance(value, (list, tuple, dict))}
        elif isinstance(self.over, (list, tuple)):
            for each in self.over:
                for key, value in each.items() if isinstance(each, dict) else ():
                    made.setdefault(key, []).append(value)
        return {key: values for key, values in made.items() if next(within(values), None) is None}

    def in_templates(self) -> Dict[str, Any]:
        """The arguments that are rendered, of which an expanded one has a list of its values."""
        literals = self.literals()
        if self.into:
            literals = {self.into: [self.partial_kwargs.get(self.into), literals]}
        return {**self.partial_kwargs, **literals}

    def unmap(self, item: Any) -> Any:
        """The task of one item, of which what tasks pushed isn't rendered."""
        values = self._values_of(item)
        arguments = {key: value for key, value in self.partial_kwargs.items() if key != "default_args"}
        if self.into:
            arguments[self.into] = {**arguments.get(self.into, {}), **values}
        else:
            arguments.update(values)
        defaults: Dict[str, Any] = {**self.dag.default_args, **self.task_group.default_args, **(self.partial_kwargs.get("default_args") or {})}
        opened, Reading.open_dags, Reading.unmapping = Reading.open_dags, [], True
        try:
            task = self.operator_class(task_id=self.label, default_args=defaults, **arguments)
        finally:
            Reading.open_dags, Reading.unmapping = opened, False
        task.task_id, task._dag, task.task_group, task.params = self.task_id, self.dag, self.task_group, self.params
        task.upstream_edges = self.upstream_edges
        task.upstream_task_ids, task.downstream_task_ids = self.upstream_task_ids, self.downstream_task_ids
        pushed = set(values) - set(self.literals())
        task.unrendered = set() if self.into else pushed
        task.unrendered_into = (self.into, pushed) if self.into else None
        return task
