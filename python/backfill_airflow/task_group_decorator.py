"""The decorator @task_group."""

from __future__ import annotations

import functools

from .mapped import check_list_of_dicts
from .task_group import MappedArgument, MappedTaskGroup, TaskGroup
from .xcom_arg import XComArg

TYPE_CHECKING = False
if TYPE_CHECKING:
    from typing import Any, Callable, Dict, Optional


class TaskGroupMaker:
    """A decorated function: a call makes a group of the tasks that it makes."""

    def __init__(self, function: Callable[..., Any], options: Dict[str, Any], arguments: Optional[Dict[str, Any]] = None) -> None:
        functools.update_wrapper(self, function)
        self.function, self.arguments = function, arguments or {}
        self.options: Dict[str, Any] = {"group_id": function.__name__, "add_suffix_on_collision": True, **options}

    def __call__(self, *args: Any, **arguments: Any) -> Any:
        """What the function returns, or the group where that is None."""
        return self._fill(TaskGroup(**self.options), *args, **{**self.arguments, **arguments})

    def _fill(self, group: TaskGroup, *args: Any, **arguments: Any) -> Any:
        with group:
            group.tooltip = group.tooltip or self.function.__doc__ or ""
            value = self.function(*args, **arguments)
        return group if value is None else value

    def override(self, **options: Any) -> TaskGroupMaker:
        """The same function with other options of the group."""
        return TaskGroupMaker(self.function, {**self.options, **options}, self.arguments)

    def partial(self, **arguments: Any) -> TaskGroupMaker:
        """The arguments that all instances of an expanded group share."""
        self._check_names("partial", arguments)
        return TaskGroupMaker(self.function, self.options, {**self.arguments, **arguments})

    def expand(self, **mapped: Any) -> Any:
        """An instance for each member of an argument, and for each combination of several."""
        if not mapped:
            raise TypeError("no arguments to expand against")
        self._check_names("expand", mapped)
        for key, value in mapped.items():
            if key in self.arguments:
                raise TypeError(f"mapping already partial argument: {key}")
            if not isinstance(value, (list, tuple, dict, XComArg)):
                raise ValueError(f"expand() got an unexpected type {type(value).__name__!r} for keyword argument {key!r}")
        return self._expanded(mapped, None, list(mapped))

    def expand_kwargs(self, over: Any) -> Any:
        """An instance for each dict of a list, which has its arguments."""
        check_list_of_dicts(over)
        import inspect

        parameters = inspect.signature(self.function).parameters.values()
        if any(each.kind in (each.VAR_POSITIONAL, each.VAR_KEYWORD) for each in parameters):
            raise TypeError("calling expand_kwargs() on task group function using * or ** is not supported")
        return self._expanded(None, over, [each.name for each in parameters if each.name not in self.arguments])

    def _expanded(self, mapped: Optional[Dict[str, Any]], over: Any, keys: Any) -> Any:
        group = MappedTaskGroup(mapped, over, **self.options)
        group.partial_kwargs = self.arguments
        return self._fill(group, **self.arguments, **{key: MappedArgument(group, key) for key in keys})

    def _check_names(self, method: str, arguments: Dict[str, Any]) -> None:
        import inspect

        parameters = inspect.signature(self.function).parameters
        if any(each.kind is each.VAR_KEYWORD for each in parameters.values()):
            return
        unknown = [key for key in arguments if key not in parameters]
        if unknown:
            raise TypeError(f"{method}() got an unexpected keyword argument {unknown[0]!r}")


def task_group(group_id: Any = None, **options: Any) -> Any:
    """The decorator of a function that makes tasks, with or without options of the group."""
    if callable(group_id):
        return TaskGroupMaker(group_id, options)
    if group_id is not None:
        options["group_id"] = group_id
    return lambda function: TaskGroupMaker(function, options)
