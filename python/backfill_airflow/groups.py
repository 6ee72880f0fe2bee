"""Mapped task groups, as tries and graphs see them.

A group that is mapped over literals is unrolled: of its task `load.fetch` the graph has `load.fetch.0`, `load.fetch.1` and so on. One that is mapped
over what tasks push is expanded task by task.
"""

from __future__ import annotations

from .xcom_arg import XComArg

TYPE_CHECKING = False
if TYPE_CHECKING:
    from typing import Any, Dict, List, Optional


def literal_length(group: Any) -> Optional[int]:
    """Over how many items a group is mapped, or None where that isn't known before a run."""
    values = list(group.mapped.values()) if group.over is None else [group.over]
    if any(isinstance(value, XComArg) for value in values):
        return None
    length = 1
    for value in values:
        length *= len(value)
    return length


def ids_in_graph(task: Any) -> List[str]:
    """The ids under which the graph has a task of the DAG."""
    length = None if task.mapped_group is None else literal_length(task.mapped_group)
    return [task.task_id] if length is None else [f"{task.task_id}.{index}" for index in range(length)]


def lone_source(group: Any) -> Optional[XComArg]:
    """What a group is mapped over, where that is the value of one task that isn't in a mapped group itself."""
    values = list(group.mapped.values()) if group.over is None else [group.over]
    if len(values) != 1 or type(values[0]) is not XComArg or values[0].key != "return_value":
        return None
    return None if values[0].operator.mapped_group is not None else values[0]


def arguments_of(group: Any, item: Any) -> Dict[str, Any]:
    """The mapped arguments of a group's instance by its item, which is all of them, or a member of what one task pushed.

    Raises a ValueError for an item of another form."""
    if group.over is None and lone_source(group) is not None:
        return {next(iter(group.mapped)): item}
    if not isinstance(item, dict):
        raise ValueError(f"expand_kwargs() expects a list of dicts, not of {type(item).__name__}")
    return dict(item)
