"""The last line of a try: what its task pushes."""

from __future__ import annotations

import json

from .codec import Bundle, as_pushed, encode, encode_pairs
from .errors import AirflowException
from .groups import ids_in_graph, lone_source

TYPE_CHECKING = False
if TYPE_CHECKING:
    from typing import Any, Dict, List


def answer(task: Any, result: Any, pushed: Dict[str, Any]) -> str:
    """The line of a task of the DAG that has returned a result and pushed values under keys. Raises a CodecError or AirflowException for what can't be
    pushed."""
    keys = {key: value for key, value in pushed.items() if key != "return_value"}
    if task.operator_kind != "program":
        return _followed(task, result, keys)
    result = _returned(task, result, pushed)
    what = f"what {task.task_id} pushes"
    if keys:
        return _line_of_keys(task, keys, result, what)
    if not task.is_mapped and isinstance(result, (dict, tuple, set)) and _is_expanded_over(task):
        if isinstance(result, dict):
            return encode_pairs(result, what)
        raise AirflowException(f"a task is expanded over {task.task_id}, which pushes a {type(result).__name__}: Airflow takes a list or a dict")
    return encode(result, what)


def _line_of_keys(task: Any, keys: Dict[str, Any], result: Any, what: str) -> str:
    """The line of a task that has pushed under keys of its own. Several outputs are pushed after them."""
    if not task.is_mapped and _is_expanded_over(task):
        raise AirflowException(
            f"a task is expanded over {task.task_id}, which pushes more than the list: {', '.join(keys)}; push that in another task, "
            "or expand over .map(lambda each: each) of this one"
        )
    if task.multiple_outputs and result is not None:
        keys, result = {**keys, **result}, as_pushed(result)
    for name, value in keys.items():
        encode(value, f"{what} as {name!r}", most=None)
    return encode_bundle(keys, result, what)


def encode_bundle(keys: Dict[str, Any], result: Any, what: str) -> str:
    """The line of a task that pushed under several keys; what it returned is the last that it pushed."""
    bundle = Bundle(keys)
    if result is not None:
        bundle["return_value"] = result
    return encode(bundle, what)


def _followed(task: Any, result: Any, keys: Dict[str, Any]) -> str:
    """The line of a branch or a short circuit: the tasks right behind it that are followed, by their ids in the graph."""
    if keys:
        raise AirflowException(f"a branch can't push keys beside what it follows: {', '.join(keys)}; push them in a task before it")
    names = task.dag.task_dict
    if task.operator_kind == "short_circuit":
        direct = [each for each in names if each in task.downstream_task_ids]
        return json.dumps(_in_graph(task, direct) if result else [])
    if result is None:
        return ""
    if isinstance(result, str) and _in_graph(task, [result]) == [result]:
        return json.dumps(result)
    return json.dumps(_in_graph(task, [result] if isinstance(result, str) else list(result)))


def check_branch(task: Any, line: str) -> None:
    """Raises an AirflowException where a branch, which another task pulls from, pushes other than what it returned, as Airflow does."""
    returned = getattr(task, "branch_returned", None)
    if line != json.dumps(returned) and returned is not None:
        raise AirflowException(
            f"{task.task_id} returned {returned!r}, a group or a task further down, where backfill takes {line}; and a task pulls from it, "
            "which Airflow would give what it returned: name the tasks right behind the branch, or return the value from a task before it"
        )


def _in_graph(task: Any, ids: List[str]) -> List[str]:
    names = task.dag.task_dict
    return [name for each in ids for name in (ids_in_graph(names[each]) if each in names else [each])]


def _returned(task: Any, result: Any, pushed: Dict[str, Any]) -> Any:
    """What a task returns, or pushes in its place; checked where its members are outputs of their own."""
    if not task.do_xcom_push:
        return pushed.get("return_value")
    if result is None:
        return pushed.get("return_value")
    if task.multiple_outputs:
        if not isinstance(result, dict):
            raise AirflowException(f"Returned output was type {type(result)} expected dictionary for multiple_outputs")
        for key in result:
            if not isinstance(key, str):
                raise AirflowException(
                    f"Returned dictionary keys must be strings when using multiple_outputs, found {key} ({type(key)}) instead"
                )
        return {key: as_pushed(each) for key, each in result.items()}
    return as_pushed(result)


def _is_expanded_over(task: Any) -> bool:
    """Whether a task of the DAG is expanded over what another one pushes, and not over items that a made-up task pushes."""
    if task.mapped_group is not None:
        return False
    for other in task.dag.tasks:
        lone = other.lone() if other.is_mapped else None if other.mapped_group is None else lone_source(other.mapped_group)
        if lone is not None and lone.operator is task:
            return True
    return False
