"""Mapped task groups in the graph: unrolled where their items stand in the DAG file, else expanded task by task.

In Airflow a task of a mapped group follows the instances of the same map index alone. Unrolled that is so. Where the number of items isn't known
beforehand, each task of the group is expanded for itself, so the group may have no edges within.
"""

from __future__ import annotations

from typing import Any, Dict, List

from .draft import Draft, GraphTask, Pull
from .expansions import expand_over, expand_over_items
from .groups import ids_in_graph, literal_length, lone_source
from .task_keys import MOST_WEIGHT

ITEMS_OF_GROUP = "expand each task of the group: the first over the list, the next over its output"


def add_mapped_groups(draft: Draft) -> None:
    """Carries the mapped groups of a DAG over to its graph, or refuses them."""
    groups: Dict[int, List[GraphTask]] = {}
    for made in draft.graph.values():
        if not made.is_made_up and made.task.mapped_group is not None:
            groups.setdefault(id(made.task.mapped_group), []).append(made)
    for members in groups.values():
        if _check(draft, members) and literal_length(members[0].task.mapped_group) is None:
            _expand(draft, members)
    if any(literal_length(members[0].task.mapped_group) is not None for members in groups.values()):
        _set_weights(draft)
        _unroll(draft)


def _check(draft: Draft, members: List[GraphTask]) -> bool:
    """Refuses what a mapped group can't hold."""
    before = len(draft.findings.refused)
    for made in members:
        task = made.task
        if task.is_mapped:
            draft.findings.refuse("an expanded task in a mapped task group", ITEMS_OF_GROUP, task)
        if task.operator_kind != "program":
            draft.findings.refuse("a branch or short circuit in a mapped task group", "skip by AirflowSkipException in its tasks", task)
        if task.is_setup or task.is_teardown:
            draft.findings.refuse("a setup or teardown in a mapped task group", "one for the whole group, outside of it", task)
    if literal_length(members[0].task.mapped_group) == 0:
        draft.findings.refuse("a task group that is mapped over an empty list", "leave it away", members[0].task)
    return len(draft.findings.refused) == before


def _expand(draft: Draft, members: List[GraphTask]) -> None:
    group = members[0].task.mapped_group
    inside = {made.id for made in members}
    for made in members:
        for name in inside.intersection(made.task.upstream_edges):
            what = f"an edge from {name} within a mapped task group whose number of items isn't known before a run"
            draft.findings.refuse(what, f"a literal list for the group; or {ITEMS_OF_GROUP}", made.task)
        made.command += ["--item", {"item": True}] if made.command else []
        if not made.command:
            draft.findings.refuse("an expanded EmptyOperator", "leave it away", made.task)
    lone = lone_source(group)
    if lone is None:
        expand_over_items(draft, members, group.group_id)
        return
    for made in members:
        expand_over(draft, made, lone.operator)


# ---- unrolled


def _unroll(draft: Draft) -> None:
    """Puts the tasks of each index in the place of the tasks of literal groups."""
    unrolled: Dict[str, GraphTask] = {}
    for made in draft.graph.values():
        copies = [made.id] if made.is_made_up else ids_in_graph(made.task)
        for index, name in enumerate(copies):
            if name != made.id and name in draft.tasks:
                draft.findings.refuse(f"the id {name} is wanted for an index of the mapped task group", "rename that task", made.task)
            unrolled[name] = _instance(draft, made, name, index)
    draft.graph = unrolled


def _instance(draft: Draft, made: GraphTask, name: str, index: int) -> GraphTask:
    """The task of an index, or a task that isn't unrolled, behind the instances that it follows."""
    copy = GraphTask(name, made.task, made.is_made_up)
    copy.keys = dict(made.keys)
    copy.command = [*made.command, *(["--group-index", str(index)] if name != made.id and made.command else [])]
    for each in made.upstream:
        copy.add_upstream(*_instances_of(draft, made, each, index))
    for pull in made.pulls:
        ids = _instances_of(draft, made, pull.source, index)
        copy.pulls.append(Pull(pull.source, ids, is_list=ids != [pull.source] and not _is_beside(draft, made, pull.source)))
    return copy


def _is_beside(draft: Draft, made: GraphTask, name: str) -> bool:
    """Whether a task stands in the same mapped group."""
    group = None if made.is_made_up else made.task.mapped_group
    return group is not None and name in draft.tasks and draft.tasks[name].mapped_group is group


def _instances_of(draft: Draft, made: GraphTask, name: str, index: int) -> List[str]:
    """The tasks of the graph that stand for one before a task: in the same group that of the same index."""
    ids = ids_in_graph(draft.tasks[name]) if name in draft.tasks else [name]
    return [ids[index]] if len(ids) > 1 and _is_beside(draft, made, name) else ids


def _set_weights(draft: Draft) -> None:
    """Gives each task the weight that it has in Airflow, where a mapped task counts once: unrolled, it would count as often as it has items."""
    for made in draft.graph.values():
        task = made.task
        rule = str(getattr(task.weight_rule, "value", task.weight_rule))
        around: List[Any] = {"downstream": draft.below, "upstream": draft.above}.get(rule, lambda _: [])(task.task_id)
        weight = task.priority_weight + sum(draft.tasks[name].priority_weight for name in around)
        made.keys["weight_rule"] = "absolute"
        made.keys["priority_weight"] = min(weight, MOST_WEIGHT)
