"""Expanded tasks: over what a task pushes, or over what a made-up task before them pushes.

In Airflow an expanded task whose rule says run is skipped all the same where what it is expanded over was skipped, and upstream_failed where that
failed. So a rule other than all_success and none_skipped stands in a made-up task `ID.upstream`, and the expanded task runs where that and its source
succeeded. An expanded source counts only where it was skipped or failed as a whole, before it had instances.
"""

from __future__ import annotations

from typing import Any, List

from .draft import EARLY_RULES, Draft, GraphTask, pulls_from, try_words
from .xcom_arg import xcoms_in

# By these a task is skipped where one before it was, and decided alike with one more success before it.
SKIPPING_RULES = ("all_success", "none_skipped")
# Under these a task may run where instances of an expanded task before it were skipped, but not where one failed.
LENIENT_RULES = ("none_failed", "none_failed_min_one_success")
# By these a task runs only where the task over which it is expanded didn't succeed.
CONTRARY_RULES = ("all_failed", "all_skipped")
ITEMS_NOTE = "a task ID.items was made up, which pushes the items of all its arguments"


def add_expansion(draft: Draft, made: GraphTask) -> None:
    """Expands a task over the source of its one argument, or over a made-up task in front of it."""
    task = made.task
    made.command += ["--item", {"item": True}]
    lone = task.lone()
    if lone is None or lone.operator.mapped_group is not None:
        expand_over_items(draft, [made], task.task_id)
    else:
        expand_over(draft, made, lone.operator)


def expand_over(draft: Draft, made: GraphTask, source: Any) -> None:
    """Expands a task over what another task of the DAG pushes."""
    task = made.task
    if source.operator_kind != "program":
        draft.findings.refuse(f"expanded over {source.task_id}, a branch", "a task between that pushes the list", task)
    if not source.is_mapped:
        _hold_back(draft, made)
    elif made.rule not in SKIPPING_RULES:
        draft.findings.note(f"where {source.task_id} is skipped as a whole, the task is upstream_failed (in Airflow skipped)", task)
    _expand(draft, made, source.task_id)


def expand_over_items(draft: Draft, many: List[GraphTask], name: str) -> None:
    """Expands a task, or the tasks of a mapped group, over the items of several arguments, or of a literal: `name`.items pushes them."""
    task = many[0].task
    sources = _sources(task)
    for source in sources:
        if source.operator_kind == "short_circuit":
            draft.findings.refuse(f"expanded over {source.task_id}, a short circuit", "a task that pushes the list", task)
    items = draft.add_made_up(f"{name}.items", task, "the items of this task")
    items.upstream = draft.ordered(source.task_id for source in sources)
    items.command = [*try_words(draft, task), "--items"]
    items.pulls = pulls_from(draft, items.upstream)
    if any(source.is_mapped or source.mapped_group is not None for source in sources):
        _set_rule_of_items(draft, items, many)
    for made in many:
        _hold_back(draft, made)
        _expand(draft, made, items.id)
    draft.findings.note(ITEMS_NOTE, task)


def _sources(task: Any) -> List[Any]:
    """The tasks of whose values the items of an expanded task, or of its mapped group, are made."""
    expanded = task if task.is_mapped else task.mapped_group
    return [source for arg in xcoms_in([expanded.mapped, expanded.over]) for source in arg.sources()]


def _set_rule_of_items(draft: Draft, items: GraphTask, many: List[GraphTask]) -> None:
    """Lets the items be those of the instances that succeeded, as the rules of the tasks that are expanded over them do."""
    rules = {made.rule for made in many}
    if rules.issubset(LENIENT_RULES):
        items.keys["rule"] = "none_failed"
        # (what isn't expanded itself, and pushed nothing, was skipped)
        items.command.append("--skip-without")
    elif rules != {"all_success"}:
        what = f"expanded with trigger_rule={max(rules - {'all_success'})!r} over several arguments, of which one is of an expanded task"
        draft.findings.refuse(what, "all_success or none_failed", many[0].task)


def _hold_back(draft: Draft, made: GraphTask) -> None:
    """Puts the rule of an expanded task into a task of its own, where the task's own rule wouldn't skip it together with its source."""
    task, rule = made.task, made.rule
    if rule in SKIPPING_RULES or rule in EARLY_RULES:
        return
    if rule in CONTRARY_RULES and _sources(task):
        draft.findings.refuse(f"an expanded task with trigger_rule={rule!r}, which never has items where it may run", "all_success or none_failed", task)
    branches = [name for name in task.upstream_edges if draft.tasks[name].operator_kind == "branch"]
    circuits = [name for name in draft.above(task.task_id) if draft.tasks[name].operator_kind == "short_circuit"]
    if branches or circuits:
        what = f"an expanded task with trigger_rule={rule!r} behind {[*branches, *circuits][0]}, a branch or short circuit"
        draft.findings.refuse(what, "an EmptyOperator with that rule before it, and all_success here", task)
    gate = draft.add_made_up(f"{task.task_id}.upstream", task, "what holds an expanded task back")
    gate.upstream, gate.keys["rule"] = made.upstream, rule
    made.upstream = [gate.id]
    del made.keys["rule"]


def _expand(draft: Draft, made: GraphTask, source: str) -> None:
    made.keys["expand"] = source
    made.add_upstream(source)
    if made.rule in EARLY_RULES:
        what = f"an expanded task with trigger_rule={made.rule!r}"
        draft.findings.refuse(what, "a rule that waits for all tasks before it, as none_failed", made.task)
