"""Short circuits: what one skips under every rule has to stand right behind it in the graph.

In Airflow a ShortCircuitOperator that stops skips all tasks below it but teardowns, whatever their rules are, unless
`ignore_downstream_trigger_rules=False`. In the graph it is a branch that follows nothing, by which the tasks right behind it are skipped, and those
further down by their own rules. So an edge from the short circuit is put to a task below it that its own rule wouldn't skip, where that edge changes
nothing else; where it would, the task is refused.
"""

from __future__ import annotations

from typing import Any, Dict, List, NamedTuple, Set

from .draft import Draft

# Under these a task below is not skipped for certain where all tasks before it are.
KEPT_BY_RULE = ("none_failed", "all_done", "all_skipped", "always")
# Under these a task is upstream_failed where one before it failed.
FAILING_RULES = ("all_success", "none_failed", "none_failed_min_one_success")


class PassedOn(NamedTuple):
    """What is sure to come of the tasks below one: which don't succeed where it was skipped, and which are upstream_failed where it failed."""

    skips: Set[str]
    fails: Set[str]


def add_short_circuits(draft: Draft) -> Dict[str, List[str]]:
    """Adds the edges to the graph, and returns them: by task, the short circuits that were put before it."""
    added: Dict[str, List[str]] = {}
    for task in draft.tasks.values():
        if task.operator_kind != "short_circuit" or task.is_mapped or not task.ignore_downstream_trigger_rules:
            continue
        passed_on = passed_on_from(draft, task.task_id)
        # (teardowns aren't skipped)
        skipped = {name for name in draft.below(task.task_id) if not draft.tasks[name].is_teardown}
        for name in draft.ordered(skipped):
            other = draft.tasks[name]
            if task.task_id in other.upstream_edges or _is_skipped_by_rule(draft, other, skipped):
                continue
            if _takes_edge(draft, other, passed_on):
                added.setdefault(name, []).append(task.task_id)
                draft.graph[name].add_upstream(task.task_id)
            else:
                draft.findings.refuse(
                    f"below the short circuit {task.task_id} with trigger_rule={draft.rule_of(other)!r}: Airflow skips it whatever its rule",
                    f"ignore_downstream_trigger_rules=False in {task.task_id}, where its own rule may decide; or a rule of all_success, none_failed "
                    "or all_done here",
                    other,
                )
    return added


def _is_skipped_by_rule(draft: Draft, task: Any, skipped: Set[str]) -> bool:
    """Whether a task is skipped by its own rule where these are."""
    return skipped.issuperset(task.upstream_edges) and draft.rule_of(task) not in KEPT_BY_RULE


def _takes_edge(draft: Draft, task: Any, passed_on: PassedOn) -> bool:
    """Whether an edge from the short circuit changes nothing of a task where the short circuit runs through, fails or is skipped itself."""
    rule, upstream = draft.rule_of(task), set(task.upstream_edges)
    if rule in ("all_done", "always"):
        return True
    if rule == "none_failed":
        return bool(upstream & passed_on.fails)
    return rule == "all_success" and bool(upstream & passed_on.fails) and bool(upstream & passed_on.skips)


def passed_on_from(draft: Draft, start: str) -> PassedOn:
    """What is sure to come of the tasks below one that was skipped, or that failed."""
    skips, fails = {start}, {start}
    cut = _skipped_by_branches(draft, start)
    for name in draft.rising(start):
        rule, upstream = draft.rule_of(draft.tasks[name]), set(draft.tasks[name].upstream_edges)
        if rule == "all_success" and upstream & skips or rule in ("none_failed_min_one_success", "one_success") and upstream <= skips:
            skips.add(name)
        if rule in FAILING_RULES and upstream & fails and name not in cut:
            fails.add(name)
    return PassedOn(skips, fails)


def _skipped_by_branches(draft: Draft, start: str) -> Set[str]:
    """What branches other than this one may skip."""
    cut: Set[str] = set()
    for other in draft.tasks.values():
        if other.operator_kind != "program" and other.task_id != start:
            cut.update(draft.below(other.task_id) if getattr(other, "ignore_downstream_trigger_rules", False) else draft.downs[other.task_id])
    return cut
