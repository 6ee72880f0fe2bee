"""Setup and teardown as edges, rules and made-up tasks without a command.

A teardown of Airflow waits for all tasks before it, and runs where one of the setups right before it succeeded: it is skipped where they were all
skipped, else upstream_failed. In the graph its rule is all_success, over that setup (or `ID.setups`, whose rule is one_success, over several) and
over `ID.upstream`, which succeeds once all tasks before it have ended.

A setup that stands further up than right before a task holds the task back, whatever the task's rule is: the task is upstream_failed where the setup
failed, and skipped where it was skipped. Where the tasks between bring that about by their own rules, nothing is added; else it is refused.

Teardowns don't count for the state of a run, unless `on_failure_fail_dagrun=True`. So behind a teardown stands `ID.ended`, which succeeds however
that ended; and behind a task that only such teardowns follow `ID.ended`, which fails with it.
"""

from __future__ import annotations

from typing import Any, List, Set

from .draft import Draft, GraphTask
from .short_circuits import KEPT_BY_RULE, passed_on_from
from .task_keys import TEARDOWN_RULE


def add_teardowns(draft: Draft) -> None:
    """Turns setups and teardowns into edges, rules and made-up tasks of the graph."""
    tasks = list(draft.tasks.values())
    if not any(task.is_setup or task.is_teardown for task in tasks):
        return
    draft.findings.note("setup and teardown: backfill clear runs a task again without its setup; clear the setup, and all behind it runs again")
    for task in tasks:
        if task.is_teardown:
            _add_teardown(draft, task)
        else:
            _check_setups(draft, task)
    _add_ends(draft, tasks)


def _add_teardown(draft: Draft, task: Any) -> None:
    made, upstream = draft.graph[task.task_id], draft.ordered(task.upstream_edges)
    for name in upstream:
        if draft.tasks[name].operator_kind != "program":
            draft.findings.refuse(f"a teardown right behind {name}, a branch or short circuit", "a task between them", task)
    if draft.rule_of(task) != TEARDOWN_RULE:
        return
    setups = _setups_of(draft, task)
    if not setups:
        made.keys["rule"] = "all_done"
        return
    source = made.keys.get("expand")
    before: List[str] = setups
    if len(setups) > 1 or draft.tasks[setups[0]].is_mapped:
        before = [_add_gate(draft, f"{task.task_id}.setups", task, setups, "one_success").id]
    if upstream != setups:
        before = [*before, _add_gate(draft, f"{task.task_id}.upstream", task, upstream, "all_done").id]
    made.upstream = [*before, *([source] if source in draft.graph and source not in draft.tasks else [])]
    if source is not None and source not in made.upstream:
        draft.findings.refuse(f"a teardown that is expanded over {source}, which isn't its one setup", "expand it over what its setup returns", task)


def _add_gate(draft: Draft, name: str, task: Any, upstream: List[str], rule: str) -> GraphTask:
    gate = draft.add_made_up(name, task, "what holds a teardown back")
    gate.upstream = list(upstream)
    gate.keys["rule"] = rule
    return gate


def _check_setups(draft: Draft, task: Any) -> None:
    """Refuses a task that a setup further up would hold back by more than the rules between them."""
    below = {name for name in draft.below(task.task_id) if draft.tasks[name].is_teardown}
    for name in draft.above(task.task_id):
        if not draft.tasks[name].is_setup or name in task.upstream_edges:
            continue
        teardowns = {each for each in draft.downs[name] if draft.tasks[each].is_teardown}
        if teardowns and not teardowns & below:
            continue
        if task.task_id not in _surely_skipped(draft, name) or task.task_id not in passed_on_from(draft, name).fails:
            draft.findings.refuse(
                f"below the setup {name}, which isn't right before it: Airflow runs it only where the setup succeeded, whatever its rule is",
                f"an edge {name} >> {task.task_id}, and its own rule decides",
                task,
            )


def _surely_skipped(draft: Draft, start: str) -> Set[str]:
    """The tasks that are skipped where a task was, whatever became of others."""
    skipped = {start}
    for name in draft.rising(start):
        task = draft.tasks[name]
        # (of a teardown its setups decide, and without any it runs)
        before = set(_setups_of(draft, task) if draft.rule_of(task) == TEARDOWN_RULE else task.upstream_edges)
        if before and before <= skipped and draft.rule_of(task) not in KEPT_BY_RULE:
            skipped.add(name)
    return skipped


def _setups_of(draft: Draft, task: Any) -> List[str]:
    """The setups right before a teardown."""
    return [name for name in draft.ordered(task.upstream_edges) if draft.tasks[name].is_setup]


def _add_ends(draft: Draft, tasks: List[Any]) -> None:
    """Adds tasks to the end of the graph, by which its runs have Airflow's states."""
    passed_over = {task.task_id for task in tasks if task.is_teardown and not task.on_failure_fail_dagrun}
    if len(passed_over) == len(tasks):
        # (of teardowns alone the last ones count, after all)
        return
    for task in tasks:
        downs = draft.downs[task.task_id]
        if task.task_id in passed_over:
            if not downs:
                _add_gate(draft, f"{task.task_id}.ended", task, [task.task_id], "all_done")
        elif downs and passed_over.issuperset(downs):
            _add_gate(draft, f"{task.task_id}.ended", task, [task.task_id], "all_success")
