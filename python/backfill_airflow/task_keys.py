"""What of a task's arguments goes into its keys of a graph file, and what is noted or refused."""

from __future__ import annotations

import datetime as dt
import math
from typing import Any

from backfill_graph import BOUNDS, WEIGHT_RULES

from .draft import RULES, Draft, GraphTask
from .writing import ID, ID_WORDS

MOST_RETRIES, MOST_SECONDS, MOST_WEIGHT = (BOUNDS[key][1] for key in ("retries", "retry_delay", "priority_weight"))
# The rule of a teardown, which edges and made-up tasks stand for.
TEARDOWN_RULE = "all_done_setup_success"
# What no graph can say, and what to do instead.
REFUSED_KEYS = {
    "wait_for_downstream": "depends_on_past=True in the tasks that have to wait",
    "run_as_user": "run all by that user, or by a launcher with sudo (backfill run --launcher)",
    "max_active_tis_per_dagrun": "max_active_tis_per_dag, or a pool",
}
NOTED_KEYS = {
    **dict.fromkeys(("sla", "email"), "nobody is told"),
    **dict.fromkeys(
        ("queue", "executor_config", "executor", "resources"), "passed over; all tasks run where backfill runs, or where its --launcher says"
    ),
}


def add_keys(draft: Draft, made: GraphTask) -> None:
    """Puts the keys of a task of the DAG into that of the graph."""
    task = made.task
    if not ID.fullmatch(task.task_id):
        draft.findings.refuse(f"task_id {task.task_id!r}", ID_WORDS, task)
    for key, instead in REFUSED_KEYS.items():
        if task.given_arguments.get(key):
            value = "" if key == "max_active_tis_per_dagrun" else f"={task.given_arguments[key]!r}"
            draft.findings.refuse(f"{key}{value}", instead, task)
    _add_rule(draft, made)
    _check_dates(draft, task)
    if task.depends_on_past:
        made.keys["depends_on_past"] = True
        draft.findings.note(
            "depends_on_past: the first run of the range asks nothing of the past; behind a failure the task is no_status, and its run fails", task
        )
    _add_retries(draft, made)
    _add_pool(draft, made)
    _add_weight(draft, made)
    for key, words in NOTED_KEYS.items():
        if task.given_arguments.get(key):
            draft.findings.note(f"{key}: {words}", task)
    if task.outlets:
        draft.findings.note("outlets: no event of a dataset is made", task)


def _add_rule(draft: Draft, made: GraphTask) -> None:
    rule = draft.rule_of(made.task)
    if rule == TEARDOWN_RULE and made.task.is_teardown:
        return
    if rule not in RULES:
        draft.findings.refuse(f"trigger_rule={made.task.trigger_rule!r}", f"one of {', '.join(sorted(RULES))}", made.task)
    elif rule != "all_success":
        made.keys["rule"] = rule


def _check_dates(draft: Draft, task: Any) -> None:
    """Refuses dates of a task by which it wouldn't be in each run."""
    start, first = task.start_date, draft.dag.start_date
    if start is not None and not isinstance(start, dt.datetime):
        draft.findings.refuse(f"start_date={start!r}", "a datetime", task)
    elif start is not None and first is not None and start != first:
        comparable = bool(start.tzinfo) == bool(first.tzinfo)
        if not comparable or start > first:
            draft.findings.refuse("a start_date of the task that isn't the DAG's", "run the earlier days by a graph without this task", task)
    if task.end_date is not None and task.end_date != draft.dag.end_date:
        draft.findings.refuse("an end_date of the task that isn't the DAG's", "run the later days by a graph without this task", task)


def _add_retries(draft: Draft, made: GraphTask) -> None:
    task = made.task
    if not isinstance(task.retries, int) or not 0 <= task.retries <= MOST_RETRIES:
        draft.findings.refuse(f"retries={task.retries}", f"0 to {MOST_RETRIES}", task)
    elif task.retries and task.given_arguments.get("retry_exponential_backoff"):
        if draft.options.backoff_inside:
            draft.findings.note("retry_exponential_backoff: the task has one try, which makes the retries itself, and keeps its worker meanwhile", task)
            return
        instead = "a fixed retry_delay; or --backoff-inside, by which one try makes the retries itself, with Airflow's growing delays"
        draft.findings.refuse("retry_exponential_backoff=True", instead, task)
    if task.retries:
        made.keys["retries"] = task.retries
        seconds = task.retry_delay.total_seconds()
        if seconds > MOST_SECONDS:
            draft.findings.refuse(f"retry_delay={task.retry_delay!r}", "at most a day", task)
        if seconds != int(seconds):
            draft.findings.note("retry_delay: rounded up to whole seconds", task)
        made.keys["retry_delay"] = math.ceil(seconds) or None


def _add_pool(draft: Draft, made: GraphTask) -> None:
    task, sizes = made.task, draft.options.pools
    bound = task.given_arguments.get("max_active_tis_per_dag") or task.given_arguments.get("task_concurrency")
    if bound:
        if task.pool != "default_pool" or task.pool_slots != 1:
            draft.findings.refuse("max_active_tis_per_dag beside a pool", "one of both", task)
            return
        made.keys["pool"] = f"{task.task_id}.max_active_tis_per_dag"
        draft.pools[made.keys["pool"]] = bound
        draft.findings.note("max_active_tis_per_dag: a pool of the task's own, in place of default_pool", task)
        return
    if not isinstance(task.pool, str):
        draft.findings.refuse(f"pool={task.pool!r}", "the name of a pool", task)
        return
    made.keys["pool_slots"] = None if task.pool_slots == 1 else task.pool_slots
    if task.pool in sizes:
        draft.pools[task.pool] = sizes[task.pool]
        made.keys["pool"] = None if task.pool == "default_pool" else task.pool
        if task.pool_slots > sizes[task.pool]:
            what = f"pool_slots={task.pool_slots} of the pool {task.pool}, which has {sizes[task.pool]}"
            draft.findings.refuse(what, "a larger --pool, or fewer slots", task)
    elif not ID.fullmatch(task.pool):
        draft.findings.refuse(f"pool {task.pool!r}: a name of letters, digits, '-', '.' and '_' alone", "rename the pool", task)
    elif task.pool != "default_pool":
        draft.findings.refuse(f"pool {task.pool!r}, whose size isn't in the DAG file", f"--pool {task.pool}=SLOTS", task)


def _add_weight(draft: Draft, made: GraphTask) -> None:
    task = made.task
    if not isinstance(task.priority_weight, int) or not 0 <= task.priority_weight <= MOST_WEIGHT:
        draft.findings.refuse(f"priority_weight={task.priority_weight!r}", f"0 to {MOST_WEIGHT:,}", task)
    elif task.priority_weight != 1:
        made.keys["priority_weight"] = task.priority_weight
    weight_rule = str(getattr(task.weight_rule, "value", task.weight_rule))
    if weight_rule not in WEIGHT_RULES:
        draft.findings.refuse(f"weight_rule={weight_rule}", "downstream, upstream or absolute", task)
    elif weight_rule != "downstream":
        made.keys["weight_rule"] = weight_rule
