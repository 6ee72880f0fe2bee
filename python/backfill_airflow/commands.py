"""The commands of a DAG's tasks: the words of a try, and what it is given."""

from __future__ import annotations

import difflib
from typing import Any, Dict, List

from .backoff import Backoff
from .draft import Draft, GraphTask, pulls_from, try_words
from .expansions import add_expansion
from .groups import literal_length
from .pulls import Found, Scan
from .writing import LONGEST_TEXT


def add_command(draft: Draft, made: GraphTask) -> None:
    """Puts the command of a task of the DAG into that of the graph, unless nothing has to be started."""
    task = made.task
    if task.operator_kind != "program":
        made.keys["kind"] = "branch"
        if task.is_mapped:
            instead = "one branch over the whole list; or skip in the expanded task by AirflowSkipException"
            draft.findings.refuse("an expanded branch or short circuit", instead, task)
    scan = Scan(task, draft.options.folders).run()
    _tell(draft, scan)
    _check_external(draft, task, scan.operator)
    if _starts_nothing(task):
        if task.is_mapped:
            draft.findings.refuse("an expanded EmptyOperator", "leave it away", task)
        return
    pulled = _pulled(draft, scan)
    made.command = try_words(draft, task)
    if draft.options.backoff_inside and task.retries and task.given_arguments.get("retry_exponential_backoff"):
        made.command += ["--backoff-inside", *Backoff.of_task(task).words()]
    if task.is_mapped:
        add_expansion(draft, made)
    for source in draft.ordered(pulled):
        if draft.tasks[source].operator_kind == "short_circuit":
            what = f"a pull from {source}, a short circuit: what it pushes here is what it follows"
            draft.findings.refuse(what, "return the value from a task before it, and pull from that", task)
    made.pulls = pulls_from(draft, pulled)
    if any(isinstance(word, str) and len(word.encode()) > LONGEST_TEXT for word in made.command):
        draft.findings.refuse(f"a word of the command of more than {LONGEST_TEXT:,} bytes", "a shorter path", task)


def mark_pulled_branches(draft: Draft) -> None:
    """Tells the branches from which tasks pull, since what such a branch pushes has to be what it returned."""
    pulled = {pull.source for made in draft.graph.values() for pull in made.pulls}
    for made in draft.graph.values():
        if not made.is_made_up and made.id in pulled and made.task.operator_kind == "branch" and made.command:
            made.command.append("--is-pulled")


def _starts_nothing(task: Any) -> bool:
    """Whether a task is an EmptyOperator of Airflow's, without what would have to be called."""
    operator = task.operator_class if task.is_mapped else type(task)
    called = [getattr(task, name, None) for name in ("on_execute_callback", "on_success_callback")]
    hooks = [task.given_arguments.get(name) for name in ("pre_execute", "post_execute")]
    return operator.__name__ == "EmptyOperator" and operator.__module__.startswith("backfill_airflow") and not any([*called, *hooks])


def _tell(draft: Draft, scan: Scan) -> None:
    """Tells what the source and the templates of a task have, and what is otherwise with sensors."""
    task = scan.task
    draft.findings.refused += scan.refused
    if scan.printed_moments:
        draft.findings.note(f"a template prints {', '.join(sorted(scan.printed_moments))}: as {_pendulum()} writes a moment", task)
    for origin in scan.missing_callbacks:
        draft.findings.note(f"a callback isn't called: {origin} isn't in backfill_airflow", task)
    if "AirflowFailException" in scan.exceptions and task.retries:
        draft.findings.note("AirflowFailException: the task is tried again all the same, as retries says", task)
    if getattr(scan.operator, "is_sensor", False):
        keys = task.partial_kwargs if task.is_mapped else vars(task)
        if keys.get("mode") == "reschedule" or keys.get("deferrable"):
            draft.findings.note(
                "mode='reschedule' and deferrable: the sensor pokes in one try, and keeps its worker and its slots of the pool", task
            )
        if task.retries:
            draft.findings.note("a sensor that times out is tried again, as retries says (in Airflow it isn't)", task)


def _pendulum() -> str:
    """By whose format tries write moments."""
    from importlib import metadata

    try:
        version = metadata.version("pendulum")
    except metadata.PackageNotFoundError:
        version = "3"
    return "pendulum 3 (Airflow 2.9 and later)" if not version.startswith("2.") else "pendulum 2 (before Airflow 2.9)"


def _check_external(draft: Draft, task: Any, operator: Any) -> None:
    """Refuses to wait for another DAG that no file tells of."""
    if operator.__name__ != "ExternalTaskSensor" or not operator.__module__.startswith("backfill_airflow"):
        return
    dag_id = str((task.partial_kwargs if task.is_mapped else vars(task)).get("external_dag_id"))
    if dag_id not in draft.options.external:
        instead = f"--external {dag_id}=PATH, where the report or journal of that DAG's graph is; or run that graph first, and leave the sensor away"
        draft.findings.refuse(f"ExternalTaskSensor of the DAG {dag_id}", instead, task)


def _pulled(draft: Draft, scan: Scan) -> Dict[str, None]:
    """The tasks of the DAG from which a task pulls, as its source and the line say. What isn't known is refused."""
    task = scan.task
    declared = draft.options.pulls.get(task.task_id)
    pulled: Dict[str, None] = {}
    for found in scan.found:
        if found.ids is None and declared is None:
            instead = f"--pull {task.task_id}=ID,ID with all tasks from which it may pull"
            draft.findings.refuse("xcom_pull whose task_ids are known in a try alone", instead, task, found.where)
        for source in found.ids or ():
            if source not in draft.tasks:
                draft.findings.note(
                    f"{found.where}: xcom_pull from {source!r}, which is no task of this DAG, gives None, as in Airflow{_meant(draft, source)}", task
                )
            elif source != task.task_id:
                _check_group(draft, task, source, found)
                pulled[source] = None
    if task.mapped_group is not None and literal_length(task.mapped_group) is not None:
        # (the items of a literal may be of what tasks push)
        pulled.update((source.task_id, None) for source in task.mapped_group.sources())
    for source in declared or ():
        if source in draft.tasks:
            pulled[source] = None
        else:
            draft.findings.refuse(f"--pull {task.task_id}={source}: there is no task {source}", "an id of this DAG", task)
    return pulled


def _check_group(draft: Draft, task: Any, source: str, found: Found) -> None:
    """Refuses a pull by its id from a task of the same mapped group: it would be of all map indexes, where an argument is of its own."""
    if task.mapped_group is not None and not found.is_argument and draft.tasks[source].mapped_group is task.mapped_group:
        what = f"xcom_pull from {source}, which is in the same mapped task group, takes the values of all map indexes"
        draft.findings.refuse(what, f"the value as an argument: what {source} returns, or its .output", task, found.where)


def _meant(draft: Draft, name: str) -> str:
    labels: List[str] = [each.rsplit(".", 1)[-1] for each in draft.tasks]
    near = difflib.get_close_matches(name, [*draft.tasks, *labels], 1)
    full = [each for each in draft.tasks if near and (each == near[0] or each.endswith(f".{near[0]}"))]
    return f": is {full[0]!r} meant?" if full else ""
