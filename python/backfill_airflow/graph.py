"""A graph file of a DAG, or all that can't be carried over."""

from __future__ import annotations

import datetime as dt
from typing import Any, Dict, Optional

from backfill_graph import BOUNDS

from .base_operator import Missing
from .commands import add_command, mark_pulled_branches
from .draft import Draft, GraphTask, Options
from .intervals import schedule_of
from .mapped_groups import add_mapped_groups
from .settled import check_pulls, in_order
from .short_circuits import add_short_circuits
from .task_keys import add_keys
from .teardowns import add_teardowns
from .writing import ID, ID_WORDS, MOST_EDGES, MOST_TASKS, check, text_of

__all__ = ["GraphMaker", "Options"]

MOST_ACTIVE_RUNS = BOUNDS["max_active_runs"][1]
MOST_WORKERS = 64
# Of what types arguments of a DAG are, where they aren't None.
TYPES: Dict[str, type] = {
    **dict.fromkeys(("start_date", "end_date"), dt.datetime),
    **dict.fromkeys(("max_active_runs", "max_active_tasks"), int),
    **dict.fromkeys(("user_defined_macros", "user_defined_filters", "jinja_environment_kwargs"), dict),
    "template_undefined": type,
}
DAG_CALLBACKS = ("dagrun_timeout", "sla_miss_callback", "on_success_callback", "on_failure_callback")


class GraphMaker:
    """Makes the graph of a DAG."""

    def __init__(self, dag: Any, options: Options) -> None:
        self.draft = Draft(dag, options)

    def text(self) -> Optional[str]:
        """The text of the graph file, or None where something is refused. Refusals and notes are in `draft.findings`."""
        file = self.graph()
        if self.draft.findings.refused:
            return None
        return text_of({key: value for key, value in file.items() if key != "tasks"}, file["tasks"])

    def graph(self) -> Dict[str, Any]:
        """The graph file, as far as it could be made; nothing where arguments of the DAG have other types than Airflow takes."""
        draft = self.draft
        if not self._has_types():
            return {}
        head = self._head()
        self._note_dag()
        self._check_options()
        for task in draft.tasks.values():
            _add_task(draft, task)
        mark_pulled_branches(draft)
        add_teardowns(draft)
        add_short_circuits(draft)
        add_mapped_groups(draft)
        if draft.pools:
            head["pools"] = draft.pools
        self._check_size()
        order = in_order(draft)
        check_pulls(draft, order)
        if not draft.findings.refused:
            check(draft, head, order)
        return {**head, "tasks": [made.to_dict() for made in draft.graph.values()]}

    def _has_types(self) -> bool:
        """Whether the DAG's arguments have their types; the others are refused."""
        wrong = {key: value for key in TYPES for value in [getattr(self.draft.dag, key)] if not isinstance(value, (TYPES[key], type(None)))}
        for key, value in wrong.items():
            self.draft.findings.refuse(f"{key}={value!r}", f"a {TYPES[key].__name__}")
        return not wrong

    def _head(self) -> Dict[str, Any]:
        dag, findings = self.draft.dag, self.draft.findings
        if not ID.fullmatch(dag.dag_id):
            findings.refuse(f"dag_id {dag.dag_id!r}", ID_WORDS)
        schedule, zone = schedule_of(self.draft)
        head: Dict[str, Any] = {"dag_id": dag.dag_id, "schedule": schedule}
        if zone != "UTC":
            head["zone"] = zone
        if dag.max_active_runs is not None:
            head["max_active_runs"] = dag.max_active_runs
            if not 1 <= dag.max_active_runs <= MOST_ACTIVE_RUNS:
                findings.refuse(f"max_active_runs={dag.max_active_runs}", f"1 to {MOST_ACTIVE_RUNS:,}")
        return head

    def _note_dag(self) -> None:
        """Notes and refuses what of the DAG itself is otherwise."""
        dag, findings = self.draft.dag, self.draft.findings
        if dag.fail_stop:
            findings.refuse("fail_stop=True", "leave it away, or trigger rules that wait for what is to stop")
        if dag.max_active_tasks is not None:
            findings.note(f"max_active_tasks: give --workers {min(MOST_WORKERS, dag.max_active_tasks)} to backfill run")
        for key in DAG_CALLBACKS:
            if getattr(dag, key):
                findings.note(f"{key} of the DAG: nothing calls or keeps it")
        if dag.start_date is not None:
            start = dag.start_date if dag.start_date.tzinfo else dag.start_date.replace(tzinfo=dag.timezone)
            moment = start.astimezone(dt.timezone.utc).strftime("%Y-%m-%dT%H:%M:%SZ")
            findings.note(f"start_date: no run before it in Airflow; here --from says (--from {moment} for all)")
        if dag.end_date is not None:
            findings.note("end_date: no run after it in Airflow; here --to says")

    def _check_options(self) -> None:
        """Refuses what the line says of tasks that aren't there."""
        for task_id, ids in self.draft.options.pulls.items():
            if task_id not in self.draft.tasks:
                self.draft.findings.refuse(f"--pull {task_id}={','.join(ids)}: there is no task {task_id}", "an id of this DAG")

    def _check_size(self) -> None:
        tasks, findings = len(self.draft.graph), self.draft.findings
        edges = sum(len(made.upstream) for made in self.draft.graph.values())
        if tasks > MOST_TASKS:
            findings.refuse(f"{tasks:,} tasks, and a graph has at most {MOST_TASKS:,}", "several DAGs, run one after the other over the same days")
        if edges > MOST_EDGES:
            findings.refuse(f"{edges:,} edges, and a graph has at most {MOST_EDGES:,}", "an EmptyOperator between many tasks and many others")


def _add_task(draft: Draft, task: Any) -> None:
    """Adds a task of the DAG to the graph, behind what is made up for it."""
    if isinstance(task, Missing):
        what, instead = task.words
        draft.findings.refuse(what, instead, task)
    made = GraphTask(task.task_id, task)
    made.upstream = draft.ordered(task.upstream_edges)
    add_keys(draft, made)
    add_command(draft, made)
    draft.graph[task.task_id] = made
