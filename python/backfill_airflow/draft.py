"""A graph while it is made of a DAG."""

from __future__ import annotations

from typing import Any, Dict, Iterable, List, NamedTuple, Optional, Sequence, Set

from backfill_graph import EARLY_RULES, MOST_PULLS, RULES

from .findings import Findings

__all__ = ["EARLY_RULES", "MOST_PULLS", "RULES", "Draft", "GraphTask", "Options", "Pull", "pulls_from", "try_words"]

# Airflow's other names of rules.
RENAMED_RULES = {"dummy": "always", "none_failed_or_skipped": "none_failed_min_one_success"}


class Options(NamedTuple):
    """What the line says: the DAG file as it was given, the Python of the tries, sizes of pools, pulls by task, a schedule in place of the DAG's, words
    for every try, files of other DAGs, whether tries make retries themselves, and the folders of the DAG's own files."""

    path: str
    python: str
    pools: Dict[str, int]
    pulls: Dict[str, List[str]]
    schedule: Optional[str]
    words: List[str]
    external: Dict[str, str]
    backoff_inside: bool
    folders: Sequence[str]


class Pull(NamedTuple):
    """What a try is given of a task of the DAG: what these tasks of the graph pushed, as one value or as a list."""

    source: str
    ids: List[str]
    is_list: bool = False

    def words(self) -> List[Any]:
        flag = "--part" if self.is_list else "--pull"
        return [word for each in self.ids for word in (flag, self.source, {"pull": each})]


class GraphTask:
    """A task of the graph: of a task of the DAG, or made up for one. `keys` are those of a graph file but for its id, upstreams and command."""

    def __init__(self, task_id: str, task: Any, is_made_up: bool = False) -> None:
        self.id, self.task, self.is_made_up = task_id, task, is_made_up
        self.upstream: List[str] = []
        self.keys: Dict[str, Any] = {}
        self.command: List[Any] = []
        self.pulls: List[Pull] = []
        if is_made_up:
            # (so that it adds nothing to the weights of the tasks around it)
            self.keys["priority_weight"] = 0

    @property
    def rule(self) -> str:
        return str(self.keys.get("rule", "all_success"))

    def pulled_ids(self) -> List[str]:
        """The tasks of the graph from which it pulls."""
        return [each for pull in self.pulls for each in pull.ids]

    def add_upstream(self, *ids: str) -> None:
        self.upstream += [each for each in ids if each not in self.upstream]

    def to_dict(self) -> Dict[str, Any]:
        """The task as it stands in a graph file."""
        command = [*self.command, *(word for pull in self.pulls for word in pull.words())]
        keys: Dict[str, Any] = {"id": self.id, "upstream": self.upstream, **self.keys, "command": command}
        return {key: value for key, value in keys.items() if value is not None and value != []}


class Draft:
    """The DAG, and the tasks of the graph by their ids, in order."""

    def __init__(self, dag: Any, options: Options) -> None:
        self.dag, self.options = dag, options
        self.findings = Findings(dag.made_at)
        self.tasks: Dict[str, Any] = dag.task_dict
        self.downs: Dict[str, List[str]] = {task_id: [] for task_id in self.tasks}
        for task in self.tasks.values():
            for upstream in task.upstream_edges:
                self.downs[upstream].append(task.task_id)
        self._ups = {task_id: list(task.upstream_edges) for task_id, task in self.tasks.items()}
        self._below: Dict[str, List[str]] = {}
        self._places = {task_id: place for place, task_id in enumerate(self.tasks)}
        self.graph: Dict[str, GraphTask] = {}
        self.pools: Dict[str, int] = {}

    def ordered(self, ids: Iterable[str]) -> List[str]:
        """Tasks of the DAG in its order."""
        return sorted(set(ids), key=self._places.__getitem__)

    def below(self, task_id: str) -> List[str]:
        """The tasks that stand below one, in the order of the DAG."""
        if task_id not in self._below:
            self._below[task_id] = self.ordered(self._reached(task_id, self.downs))
        return self._below[task_id]

    def above(self, task_id: str) -> List[str]:
        """The tasks that stand above one, in the order of the DAG."""
        return self.ordered(self._reached(task_id, self._ups))

    def _reached(self, task_id: str, edges: Dict[str, List[str]]) -> Set[str]:
        met: Set[str] = set()
        pending = list(edges[task_id])
        while pending:
            each = pending.pop()
            if each not in met:
                met.add(each)
                pending += edges[each]
        return met

    def rising(self, start: str) -> List[str]:
        """The tasks below one, each behind those before it; of a cycle none."""
        below = self.below(start)
        inside = set(below)
        waiting = {name: len(inside.intersection(self._ups[name])) for name in below}
        order = [name for name in below if not waiting[name]]
        for name in order:
            for down in self.downs[name]:
                waiting[down] -= 1
                if not waiting[down]:
                    order.append(down)
        return order

    def rule_of(self, task: Any) -> str:
        """The trigger rule of a task, by backfill's name."""
        return str(RENAMED_RULES.get(task.trigger_rule, task.trigger_rule))

    def add_made_up(self, task_id: str, task: Any, what: str) -> GraphTask:
        """Adds a task that is made up for one of the DAG, in front of what is added next. Refuses where the id is taken."""
        if task_id in self.tasks:
            self.findings.refuse(f"the id {task_id} is wanted for {what}", "rename that task", task)
        made = GraphTask(task_id, task, is_made_up=True)
        self.graph[task_id] = made
        return made


def try_words(draft: Draft, task: Any) -> List[Any]:
    """The words that start a try of a task, but for its item and pulls."""
    context = [{"context": name} for name in ("logical_date", "data_interval_end", "try_number", "map_index")]
    options = draft.options
    return [options.python, "-m", "backfill_airflow", "try", options.path, draft.dag.dag_id, task.task_id, *context, *options.words]


def pulls_from(draft: Draft, ids: Iterable[str]) -> List[Pull]:
    """Pulls from tasks of the DAG, in its order."""
    return [Pull(each, [each]) for each in draft.ordered(ids)]
