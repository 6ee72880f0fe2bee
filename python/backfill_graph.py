"""Graph files for `backfill`, written in the manner of Airflow's DAGs.

    from backfill_graph import Graph, Task, context, pull

    with Graph("shops", schedule="@daily", pools={"database": 2}) as graph:
        shops = Task("list_shops", ["python3", "shops.py", context.logical_date], retries=2)
        count = Task("count", ["python3", "count.py", shops.item], expand=shops, pool="database")
        total = Task("total", ["python3", "total.py", pull(count)])
        shops >> count >> total
    print(graph.to_json())

What `backfill check` would refuse is a GraphError where it is written, or at the end of the `with` block where that takes the whole
graph, as a pull from a task that may not have settled; its words and numbers are those of `backfill check`.

And the other way round: `python3 backfill_graph.py < graph.json` prints such a program for a graph file; one that `backfill check` would
refuse is refused here too, with status 2.
"""

from __future__ import annotations

import datetime
import json
import keyword
import math
import re
import shlex
import sys
from types import TracebackType
from typing import Any, BinaryIO, Callable, Dict, Iterator, List, Mapping, NoReturn, Optional, Sequence, Set, Tuple, Type, TypeVar, Union

__all__ = ["Branch", "Graph", "GraphError", "Group", "Task", "Word", "context", "item", "pull"]

RULES = (
    *("all_success", "all_failed", "all_done", "all_skipped", "one_success", "one_failed", "one_done"),
    *("none_failed", "none_failed_min_one_success", "none_skipped", "always"),
)
# Under these rules a task may be decided before its upstreams have settled.
EARLY_RULES = ("one_success", "one_failed", "one_done", "always")
WEIGHT_RULES = ("downstream", "upstream", "absolute")
CONTEXTS = ("logical_date", "data_interval_start", "data_interval_end", "dag_id", "task_id", "map_index", "try_number")

MOST_BYTES = 8_388_608
# How many lists and objects may stand in one another.
DEEPEST = 127
MOST_TASKS = 2_000
MOST_EDGES = 20_000
MOST_WORDS = 64
MOST_PULLS = 16
LONGEST_TEXT = 4_096
DEFAULT_POOL = "default_pool"
DEFAULT_SLOTS = 128
# The least and the greatest number that each key takes.
BOUNDS: Mapping[str, Tuple[int, int]] = {
    "max_active_runs": (1, 4_096),
    "retries": (0, 100),
    "retry_delay": (0, 86_400),
    "pool_slots": (1, 1_000_000),
    "priority_weight": (0, 1_000_000),
}
# The keys that Graph(.., defaults=..) may give to each task.
DEFAULT_KEYS = ("rule", "depends_on_past", "retries", "retry_delay", "pool", "pool_slots", "priority_weight", "weight_rule")
# The keys of a graph file and of its tasks.
GRAPH_KEYS = ("dag_id", "schedule", "zone", "max_active_runs", "pools", "tasks")
TASK_KEYS = ("id", "upstream", "kind", "command", "expand", *DEFAULT_KEYS)
# What Airflow's arguments of operators and DAGs are called here, or what is done in their place.
TASK_WORDS: Mapping[str, str] = {
    "trigger_rule": "is called rule here",
    "bash_command": 'is the command here, as ["sh", "-c", "..."]',
    "python_callable": 'is a program here, as command=["python3", "FILE.py"]',
    "op_args": "are words of the command here",
    "op_kwargs": "are words of the command here",
    "env": "is set by the command here, as env NAME=VALUE PROGRAM",
    "execution_timeout": "is the program timeout here, in front of the command",
    "retry_exponential_backoff": "isn't there: retry_delay stays the same",
    "dag": "is called graph here",
    "task_group": "is a block here: with graph.group(NAME)",
}
GRAPH_WORDS: Mapping[str, str] = {
    "schedule_interval": "is called schedule here",
    "timetable": "is a schedule here: cron or a preset",
    "default_args": "are called defaults here",
    "start_date": "is --from on the command line here",
    "end_date": "is --to on the command line here",
    "catchup": "isn't there: the command line says which days run",
    "max_active_tasks": "is --workers on the command line here",
    "concurrency": "is --workers on the command line here",
    "tz": "is called zone here",
    "timezone": "is called zone here",
}


class GraphError(ValueError):
    """What `backfill check` refuses, by its number and words; without a number, what can't be said in a graph file. Behind the words may stand
    the line that made a task, or what was meant."""

    def __init__(self, words: str, number: Optional[int] = None, line: Optional[str] = None, hint: Optional[str] = None) -> None:
        told = words if number is None else f"refused {number} {words}"
        told = told if line is None else f"{told} ({line})"
        super().__init__(told if hint is None else f"{told}: {hint}")
        self.words = words
        self.number = number


# ---- words of a command


class Word:
    """A word of a command that isn't a text: a value of the context, a pull, or an item."""

    def __init__(self, key: str, value: Union[str, bool], python: str, source: Optional[Task] = None) -> None:
        self.key = key
        self.value = value
        self.source = source
        self._python = python

    def __repr__(self) -> str:
        return self._python


class Context:
    """What a try is told of itself, as words."""

    def __getattr__(self, name: str) -> Word:
        if name not in CONTEXTS:
            raise AttributeError(f"a context has no {name}, but {', '.join(CONTEXTS)}")
        return Word("context", name, f"context.{name}")


context = Context()
# The item of a task's instance, whatever the task is expanded over.
item = Word("item", True, "item")


def pull(task: Union[Task, str]) -> Word:
    """The value that a task has pushed: of an expanded task the list of its values."""
    if isinstance(task, str):
        return Word("pull", task, f"pull({task!r})")
    return Word("pull", task.id, f"pull({task.id!r})", task)


# ---- schedules

PRESETS = {
    "@hourly": "0 * * * *",
    "@daily": "0 0 * * *",
    "@weekly": "0 0 * * 0",
    "@monthly": "0 0 1 * *",
    "@quarterly": "0 0 1 */3 *",
    "@yearly": "0 0 1 1 *",
}
MONTHS = {name: number for number, name in enumerate("jan feb mar apr may jun jul aug sep oct nov dec".split(), 1)}
WEEKDAYS = {name: number for number, name in enumerate("sun mon tue wed thu fri sat".split())}
# Minute, hour, day of the month, month, day of the week: the least and the greatest number, and names.
FIELDS: Tuple[Tuple[int, int, Mapping[str, int]], ...] = ((0, 59, {}), (0, 23, {}), (1, 31, {}), (1, 12, MONTHS), (0, 7, WEEKDAYS))
# In these years each date falls on each weekday that it ever falls on.
YEARS = range(2000, 2028)


def _cron_number(text: str, least: int, greatest: int, names: Mapping[str, int]) -> int:
    if text.isascii() and text.lower() in names:
        return names[text.lower()]
    if not re.fullmatch("[0-9]{1,2}", text) or not least <= int(text) <= greatest:
        raise GraphError("bad cron", 11)
    return int(text)


def _cron_values(text: str, least: int, greatest: int, names: Mapping[str, int]) -> Set[int]:
    """The values of an item: `*`, `a`, `a-b`, `*/n` or `a-b/n`."""
    span, slash, step = text.partition("/")
    if slash and not (re.fullmatch("[0-9]{1,2}", step) and 1 <= int(step) <= 59):
        raise GraphError("bad cron", 11)
    steps = int(step) if slash else 1
    if span == "*":
        return set(range(least, greatest + 1, steps))
    first, dash, last = span.partition("-")
    start = _cron_number(first, least, greatest, names)
    end = _cron_number(last, least, greatest, names) if dash else start
    if slash and not dash or end < start:
        raise GraphError("bad cron", 11)
    return set(range(start, end + 1, steps))


def _check_schedule(schedule: str) -> None:
    texts = re.split("[ \t]+", PRESETS.get(schedule, schedule).strip(" \t"))
    if len(texts) != len(FIELDS):
        raise GraphError("bad cron", 11)
    values = [{value for part in text.split(",") for value in _cron_values(part, *field)} for text, field in zip(texts, FIELDS)]
    days, months, weekdays = values[2], values[3], {value % 7 for value in values[4]}
    either = texts[2] != "*" and texts[4] != "*"
    for year in YEARS:
        for month in months:
            for day in range(1, 32):
                try:
                    weekday = datetime.date(year, month, day).isoweekday() % 7
                except ValueError:
                    break
                if (day in days or weekday in weekdays) if either else (day in days and weekday in weekdays):
                    return
    raise GraphError("never fires", 12)


# ---- zones

# (as `jiff` reads a POSIX rule: a name has 3 to 15 characters, the hours of an offset at most two digits, those of a change three)
_NAME = r"(?:[A-Za-z]{3,15}|<[A-Za-z0-9+-]{3,15}>)"
_MINUTES = r"(?::[0-9]{2}(?::[0-9]{2})?)?"
_OFFSET = rf"[+-]?[0-9]{{1,2}}{_MINUTES}"
_CHANGE = rf"[+-]?[0-9]{{1,3}}{_MINUTES}"
_DAY = r"M[0-9]{1,2}\.[0-9]\.[0-9]|J?[0-9]{1,3}"
_ZONE_RULE = re.compile(rf"{_NAME}({_OFFSET})(?:{_NAME}({_OFFSET})?,({_DAY})(?:/({_CHANGE}))?,({_DAY})(?:/({_CHANGE}))?)?")


def _is_clock(text: str, most_hours: int) -> bool:
    hours, minutes, seconds = [*map(int, text.lstrip("+-").split(":")), 0, 0][:3]
    return hours <= most_hours and max(minutes, seconds) <= 59


def _is_rule_day(text: str) -> bool:
    if text[0] == "M":
        month, week, weekday = map(int, text[1:].split("."))
        return 1 <= month <= 12 and 1 <= week <= 5 and weekday <= 6
    if text[0] == "J":
        return 1 <= int(text[1:]) <= 365
    return int(text) <= 365


def _check_zone(zone: str) -> None:
    """`UTC`, `file`, an offset, or a POSIX rule."""
    if zone in ("UTC", "file") or re.fullmatch("[+-]([01][0-9]|2[0-3]):[0-5][0-9]", zone):
        return
    match = _ZONE_RULE.fullmatch(zone)
    if match is None:
        raise GraphError("bad zone", 13)
    standard, daylight, start, start_time, end, end_time = match.groups()
    offsets = [offset for offset in (standard, daylight) if offset]
    days = [day for day in (start, end) if day]
    times = [time for time in (start_time, end_time) if time]
    if not (all(_is_clock(text, 24) for text in offsets) and all(_is_clock(text, 167) for text in times) and all(map(_is_rule_day, days))):
        raise GraphError("bad zone", 13)


# ---- tasks


def _is_id(text: object) -> bool:
    return isinstance(text, str) and re.fullmatch("[A-Za-z0-9._-]{1,250}", text) is not None


def _check_number(key: str, value: int, path: str) -> None:
    if not isinstance(value, int) or isinstance(value, bool):
        raise GraphError(f"shape: {path}", 2)
    least, greatest = BOUNDS[key]
    if not least <= value <= greatest:
        raise GraphError(f"limit passed: {path}", 5)


def _text(value: object, path: str) -> str:
    if not isinstance(value, str):
        raise GraphError(f"shape: {path}", 2)
    return value


def _length(text: str) -> int:
    """How many bytes a text has. Half of a pair of surrogates is no text."""
    try:
        return len(text.encode())
    except UnicodeEncodeError as error:
        raise GraphError("not json", 1) from error


def _list(values: Sequence[Any], path: str) -> Sequence[Any]:
    if not isinstance(values, (list, tuple)):
        raise GraphError(f"shape: {path}", 2)
    return values


def _words(command: Sequence[Any], path: str) -> Sequence[Any]:
    """The words of a command, which isn't one text."""
    if isinstance(command, str):
        try:
            words = shlex.split(command)
        except ValueError:
            words = [command]
        ways = f'{json.dumps(words)} or {json.dumps(["sh", "-c", command])}'
        raise GraphError(f"shape: {path}", 2, hint=f"command is a list of words: {ways}")
    return _list(command, path)


def _refuse_keywords(kind: str, given: Mapping[str, Any], words: Mapping[str, str]) -> None:
    """Refuses what a call doesn't take; for a name of Airflow's says what it is here."""
    for name in given:
        if name in words:
            raise TypeError(f"{name} {words[name]}")
        raise TypeError(f"{kind}() got an unexpected keyword argument {name!r}")


Behind = TypeVar("Behind")


def _edge_tasks(tasks: Any, tasks_of_group: Callable[[Group], List[Task]]) -> List[Task]:
    """The tasks of one side of `>>`: a task, those of a group that lie on this side, or those of a list of both."""
    if isinstance(tasks, Task):
        return [tasks]
    if isinstance(tasks, Group):
        return tasks_of_group(tasks)
    if isinstance(tasks, (list, tuple)):
        return [task for each in tasks for task in _edge_tasks(each, tasks_of_group)]
    raise TypeError(f"a task, a group or a list of them stands beside >> and <<, not {tasks!r}")


def _link(upstreams: Any, downstreams: Any) -> None:
    for upstream in _edge_tasks(upstreams, Group.leaves):
        for downstream in _edge_tasks(downstreams, Group.roots):
            downstream.graph._add_edge(upstream, downstream)


class _Linked:
    """What stands beside `>>` and `<<`, which put tasks behind each other, as `extract >> [load, check] >> publish`."""

    def __rshift__(self, downstreams: Behind) -> Behind:
        _link(self, downstreams)
        return downstreams

    def __lshift__(self, upstreams: Behind) -> Behind:
        _link(upstreams, self)
        return upstreams

    def __rrshift__(self: Behind, upstreams: Sequence[Any]) -> Behind:
        _link(upstreams, self)
        return self

    def __rlshift__(self: Behind, downstreams: Sequence[Any]) -> Behind:
        _link(self, downstreams)
        return self


class Task(_Linked):
    """A task of the graph whose `with` block is open, or of `graph`.

    The keys are those of a graph file, and one that isn't given isn't written. `upstream` takes tasks or ids, and so does `expand`; tasks
    are also put behind each other by `>>` and `<<`, as `extract >> [load, check] >> publish`.
    """

    kind: Optional[str] = None
    id: str

    def __init__(
        self,
        task_id: str,
        command: Sequence[Union[str, Word]] = (),
        *,
        upstream: Sequence[Union[Task, str]] = (),
        rule: Optional[str] = None,
        expand: Union[Task, str, None] = None,
        depends_on_past: Optional[bool] = None,
        retries: Optional[int] = None,
        retry_delay: Optional[int] = None,
        pool: Optional[str] = None,
        pool_slots: Optional[int] = None,
        priority_weight: Optional[int] = None,
        weight_rule: Optional[str] = None,
        graph: Optional[Graph] = None,
        **others: Any,
    ) -> None:
        _refuse_keywords(type(self).__name__, others, TASK_WORDS)
        self.graph = graph if graph is not None else Graph.current()
        path = f"tasks[{len(self.graph.tasks)}]"
        self.id = self.graph.prefix + _text(task_id, f"{path}.id")
        self.command = list(_words(command, f"{path}.command"))
        # (a dict for its order, and to find an id at once)
        self.upstream = {self.graph.id_of(each, f"{path}.upstream"): None for each in _list(upstream, f"{path}.upstream")}
        self.expand = None if expand is None else self.graph.id_of(expand, f"{path}.expand")
        given: Dict[str, Any] = {
            **{"rule": rule, "depends_on_past": depends_on_past, "retries": retries, "retry_delay": retry_delay, "pool": pool},
            **{"pool_slots": pool_slots, "priority_weight": priority_weight, "weight_rule": weight_rule},
        }
        self.keys = {key: self.graph.defaults.get(key) if value is None else value for key, value in given.items()}
        self.line = _line_of_caller()
        self.graph._add_task(self)

    def __repr__(self) -> str:
        return f"{type(self).__name__}({self.id!r})"

    @property
    def item(self) -> Word:
        """The item of an instance of a task that is expanded over this one."""
        return Word("item", True, f"{self!r}.item", self)

    def to_dict(self) -> Dict[str, Any]:
        """The task as it stands in a graph file."""
        words = [word if isinstance(word, str) else {word.key: word.value} for word in self.command]
        keys: Dict[str, Any] = {
            **{"id": self.id, "upstream": list(self.upstream) or None, "rule": self.keys["rule"], "kind": self.kind},
            **{"command": words or None, "expand": self.expand},
            **self.keys,
        }
        return {key: value for key, value in keys.items() if value is not None}


class Branch(Task):
    """A task whose value names the direct downstreams that are followed. It isn't expanded."""

    kind = "branch"


def _line_of_caller() -> str:
    """Where the program stands that makes a task: its file and line."""
    frame = sys._getframe(1)
    while frame.f_back is not None and frame.f_globals.get("__name__") == __name__:
        frame = frame.f_back
    return f"{frame.f_code.co_filename}:{frame.f_lineno}"


# ---- graphs


class Group(_Linked):
    """A prefix of the ids of the tasks in its `with` block, as Airflow's task groups have one: `load.` for the group `load`. Beside `>>` and
    `<<` it stands for its tasks: those before others of it are none of its leaves, and those behind others none of its roots."""

    def __init__(self, graph: Graph, name: str) -> None:
        self._graph = graph
        self._name = name
        self._tasks: List[Task] = []

    def __repr__(self) -> str:
        return f"Group({self._name!r})"

    def __enter__(self) -> Group:
        self._outer = self._graph.prefix
        self._graph.prefix = f"{self._outer}{self._name}."
        self._graph._groups.append(self)
        return self

    def __exit__(self, kind: Optional[Type[BaseException]], error: Optional[BaseException], trace: Optional[TracebackType]) -> None:
        self._graph.prefix = self._outer
        self._graph._groups.remove(self)

    def tasks(self) -> List[Task]:
        """The tasks of the group and of those within it, as they were made."""
        if not self._tasks:
            raise GraphError(f"the group {self._name} has no tasks")
        return self._tasks

    def roots(self) -> List[Task]:
        """The tasks that are behind none of the group's."""
        ids = {task.id for task in self.tasks()}
        return [task for task in self.tasks() if ids.isdisjoint(task.upstream)]

    def leaves(self) -> List[Task]:
        """The tasks that are before none of the group's."""
        before = {upstream for task in self.tasks() for upstream in task.upstream}
        return [task for task in self.tasks() if task.id not in before]


class Graph:
    """A task graph. In its `with` block tasks are made; at the end of the block the whole is checked."""

    _open: List[Graph] = []

    def __init__(
        self,
        dag_id: str,
        *,
        schedule: str,
        zone: Optional[str] = None,
        max_active_runs: Optional[int] = None,
        pools: Optional[Mapping[str, int]] = None,
        defaults: Optional[Mapping[str, Any]] = None,
        **others: Any,
    ) -> None:
        _refuse_keywords("Graph", others, GRAPH_WORDS)
        self.dag_id = dag_id
        self.schedule = schedule
        self.zone = zone
        self.max_active_runs = max_active_runs
        if not isinstance(pools, (Mapping, type(None))):
            raise GraphError("shape: pools", 2)
        self.pools = None if pools is None else dict(pools)
        self.defaults = dict(defaults or {})
        self.tasks: Dict[str, Task] = {}
        self.prefix = ""
        self._groups: List[Group] = []
        self._edges = 0
        self._below: Dict[str, List[str]] = {}
        self._check_keys()

    def _check_keys(self) -> None:
        for path, value in (("dag_id", self.dag_id), ("schedule", self.schedule), ("zone", "UTC" if self.zone is None else self.zone)):
            if not isinstance(value, str):
                raise GraphError(f"shape: {path}", 2)
        if not _is_id(self.dag_id):
            raise GraphError("bad name: dag_id", 3)
        if self.max_active_runs is not None:
            _check_number("max_active_runs", self.max_active_runs, "max_active_runs")
        for name, slots in sorted((self.pools or {}).items()):
            if not isinstance(slots, int) or isinstance(slots, bool):
                raise GraphError("shape: pools", 2)
            if not _is_id(name):
                raise GraphError("bad name: pools", 3)
            if not 1 <= slots <= BOUNDS["pool_slots"][1]:
                raise GraphError("limit passed: pools", 5)
        for key in self.defaults:
            if key not in DEFAULT_KEYS:
                hint = f"{key} {TASK_WORDS[key]}" if key in TASK_WORDS else None
                raise GraphError(f"no default for {key!r}, but for {', '.join(DEFAULT_KEYS)}", hint=hint)
        _check_schedule(self.schedule)
        _check_zone("UTC" if self.zone is None else self.zone)

    # ---- the block

    @classmethod
    def current(cls) -> Graph:
        """The graph whose block is open, the innermost of several."""
        if not cls._open:
            raise GraphError("no graph's `with` block is open, and none is given by graph=")
        return cls._open[-1]

    def __enter__(self) -> Graph:
        Graph._open.append(self)
        return self

    def __exit__(self, kind: Optional[Type[BaseException]], error: Optional[BaseException], trace: Optional[TracebackType]) -> None:
        Graph._open.remove(self)
        if error is None:
            self.check()

    def group(self, name: str) -> Group:
        """Puts `name.` before the ids of the tasks in a `with` block."""
        return Group(self, name)

    # ---- what is added

    def id_of(self, task: Union[Task, str], path: str) -> str:
        """The id of a task of this graph, which may be given by it."""
        if not isinstance(task, Task):
            return _text(task, path)
        if task.graph is not self:
            raise GraphError(f"{task.id} is of another graph")
        return task.id

    def _add_task(self, task: Task) -> None:
        path = f"tasks[{len(self.tasks)}]"
        if len(self.tasks) == MOST_TASKS:
            raise GraphError("limit passed: tasks", 5)
        self._check_task(task, path)
        self.tasks[task.id] = task
        for group in self._groups:
            group._tasks.append(task)
        upstreams, task.upstream = task.upstream, {}
        try:
            for upstream in upstreams:
                self._add_edge(upstream, task)
        except GraphError:
            self._remove(task)
            raise

    def _remove(self, task: Task) -> None:
        """Takes away a task, behind which none stands yet, whose edges are refused."""
        del self.tasks[task.id]
        for group in self._groups:
            group._tasks.remove(task)
        for upstream in task.upstream:
            self._below[upstream].remove(task.id)
        self._edges -= len(task.upstream)

    def _check_task(self, task: Task, path: str) -> None:
        if not _is_id(task.id):
            raise GraphError(f"bad name: {path}.id", 3)
        if task.id in self.tasks:
            raise GraphError(f"duplicate task: {task.id}", 4)
        _check_command(task, path)
        for key, value in task.keys.items():
            if value is not None and key in BOUNDS:
                _check_number(key, value, f"{path}.{key}")
        for key in ("rule", "pool"):
            _text("" if task.keys[key] is None else task.keys[key], f"{path}.{key}")
        if not isinstance(task.keys["depends_on_past"], (bool, type(None))):
            raise GraphError(f"shape: {path}.depends_on_past", 2)
        if task.keys["weight_rule"] not in (None, *WEIGHT_RULES):
            raise GraphError(f"shape: {path}.weight_rule", 2)
        slots = {DEFAULT_POOL: DEFAULT_SLOTS, **(self.pools or {})}
        pool = DEFAULT_POOL if task.keys["pool"] is None else task.keys["pool"]
        if pool not in slots:
            raise GraphError(f"unknown pool: {task.id}", 8)
        if (task.keys["pool_slots"] or 1) > slots[pool]:
            raise GraphError(f"slots beyond pool: {task.id}", 9)
        if task.keys["rule"] not in (None, *RULES):
            raise GraphError(f"bad rule: {task.id}", 10)
        if task.expand is not None and task.keys["rule"] in EARLY_RULES:
            raise GraphError(f"expand rule: {task.id}", 16)
        if task.expand is not None and task.kind == "branch":
            raise GraphError(f"branch misuse: {task.id}", 17)

    def _add_edge(self, upstream: Union[Task, str], task: Task) -> None:
        path = f"tasks[{list(self.tasks).index(task.id)}].upstream" if self._edges == MOST_EDGES else ""
        upstream_id = self.id_of(upstream, path)
        if upstream_id in task.upstream:
            return
        if self._edges == MOST_EDGES:
            raise GraphError(f"limit passed: {path}", 5)
        closes = self._leads(task.id, upstream_id)
        self._below.setdefault(upstream_id, []).append(task.id)
        if closes:
            cycle = self._cycle()
            self._below[upstream_id].remove(task.id)
            raise GraphError(f"cycle: {' '.join(cycle)}", 7)
        task.upstream[upstream_id] = None
        self._edges += 1

    # ---- paths

    def _leads(self, start: str, end: str) -> bool:
        """Whether a path leads from a task to another, or they are one."""
        met = {start}
        pending = [start]
        while pending:
            task_id = pending.pop()
            if task_id == end:
                return True
            for below in self._below.get(task_id, ()):
                if below not in met:
                    met.add(below)
                    pending.append(below)
        return False

    def _cycle(self) -> List[str]:
        """The shortest cycle through the earliest task that lies on one, and of several the first by the order of the tasks."""
        places = {task_id: place for place, task_id in enumerate(self.tasks)}
        for task_id in self.tasks:
            paths = [[task_id]]
            met = {task_id}
            for path in paths:
                below = sorted(self._below.get(path[-1], ()), key=places.__getitem__)
                if task_id in below:
                    return path
                paths += [[*path, each] for each in below if each not in met]
                met.update(below)
        return []

    def _settled_ancestors(self) -> Dict[str, Set[str]]:
        """Of each task those that are sure to have settled when it is decided."""
        settled: Dict[str, Set[str]] = {}
        pending = list(self.tasks)
        while pending:
            task = self.tasks[pending[-1]]
            open_ones = [upstream for upstream in task.upstream if upstream in self.tasks and upstream not in settled]
            if task.id in settled or not open_ones:
                pending.pop()
                waits = task.keys["rule"] not in EARLY_RULES
                settled[task.id] = {each for up in task.upstream for each in {up, *settled.get(up, ())}} if waits else set()
            else:
                pending += open_ones
        return settled

    # ---- the whole

    def check(self) -> None:
        """Raises a fault that takes the whole graph to see, where `backfill check` would refuse it for one."""
        if _length(self.to_json()) > MOST_BYTES:
            raise GraphError("limit passed: bytes", 5)
        for task in self.tasks.values():
            if not self.tasks.keys() >= set(task.upstream):
                raise _fault_of("unknown upstream", task, 6)
        settled = self._settled_ancestors()
        for task in self.tasks.values():
            if not _pulls_of(task) <= settled[task.id]:
                raise _fault_of("pull not settled", task, 14)
        for task in self.tasks.values():
            if task.expand is not None and task.expand not in task.upstream:
                raise _fault_of("expand source", task, 15)

    def to_dict(self) -> Dict[str, Any]:
        """The graph as it stands in a graph file."""
        keys: Dict[str, Any] = {
            **{"dag_id": self.dag_id, "schedule": self.schedule, "zone": self.zone, "max_active_runs": self.max_active_runs},
            **{"pools": self.pools, "tasks": [task.to_dict() for task in self.tasks.values()]},
        }
        return {key: value for key, value in keys.items() if value is not None}

    def to_json(self, indent: Optional[int] = None) -> str:
        """The text of the graph file: compact, or indented."""
        return json.dumps(self.to_dict(), ensure_ascii=False, indent=indent, separators=None if indent else (",", ":"))


def _fault_of(words: str, task: Task, number: int) -> GraphError:
    """A fault that takes the whole graph to see, with the line of its task."""
    return GraphError(f"{words}: {task.id}", number, task.line)


def _pulls_of(task: Task) -> Set[str]:
    return {str(word.value) for word in task.command if isinstance(word, Word) and word.key == "pull"}


def _check_command(task: Task, path: str) -> None:
    for word in task.command:
        if isinstance(word, Word) and word.source is not None:
            task.graph.id_of(word.source, path)
        if isinstance(word, Word) and word.key == "item":
            if task.expand is None:
                raise GraphError(f"shape: {path}.command", 2)
            if word.source is not None and word.source.id != task.expand:
                raise GraphError(f"an item of {word.source.id} in a task that is expanded over {task.expand}")
        if not isinstance(word, (str, Word)):
            raise GraphError(f"shape: {path}.command", 2)
        text = word if isinstance(word, str) else word.value
        if isinstance(text, str) and _length(text) > LONGEST_TEXT:
            raise GraphError(f"limit passed: {path}.command", 5)
    if len(task.command) > MOST_WORDS or len(_pulls_of(task)) > MOST_PULLS:
        raise GraphError(f"limit passed: {path}.command", 5)


# ---- from a graph file to Python


def _object(value: Any, keys: Sequence[str], required: Sequence[str], path: str) -> Dict[str, Any]:
    """An object with no other keys than these, and with the required ones."""
    if not isinstance(value, dict) or not value.keys() <= set(keys):
        raise GraphError(f"shape: {path}", 2)
    for key in keys:
        if value.get(key, "") is None or key in required and key not in value:
            raise GraphError(f"shape: {key}" if path == "top" else f"shape: {path}.{key}", 2)
    return value


def _word_of(word: Any, path: str) -> Union[str, Word]:
    if isinstance(word, str):
        return word
    [(key, value)] = word.items() if isinstance(word, dict) and len(word) == 1 else [("", "")]
    if key == "context" and value in CONTEXTS:
        made: Word = getattr(context, value)
        return made
    if key == "pull" and isinstance(value, str):
        return pull(value)
    if key == "item" and value is True:
        return item
    raise GraphError(f"shape: {path}", 2)


def _add_task_of(value: Any, path: str) -> None:
    """Makes a task of a graph file in the graph whose block is open."""
    keys = dict(_object(value, TASK_KEYS, ["id"], path))
    kind = keys.pop("kind", "program")
    if kind not in ("program", "branch"):
        raise GraphError(f"shape: {path}.kind", 2)
    command = _list(keys.pop("command", ()), f"{path}.command")
    make = Branch if kind == "branch" else Task
    make(keys.pop("id"), [_word_of(word, f"{path}.command") for word in command], **keys)


def graph_of(file: Any) -> Graph:
    """The graph of a graph file that was read as JSON. What `backfill check` would refuse is a GraphError."""
    keys = dict(_object(file, GRAPH_KEYS, ["dag_id", "schedule", "tasks"], "top"))
    tasks = _list(keys.pop("tasks"), "tasks")
    with Graph(keys.pop("dag_id"), **keys) as graph:
        for number, task in enumerate(tasks):
            _add_task_of(task, f"tasks[{number}]")
    return graph


def _names_of(ids: Sequence[str]) -> Dict[str, str]:
    """A variable for each task: no name of Python's own, and none that the program has."""
    taken = {"print", "graph", "context", "item", "pull", "Graph", "Task", "Branch", "__debug__", *keyword.kwlist}
    names: Dict[str, str] = {}
    for task_id in ids:
        base = re.sub("[^A-Za-z0-9_]", "_", task_id)
        base = f"_{base}" if base[0].isdigit() else base
        name, number = base, 2
        while name in taken:
            name, number = f"{base}_{number}", number + 1
        taken.add(name)
        names[task_id] = name
    return names


def _word_text(word: Union[str, Word], names: Mapping[str, str], made: Set[str]) -> str:
    if isinstance(word, Word) and word.key == "pull" and word.value in made:
        return f"pull({names[str(word.value)]})"
    return repr(word)


def python_of(file: Any) -> Iterator[str]:
    """The lines of a program that makes the graph of a file that was read as JSON. What `backfill check` would refuse is a GraphError, so
    that of the file only names, numbers and quoted texts come into the program."""
    graph = graph_of(file)
    yield "from backfill_graph import Branch, Graph, Task, context, item, pull"
    yield ""
    given = {"schedule": graph.schedule, "zone": graph.zone, "max_active_runs": graph.max_active_runs, "pools": graph.pools}
    keys = "".join(f", {key}={value!r}" for key, value in given.items() if value is not None)
    yield f"with Graph({graph.dag_id!r}{keys}) as graph:"
    names = _names_of(list(graph.tasks))
    made: Set[str] = set()
    later: List[str] = []
    for task in graph.tasks.values():
        words = ", ".join(_word_text(word, names, made) for word in task.command)
        texts = [repr(task.id), *([f"[{words}]"] if words else [])]
        if task.expand is not None:
            texts.append(f"expand={names[task.expand] if task.expand in made else repr(task.expand)}")
        texts += [f"{key}={task.keys[key]!r}" for key in DEFAULT_KEYS if task.keys[key] is not None]
        yield f"    {names[task.id]} = {type(task).__name__}({', '.join(texts)})"
        made.add(task.id)
        later += [f"    {names[upstream]} >> {names[task.id]}" for upstream in task.upstream]
    yield from later or ([] if graph.tasks else ["    pass"])
    yield "print(graph.to_json())"


def _refuse_constant(text: str) -> NoReturn:
    raise ValueError(text)


def _fraction(text: str) -> float:
    number = float(text)
    return number if math.isfinite(number) else _refuse_constant(text)


def _number(text: str) -> Union[int, float]:
    """A whole number of 64 bits; any other has a fraction for `serde_json`, as -0 has."""
    number = _fraction(text)
    return int(text) if text != "-0" and -(2**63) <= int(text) < 2**63 else number


def _depth(value: Any) -> int:
    """How many lists and objects stand in one another."""
    if not isinstance(value, (list, dict)):
        return 0
    return 1 + max(map(_depth, value.values() if isinstance(value, dict) else value), default=0)


def _read(text: bytes) -> Any:
    """A file as `serde_json` reads it. Raises a ValueError, or a RecursionError, for what is no JSON."""
    file = json.loads(text.decode(), parse_constant=_refuse_constant, parse_float=_fraction, parse_int=_number)
    if _depth(file) > DEEPEST:
        raise ValueError(DEEPEST)
    return file


def main(graph_file: BinaryIO) -> int:
    try:
        lines = list(python_of(_read(graph_file.read())))
    except GraphError as error:
        print(f"refused {error.number} {error.words}", file=sys.stderr)
        return 2
    except (ValueError, RecursionError):
        print("refused 1 not json", file=sys.stderr)
        return 2
    sys.stdout.buffer.write("".join(f"{line}\n" for line in lines).encode())
    return 0


if __name__ == "__main__":
    sys.exit(main(sys.stdin.buffer))
