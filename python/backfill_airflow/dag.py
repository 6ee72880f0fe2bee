"""DAGs, and the functions that make them."""

from __future__ import annotations

import datetime as dt
import functools

from .dates import aware, default_zone
from .errors import AirflowException, DuplicateTaskIdFound, NOTSET, Refused, TaskNotFound
from .params import DagParam, ParamsDict
from .reading import Reading, where
from .task_group import TaskGroup

TYPE_CHECKING = False
if TYPE_CHECKING:
    from typing import Any, Callable, Dict, Iterable, List, Optional, Sequence

    from .base_operator import BaseOperator


class DAG:
    """A DAG. Its arguments are attributes of the same names; `made_at` is its line in the DAG file.

    `schedules` has what was given as schedule, schedule_interval or timetable: one at most.
    """

    def __init__(
        self, dag_id: str = "", description: Optional[str] = None, schedule: Any = NOTSET, schedule_interval: Any = NOTSET, timetable: Any = None,
        start_date: Any = None, end_date: Any = None, full_filepath: Any = None, template_searchpath: Any = None, template_undefined: Any = None,
        user_defined_macros: Any = None, user_defined_filters: Any = None, default_args: Any = None, concurrency: Optional[int] = None,
        max_active_tasks: Optional[int] = None, max_active_runs: Optional[int] = None, max_consecutive_failed_dag_runs: Any = None,
        dagrun_timeout: Any = None, sla_miss_callback: Any = None, default_view: Any = None, orientation: Any = None, catchup: Any = None,
        on_success_callback: Any = None, on_failure_callback: Any = None, doc_md: Any = None, params: Any = None, access_control: Any = None,
        is_paused_upon_creation: Any = None, jinja_environment_kwargs: Any = None, render_template_as_native_obj: bool = False, tags: Any = None,
        owner_links: Any = None, auto_register: bool = True, fail_stop: bool = False, dag_display_name: Any = None,
    ) -> None:
        self.dag_id, self.made_at = dag_id, where()
        self.description, self.doc_md, self.tags, self.dag_display_name = description, doc_md, list(tags or []), dag_display_name or dag_id
        self.default_args = dict(default_args or {})
        self.schedules = [each for each in (schedule, schedule_interval) if each is not NOTSET] + ([timetable] if timetable is not None else [])
        if len(self.schedules) > 1:
            raise AirflowException("At most one schedule can be given: schedule, schedule_interval or timetable")
        self._set_dates(start_date, end_date)
        self.template_searchpath = [template_searchpath] if isinstance(template_searchpath, str) else list(template_searchpath or [])
        self.template_undefined, self.jinja_environment_kwargs = template_undefined, jinja_environment_kwargs or {}
        self.user_defined_macros, self.user_defined_filters = user_defined_macros or {}, user_defined_filters or {}
        self.render_template_as_native_obj = render_template_as_native_obj
        self.max_active_tasks, self.max_active_runs = max_active_tasks if max_active_tasks is not None else concurrency, max_active_runs
        self.dagrun_timeout, self.sla_miss_callback, self.fail_stop, self.catchup = dagrun_timeout, sla_miss_callback, fail_stop, catchup
        self.on_success_callback, self.on_failure_callback = on_success_callback, on_failure_callback
        # (as in Airflow, those of default_args win)
        self.params = ParamsDict({**(params or {}), **self.default_args.pop("params", {})})
        self.task_dict: Dict[str, BaseOperator] = {}
        self.groups: Dict[str, TaskGroup] = {}
        self.task_group = TaskGroup.root_of(self)
        self.filepath = self.fileloc = Reading.path
        self.folder, self.auto_register, self.was_opened = Reading.folder, auto_register, False
        Reading.dags.append(self)

    def _set_dates(self, start_date: Any, end_date: Any) -> None:
        """The dates of the DAG, or of its default arguments, and the zone of its schedule, which is that of the start."""
        for name in ("start_date", "end_date"):
            if isinstance(self.default_args.get(name), (str, dt.datetime)):
                self.default_args[name] = aware(self.default_args[name])
        self.start_date = aware(start_date if start_date is not None else self.default_args.get("start_date"))
        self.end_date = aware(end_date if end_date is not None else self.default_args.get("end_date"))
        self.timezone: Any = getattr(self.start_date, "tzinfo", None) or default_zone()

    # ---- what it has

    @property
    def tasks(self) -> List[BaseOperator]:
        return list(self.task_dict.values())

    @property
    def task_ids(self) -> List[str]:
        return list(self.task_dict)

    @property
    def task_group_dict(self) -> Dict[str, TaskGroup]:
        return self.groups

    @property
    def schedule_interval(self) -> Any:
        """The schedule: a day where none is given."""
        return self.schedules[0] if self.schedules else dt.timedelta(days=1)

    timetable = schedule_interval

    @property
    def concurrency(self) -> Optional[int]:
        return self.max_active_tasks

    @property
    def owner(self) -> str:
        return ", ".join(dict.fromkeys(task.owner for task in self.tasks))

    @property
    def roots(self) -> List[BaseOperator]:
        return [task for task in self.tasks if not task.upstream_task_ids]

    @property
    def leaves(self) -> List[BaseOperator]:
        return [task for task in self.tasks if not task.downstream_task_ids]

    def get_task(self, task_id: str) -> BaseOperator:
        if task_id not in self.task_dict:
            raise TaskNotFound(f"Task {task_id} not found")
        return self.task_dict[task_id]

    def has_task(self, task_id: str) -> bool:
        return task_id in self.task_dict

    def has_task_group(self, group_id: str) -> bool:
        return group_id in self.groups

    # ---- what is put into it

    def add_task(self, task: BaseOperator) -> None:
        """Puts a task into the DAG. Raises DuplicateTaskIdFound where its id is taken."""
        if self.task_dict.get(task.task_id, task) is not task:
            raise DuplicateTaskIdFound(f"Task id '{task.task_id}' has already been added to the DAG")
        if not task.has_dag():
            task.put_into(self)

    def add_tasks(self, tasks: Iterable[BaseOperator]) -> None:
        for task in tasks:
            self.add_task(task)

    def set_dependency(self, upstream_task_id: str, downstream_task_id: str) -> None:
        self.get_task(upstream_task_id).set_downstream(self.get_task(downstream_task_id))

    def param(self, name: str, default: Any = NOTSET) -> DagParam:
        """A value that is that of a param of the DAG in a run."""
        return DagParam(self, name, default)

    def settle(self) -> None:
        """Sets the edges of values that were put into template fields after the construction of tasks."""
        for task in self.tasks:
            task.set_edges_of_values()

    def __enter__(self) -> DAG:
        Reading.open_dags.append(self)
        self.was_opened = True
        return self

    def __exit__(self, *_: Any) -> None:
        Reading.open_dags.pop()

    def test(self, *_: Any, **__: Any) -> None:
        """Refuses."""
        raise Refused("dag.test() and dag.cli() run the DAG by Airflow", "put the call below if __name__ == '__main__':", where=where())

    cli = run = test

    def __repr__(self) -> str:
        return f"<DAG: {self.dag_id}>"


def dag(dag_id: Any = "", *positional: Any, **options: Any) -> Any:
    """The decorator of a function that makes a DAG when it is called. Its arguments are params."""
    if callable(dag_id):
        return _maker(dag_id, "", (), {})
    return lambda function: _maker(function, dag_id, positional, options)


def _maker(function: Callable[..., Any], dag_id: str, positional: Sequence[Any], options: Dict[str, Any]) -> Callable[..., DAG]:
    name = dag_id or function.__name__
    Reading.decorated.append((name, where()))

    @functools.wraps(function)
    def make(*args: Any, **arguments: Any) -> DAG:
        Reading.called.add(name)
        given = _bound(function, args, arguments)
        with DAG(name, *positional, **options) as made:
            made.doc_md = made.doc_md or function.__doc__
            function(**{key: made.param(key, value) for key, value in given.items()})
        return made

    return make


def _bound(function: Callable[..., Any], args: Sequence[Any], arguments: Dict[str, Any]) -> Dict[str, Any]:
    """The arguments of a call by name, with defaults."""
    code = function.__code__
    if not args and not arguments and not code.co_argcount and not code.co_kwonlyargcount:
        return {}
    import inspect

    bound = inspect.signature(function).bind(*args, **arguments)
    bound.apply_defaults()
    return dict(bound.arguments)
