"""Tasks: what all operators have."""

from __future__ import annotations

import datetime as dt
import os

from .dates import aware
from .edges import DependencyMixin, each_of
from .errors import AirflowException, DuplicateTaskIdFound
from .operator_meta import OperatorMeta
from .params import ParamsDict
from .reading import Reading, current_dag, where
from .setup_teardown import Scope, SetupTeardownMarks
from .xcom_arg import XComArg, within

TYPE_CHECKING = False
if TYPE_CHECKING:
    from typing import Any, Dict, Iterable, List, Optional, Sequence, Set, Tuple

# What every operator takes beside task_id, dag, task_group and default_args, and what it is where it isn't given.
DEFAULTS: Dict[str, Any] = {
    **dict(owner="airflow", email=None, email_on_retry=True, email_on_failure=True, retries=None, retry_delay=None, retry_exponential_backoff=False),
    **dict(max_retry_delay=None, start_date=None, end_date=None, depends_on_past=False, ignore_first_depends_on_past=True),
    **dict(wait_for_past_depends_before_skipping=False, wait_for_downstream=False, params=None, priority_weight=1, weight_rule="downstream"),
    **dict(queue=None, pool="default_pool", pool_slots=1, sla=None, execution_timeout=None, on_execute_callback=None, on_failure_callback=None),
    **dict(on_success_callback=None, on_retry_callback=None, on_skipped_callback=None, pre_execute=None, post_execute=None),
    **dict(trigger_rule="all_success", resources=None, run_as_user=None, task_concurrency=None, max_active_tis_per_dag=None),
    **dict(max_active_tis_per_dagrun=None, executor=None, executor_config=None, do_xcom_push=True, multiple_outputs=False, inlets=None),
    **dict(outlets=None, doc=None, doc_md=None, doc_json=None, doc_yaml=None, doc_rst=None, task_display_name=None, map_index_template=None),
    **dict(allow_nested_operators=True, logger_name=None, start_trigger_args=None, start_from_trigger=False),
}
BASE_ARGUMENTS = frozenset((*DEFAULTS, "task_id", "dag", "task_group", "default_args"))
# (a function that is called beside a method isn't put in its place)
ATTRIBUTES = {key: value for key, value in DEFAULTS.items() if key not in ("pre_execute", "post_execute")}


class BaseOperator(SetupTeardownMarks, DependencyMixin, metaclass=OperatorMeta):
    """A task. Its arguments are attributes of the same names.

    `made_at` is its line in the DAG file, `given_arguments` those arguments of all operators that weren't left out, and `upstream_edges` the ids of its
    upstream tasks in the order in which the edges were set.
    """

    template_fields: Sequence[str] = ()
    template_ext: Sequence[str] = ()
    template_fields_renderers: Dict[str, str] = {}
    ui_color, ui_fgcolor = "#fff", "#000"
    is_mapped = False
    # How a graph has it: "program", "branch" or "short_circuit".
    operator_kind = "program"
    is_sensor = False

    owner: str
    email: Any
    retries: int
    retry_delay: dt.timedelta
    retry_exponential_backoff: Any
    max_retry_delay: Optional[dt.timedelta]
    start_date: Any
    end_date: Any
    depends_on_past: bool
    wait_for_downstream: bool
    params: Any
    priority_weight: Any
    weight_rule: Any
    queue: Any
    pool: str
    pool_slots: int
    sla: Any
    execution_timeout: Optional[dt.timedelta]
    trigger_rule: str
    do_xcom_push: bool
    multiple_outputs: bool
    inlets: List[Any]
    outlets: List[Any]
    doc_md: Any

    def __init__(self, task_id: str = "", dag: Any = None, task_group: Any = None, default_args: Any = None, **given: Any) -> None:
        self.made_at = where()
        unknown = [f"**kwargs: {key} = {value!r}" for key, value in given.items() if key not in DEFAULTS]
        if unknown:
            kind = type(self).__name__
            raise AirflowException(f"Invalid arguments were passed to {kind} (task_id: {task_id}). Invalid arguments were:\n" + "\n".join(unknown))
        if not task_id or not isinstance(task_id, str):
            raise AirflowException("missing keyword argument 'task_id'")
        for key, value in (default_args or {}).items():
            if key in DEFAULTS:
                given.setdefault(key, value)
        self.given_arguments = {key: value for key, value in given.items() if value is not None}
        attributes = self.__dict__
        attributes.update(ATTRIBUTES)
        attributes.update(self.given_arguments)
        self._pre_execute_hook, self._post_execute_hook = attributes.pop("pre_execute", None), attributes.pop("post_execute", None)
        self.label = self.task_id = task_id
        dag = dag or (task_group.dag if task_group is not None else current_dag())
        self._settle_arguments(f" in dag {dag.dag_id}" if dag is not None else "")
        own_params, self.params = self.params, ParamsDict(dag.params if dag is not None else None)
        self.params.update(own_params or {})
        self.upstream_edges: Dict[str, None] = {}
        self.upstream_task_ids: Set[str] = set()
        self.downstream_task_ids: Set[str] = set()
        self._dag: Any = None
        self.task_group: Any = task_group
        if dag is not None:
            dag.add_task(self)
        if Scope.opened:
            Scope.opened[-1].add_task(self)

    def _settle_arguments(self, in_dag: str) -> None:
        """Makes of the arguments what the rest reads."""
        if "retries" not in self.given_arguments:
            self.retries = int(os.environ.get("AIRFLOW__CORE__DEFAULT_TASK_RETRIES", "0"))
        elif isinstance(self.retries, str):
            self.retries = int(self.retries)
        delay: Any = self.given_arguments.get("retry_delay")
        if delay is None:
            delay = float(os.environ.get("AIRFLOW__CORE__DEFAULT_TASK_RETRY_DELAY", "300"))
        self.retry_delay = delay if isinstance(delay, dt.timedelta) else dt.timedelta(seconds=delay)
        if self.execution_timeout is not None and not isinstance(self.execution_timeout, dt.timedelta):
            raise ValueError(f"execution_timeout must be timedelta object but passed as type: {type(self.execution_timeout)}")
        self.depends_on_past = bool(self.depends_on_past or self.wait_for_downstream)
        if self.pool_slots < 1:
            raise ValueError(f"pool slots for {self.task_id}{in_dag} cannot be less than 1")
        self.trigger_rule = str(getattr(self.trigger_rule, "value", self.trigger_rule))
        self.weight_rule = getattr(self.weight_rule, "value", self.weight_rule)
        self.start_date, self.end_date = aware(self.start_date), aware(self.end_date)
        self.inlets, self.outlets = list(each_of(self.inlets or [])), list(each_of(self.outlets or []))
        if self.max_retry_delay is not None and not isinstance(self.max_retry_delay, dt.timedelta):
            self.max_retry_delay = dt.timedelta(seconds=self.max_retry_delay)
        if isinstance(self.template_fields, str):
            self.template_fields = (self.template_fields,)

    def _constructed(self) -> None:
        """Ends the construction: sets the edges from the tasks whose values stand in template fields, but for an instance of an expanded task."""
        for field in self.template_fields:
            if not hasattr(self, field):
                kind = type(self).__name__
                raise AirflowException(f"{field!r} is configured as a template field but {kind} does not have this attribute.")
        if not Reading.unmapping:
            self.set_edges_of_values()

    def set_edges_of_values(self) -> None:
        """Sets an edge from each task whose value stands in a template field."""
        for field in self.template_fields:
            self._set_edges_of(getattr(self, field, None))

    def _set_edges_of(self, value: Any) -> None:
        for each in within(value):
            for source in each.sources():
                self.add_upstream(source)

    # ---- the DAG

    @property
    def dag(self) -> Any:
        """The DAG of the task, or None."""
        return self._dag

    @dag.setter
    def dag(self, dag: Any) -> None:
        if self._dag is not None and self._dag is not dag:
            raise AirflowException(f"The DAG assigned to {self} can not be changed.")
        if self._dag is None:
            dag.add_task(self)

    def put_into(self, dag: Any) -> None:
        """Puts the task into a DAG and the group that is open there. Raises DuplicateTaskIdFound where the id is taken."""
        group = self.task_group if self.task_group is not None else dag.task_group.innermost()
        task_id = group.child_id(self.label)
        if dag.task_dict.get(task_id, self) is not self or task_id in dag.groups:
            raise DuplicateTaskIdFound(f"Task id '{task_id}' has already been added to the DAG")
        self._dag, self.task_group, self.task_id = dag, group, task_id
        dag.task_dict[task_id] = group.children[task_id] = self

    def has_dag(self) -> bool:
        return self._dag is not None

    @property
    def dag_id(self) -> str:
        return str(self._dag.dag_id) if self._dag is not None else f"adhoc_{self.owner}"

    @property
    def mapped_group(self) -> Any:
        """The mapped group in which the task lies, or None."""
        return self.task_group.mapped_above() if self.task_group is not None else None

    # ---- edges

    @property
    def roots(self) -> Sequence[Any]:
        return [self]

    @property
    def leaves(self) -> Sequence[Any]:
        return [self]

    def add_upstream(self, task: BaseOperator) -> None:
        """Sets the edge from a task to this one. One of both may lack a DAG, and comes into that of the other."""
        if task is self:
            raise AirflowException(f"Cycle detected: task {self.task_id} would be upstream of itself")
        if task._dag is None and self._dag is None:
            raise AirflowException(
                f"Tried to create relationships between tasks that don't have DAGs yet. Set the DAG for at least one task and try again: {[task, self]}"
            )
        if task._dag is None:
            task.put_into(self._dag)
        elif self._dag is None:
            self.put_into(task._dag)
        if task._dag is not self._dag:
            raise AirflowException(f"Tried to set relationships between tasks in more than one DAG: {task.dag_id}, {self.dag_id}")
        self.upstream_edges[task.task_id] = None
        self.upstream_task_ids.add(task.task_id)
        task.downstream_task_ids.add(self.task_id)

    @property
    def upstream_list(self) -> List[BaseOperator]:
        return [self._dag.task_dict[each] for each in self.upstream_task_ids]

    @property
    def downstream_list(self) -> List[BaseOperator]:
        return [self._dag.task_dict[each] for each in self.downstream_task_ids]

    def get_direct_relative_ids(self, upstream: bool = False) -> Set[str]:
        return self.upstream_task_ids if upstream else self.downstream_task_ids

    def get_direct_relatives(self, upstream: bool = False) -> Iterable[BaseOperator]:
        return self.upstream_list if upstream else self.downstream_list

    def get_flat_relative_ids(self, upstream: bool = False) -> Set[str]:
        """The ids of all tasks above or below."""
        found: Set[str] = set()
        pending = [self]
        while pending:
            for each in pending.pop().get_direct_relatives(upstream):
                if each.task_id not in found:
                    found.add(each.task_id)
                    pending.append(each)
        return found

    def get_flat_relatives(self, upstream: bool = False) -> List[BaseOperator]:
        return [self._dag.task_dict[each] for each in self.get_flat_relative_ids(upstream)]

    @property
    def output(self) -> XComArg:
        """What the task will have returned."""
        return XComArg(self)

    # ---- names

    @property
    def task_type(self) -> str:
        return type(self).__name__

    @property
    def operator_name(self) -> str:
        return str(getattr(self, "custom_operator_name", self.task_type))

    @property
    def log(self) -> Any:
        """The logger of tasks."""
        import logging

        from .logs import install

        install()
        return logging.getLogger("airflow.task.operators")

    # ---- what operators override

    def execute(self, context: Any) -> Any:
        raise NotImplementedError

    def pre_execute(self, context: Any) -> None:
        if self._pre_execute_hook is not None:
            self._pre_execute_hook(context)

    def post_execute(self, context: Any, result: Any = None) -> None:
        if self._post_execute_hook is not None:
            self._post_execute_hook(context, result)

    def on_kill(self) -> None:
        """Ends what the task has started."""

    def prepare_template(self) -> None:
        """Changes template fields before they are rendered."""

    # ---- what operators call

    def xcom_push(self, context: Any, key: str, value: Any, execution_date: Any = None) -> None:
        context["ti"].xcom_push(key, value)

    @staticmethod
    def xcom_pull(
        context: Any, task_ids: Any = None, dag_id: Any = None, key: str = "return_value", include_prior_dates: Any = None, **options: Any
    ) -> Any:
        return context["ti"].xcom_pull(task_ids, dag_id, key, include_prior_dates=include_prior_dates, **options)

    def render_template(self, content: Any, context: Any, jinja_env: Any = None, seen_oids: Any = None) -> Any:
        """A value with its templates rendered."""
        from .templates import Renderer

        return Renderer(self, context).render(content, self.template_ext)

    def render_template_fields(self, context: Any, jinja_env: Any = None) -> None:
        """Renders the template fields, as a task does of one that it calls."""
        for field in self.template_fields:
            setattr(self, field, self.render_template(getattr(self, field), context))

    def get_template_env(self, dag: Any = None) -> Any:
        """Jinja's environment for templates of the DAG."""
        from .templates import environment

        return environment(dag or self.dag)

    def defer(self, **_: Any) -> None:
        raise AirflowException("there is no triggerer to defer to: wait in execute(), or in the poke() of a sensor")

    def add_inlets(self, inlets: Any) -> None:
        self.inlets.extend(each_of(inlets))

    def add_outlets(self, outlets: Any) -> None:
        self.outlets.extend(each_of(outlets))

    @classmethod
    def partial(cls, **arguments: Any) -> Any:
        """The arguments that all instances of an expanded task share."""
        from .mapped import OperatorPartial

        return OperatorPartial(cls, arguments)

    def __repr__(self) -> str:
        return f"<Task({self.task_type}): {self.task_id}>"

    def __hash__(self) -> int:
        return id(self)

    def __eq__(self, other: Any) -> bool:
        return self is other


def _listed(ids: List[str]) -> str:
    return ids[0] if len(ids) == 1 else f"[{', '.join(ids)}]"


class Missing(BaseOperator):
    """A task of an operator that isn't here: it is refused with all else once the DAG is made."""

    def __init__(self, task_id: str = "", words: Any = None, **arguments: Any) -> None:
        super().__init__(task_id=task_id, **{key: value for key, value in arguments.items() if key in BASE_ARGUMENTS})
        self._words = words

    @property
    def words(self) -> Tuple[str, str]:
        """What it is, and what to do instead, with the ids of the tasks before and after it where there are such."""
        before, after = sorted(self.upstream_task_ids), sorted(self.downstream_task_ids)
        told: Tuple[str, str] = self._words(before=_listed(before), task=self.task_id, after=_listed(after)) if before and after else self._words()
        return told

    def __getattr__(self, name: str) -> Any:
        if name.startswith("_"):
            raise AttributeError(name)
        return None
