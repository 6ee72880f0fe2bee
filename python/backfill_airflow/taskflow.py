"""The decorators @task, @task.branch, @task.short_circuit, @task.sensor, @task.bash, @setup and @teardown."""

from __future__ import annotations

import functools
import re
from collections.abc import Mapping

from .base_operator import Missing
from .bash import BashOperator
from .branching import BranchPythonOperator
from .errors import AirflowException, NOTSET
from .mapped import check_arguments, check_list_of_dicts, expanded
from .python_operators import PythonOperator, ShortCircuitOperator
from .reading import Reading, current_dag
from .running import call_with_context
from .sensors import PythonSensor
from .task_group import next_number
from .xcom_arg import XComArg

TYPE_CHECKING = False
if TYPE_CHECKING:
    from typing import Any, Callable, Dict

CONTEXT_NAMES = frozenset(
    "conf dag dag_run data_interval_end data_interval_start ds ds_nodash exception execution_date expanded_ti_count inlets inlet_events "
    "logical_date macros map_index_template next_ds next_ds_nodash next_execution_date outlets outlet_events params "
    "prev_data_interval_start_success prev_data_interval_end_success prev_ds prev_ds_nodash prev_execution_date prev_execution_date_success "
    "prev_start_date_success prev_end_date_success run_id task task_instance task_instance_key_str test_mode templates_dict ti tomorrow_ds "
    "tomorrow_ds_nodash triggering_dataset_events ts ts_nodash ts_nodash_with_tz try_number var conn yesterday_ds yesterday_ds_nodash".split()
)


class DecoratedPythonOperator(PythonOperator):
    """A task of @task."""

    custom_operator_name = "@task"


class DecoratedBranchOperator(BranchPythonOperator):
    """A task of @task.branch."""

    custom_operator_name = "@task.branch"


class DecoratedShortCircuitOperator(ShortCircuitOperator):
    """A task of @task.short_circuit."""

    custom_operator_name = "@task.short_circuit"


class DecoratedSensorOperator(PythonSensor):
    """A task of @task.sensor."""

    custom_operator_name = "@task.sensor"


class DecoratedBashOperator(BashOperator):
    """A task of @task.bash, whose function returns the command."""

    custom_operator_name = "@task.bash"
    template_fields = ("op_args", "op_kwargs", "env", "cwd")

    def __init__(self, *, python_callable: Callable[..., Any], op_args: Any = None, op_kwargs: Any = None, **arguments: Any) -> None:
        super().__init__(bash_command=NOTSET, **arguments)
        self.python_callable, self.op_args, self.op_kwargs = python_callable, op_args or [], op_kwargs or {}

    def execute(self, context: Any) -> Any:
        command = call_with_context(self, context)
        if not isinstance(command, str) or not command.strip():
            raise TypeError("The returned value from the TaskFlow callable must be a non-empty string.")
        self.bash_command = self.render_template(command, context)
        return super().execute(context)


def free_task_id(task_id: str, dag: Any, group: Any) -> str:
    """The id, with the number behind the greatest of its like where it is taken, as Airflow gives it to a function called more than once."""
    dag = dag or (group.dag if group is not None else current_dag())
    if dag is None:
        return task_id
    group = group or dag.task_group.innermost()
    if group.child_id(task_id) not in dag.task_dict:
        return task_id
    core = re.split(r"__\d+$", task_id)[0]
    return f"{core}__{next_number(group.child_id(core), dag.task_dict)}"


def check_call(function: Callable[..., Any], args: Any, arguments: Dict[str, Any], whole: bool = True) -> None:
    """Raises a TypeError where a function doesn't take these arguments; names of the context needn't be given."""
    import inspect

    signature = inspect.signature(function)
    parameters = list(signature.parameters.values())
    optional = False
    for place, each in enumerate(parameters):
        if each.kind in (each.VAR_POSITIONAL, each.VAR_KEYWORD) or each.default is not each.empty:
            optional = optional or each.default is not each.empty
        elif each.name in CONTEXT_NAMES:
            parameters[place], optional = each.replace(default=None), True
        elif optional and each.kind is each.POSITIONAL_OR_KEYWORD:
            # (one without a default can't stand behind one with)
            parameters[place] = each.replace(default=NOTSET)
    signature = signature.replace(parameters=parameters)
    bound = signature.bind(*args, **arguments) if whole else signature.bind_partial(*args, **arguments)
    bound.apply_defaults()
    missing = [name for name, value in bound.arguments.items() if value is NOTSET]
    if missing and whole:
        raise TypeError(f"missing a required argument: {missing[0]!r}")


def returns_mapping(function: Callable[..., Any]) -> bool:
    """Whether the annotation of what a function returns is a dict or the like: its members then are values of their own."""
    annotation = getattr(function, "__annotations__", {}).get("return")
    if isinstance(annotation, str):
        try:
            annotation = eval(annotation, dict(function.__globals__))
        except (AttributeError, NameError, SyntaxError, TypeError):
            return False
    kind = getattr(annotation, "__origin__", annotation)
    return isinstance(kind, type) and issubclass(kind, Mapping)


class TaskDecorator:
    """A decorated function: a call makes a task."""

    is_task_decorator = True

    def __init__(self, function: Callable[..., Any], operator_class: Any, options: Dict[str, Any]) -> None:
        functools.update_wrapper(self, function)
        self.function, self.operator_class, self.options = function, operator_class, dict(options)
        self.is_setup = self.is_teardown = self.on_failure_fail_dagrun = False
        if "multiple_outputs" not in self.options and operator_class is DecoratedPythonOperator:
            self.options["multiple_outputs"] = returns_mapping(function)

    def _task_options(self) -> Dict[str, Any]:
        """The options of the next task, with its id."""
        options = self.options
        name = options.get("task_id") or self.function.__name__
        return {**options, "task_id": free_task_id(name, options.get("dag"), options.get("task_group"))}

    def _marked(self, task: Any) -> XComArg:
        task.is_setup = self.is_setup
        if self.is_teardown:
            if "trigger_rule" in self.options:
                raise ValueError("Trigger rule not configurable for teardown tasks.")
            task.as_teardown(on_failure_fail_dagrun=self.on_failure_fail_dagrun)
        task.doc_md = task.doc_md or self.function.__doc__
        return XComArg(task)

    def __call__(self, *args: Any, **arguments: Any) -> XComArg:
        if not Reading.trying:
            check_call(self.function, args, arguments)
        options = self._task_options()
        return self._marked(self.operator_class(python_callable=self.function, op_args=args, op_kwargs=arguments, **options))

    def override(self, **options: Any) -> TaskDecorator:
        """The same function with other options of the task."""
        made = TaskDecorator(self.function, self.operator_class, {**self.options, **options})
        made.is_setup, made.is_teardown = self.is_setup, self.is_teardown
        made.on_failure_fail_dagrun = made.options.pop("on_failure_fail_dagrun", self.on_failure_fail_dagrun)
        return made

    def partial(self, **arguments: Any) -> PartialTask:
        """The arguments that all instances of an expanded task share."""
        return PartialTask(self, arguments)

    def expand(self, **mapped: Any) -> XComArg:
        """An instance for each member of an argument, and for each combination of several."""
        return PartialTask(self, {}).expand(**mapped)

    def expand_kwargs(self, over: Any, strict: bool = True) -> XComArg:
        """An instance for each dict of a list, which has its arguments."""
        return PartialTask(self, {}).expand_kwargs(over)


class PartialTask:
    """A decorated function with some of its arguments."""

    def __init__(self, decorator: TaskDecorator, arguments: Dict[str, Any]) -> None:
        self.decorator, self.arguments = decorator, arguments
        self._check(arguments)

    def _check(self, arguments: Dict[str, Any]) -> None:
        if not Reading.trying:
            check_call(self.decorator.function, (), arguments, whole=False)

    def partial(self, **arguments: Any) -> PartialTask:
        return PartialTask(self.decorator, {**self.arguments, **arguments})

    def expand(self, **mapped: Any) -> XComArg:
        check_arguments(self.decorator.function.__name__, mapped, self.arguments)
        self._check(mapped)
        return self._expanded(mapped, None)

    def expand_kwargs(self, over: Any, strict: bool = True) -> XComArg:
        check_list_of_dicts(over)
        return self._expanded({}, over)

    def _expanded(self, mapped: Dict[str, Any], over: Any) -> XComArg:
        decorator = self.decorator
        options = {**decorator._task_options(), "python_callable": decorator.function, "op_kwargs": self.arguments}
        return decorator._marked(expanded(decorator.operator_class, options, mapped, over, into="op_kwargs"))


class TaskDecorators:
    """`task`, with `task.branch` and the like."""

    def __call__(self, python_callable: Any = None, multiple_outputs: Any = None, **options: Any) -> Any:
        if multiple_outputs is not None:
            options["multiple_outputs"] = multiple_outputs
        return _decorate(DecoratedPythonOperator, python_callable, options)

    python = __call__

    def branch(self, python_callable: Any = None, **options: Any) -> Any:
        return _decorate(DecoratedBranchOperator, python_callable, options)

    def short_circuit(self, python_callable: Any = None, **options: Any) -> Any:
        return _decorate(DecoratedShortCircuitOperator, python_callable, options)

    def sensor(self, python_callable: Any = None, **options: Any) -> Any:
        return _decorate(DecoratedSensorOperator, python_callable, options)

    def bash(self, python_callable: Any = None, **options: Any) -> Any:
        return _decorate(DecoratedBashOperator, python_callable, options)

    def __getattr__(self, name: str) -> Any:
        if name.startswith("__"):
            raise AttributeError(name)
        return lambda python_callable=None, **options: _decorate_missing(name, python_callable, options)


def _decorate(operator_class: Any, function: Any, options: Dict[str, Any]) -> Any:
    if function is None:
        return lambda function: TaskDecorator(function, operator_class, options)
    if not callable(function):
        raise TypeError("No args allowed while using @task, use kwargs instead")
    return TaskDecorator(function, operator_class, options)


class MissingDecorator(TaskDecorator):
    """A function with a decorator that isn't here: a call makes a task that is refused with all else once the DAG is made."""

    def __call__(self, *args: Any, **arguments: Any) -> XComArg:
        return XComArg(Missing(**self._task_options()))

    expand = expand_kwargs = __call__

    def partial(self, **arguments: Any) -> Any:
        return self

    def override(self, **options: Any) -> TaskDecorator:
        return MissingDecorator(self.function, self.operator_class, {**self.options, **options})


def _decorate_missing(name: str, function: Any, options: Dict[str, Any]) -> Any:
    from .instead import INSTEAD_OF_DECORATORS

    words = (f"@task.{name} isn't in backfill_airflow", INSTEAD_OF_DECORATORS.get(name, "a @task that does the same"))
    options = {**options, "words": lambda **_: words}
    if function is None:
        return lambda function: MissingDecorator(function, Missing, options)
    return MissingDecorator(function, Missing, options)


task = TaskDecorators()


def setup(function: Any) -> TaskDecorator:
    """@setup: a function, or one with @task, whose tasks are setups."""
    decorator = _task_of(function)
    decorator.is_setup = True
    return decorator


def teardown(function: Any = None, *, on_failure_fail_dagrun: bool = False) -> Any:
    """@teardown: a function, or one with @task, whose tasks are teardowns."""
    if function is None:
        return lambda function: teardown(function, on_failure_fail_dagrun=on_failure_fail_dagrun)
    decorator = _task_of(function)
    decorator.is_teardown, decorator.on_failure_fail_dagrun = True, on_failure_fail_dagrun
    return decorator


def _task_of(function: Any) -> TaskDecorator:
    if isinstance(function, TaskDecorator):
        return function
    if hasattr(function, "expand_kwargs"):
        raise AirflowException("Task groups cannot be marked as setup or teardown.")
    made: TaskDecorator = task(function)
    return made
