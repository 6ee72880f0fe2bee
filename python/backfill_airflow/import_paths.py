"""Where what DAG files import from Airflow lies in this package."""

from __future__ import annotations

from . import errors

TYPE_CHECKING = False
if TYPE_CHECKING:
    from typing import Dict


def _of(module: str, names: str = "", **renamed: str) -> Dict[str, str]:
    """Places `MODULE:NAME` of names that are called as here, and of those that have another name here."""
    return {**{name: f"{module}:{name}" for name in names.split()}, **{name: f"{module}:{other}" for name, other in renamed.items()}}


_DAG = _of(".dag", "DAG dag")
_CONTEXT = _of(".running", "get_current_context")
_PYTHON = {**_of(".python_operators", "PythonOperator ShortCircuitOperator"), **_of(".branching", "BranchPythonOperator"), **_CONTEXT}
_BASH = _of(".bash", "BashOperator")
_EMPTY = _of(".python_operators", "EmptyOperator", DummyOperator="EmptyOperator")
_BRANCH = _of(".branching", "BaseBranchOperator BranchMixIn")
_SENSOR = {**_of(".sensors", "BaseSensorOperator PokeReturnValue"), **_of(".utilities", poke_mode_only="same")}
_PYTHON_SENSOR, _BASH_SENSOR, _FILE_SENSOR = _of(".sensors", "PythonSensor"), _of(".sensors", "BashSensor"), _of(".sensors", "FileSensor")
_DATE_SENSOR = _of(".sensors", "DateTimeSensor", DateTimeSensorAsync="DateTimeSensor")
_DELTA_SENSOR = _of(".sensors", "TimeDeltaSensor", TimeDeltaSensorAsync="TimeDeltaSensor")
_TIME_SENSOR = _of(".sensors", "TimeSensor", TimeSensorAsync="TimeSensor")
_EXTERNAL = _of(".external_task", "ExternalTaskSensor ExternalTaskMarker")
_TASK_GROUP = {**_of(".task_group", "TaskGroup"), **_of(".task_group_decorator", "task_group")}
_EDGES = _of(".edges", "chain chain_linear cross_downstream")
_OPERATOR = _of(".base_operator", "BaseOperator")
_HOOK = _of(".connections", "BaseHook")
_XCOM = {**_of(".utilities", "XCom"), **_of(".xcom_arg", XCOM_RETURN_KEY="RETURN_VALUE")}
_XCOM_ARG = _of(".xcom_arg", "XComArg MapXComArg ZipXComArg ConcatXComArg", PlainXComArg="XComArg")
_DATASET = _of(".schedules", "Dataset DatasetAlias DatasetAll DatasetAny")
_MARKS = _of(".taskflow", "setup teardown", setup_task="setup", teardown_task="teardown")
_SCOPE = _of(".setup_teardown", "context_wrapper", SetupTeardownContext="Scope")
_NAMES_OF_ERRORS = " ".join(name for name, value in vars(errors).items() if isinstance(value, type) and value.__name__ not in ("Refused", "NotSet"))
_MODELS = {
    **_DAG, **_OPERATOR, **_HOOK, **_XCOM, **_of(".connections", "Variable Connection"), **_of(".params", "Param ParamsDict"),
    **_of(".xcom_arg", "XComArg"), **_of(".mapped", "MappedOperator"), **_of(".instances", "TaskInstance DagRun"),
}

TABLE: Dict[str, Dict[str, str]] = {
    "airflow": {**_of(".dag", "DAG"), **_of(".schedules", "Dataset"), **_of(".xcom_arg", "XComArg"), **_of(".errors", "AirflowException")},
    "airflow.compat": {}, "airflow.compat.functools": _of("functools", "cached_property cache"),
    "airflow.configuration": {**_of(".utilities", "conf"), **_of(".errors", "AirflowConfigException")},
    "airflow.contrib": {}, "airflow.contrib.sensors": {}, "airflow.contrib.sensors.bash_sensor": _BASH_SENSOR,
    "airflow.contrib.sensors.file_sensor": _FILE_SENSOR, "airflow.contrib.sensors.python_sensor": _PYTHON_SENSOR,
    "airflow.datasets": _DATASET,
    "airflow.decorators": {**_of(".taskflow", "task setup teardown"), **_of(".dag", "dag"), **_of(".task_group_decorator", "task_group")},
    "airflow.decorators.base": {}, "airflow.decorators.python": {}, "airflow.decorators.setup_teardown": {**_MARKS, **_SCOPE},
    "airflow.decorators.task_group": _of(".task_group_decorator", "task_group"),
    "airflow.exceptions": _of(".errors", _NAMES_OF_ERRORS),
    "airflow.hooks": {}, "airflow.hooks.base": _HOOK, "airflow.hooks.base_hook": _HOOK,
    "airflow.listeners": {}, "airflow.lineage": {},
    "airflow.macros": _of(".macros", "ds_add ds_format datetime_diff_for_humans"),
    "airflow.models": _MODELS, "airflow.models.abstractoperator": {}, "airflow.models.baseoperator": {**_OPERATOR, **_EDGES},
    "airflow.models.connection": _of(".connections", "Connection"), "airflow.models.dag": _DAG, "airflow.models.dagbag": {},
    "airflow.models.dagrun": _of(".instances", "DagRun"), "airflow.models.expandinput": {},
    "airflow.models.mappedoperator": _of(".mapped", "MappedOperator OperatorPartial"), "airflow.models.operator": {},
    "airflow.models.param": _of(".params", "Param ParamsDict DagParam"), "airflow.models.skipmixin": {}, "airflow.models.pool": {},
    "airflow.models.taskinstance": {**_of(".instances", "TaskInstance"), **_CONTEXT}, "airflow.models.taskmixin": _of(".edges", "DependencyMixin"),
    "airflow.models.variable": _of(".connections", "Variable"), "airflow.models.xcom": _XCOM, "airflow.models.xcom_arg": _XCOM_ARG,
    "airflow.notifications": {},
    "airflow.operators": {}, "airflow.operators.bash": _BASH, "airflow.operators.bash_operator": _BASH, "airflow.operators.branch": _BRANCH,
    "airflow.operators.branch_operator": _BRANCH, "airflow.operators.dummy": _EMPTY, "airflow.operators.dummy_operator": _EMPTY,
    "airflow.operators.empty": _EMPTY, "airflow.operators.python": {**_PYTHON, **_of(".taskflow", "task")}, "airflow.operators.python_operator": _PYTHON,
    **{f"airflow.operators.{name}": {} for name in "dagrun_operator email email_operator latest_only latest_only_operator subdag subdag_operator".split()},
    "airflow.operators.trigger_dagrun": {}, "airflow.operators.datetime": {}, "airflow.operators.weekday": {},
    "airflow.plugins_manager": _of(".utilities", AirflowPlugin="Plugin"),
    "airflow.providers": {}, "airflow.providers.standard": {}, "airflow.providers.standard.operators": {}, "airflow.providers.standard.sensors": {},
    "airflow.providers.standard.operators.bash": _BASH, "airflow.providers.standard.operators.branch": _BRANCH,
    "airflow.providers.standard.operators.empty": _EMPTY, "airflow.providers.standard.operators.python": _PYTHON,
    "airflow.providers.standard.sensors.bash": _BASH_SENSOR, "airflow.providers.standard.sensors.date_time": _DATE_SENSOR,
    "airflow.providers.standard.sensors.external_task": _EXTERNAL, "airflow.providers.standard.sensors.filesystem": _FILE_SENSOR,
    "airflow.providers.standard.sensors.python": _PYTHON_SENSOR, "airflow.providers.standard.sensors.time": _TIME_SENSOR,
    "airflow.providers.standard.sensors.time_delta": _DELTA_SENSOR,
    "airflow.sensors": {}, "airflow.sensors.base": _SENSOR, "airflow.sensors.base_sensor_operator": _SENSOR, "airflow.sensors.bash": _BASH_SENSOR,
    "airflow.sensors.date_time": _DATE_SENSOR, "airflow.sensors.date_time_sensor": _DATE_SENSOR, "airflow.sensors.external_task": _EXTERNAL,
    "airflow.sensors.external_task_sensor": _EXTERNAL, "airflow.sensors.filesystem": _FILE_SENSOR, "airflow.sensors.python": _PYTHON_SENSOR,
    "airflow.sensors.time_delta": _DELTA_SENSOR, "airflow.sensors.time_delta_sensor": _DELTA_SENSOR, "airflow.sensors.time_sensor": _TIME_SENSOR,
    "airflow.sensors.weekday": {},
    "airflow.settings": {}, "airflow.stats": {},
    "airflow.timetables": {}, "airflow.timetables.base": _of(".schedules", "Timetable"),
    "airflow.timetables.datasets": _of(".schedules", "DatasetOrTimeSchedule"), "airflow.timetables.events": _of(".schedules", "EventsTimetable"),
    "airflow.timetables.interval": _of(".schedules", "CronDataIntervalTimetable DeltaDataIntervalTimetable"),
    "airflow.timetables.simple": _of(".schedules", "ContinuousTimetable"),
    "airflow.timetables.trigger": _of(".schedules", "CronTriggerTimetable DeltaTriggerTimetable"),
    "airflow.typing_compat": _of("typing", "Literal Protocol TypedDict runtime_checkable"),
    "airflow.utils": {}, "airflow.utils.context": _of(".context", "Context"),
    "airflow.utils.dag_parsing_context": _of(".reading", "get_parsing_context"),
    "airflow.utils.dates": _of(".utilities", "days_ago date_range", parse_execution_date="parse_date", cron_presets="CRON_PRESETS"),
    "airflow.utils.db": _of(".utilities", provide_session="same"), "airflow.utils.decorators": _of(".utilities", apply_defaults="same"),
    "airflow.utils.edgemodifier": _of(".edges", "Label EdgeModifier"), "airflow.utils.email": _of(".utilities", "send_email"),
    "airflow.utils.helpers": _EDGES, "airflow.utils.log": {}, "airflow.utils.log.logging_mixin": _of(".utilities", "LoggingMixin"),
    "airflow.utils.session": _of(".utilities", provide_session="same"), "airflow.utils.setup_teardown": _SCOPE,
    "airflow.utils.state": _of(".utilities", "State TaskInstanceState DagRunState"), "airflow.utils.task_group": _TASK_GROUP,
    "airflow.utils.timezone": _of(
        ".timezone", "utcnow datetime parse utc make_aware make_naive convert_to_utc is_localized is_naive coerce_datetime"
    ),
    "airflow.utils.trigger_rule": _of(".utilities", "TriggerRule"),
    "airflow.utils.types": {**_of(".errors", "NOTSET", ArgNotSet="NotSet"), **_of(".utilities", "DagRunType")},
    "airflow.utils.weight_rule": _of(".utilities", "WeightRule"), "airflow.utils.xcom": _of(".xcom_arg", XCOM_RETURN_KEY="RETURN_VALUE"),
    "airflow.version": {},
}
