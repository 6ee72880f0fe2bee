"""What of Airflow 2 runs as it is, what is noted, and what is refused: the words of the tables of docs/FROM_AIRFLOW.md.

Each row is a pair of Markdown texts: what of Airflow it is, and how it is run, what differs, or what to do instead.
"""

from __future__ import annotations

from typing import List, Tuple

from .instead import INSTEAD, INSTEAD_OF_DECORATORS, instead_of
from .task_keys import NOTED_KEYS, REFUSED_KEYS

SUPPORTED: List[Tuple[str, str]] = [
    ("`DAG(..)`, `with DAG(..)`, `@dag` with and without parameters", "as it is; a file may have several DAGs, of which `--dag ID` takes one"),
    ("`>>`, `<<`, `set_upstream`, `chain`, `chain_linear`, `cross_downstream`, `Label`", "as edges; labels are passed over"),
    ("`TaskGroup`, `@task_group`", "ids as in Airflow, with and without `prefix_group_id`"),
    (
        "`@task_group` with `.partial`, `.expand`, `.expand_kwargs`",
        "unrolled over a literal list; one expansion where its tasks have no edges among each other",
    ),
    ("`default_args` of DAGs and groups, `params`, `Param`", "each constructor takes what it knows; params have their defaults"),
    ("`@task`, `PythonOperator`, `get_current_context`", "a Python process for each try"),
    ("`.override`, `.partial`, `.expand`, `.expand_kwargs`, `.map`, `.zip`, `.concat`, `.output`", "as it is"),
    ("`@task.bash`, `BashOperator`", "as it is: `env`, `append_env`, `cwd`, `skip_on_exit_code`, template files"),
    (
        "`@task.branch`, `BranchPythonOperator`, `BaseBranchOperator`",
        "as it is; to groups too, and to tasks further down; pulls from one where it returned what it follows",
    ),
    ("`@task.short_circuit`, `ShortCircuitOperator`", "as it is, with and without `ignore_downstream_trigger_rules`"),
    ("`EmptyOperator`, `DummyOperator`", "a task without a program"),
    (
        "`@task.sensor`, `PythonSensor`, `BashSensor`, `FileSensor`, `DateTimeSensor`, `TimeDeltaSensor`, `TimeSensor`",
        "as it is, in one try; `soft_fail`, `silent_fail`, `never_fail`, `exponential_backoff`",
    ),
    ("`ExternalTaskSensor`", "looks at the report or journal that `--external DAG=PATH` names"),
    ("operators and sensors of your own, with `template_fields`, `pre_execute`, `post_execute`, `on_kill`", "as it is"),
    ("Jinja templates, template files, `user_defined_macros`, `user_defined_filters`, `render_template_as_native_obj`", "as it is"),
    ("`ti.xcom_push`, `ti.xcom_pull` of tasks of the same run", "as it is; from which tasks is found in templates and source"),
    ("`Variable.get`, `BaseHook.get_connection`, `var`, `conn`", "from `AIRFLOW_VAR_KEY` and `AIRFLOW_CONN_ID` (a URI or JSON) in the environment"),
    ("`@setup`, `@teardown`, `as_setup`, `as_teardown`, `with`", "as edges and rules, where these say the same"),
    ("trigger rules", "all eleven of Airflow, and the older names `dummy` and `none_failed_or_skipped`"),
    ("`retries`, `retry_delay`, `execution_timeout`, `depends_on_past`, `pool`, `pool_slots`, `priority_weight`, `weight_rule`", "as it is"),
    ("`on_execute_callback`, `on_success_callback`, `on_failure_callback`, `on_retry_callback`, `on_skipped_callback` of tasks", "called in the try"),
    ("cron schedules, presets, `timedelta`, `CronDataIntervalTimetable`, `DeltaDataIntervalTimetable`, time zones", "as a cron schedule and a zone"),
    ("import paths of Airflow 1.10 that Airflow 2 still has", "as it is"),
]

NOTED: List[Tuple[str, str]] = [
    ("`start_date`, `end_date`, `catchup`", "`--from` and `--to` say which runs there are"),
    ("`max_active_tasks`, `concurrency`", "`--workers` of `backfill run`"),
    ("`outlets`, `inlets`", "no event of a dataset is made"),
    ("callbacks of the DAG, `dagrun_timeout`", "nothing calls or keeps them"),
    *((", ".join(f"`{key}`" for key in NOTED_KEYS if NOTED_KEYS[key] == words), words) for words in dict.fromkeys(NOTED_KEYS.values())),
    ("`mode='reschedule'`, `deferrable=True`", "the sensor pokes in one try, and keeps its worker and its slots of the pool"),
    ("a sensor's `timeout`, `AirflowFailException`", "the task is tried again, as `retries` says"),
    ("`max_active_tis_per_dag`", "a pool of the task's own"),
    ("`depends_on_past`", "the first run of a range asks nothing of the past"),
    ("callbacks of providers", "not called"),
    ("setup and teardown", "`backfill clear` runs a task again without its setup: clear the setup"),
    ("an expanded task over another that is skipped as a whole", "it is skipped with it"),
    ("`ExternalTaskMarker`", "does nothing: clear the other DAG's run by its own graph"),
    ("`{{ logical_date }}` and other moments without a format", "written as the installed pendulum does, or as pendulum 3 where there is none"),
    ("a cron schedule that fires several times a day, in a zone whose clocks change", "on these days it fires by the clock"),
]

REFUSED: List[Tuple[str, str]] = [
    ("`schedule=None`, `@once`, `@continuous`, datasets, `CronTriggerTimetable` and timetables of your own", "`--schedule CRON`"),
    ("cron beyond five fields of `*`, `a`, `a-b`, `*/n`, `a-b/n`", "`--schedule CRON`"),
    ("a pool whose size isn't in the DAG file", "`--pool NAME=SLOTS`"),
    ("`xcom_pull` whose `task_ids` are known in a try alone", "`--pull TASK=ID,ID`"),
    (
        "`xcom_pull` without `task_ids`, with `include_prior_dates`, `map_indexes` or another `dag_id`; `XCom.get_one`",
        "pull from tasks of the same run by their ids",
    ),
    ("a pull from a task that may not have ended by then", "an edge from it"),
    ("a rule that doesn't wait for all tasks before it, with a pull or an expansion", "a rule that waits, as `none_failed`"),
    ("a pull from a short circuit", "return the value from a task before it, and pull from that"),
    ("`xcom_push` in a branch or short circuit", "push it in a task before"),
    (
        "a task below a short circuit whose rule no edge can bring about",
        "`ignore_downstream_trigger_rules=False`; or a rule of `all_success`, `none_failed` or `all_done`",
    ),
    ("a task below a setup further up, which its rule lets run all the same", "an edge from the setup"),
    ("a teardown right behind a branch or short circuit", "a task between them"),
    (
        "an expanded task behind a branch or short circuit with another rule than `all_success`, or with `all_failed` or `all_skipped`",
        "an `EmptyOperator` with that rule before it",
    ),
    ("an expanded branch, short circuit or `EmptyOperator`", "one branch over the whole list; or `AirflowSkipException` in the expanded task"),
    ("an expanded task or group inside an expanded group", "expand one of both"),
    ("an edge inside a group that is expanded over what a task pushes", "a literal list; or each task expanded for itself"),
    (
        "a branch, short circuit, setup or teardown inside an expanded group",
        "`AirflowSkipException` in its tasks; one setup or teardown outside of the group",
    ),
    ("`ExternalTaskSensor` without `--external`", "`--external DAG=PATH`"),
    ("`retry_exponential_backoff`", "a fixed `retry_delay`; or `--backoff-inside`"),
    *((f"`{key}`", instead) for key, instead in REFUSED_KEYS.items()),
    ("`fail_stop`", "trigger rules that wait for what is to stop"),
    ("a `start_date` or `end_date` of a task that isn't the DAG's", "a graph without this task for the other days"),
    ("`Variable.set`", "write a file, or push a value"),
    (
        "`prev_.._success`; `prev_ds` and `prev_execution_date` where data intervals differ in length",
        "compute the date from `data_interval_start`",
    ),
    (
        "more than 2,000 tasks, 20,000 edges, 16 pulls of a task, 100 `retries`, a day of `retry_delay`",
        "several DAGs over the same days; a task between that gathers values",
    ),
    ("`dag.test()`, `dag.cli()` at the top of a file", "put the call below `if __name__ == '__main__':`"),
    ("`airflow.sdk` of Airflow 3", "the imports of Airflow 2"),
    ("a file without a DAG, or with a function with `@dag` that isn't called", "call it"),
    *((f"`@task.{name}`", instead) for name, instead in INSTEAD_OF_DECORATORS.items()),
    *((f"`{name}`", str(instead_of(name))) for name in INSTEAD),
    ("operators and hooks of other providers", "`--with MODULE`, a module of your own with classes of their names; or a `BashOperator` or `@task`"),
]
