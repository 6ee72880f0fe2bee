"""What Airflow itself makes of a DAG file, as JSON. `compare` runs the text of this file in a Python that has Airflow, by `python3 -c`, so it imports
nothing of this package; `described` is used on both sides.

It wasn't tried with Airflow, of which it takes: DagBag, DAG.iter_dagrun_infos_between, and the attributes of tasks.
"""

import importlib
import itertools
import json
import sys

TYPE_CHECKING = False
if TYPE_CHECKING:
    from typing import Any, Dict, List

# The status where there is no Airflow, and where it can't read the file.
NO_AIRFLOW, NO_DAG = 3, 4
INTERVALS = 10
YEARS = 40


def seconds_of(delta: "Any") -> "Any":
    """A timedelta in seconds, or what there is in its place."""
    return delta.total_seconds() if hasattr(delta, "total_seconds") else delta


def text_of(value: "Any") -> str:
    """The name of a member of an enum, as Airflow spells it, or a text."""
    return str(getattr(value, "value", value))


def weight_rule_of(task: "Any") -> str:
    """The name of a task's weight rule, which Airflow 2.9 and later has as an object of _DownstreamPriorityWeightStrategy and its like."""
    rule = task.weight_rule
    if isinstance(rule, str) or hasattr(rule, "value"):
        return text_of(rule)
    return type(rule).__name__.replace("PriorityWeightStrategy", "").lstrip("_").lower()


def described(dag: "Any") -> "Dict[str, Dict[str, Any]]":
    """What is compared of each task of a DAG, by its id."""
    made = {}
    for task in dag.tasks:
        has_retries = bool(task.retries)
        made[task.task_id] = {
            "upstream": sorted(task.upstream_task_ids),
            "trigger_rule": text_of(task.trigger_rule),
            "retries": task.retries or 0,
            "retry_delay": seconds_of(task.retry_delay) if has_retries else None,
            "depends_on_past": bool(task.depends_on_past),
            "execution_timeout": seconds_of(task.execution_timeout),
            "pool": task.pool,
            "pool_slots": task.pool_slots,
            "priority_weight": task.priority_weight,
            "weight_rule": weight_rule_of(task),
            "expanded": bool(getattr(task, "is_mapped", type(task).__name__ == "MappedOperator")),
            "setup": bool(getattr(task, "is_setup", False)),
            "teardown": bool(getattr(task, "is_teardown", False)),
        }
    return made


def intervals_of(dag: "Any") -> "List[List[str]]":
    """The first data intervals from the start_date on, as reports spell moments."""
    import datetime

    import pendulum

    start = dag.start_date or min(task.start_date for task in dag.tasks if task.start_date)
    end = pendulum.instance(start + datetime.timedelta(days=366 * YEARS))
    infos = itertools.islice(dag.iter_dagrun_infos_between(pendulum.instance(start), end), INTERVALS)
    utc = datetime.timezone.utc
    return [
        [moment.astimezone(utc).strftime("%Y-%m-%dT%H:%M:%SZ") for moment in (info.data_interval.start, info.data_interval.end)] for info in infos
    ]


def main(path: str, dag_id: str, target: str) -> int:
    """Writes what Airflow makes of a DAG to a file. Returns a status."""
    try:
        version = importlib.import_module("airflow").__version__
        dag_bag = importlib.import_module("airflow.models.dagbag").DagBag
    except ImportError:
        return NO_AIRFLOW
    bag = dag_bag(dag_folder=path, include_examples=False, safe_mode=False)
    dag = bag.dags.get(dag_id)
    if dag is None:
        words = "\n".join(map(str, bag.import_errors.values())) or f"it has the DAGs {', '.join(bag.dags)}"
        print(f"Airflow {version} finds no DAG {dag_id} in {path}: {words}", file=sys.stderr)
        return NO_DAG
    made = {"version": version, "max_active_runs": dag.max_active_runs, "tasks": described(dag), "intervals": intervals_of(dag)}
    with open(target, "w", encoding="utf-8") as file:
        json.dump(made, file)
    return 0


if __name__ == "__main__":
    sys.exit(main(*sys.argv[1:]))
