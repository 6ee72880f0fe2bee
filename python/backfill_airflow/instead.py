"""What to do in the place of operators and decorators that aren't here. `{before}`, `{task}` and `{after}` are ids of tasks."""

from __future__ import annotations

TYPE_CHECKING = False
if TYPE_CHECKING:
    from typing import Dict, Optional

# What to do in the place of an operator that isn't here, by the name of its class.
INSTEAD: Dict[str, str] = {
    "LatestOnlyOperator": "leave it out: write `{before} >> {after}` for `{before} >> {task} >> {after}`; what may run on the latest day alone "
    "has no place in a run over past days",
    "TriggerDagRunOperator": "make a graph of the other DAG, and run both over the same days, one after the other",
    "SubDagOperator": "a TaskGroup",
    "PythonVirtualenvOperator": "make the environment once, and start its python from a BashOperator",
    "BranchPythonVirtualenvOperator": "make the environment once, start its python from a BashOperator, and branch by a @task.branch on its output",
    "ExternalPythonOperator": "start that python from a BashOperator",
    "BranchExternalPythonOperator": "start that python from a BashOperator, and branch by a @task.branch on its output",
    "EmailOperator": "a @task that sends by smtplib",
    "BranchDateTimeOperator": "a @task.branch that compares the time",
    "BranchDayOfWeekOperator": "a @task.branch that looks at logical_date.isoweekday()",
    "SkipMixin": "BaseBranchOperator with choose_branch(context), or a @task.branch",
    "DayOfWeekSensor": "a @task.sensor that looks at the day of the week",
    "DockerOperator": "a BashOperator with docker run",
    "KubernetesPodOperator": "a BashOperator with kubectl run; or backfill run --launcher for all tasks",
    "SSHOperator": "a BashOperator with ssh",
}
# The same of decorators, by the name behind `task.`.
INSTEAD_OF_DECORATORS: Dict[str, str] = {
    "virtualenv": "make the environment once, and start its python by @task.bash",
    "external_python": "start that python by @task.bash",
    "branch_virtualenv": "make the environment once, start its python by @task.bash, and branch by a @task.branch on its output",
    "branch_external_python": "start that python by @task.bash, and branch by a @task.branch on its output",
    "docker": "a @task.bash with docker run",
    "kubernetes": "a @task.bash with kubectl run; or backfill run --launcher for all tasks",
    "pyspark": "a @task.bash with spark-submit",
}


def instead_of(name: str, before: str = "before", task: str = "latest_only", after: str = "after") -> Optional[str]:
    """What to do in the place of an operator, by the name of its class, between the tasks before and after it."""
    found = INSTEAD.get(name)
    return None if found is None else found.format(before=before, task=task, after=after)
