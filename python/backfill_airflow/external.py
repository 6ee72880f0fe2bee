"""What an ExternalTaskSensor looks at: the report or the journal of another graph's backfill, at the path that `--external DAG=PATH` gives.

A report tells the states of runs and of task instances. A journal, of a backfill that may still run, tells which tries succeeded or were skipped; a
failed try in it may be made again, and the state of a run isn't in it, so it shows no task as failed and no run as ended.
"""

from __future__ import annotations

import json
import os

from .errors import AirflowException, AirflowSkipException
from .reading import Reading

TYPE_CHECKING = False
if TYPE_CHECKING:
    from typing import Any, Dict, List, Optional, Sequence, Tuple

# In states by run (as `2024-03-05T00:00:00Z`) and task, the task that stands for the run itself.
RUN = ""


def poke(sensor: Any, context: Any) -> bool:
    """Whether all that a sensor waits for has an allowed state. Raises an AirflowException, or an AirflowSkipException, as Airflow's sensor does."""
    dag_id = str(sensor.external_dag_id)
    path = Reading.external.get(dag_id)
    if path is None:
        raise AirflowException(f"ExternalTaskSensor of the DAG {dag_id}: give its report or journal by --external {dag_id}=PATH")
    states = states_in(path)
    runs = [_text_of(moment) for moment in _moments(sensor, context)]
    tasks = _tasks(sensor, states)
    if tasks == [RUN] and os.path.exists(path) and is_journal(path):
        raise AirflowException(f"{path} is a journal, which doesn't tell the state of a run: give the report of DAG {dag_id}")
    named = f"external tasks {', '.join(tasks)} in DAG {dag_id}" if tasks != [RUN] else f"external DAG {dag_id}"
    soft_fail = getattr(sensor, "soft_fail", False)
    if _count(states, runs, tasks, sensor.failed_states or (), any_of_all=True):
        if soft_fail:
            raise AirflowSkipException(f"Some of the {named} failed. Skipping due to soft_fail.")
        raise AirflowException(f"Some of the {named} failed.")
    if _count(states, runs, tasks, getattr(sensor, "skipped_states", None) or (), any_of_all=True):
        raise AirflowSkipException(f"Some of the {named} reached a state in our states-to-skip-on list. Skipping.")
    if getattr(sensor, "check_existence", False) and not any(task in tasks for _, task in states):
        raise AirflowException(f"The {named} does not exist.")
    return _count(states, runs, tasks, sensor.allowed_states or ("success",), any_of_all=False) == len(runs) * len(tasks)


def states_in(path: str) -> Dict[Tuple[str, str], List[str]]:
    """The states of task instances and runs in a report or journal; none where the file isn't there yet."""
    if not os.path.exists(path):
        return {}
    return _of_journal(path) if is_journal(path) else _of_report(path)


def is_journal(path: str) -> bool:
    """Whether a file that is there begins as a journal."""
    with open(path, "rb") as file:
        return file.read(1) == b"["


def _of_report(path: str) -> Dict[Tuple[str, str], List[str]]:
    from backfill_report import read_report

    states: Dict[Tuple[str, str], List[str]] = {}
    with open(path, "rb") as file:
        for row in read_report(file):
            states.setdefault((row.run, row.task), []).append(row.state)
            states[row.run, RUN] = [row.run_state]
    return states


def _of_journal(path: str) -> Dict[Tuple[str, str], List[str]]:
    """The last of an instance's records counts, and a line that hasn't ended doesn't."""
    last: Dict[Tuple[str, str, int], str] = {}
    with open(path, "rb") as file:
        for number, line in enumerate(file):
            if number and line.endswith(b"\n"):
                run, task, index, _, state = json.loads(line)[:5]
                last[run, task, index] = "running" if state == "failed" else state
    states: Dict[Tuple[str, str], List[str]] = {}
    for (run, task, _), state in last.items():
        states.setdefault((run, task), []).append(state)
    return states


def _count(states: Any, runs: Sequence[str], tasks: Sequence[str], wanted: Sequence[Any], any_of_all: bool) -> int:
    """How many tasks of runs have a wanted state: any of their instances, or all."""
    texts = {str(getattr(state, "value", state)) for state in wanted}
    quantity = any if any_of_all else all
    found = (states.get((run, task), []) for run in runs for task in tasks)
    return sum(bool(each) and quantity(state in texts for state in each) for each in found)


def _tasks(sensor: Any, states: Any) -> List[str]:
    """The ids of the tasks that a sensor waits for; of a whole run that of the run."""
    group: Optional[str] = getattr(sensor, "external_task_group_id", None)
    if group:
        return sorted({task for _, task in states if task.startswith(f"{group}.")}) or [f"{group}."]
    ids = list(getattr(sensor, "external_task_ids", None) or ())
    if getattr(sensor, "external_task_id", None) and sensor.external_task_id not in ids:
        ids.append(sensor.external_task_id)
    return [str(each) for each in ids] or [RUN]


def _moments(sensor: Any, context: Any) -> List[Any]:
    """The logical dates that a sensor waits for."""
    date = context["logical_date"]
    if getattr(sensor, "execution_delta", None):
        return [date - sensor.execution_delta]
    function = getattr(sensor, "execution_date_fn", None)
    if function is None:
        return [date]
    found = _call(function, date, context)
    return list(found) if isinstance(found, (list, tuple)) else [found]


def _call(function: Any, date: Any, context: Any) -> Any:
    """Calls execution_date_fn with the date, and the context or what of it the function names, if it takes more."""
    import inspect

    parameters = list(inspect.signature(function).parameters.values())
    if any(each.kind is each.VAR_KEYWORD for each in parameters):
        return function(date, **{key: value for key, value in context.everything().items() if key not in ("logical_date", parameters[0].name)})
    return function(date, *([context] if len(parameters) > 1 else []))


def _text_of(moment: Any) -> str:
    """A moment as reports spell it."""
    import datetime as dt

    aware = moment if moment.tzinfo else moment.replace(tzinfo=dt.timezone.utc)
    return str(aware.astimezone(dt.timezone.utc).strftime("%Y-%m-%dT%H:%M:%SZ"))
