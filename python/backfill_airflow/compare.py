"""`python3 -m backfill_airflow compare`: the graph as this package reads a DAG file beside the DAG as Airflow reads it.

Airflow reads the file in a process of its own, without this package. No Airflow was at hand when this was written: what it takes of Airflow (see
`airflow_side`) is from knowledge of its API, and untried.
"""

from __future__ import annotations

import json
import os
import shutil
import subprocess
import sys
import tempfile
from typing import Any, Dict, List, Optional, Sequence, Tuple

from . import airflow_side
from .command_line import Command, Given, Option
from .draft import Options
from .errors import Refused
from .graph import GraphMaker
from .graph_command import READING, read_dag, run_line
from .isolation import Reader
from .zones import zone_file

FOLDER = os.path.dirname(os.path.abspath(__file__))
COMMAND = Command(
    "compare",
    "Tells where the graph of a DAG file and Airflow's own reading of it differ, where Airflow is installed",
    [("DAGFILE", "The DAG file")],
    (
        *(option for option in READING if option.name not in ("--python", "--out")),
        Option("--airflow-python", "PATH", "The Python in which Airflow is installed; without it this one"),
        Option("--program", "PATH", "The program backfill, which tells the data intervals; without it that of PATH, or of the clone"),
    ),
    ["dags/sales.py", "--airflow-python ~/airflow/bin/python --pool database=4 dags/sales.py"],
    "Compared are tasks, edges, trigger rules, retries, time limits, pools, weights, and the first ten data intervals from start_date on. "
    "A line tells each\ndifference, and the status is 1 where there is one, 2 where Airflow isn't installed or something is refused. "
    "This command was written without an\nAirflow to try it with.",
)


def main(words: Sequence[str]) -> int:
    """Runs a line of `compare`."""
    return run_line(COMMAND, words, _run)


def _run(given: Given, options: Options, reader: Reader) -> int:
    status, lines = _compared(given, options, reader)
    reader.write("".join(f"{line}\n" for line in lines))
    return status


def _compared(given: Given, options: Options, reader: Reader) -> Tuple[int, List[str]]:
    """The status, and the lines for standard output."""
    try:
        dag = read_dag(given, reader)
    except Refused as error:
        print(error, file=sys.stderr)
        return 2, []
    maker = GraphMaker(dag, options)
    text = maker.text()
    if text is None:
        maker.draft.findings.tell_refused()
        return 2, []
    found = _by_airflow(given, options, dag.dag_id)
    if found is None:
        return 2, []
    lines = differences(airflow_side.described(dag), found["tasks"])
    starts = _intervals_here(given, text, dag, found["intervals"]) if options.schedule is None else None
    if starts is not None:
        lines += _interval_lines(starts, found["intervals"])
    if dag.max_active_runs not in (None, found["max_active_runs"]):
        lines.append(f"max_active_runs: {dag.max_active_runs} here, {found['max_active_runs']} in Airflow")
    if lines:
        return 1, lines
    told = "data intervals not compared" if starts is None else f"{len(starts)} data intervals"
    edges = sum(len(task["upstream"]) for task in found["tasks"].values())
    return 0, [f"the same as in Airflow {found['version']}: {len(found['tasks'])} tasks, {edges} edges, {told}"]


def _by_airflow(given: Given, options: Options, dag_id: str) -> Optional[Any]:
    """What Airflow makes of the file; None, with words on standard error, where there is none or it finds no such DAG."""
    python = given.one("--airflow-python") or sys.executable
    with open(os.path.join(FOLDER, "airflow_side.py"), encoding="utf-8") as file:
        source = file.read()
    with tempfile.TemporaryDirectory() as folder:
        target = os.path.join(folder, "dag.json")
        path = os.path.abspath(options.path)
        environment = {**os.environ, "PYTHONPATH": os.pathsep.join([*options.folders[1:], os.environ.get("PYTHONPATH", "")])}
        try:
            status = subprocess.run([python, "-c", source, path, dag_id, target], env=environment, check=False).returncode
        except OSError as error:
            print(f"{python} can't be started, so nothing is compared: {error.strerror}", file=sys.stderr)
            return None
        if status == airflow_side.NO_AIRFLOW:
            print(f"Airflow isn't installed in {python}, so nothing is compared: give its Python by --airflow-python PATH", file=sys.stderr)
            return None
        if status:
            print(f"Airflow couldn't read {options.path}, so nothing is compared (status {status})", file=sys.stderr)
            return None
        with open(target, encoding="utf-8") as file:
            return json.load(file)


def differences(here: Dict[str, Dict[str, Any]], there: Dict[str, Dict[str, Any]]) -> List[str]:
    """A line for each difference of two DAGs' tasks."""
    lines = [f"task {name}: only here" for name in here if name not in there]
    lines += [f"task {name}: only in Airflow" for name in there if name not in here]
    for name in (name for name in here if name in there):
        for key, value in here[name].items():
            other = there[name].get(key)
            if key == "upstream":
                lines += [f"edge {each} >> {name}: only here" for each in value if each not in (other or ())]
                lines += [f"edge {each} >> {name}: only in Airflow" for each in other or () if each not in value]
            elif value != other:
                lines.append(f"task {name}: {key}: {value!r} here, {other!r} in Airflow")
    return lines


def _interval_lines(here: List[List[str]], there: List[List[str]]) -> List[str]:
    lines = []
    for place in range(max(len(here), len(there))):
        own, other = (" to ".join(each[place]) if place < len(each) else "none" for each in (here, there))
        if own != other:
            lines.append(f"data interval {place + 1}: {own} here, {other} in Airflow")
    return lines


def _intervals_here(given: Given, text: str, dag: Any, there: List[List[str]]) -> Optional[List[List[str]]]:
    """The data intervals that `backfill list` tells over the range of Airflow's; None where there are none, or no program."""
    beside = os.path.join(FOLDER, "..", "..", "backfill")
    program = given.one("--program") or shutil.which("backfill") or (beside if os.path.isfile(beside) else None)
    if program is None or not there:
        print("note: the data intervals aren't compared: give the program by --program PATH", file=sys.stderr)
        return None
    with tempfile.TemporaryDirectory() as folder:
        path = os.path.join(folder, "graph.json")
        with open(path, "w", encoding="utf-8") as file:
            file.write(text)
        zone = ["--zone-file", zone_file(dag.timezone)] if json.loads(text).get("zone") == "file" else []
        line = [program, "list", path, *zone, "--from", there[0][0], "--to", there[-1][0]]
        said = subprocess.run(line, capture_output=True, text=True, check=False)
    if said.returncode:
        print(f"note: the data intervals aren't compared: {said.stderr.strip()}", file=sys.stderr)
        return None
    return [row.split(" ") for row in said.stdout.splitlines()]
