"""`python3 -m backfill_airflow graph`: the line, the DAG file, the graph file."""

from __future__ import annotations

import os
import sys
from typing import Any, Callable, List, Optional, Sequence

from . import loading
from .command_line import Command, Given, Option, Wrong, number_of, tell_wrong
from .draft import Options
from .errors import Refused
from .graph import GraphMaker
from .isolation import Reader

# The status where a file can't be read or written.
FAULT = 3
MOST_SECONDS = 86_400
DEFAULT_TIMEOUT = "30"
NO_BYTECODE = "PYTHONDONTWRITEBYTECODE is set: each try compiles the DAG file anew, and takes three times as long; unset it for backfill run"
# What graph and compare take to read a DAG file.
READING = (
    Option("--dag", "ID", "The DAG, where the file has several"),
    Option("--pool", "NAME=SLOTS", "The size of a pool that tasks name; may stand several times", True),
    Option("--pull", "TASK=ID,ID", "From which tasks a task pulls, where its source doesn't tell; may stand several times", True),
    Option("--schedule", "CRON", "A schedule in place of the DAG's, cron or a preset"),
    Option("--with", "MODULE", "A module of yours with classes for names of providers that aren't here; may stand several times", True),
    Option("--dags-folder", "FOLDER", "The folder from which the DAG file imports; without it its own"),
    Option("--external", "DAG=PATH", "The report or journal in which an ExternalTaskSensor looks for another DAG; may stand several times", True),
    Option("--backoff-inside", None, "Makes the retries of a task with retry_exponential_backoff within one try"),
    Option("--python", "PATH", "The Python that makes the tries; without it this one"),
    Option("--out", "PATH", "Writes the graph to this file, whole or not at all, in place of standard output"),
    Option("--import-timeout", "SECONDS", f"How long the DAG file may take to be read; {DEFAULT_TIMEOUT} where this isn't given"),
)
COMMAND = Command(
    "graph",
    "Writes the graph file of an Airflow 2 DAG file to standard output, or tells all that can't be carried over",
    [("DAGFILE", "The DAG file, as a path from the folder in which backfill will run")],
    READING,
    [
        "dags/sales.py > sales.json",
        "--dag sales_eu --pool database=4 --out sales_eu.json dags/sales.py",
        "--schedule @daily --with my_providers dags/sales.py > sales.json",
    ],
    "The tries of the graph read the DAG file anew, so run it from this folder, and make it anew where the file's tasks or edges have changed.",
)


def options_of(given: Given) -> Options:
    """The options of a line, which `graph` and `compare` share. Raises Wrong for values that none may have."""
    pools = {name: number_of(size, "--pool <NAME=SLOTS>", 1, 1_000_000) for name, size in given.pairs("--pool")}
    pulls = {task: [each for each in ids.split(",") if each] for task, ids in given.pairs("--pull")}
    external = dict(given.pairs("--external"))
    words: List[str] = [word for each in given.all("--with") for word in ("--with", each)]
    folder = given.one("--dags-folder")
    words += [] if folder is None else ["--dags-folder", folder]
    words += [word for dag_id, path in external.items() for word in ("--external", f"{dag_id}={path}")]
    path = given.arguments[0]
    folders = [os.path.dirname(os.path.abspath(path)), *([] if folder is None else [os.path.abspath(folder)])]
    python = given.one("--python") or sys.executable
    backoff_inside = "--backoff-inside" in given.values
    return Options(path, python, pools, pulls, given.one("--schedule"), words, external, backoff_inside, folders)


def read_dag(given: Given, reader: Reader) -> Any:
    """The DAG of a line. Raises Refused where its file can't be read, or has no such DAG."""
    path = given.arguments[0]
    dags = reader.read(lambda: loading.load(path, given.one("--dags-folder"), given.all("--with")))
    return loading.choose(dags, given.one("--dag"), path)


def run_line(command: Command, words: Sequence[str], work: Callable[[Given, Options, Reader], int]) -> int:
    """Runs a line of a command that reads a DAG file, of which nothing is left then: ends the process with the status of the work. Help, a wrong
    line and a file that can't be read are told, and their status is returned."""
    if "--help" in words or "-h" in words:
        print(command.help())
        return 0
    try:
        given = command.read(words)
        options = options_of(given)
        seconds = number_of(given.one("--import-timeout") or DEFAULT_TIMEOUT, "--import-timeout <SECONDS>", 1, MOST_SECONDS)
    except Wrong as error:
        return tell_wrong(error, command.usage)
    try:
        open(options.path, "rb").close()
    except OSError:
        print(f"fault: cannot read {options.path}", file=sys.stderr)
        return FAULT
    reader = Reader(options.path, seconds)
    reader.leave(work(given, options, reader))


def main(words: Sequence[str]) -> int:
    """Runs a line of `graph`."""
    return run_line(COMMAND, words, _run)


def _run(given: Given, options: Options, reader: Reader) -> int:
    """Writes the graph, or tells what is refused. Returns the status."""
    try:
        dag = read_dag(given, reader)
    except Refused as error:
        print(f"{error}\n1 refused; no graph is written", file=sys.stderr)
        return 2
    maker = GraphMaker(dag, options)
    text = maker.text()
    if text is None:
        maker.draft.findings.tell_refused()
        return 2
    if sys.dont_write_bytecode:
        maker.draft.findings.note(NO_BYTECODE)
    maker.draft.findings.tell_notes()
    return _write(text, given.one("--out"), reader)


def _write(text: str, path: Optional[str], reader: Reader) -> int:
    """Writes the graph to standard output, or whole or not at all to a file. Returns the status."""
    try:
        if path is None:
            reader.write(text)
            return 0
        partial = f"{path}.{os.getpid()}"
        with open(partial, "w", encoding="utf-8") as file:
            file.write(text)
        os.replace(partial, path)
    except OSError:
        print("fault: cannot write" if path is None else f"fault: cannot write {path}", file=sys.stderr)
        return FAULT
    return 0
