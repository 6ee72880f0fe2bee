#!/usr/bin/env python3
"""Compares the graphs of examples/airflow with those in graphs/: graphs.py PYTHON

There a task's command is short: "try" lists from which tasks it pulls, in order. The last line has how many were right, and how many wrong.
"""
from __future__ import annotations

import json
import pathlib
import subprocess
import sys
from typing import Any, Dict, List

HERE = pathlib.Path(__file__).resolve().parent
ROOT = HERE.parents[1]
CONTEXT = ("logical_date", "data_interval_end", "try_number", "map_index")


def command(name: str, dag_id: str, task: Dict[str, Any], pulls: List[str]) -> List[Any]:
    """The words of a try."""
    words: List[Any] = ["PYTHON", "-m", "backfill_airflow", "try", f"examples/airflow/{name}.py", dag_id, task["id"], *({"context": each} for each in CONTEXT)]
    if "expand" in task:
        words += ["--item", {"item": True}]
    for each in pulls:
        words += ["--pull", each, {"pull": each}]
    return words


def wanted(name: str) -> Any:
    graph = json.loads((HERE / "graphs" / f"{name}.json").read_text(encoding="utf-8"))
    for task in graph["tasks"]:
        if "try" in task:
            task["command"] = command(name, graph["dag_id"], task, task.pop("try"))
    return graph


def main(python: str) -> None:
    right = wrong = 0
    for name in sorted(path.stem for path in (ROOT / "examples" / "airflow").glob("*.py")):
        options = ["--pool", "database=2"] if name == "branches" else []
        words = [python, "-m", "backfill_airflow", "graph", f"examples/airflow/{name}.py", "--python", "PYTHON", *options]
        made = subprocess.run(words, cwd=ROOT, capture_output=True, text=True)
        if "jinja2, which isn't installed" in made.stderr:
            print(f"skipped: the graph of examples/airflow/{name}.py, since {python} has no jinja2")
            continue
        got = json.loads(made.stdout) if made.stdout else made.stderr
        if got == wanted(name):
            right += 1
        else:
            wrong += 1
            print(f"differs: examples/airflow/{name}.py:\n{json.dumps(got, indent=1)}\nfor\n{json.dumps(wanted(name), indent=1)}")
    print(right, wrong)


if __name__ == "__main__":
    main(*sys.argv[1:])
