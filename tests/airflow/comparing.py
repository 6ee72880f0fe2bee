#!/usr/bin/env python3
"""Tries `compare` with a package in the place of Airflow's, fake/: comparing.py PROGRAM PYTHON

The last line has how many rows were right, and how many wrong.
"""
from __future__ import annotations

import os
import pathlib
import subprocess
import sys
from typing import List

HERE = pathlib.Path(__file__).resolve().parent
SAME = ["the same as in Airflow 2.9.9: 4 tasks, 3 edges, 10 data intervals"]
OTHERWISE = [
    "task d: only here",
    "task b: retries: 2 here, 3 in Airflow",
    "edge a >> c: only in Airflow",
    *(
        f"data interval {day}: 2024-01-{day + 1:02}T00:00:00Z to 2024-01-{day + 2:02}T00:00:00Z here, "
        f"2024-01-{day:02}T01:00:00Z to 2024-01-{day + 1:02}T01:00:00Z in Airflow"
        for day in range(1, 10)
    ),
    "data interval 10: none here, 2024-01-10T01:00:00Z to 2024-01-11T01:00:00Z in Airflow",
]


def main(program: str, python: str) -> None:
    wrong: List[str] = []

    def row(how: str, status: int, lines: List[str], words: str, python_of_airflow: str) -> None:
        line = [python, "-m", "backfill_airflow", "compare", "compared/sales.py", "--pool", "db=2", "--program", program, "--airflow-python", python_of_airflow]
        made = subprocess.run(line, cwd=HERE, env={**os.environ, "FAKE_AIRFLOW": how}, capture_output=True, text=True)
        got = made.stdout.splitlines()
        if made.returncode != status or got != lines or words not in made.stderr:
            wrong.append(f"{how}: status {made.returncode}, {got} for {lines}:\n{made.stderr}")

    with_airflow = str(HERE / "fake" / "python")
    row("alike", 0, SAME, "", with_airflow)
    row("otherwise", 1, OTHERWISE, "", with_airflow)
    row("none", 2, [], "Airflow isn't installed", python)
    print("\n".join([*(f"differs: {words}" for words in wrong), f"{3 - len(wrong)} {len(wrong)}"]))


if __name__ == "__main__":
    main(*sys.argv[1:])
