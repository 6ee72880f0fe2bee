#!/usr/bin/env python3
"""How tries end that fail or are ended: ends.py PROGRAM WORK PYTHON

A try that fails ends with 1 and a traceback whose first frame is of the DAG file, at the line that ends/failures.py marks by WHERE. A signal to a try, and
Ctrl-C to all of a backfill, leave no process of ends/signals.py, and call what Airflow calls. The last line has how many rows were right, and how many wrong.
"""
from __future__ import annotations

import os
import pathlib
import re
import signal
import subprocess
import sys
import time
from typing import Dict, List, Tuple

HERE = pathlib.Path(__file__).resolve().parent
DAY = ["2024-01-01T00:00:00Z", "2024-01-02T00:00:00Z", "1", "-1"]
# The last line of what a task that fails says, and whether it fails in the DAG file.
LAST_LINES: Dict[str, str] = {
    "python": "ZeroDivisionError: division by zero",
    "own": "ZeroDivisionError: division by zero",
    "flow": "ValueError: no data",
    "sensor": "ZeroDivisionError: division by zero",
    "macro": "ZeroDivisionError: division by zero",
    "wrong_arguments": "TypeError: below() missing 1 required positional argument: 'number'",
    "bash": "Bash command failed. The command returned a non-zero exit code 3.",
    "undefined": "UndefinedError: 'nowhere' is undefined",
    "exits": "",
}


class Rows:
    def __init__(self) -> None:
        self.right = 0
        self.wrong: List[str] = []

    def row(self, holds: bool, words: str) -> None:
        if holds:
            self.right += 1
        else:
            self.wrong.append(words)


def marked() -> Dict[str, int]:
    lines = (HERE / "ends" / "failures.py").read_text(encoding="utf-8").splitlines()
    return {found[1]: number for number, line in enumerate(lines, 1) if (found := re.search(r"# WHERE (\w+)", line))}


def failures(rows: Rows, python: str) -> None:
    places = marked()
    for task, last in LAST_LINES.items():
        words = [python, "-m", "backfill_airflow", "try", "ends/failures.py", "failures", task, *DAY]
        tried = subprocess.run(words, cwd=HERE, capture_output=True, text=True, timeout=60)
        rows.row(tried.returncode == 1 and tried.stdout == "", f"{task}: status {tried.returncode}, standard output {tried.stdout!r}")
        rows.row(last in tried.stderr, f"{task}: there is no {last!r}:\n{tried.stderr}")
        if task in places:
            _, _, frames = tried.stderr.partition("Traceback (most recent call last):\n")
            first = f'  File "ends/failures.py", line {places[task]}, in '
            rows.row(frames.startswith(first), f"{task}: the first frame isn't {first!r}:\n{tried.stderr}")


def left(path: pathlib.Path) -> List[str]:
    """The processes that wait for a file."""
    return [line for line in subprocess.run(["ps", "-eo", "args="], capture_output=True, text=True).stdout.splitlines() if line == f"tail -f {path}"]


def began(path: pathlib.Path, count: int = 1) -> bool:
    """Waits until a file tells so often that a task has begun."""
    for _ in range(200):
        if path.exists() and path.read_text(errors="replace").count("begun") >= count:
            return True
        time.sleep(0.05)
    return False


def end(rows: Rows, folder: pathlib.Path, words: List[str], number: int, count: int = 1, group: bool = False) -> int:
    """Starts a process, signals it or its group once it has begun, and gives its status."""
    folder.mkdir(parents=True)
    (folder / "ends").symlink_to(HERE / "ends")
    waits_for = folder / "waits_for"
    waits_for.touch()
    environment = {**os.environ, "WAITS_FOR": str(waits_for)}
    with open(folder / "said", "wb") as said:
        process = subprocess.Popen(words, cwd=folder, env=environment, stdout=said, stderr=said, stdin=subprocess.DEVNULL, start_new_session=True)
        rows.row(began(folder / "said", count), f"{words} don't begin: {(folder / 'said').read_text()}")
        (os.killpg if group else os.kill)(process.pid, number)
        try:
            status = process.wait(20)
        except subprocess.TimeoutExpired:
            os.killpg(process.pid, signal.SIGKILL)
            status = 0
    for _ in range(40):
        if not left(waits_for):
            break
        time.sleep(0.05)
    rows.row(not left(waits_for), f"{words[3:]}: {left(waits_for)} go on after signal {number}")
    return status


def signals(rows: Rows, program: str, work: pathlib.Path, python: str) -> None:
    files: Dict[str, Tuple[str, ...]] = {"bash": ("told",), "python": ("told", "cleaned"), "own": ("told", "killed")}
    for task, names in files.items():
        for number in (signal.SIGTERM, signal.SIGINT):
            folder = work / f"{task}.{number}"
            status = end(rows, folder, [python, "-m", "backfill_airflow", "try", "ends/signals.py", "signals", task, *DAY], number)
            rows.row(status not in (0, 99), f"{task}: status {status} after signal {number}")
            for name in names:
                rows.row((folder / name).exists(), f"{task}: {name} isn't there after signal {number}: {(folder / 'said').read_text()}")
    words = [python, "-m", "backfill_airflow", "graph", "ends/signals.py"]
    graph = subprocess.run(words, cwd=HERE, env={**os.environ, "WAITS_FOR": "nothing"}, capture_output=True, text=True).stdout
    (work / "graph.json").write_text(graph, encoding="utf-8")
    words = [program, "run", str(work / "graph.json"), "--on", "2024-01-01", "--workers", "3"]
    end(rows, work / "all", words, signal.SIGINT, 3, group=True)


def main(program: str, work: str, python: str) -> None:
    rows = Rows()
    failures(rows, python)
    signals(rows, program, pathlib.Path(work), python)
    print("\n".join([*(f"differs: {words}" for words in rows.wrong), f"{rows.right} {len(rows.wrong)}"]))


if __name__ == "__main__":
    main(*sys.argv[1:])
