#!/usr/bin/env python3
"""Runs DAG files by the program, and compares their reports with what was written by hand: reports.py PROGRAM WORK PYTHON [NAME..]

NAME.txt of expected/ says how dags/NAME.py is run and what comes of it. Its first lines, each as often as it is wanted:

    dag NAME          the DAG file is that one's; more than one report may be of one file
    graph OPTIONS     options of `python3 -m backfill_airflow graph`
    run OPTIONS       options of `backfill run`: the range and others
    env NAME=VALUE    a variable of the environment, in which $FOLDER is the folder in which it is run, $ROOT the clone
    needs MODULE..    modules, or paths, without which it is left out
    before COMMAND    a line of sh in that folder
    status N          the exit status of `backfill run`; 0 where it isn't said
    note WORDS        a note that `graph` tells begins so
    said TASK WORDS   the standard error of a try of that task has these words
    unsaid TASK WORDS no try of that task has these words there
    gone WORDS        no process with these words goes on afterwards
    file PATH         a file that is there afterwards, with the following lines, which begin with two blanks, in whatever order

Behind them stand the runs, `@run START END STATE`, and their instances, `TASK STATE TRIES VALUE`, or `TASK[INDEX] STATE TRIES VALUE` where the
task is expanded. VALUE is as Python writes it, `-` where nothing is pushed, and keys(..) where a task pushed several keys. A line that begins with
`#` is passed over. The last line has how many rows were right, and how many wrong.
"""
from __future__ import annotations

import concurrent.futures
import os
import pathlib
import shlex
import subprocess
import sys
from typing import Dict, List

import reading

HERE = pathlib.Path(__file__).resolve().parent
KEYS = ("dag", "graph", "run", "env", "needs", "before", "status", "note", "said", "unsaid", "gone", "file")


class Expected:
    """What a file of expected/ says."""

    def __init__(self, path: pathlib.Path) -> None:
        self.lists: Dict[str, List[str]] = {key: [] for key in KEYS}
        self.files: Dict[str, List[str]] = {}
        self.lines: List[str] = []
        for line in path.read_text(encoding="utf-8").splitlines():
            key, _, rest = line.partition(" ")
            if not line.strip() or line.startswith("#"):
                continue
            if line.startswith("  "):
                self.files[self.lists["file"][-1]].append(line[2:])
            elif not self.lines and key in self.lists:
                self.lists[key].append(rest)
                if key == "file":
                    self.files[rest] = []
            else:
                self.lines.append(line)

    def words(self, key: str) -> List[str]:
        return [word for line in self.lists[key] for word in shlex.split(line)]


class Tried:
    """One DAG file: what of it is right, and what differs."""

    def __init__(self, name: str, program: str, work: pathlib.Path, python: str) -> None:
        self.name, self.program, self.python = name, program, python
        self.folder = work / name
        self.expected = Expected(HERE / "expected" / f"{name}.txt")
        self.dag = (self.expected.lists["dag"] or [name])[0]
        self.right = 0
        self.wrong: List[str] = []

    def row(self, holds: bool, words: str) -> None:
        if holds:
            self.right += 1
        else:
            self.wrong.append(f"{self.name}: {words}")

    def filled(self, text: str) -> str:
        return text.replace("$FOLDER", str(self.folder)).replace("$ROOT", str(HERE.parents[1]))

    def call(self, words: List[str]) -> "subprocess.CompletedProcess[str]":
        extra = dict(self.filled(each).split("=", 1) for each in self.expected.lists["env"])
        env = {**os.environ, **extra}
        try:
            return subprocess.run(words, cwd=self.folder, env=env, capture_output=True, text=True, timeout=120, stdin=subprocess.DEVNULL)
        except subprocess.TimeoutExpired:
            return subprocess.CompletedProcess(words, -1, "", "it hangs")

    def run(self) -> "Tried":
        self.folder.mkdir(parents=True)
        for folder in ("dags", "plugins"):
            (self.folder / folder).symlink_to(HERE / folder)
        for line in self.expected.lists["before"]:
            self.call(["sh", "-c", line])
        made = self.call([self.python, "-m", "backfill_airflow", "graph", f"dags/{self.dag}.py", *self.expected.words("graph")])
        self.row(made.returncode == 0, f"no graph is made:\n{made.stderr}")
        if made.returncode != 0:
            return self
        (self.folder / "graph.json").write_text(made.stdout, encoding="utf-8")
        for note in self.expected.lists["note"]:
            self.row(f"\nnote: {note}" in f"\n{made.stderr}", f"there is no note {note!r} in\n{made.stderr}")
        ran = self.call([self.program, "run", "graph.json", *self.expected.words("run"), "--workers", "2", "--logs", "logs"])
        status = int((self.expected.lists["status"] or ["0"])[0])
        self.row(ran.returncode == status, f"status {ran.returncode} for {status}:\n{ran.stderr}")
        self.compare(ran.stdout)
        self.look()
        return self

    def compare(self, report: str) -> None:
        got = {(run, place): what for run, place, what in reading.instances(report)}
        wanted = {(run, place): what for run, place, what in reading.expected_instances(self.expected.lines)}
        for at in [*wanted, *(at for at in got if at not in wanted)]:
            one, other = wanted.get(at), got.get(at)
            self.row(one is not None and reading.same(one, other), f"{at[0]} {at[1][0]} {at[1][1]}: {other} for {one}")

    def look(self) -> None:
        """Files that are left, and logs."""
        for path, lines in self.expected.files.items():
            there = self.folder / path
            text = there.read_text(encoding="utf-8").splitlines() if there.exists() else None
            self.row(text is not None and sorted(text) == sorted(lines), f"{path} has {text} for {lines}")
        for words in self.expected.lists["gone"]:
            left = subprocess.run(["ps", "-eo", "args="], capture_output=True, text=True).stdout.splitlines()
            self.row(self.filled(words) not in left, f"{words} goes on")
        for key in ("said", "unsaid"):
            for line in self.expected.lists[key]:
                task, _, words = line.partition(" ")
                logs = "\n".join(path.read_text(errors="replace") for path in sorted(self.folder.glob(f"logs/dag=*/run=*/task={task}/*.err")))
                self.row((words in logs) == (key == "said"), f"{key} {task} {words!r}:\n{logs}")


def lacks(python: str, name: str) -> List[str]:
    """What a DAG file needs: modules that this Python lacks, and paths that aren't there."""
    needed = Expected(HERE / "expected" / f"{name}.txt").words("needs")
    modules = [each for each in needed if "/" not in each and subprocess.run([python, "-c", f"import {each}"], capture_output=True).returncode != 0]
    return [*modules, *(each for each in needed if "/" in each and not os.path.exists(each))]


def main(program: str, work: str, python: str, *given: str) -> None:
    names = list(given) or sorted(path.stem for path in (HERE / "expected").glob("*.txt"))
    left_out = {name: lacks(python, name) for name in names}
    with concurrent.futures.ThreadPoolExecutor(2) as pool:
        tried = list(pool.map(lambda name: Tried(name, program, pathlib.Path(work), python).run(), [name for name in names if not left_out[name]]))
    for name, modules in left_out.items():
        if modules:
            print(f"skipped: dags/{name}.py, since {python} has no {', '.join(modules)}")
    for each in tried:
        for words in each.wrong:
            print(f"differs: {words}")
    print(sum(each.right for each in tried), sum(len(each.wrong) for each in tried))


if __name__ == "__main__":
    main(*sys.argv[1:])
