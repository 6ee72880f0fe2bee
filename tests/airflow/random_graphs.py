#!/usr/bin/env python3
"""Random DAG files with short circuits, branches and expanded tasks: random_graphs.py PROGRAM WORK COUNT [SEED]

Of each file the graph is made, and run by `backfill dry` over 24 days in which the tries end by chance. What each task comes to is compared with
Airflow's rules: a short circuit that stops skips all below it whatever their rules, a task that is expanded over a list of the file has that many
instances, and no task that the package made up counts. What is refused is no row, but a tenth at least has to be made. The last line has how
many runs were right, and how many wrong.
"""
from __future__ import annotations

import json
import pathlib
import random
import subprocess
import sys
from typing import Any, Dict, List, Optional, Set, Tuple

import forking

WAITING = "all_success all_failed all_done all_skipped none_failed none_failed_min_one_success none_skipped".split()
RULES = [*WAITING, "one_success", "one_failed", "one_done", "always"]
USUAL = ["all_success", "none_failed", "all_done", "none_failed_min_one_success"]
SUCCESS, FAILED, SKIPPED, UPSTREAM_FAILED = "success", "failed", "skipped", "upstream_failed"
DAYS = 24
HEAD = """from datetime import datetime
from airflow import DAG
from airflow.operators.python import BranchPythonOperator, PythonOperator, ShortCircuitOperator

with DAG("d", start_date=datetime(2024, 1, 1), schedule="@daily"):
"""


def verdict(rule: str, ups: List[str]) -> str:
    """What becomes of a task by its rule, over the states of all instances above it."""
    count = len(ups)
    good, failed, above, skipped = (ups.count(state) for state in (SUCCESS, FAILED, UPSTREAM_FAILED, SKIPPED))
    bad = failed + above
    if not count or rule in ("all_done", "always"):
        return "run"
    return {
        "all_success": UPSTREAM_FAILED if bad else SKIPPED if skipped else "run",
        "all_failed": "run" if bad == count else SKIPPED,
        "all_skipped": "run" if skipped == count else SKIPPED,
        "one_success": "run" if good else SKIPPED if skipped == count else UPSTREAM_FAILED,
        "one_failed": "run" if bad else SKIPPED,
        "one_done": "run" if good + failed else SKIPPED,
        "none_failed": UPSTREAM_FAILED if bad else "run",
        "none_failed_min_one_success": UPSTREAM_FAILED if bad else "run" if good else SKIPPED,
        "none_skipped": SKIPPED if skipped else "run",
    }[rule]


class Task:
    """A task of a random DAG."""

    def __init__(self, number: int, chance: random.Random) -> None:
        self.id = f"t{number}"
        self.rule = chance.choice(RULES if chance.random() < 0.4 else USUAL)
        self.kind = chance.choices(["plain", "circuit", "soft circuit", "branch", "literal", "over", "two"], [8, 3, 1, 1, 2, 1, 2])[0]
        self.ups: List[Task] = []
        self.over: Optional[Task] = None
        self.literal = chance.randrange(4)

    @property
    def is_expanded(self) -> bool:
        return self.kind in ("literal", "over", "two")

    def line(self) -> str:
        name = f"task_id={self.id!r}, trigger_rule={self.rule!r}, python_callable=len"
        of = f"{self.over.id}.output" if self.over else ""
        return f"    {self.id} = " + {
            "plain": f"PythonOperator({name})",
            "circuit": f"ShortCircuitOperator({name})",
            "soft circuit": f"ShortCircuitOperator({name}, ignore_downstream_trigger_rules=False)",
            "branch": f"BranchPythonOperator({name})",
            "literal": f"PythonOperator.partial({name}).expand(op_args={[[each] for each in range(self.literal)]})",
            "over": f"PythonOperator.partial({name}).expand(op_args={of})",
            "two": f"PythonOperator.partial({name}).expand(op_args={of}, op_kwargs=[{{}}, {{}}])",
        }[self.kind]


class Dag:
    """A random DAG, with what comes of it by chance."""

    def __init__(self, chance: random.Random) -> None:
        self.chance = chance
        self.tasks: List[Task] = []
        for number in range(chance.randrange(4, 8)):
            task = Task(number, chance)
            lists = [other for other in self.tasks if other.kind == "plain"]
            if task.kind in ("over", "two"):
                if not lists:
                    task.kind = "plain"
                else:
                    task.over = chance.choice(lists)
            task.ups = [other for other in self.tasks if other is task.over or chance.random() < 0.45]
            self.tasks.append(task)
        self.table: List[Dict[str, Any]] = []

    def text(self) -> str:
        edges = [f"    [{', '.join(up.id for up in task.ups)}] >> {task.id}" for task in self.tasks if task.ups]
        return "\n".join([HEAD, *(task.line() for task in self.tasks), *edges, ""])

    def direct(self, task: Task) -> List[Task]:
        return [other for other in self.tasks if task in other.ups]

    def below(self, task: Task) -> Set[str]:
        found: Set[str] = set()
        for other in self.direct(task):
            found |= {other.id} | self.below(other)
        return found

    def day(self, run: str) -> Dict[str, List[str]]:
        """The states of the instances of each task on a day, and the answers that bring them about."""
        states: Dict[str, List[str]] = {}
        lists: Dict[str, int] = {}
        cut: Set[str] = set()
        for task in self.tasks:
            if task.is_expanded:
                self.answer_items(task, run, lists)
            decided = SKIPPED if task.id in cut else verdict(task.rule, [state for up in task.ups for state in states[up.id]])
            items = self.items(task, lists) if decided == "run" else None
            if decided != "run":
                states[task.id] = [decided]
            elif not task.is_expanded:
                states[task.id] = [self.answer(task, run, -1, lists, cut)]
            elif items is None:
                # (without a list there is nothing to expand over: as Airflow's dependency on mapped upstreams decides)
                states[task.id] = [SKIPPED if task.over is not None and states[task.over.id] == [SKIPPED] else UPSTREAM_FAILED]
            else:
                states[task.id] = [self.answer(task, run, index, lists, cut) for index in range(items)] or [SKIPPED]
        return states

    def items(self, task: Task, lists: Dict[str, int]) -> Optional[int]:
        if task.over is None:
            return task.literal
        found = lists.get(task.over.id)
        return found if found is None or task.kind == "over" else 2 * found

    def answer_items(self, task: Task, run: str, lists: Dict[str, int]) -> None:
        """What the task pushes that the package makes up, should there be one."""
        out = json.dumps(list(range(self.items(task, lists) or 0)))
        self.table.append({"task": f"{task.id}.items", "run": run, "out": out})

    def answer(self, task: Task, run: str, index: int, lists: Dict[str, int], cut: Set[str]) -> str:
        """Ends a try by chance: its state, what it pushes, and what it cuts off."""
        state = self.chance.choice([SUCCESS, SUCCESS, SUCCESS, FAILED, SKIPPED])
        out = ""
        direct = [other.id for other in self.direct(task)]
        if task.kind in ("circuit", "soft circuit"):
            goes_on = self.chance.random() < 0.5
            out = json.dumps(direct if goes_on else [])
            if state == SUCCESS and not goes_on:
                cut |= self.below(task) if task.kind == "circuit" else set(direct)
        elif task.kind == "branch":
            named = [each for each in direct if self.chance.random() < 0.5]
            out = json.dumps(named)
            if state == SUCCESS:
                followed = {each for other in self.tasks if other.id in named for each in [other.id, *self.below(other)]}
                cut |= set(direct) - followed
        elif not task.is_expanded:
            length = self.chance.randrange(4)
            out = json.dumps([[each] for each in range(length)])
            if state == SUCCESS:
                lists[task.id] = length
        self.table.append({"task": task.id, "run": run, "index": index, "status": {SUCCESS: 0, FAILED: 1, SKIPPED: 99}[state], "out": out})
        return state


def states_of(report: str) -> Dict[str, Dict[str, List[str]]]:
    found: Dict[str, Dict[str, List[str]]] = {}
    for line in report.split("\n")[:-1]:
        words = line.split(" ")
        if words[0] == "@run":
            run = found.setdefault(words[1], {})
        elif words[0].startswith("t") and not words[0].endswith(".items"):
            run.setdefault(words[0], []).append(words[2])
    return found


def compare(program: str, work: pathlib.Path, chance: random.Random) -> Optional[Tuple[int, List[str]]]:
    """The runs that are right, and what is wrong; nothing where the DAG is refused."""
    dag = Dag(chance)
    text = dag.text()
    (work / "d.py").write_text(text, encoding="utf-8")
    status, graph, said = forking.call(["graph", "d.py"], str(work))
    if status == 2 and "refused: d.py:" in said and "the DAG file fails" not in said:
        return None
    if status != 0:
        return 0, [f"status {status}: {said}\n{text}"]
    runs = [f"2024-01-{day:02}T00:00:00Z" for day in range(1, DAYS + 1)]
    wanted = {run: dag.day(run) for run in runs}
    (work / "graph.json").write_text(graph, encoding="utf-8")
    (work / "table.json").write_text(json.dumps(dag.table), encoding="utf-8")
    dry = [program, "dry", str(work / "graph.json"), str(work / "table.json"), "--from", runs[0], "--to", runs[-1]]
    report = subprocess.run(dry, capture_output=True, text=True)
    got = states_of(report.stdout)
    wrong = [
        f"{run} {name}: {got.get(run, {}).get(name)} for {states} {report.stderr}\n{text}"
        for run in runs
        for name, states in wanted[run].items()
        if got.get(run, {}).get(name) != states
    ]
    return DAYS - len({each.split(" ")[0] for each in wrong}), wrong


def main(program: str, folder: str, count: str, seed: str = "1") -> None:
    work = pathlib.Path(folder) / "random_graphs"
    work.mkdir(parents=True, exist_ok=True)
    chance = random.Random(int(seed))
    made = right = wrong = 0
    for _ in range(int(count)):
        found = compare(program, work, chance)
        if found is not None:
            made += 1
            right += found[0]
            wrong += bool(found[1])
            for words in found[1][:1]:
                if wrong < 4:
                    print(f"differs: {words}")
    print(f"{made} of {count} graphs made")
    if made < int(count) / 10:
        wrong += 1
        print(f"differs: of {count} DAG files {made} alone made a graph")
    print(right, wrong)


if __name__ == "__main__":
    main(*sys.argv[1:])
