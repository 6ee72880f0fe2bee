#!/usr/bin/env python3
"""Random DAG files with setups and teardowns: random_teardowns.py PROGRAM WORK COUNT [SEED]

As random_graphs.py, by Airflow's rules for these: a teardown waits for all that stands before it, and is skipped where all setups right before it were,
else upstream_failed where none succeeded; a setup further up holds a task back whose teardown stands below it; and the state of a run passes over
teardowns. The last line has how many runs were right, and how many wrong.
"""
from __future__ import annotations

import json
import pathlib
import random
import subprocess
import sys
from typing import Any, Dict, List, Optional, Set, Tuple

import forking
from random_graphs import DAYS, FAILED, RULES, SKIPPED, SUCCESS, UPSTREAM_FAILED, states_of, verdict

HEAD = """from datetime import datetime
from airflow import DAG
from airflow.operators.python import PythonOperator

with DAG("d", start_date=datetime(2024, 1, 1), schedule="@daily"):
"""


class Dag:
    """A random DAG: of each task its kind, its rule, what stands above it, and whether it fails the run where it is a teardown."""

    def __init__(self, chance: random.Random) -> None:
        self.chance = chance
        self.kinds: Dict[str, str] = {}
        self.rules: Dict[str, str] = {}
        self.ups: Dict[str, List[str]] = {}
        self.counts: Dict[str, bool] = {}
        for number in range(chance.randrange(3, 8)):
            name = f"t{number}"
            self.ups[name] = [other for other in self.kinds if chance.random() < 0.5]
            self.kinds[name] = chance.choice(["setup", "teardown", "work", "work", "work"])
            self.rules[name] = chance.choice(RULES) if self.kinds[name] != "teardown" and chance.random() < 0.2 else "all_success"
            self.counts[name] = self.kinds[name] != "teardown" or chance.random() < 0.3
        self.table: List[Dict[str, Any]] = []

    def text(self) -> str:
        lines = [f"    {name} = PythonOperator(task_id={name!r}, python_callable=len, trigger_rule={self.rules[name]!r})" for name in self.kinds]
        for name, kind in self.kinds.items():
            lines += [f"    {name}.as_setup()"] if kind == "setup" else []
        for name, kind in self.kinds.items():
            lines += [f"    {name}.as_teardown(on_failure_fail_dagrun={self.counts[name]})"] if kind == "teardown" else []
        lines += [f"    [{', '.join(ups)}] >> {name}" for name, ups in self.ups.items() if ups]
        return "\n".join([HEAD, *lines, ""])

    def downs(self, name: str) -> Set[str]:
        return {other for other, ups in self.ups.items() if name in ups}

    def below(self, name: str) -> Set[str]:
        found = self.downs(name)
        return found.union(*(self.below(other) for other in found))

    def above(self, name: str) -> Set[str]:
        return set(self.ups[name]).union(*(self.above(other) for other in self.ups[name]))

    def held_by(self, name: str) -> List[str]:
        """The setups further up than right before a task that hold it back."""
        found = []
        for other in self.above(name):
            if self.kinds[other] == "setup" and other not in self.ups[name]:
                teardowns = {each for each in self.downs(other) if self.kinds[each] == "teardown"}
                if not teardowns or teardowns & self.below(name):
                    found.append(other)
        return found

    def decided(self, name: str, states: Dict[str, str]) -> str:
        if self.kinds[name] == "teardown":
            setups = [states[up] for up in self.ups[name] if self.kinds[up] == "setup"]
            if not setups or SUCCESS in setups:
                return "run"
            return SKIPPED if set(setups) == {SKIPPED} else UPSTREAM_FAILED
        held = {states[other] for other in self.held_by(name)}
        if held & {FAILED, UPSTREAM_FAILED}:
            return UPSTREAM_FAILED
        return SKIPPED if SKIPPED in held else verdict(self.rules[name], [states[up] for up in self.ups[name]])

    def day(self, run: str) -> Dict[str, str]:
        """The state of each task on a day, and of the run under `@run`."""
        states: Dict[str, str] = {}
        for name in self.kinds:
            outcome = self.chance.choice([SUCCESS, SUCCESS, SUCCESS, FAILED, SKIPPED])
            self.table.append({"task": name, "run": run, "status": {SUCCESS: 0, FAILED: 1, SKIPPED: 99}[outcome]})
            decided = self.decided(name, states)
            states[name] = outcome if decided == "run" else decided
        ends = [name for name in self.kinds if self.counts[name] and not any(self.counts[other] for other in self.downs(name))]
        ends = ends or [name for name in self.kinds if not self.downs(name)]
        failed = {FAILED, UPSTREAM_FAILED} & {states[name] for name in ends}
        return {**states, "@run": "failed" if failed else "success"}


def compare(program: str, work: pathlib.Path, chance: random.Random) -> Optional[Tuple[int, List[str]]]:
    """The runs that are right, and what is wrong; nothing where the DAG is refused."""
    dag = Dag(chance)
    (work / "d.py").write_text(dag.text(), encoding="utf-8")
    status, graph, said = forking.call(["graph", "d.py"], str(work))
    if status == 2 and "refused: d.py:" in said and "the DAG file fails" not in said:
        return None
    if status != 0:
        return 0, [f"status {status}: {said}\n{dag.text()}"]
    runs = [f"2024-01-{day:02}T00:00:00Z" for day in range(1, DAYS + 1)]
    wanted = {run: dag.day(run) for run in runs}
    (work / "graph.json").write_text(graph, encoding="utf-8")
    (work / "table.json").write_text(json.dumps(dag.table), encoding="utf-8")
    dry = [program, "dry", str(work / "graph.json"), str(work / "table.json"), "--from", runs[0], "--to", runs[-1]]
    report = subprocess.run(dry, capture_output=True, text=True).stdout
    got = {run: {name: states[0] for name, states in found.items()} for run, found in states_of(report).items()}
    for line in report.split("\n"):
        words = line.split(" ")
        if words[0] == "@run":
            got[words[1]]["@run"] = words[3]
    wrong = [
        f"{run} {name}: {got.get(run, {}).get(name)} for {state}\n{dag.text()}"
        for run in runs
        for name, state in wanted[run].items()
        if got.get(run, {}).get(name) != state
    ]
    return DAYS - len({each.split(" ")[0] for each in wrong}), wrong


def main(program: str, folder: str, count: str, seed: str = "1") -> None:
    work = pathlib.Path(folder)
    work.mkdir(parents=True, exist_ok=True)
    chance = random.Random(int(seed))
    found = [each for each in (compare(program, work, chance) for _ in range(int(count))) if each is not None]
    wrong = [words[0] for _, words in found if words]
    if len(found) < int(count) / 10:
        wrong.append(f"of {count} DAG files {len(found)} alone made a graph")
    for words in wrong[:3]:
        print(f"differs: {words}")
    print(f"{len(found)} of {count} graphs made")
    print(sum(right for right, _ in found), len(wrong))


if __name__ == "__main__":
    main(*sys.argv[1:])
