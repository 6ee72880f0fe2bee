"""What is told of a DAG that is made into a graph: what is refused, and notes."""

from __future__ import annotations

import sys
from typing import Any, Dict, List

from .errors import Refused

# How many tasks a note names.
NAMED = 3


class Findings:
    """Gathers refusals and notes; a note of several tasks is told once."""

    def __init__(self, where: str) -> None:
        self.where = where
        self.refused: List[Refused] = []
        self._notes: Dict[str, List[str]] = {}

    def refuse(self, what: str, instead: str = "", task: Any = None, where: str = "") -> None:
        """Refuses something of a task, or of the DAG, with what to do instead, in the line of the task or the DAG where no other is given."""
        line = where or (self.where if task is None else task.made_at)
        self.refused.append(Refused(what, instead, "" if task is None else task.task_id, line))

    def note(self, words: str, task: Any = None) -> None:
        """Notes what differs from Airflow."""
        self._notes.setdefault(words, []).extend([] if task is None else [task.task_id])

    def tell_refused(self) -> None:
        """Prints each refusal once, and their number, to standard error."""
        told = dict.fromkeys(map(str, self.refused))
        for words in told:
            print(words, file=sys.stderr)
        print(f"{len(told)} refused; no graph is written", file=sys.stderr)

    def tell_notes(self) -> None:
        """Prints the notes to standard error."""
        for words, tasks in self._notes.items():
            more = f" and {len(tasks) - NAMED} more" if len(tasks) > NAMED else ""
            of_tasks = f" ({', '.join(tasks[:NAMED])}{more})" if tasks else ""
            print(f"note: {words}{of_tasks}", file=sys.stderr)
