"""The graph file: checked by `backfill_graph`, which refuses what `backfill check` refuses, and written a task a line."""

from __future__ import annotations

import json
import re
from typing import Any, Dict, List

from backfill_graph import LONGEST_TEXT, MOST_EDGES, MOST_TASKS, GraphError, graph_of

from .draft import Draft, GraphTask

__all__ = ["ID", "ID_WORDS", "LONGEST_TEXT", "MOST_EDGES", "MOST_TASKS", "check", "text_of"]

ID = re.compile("[A-Za-z0-9._-]{1,250}")
ID_WORDS = "1 to 250 letters, digits, '-', '.' and '_'"


def check(draft: Draft, head: Dict[str, Any], order: List[GraphTask]) -> None:
    """Refuses what `backfill check` would. The tasks are in an order in which each stands behind those before it."""
    try:
        graph_of({**head, "tasks": [made.to_dict() for made in order]})
    except GraphError as error:
        task = _task_of(error.words, order)
        draft.findings.refuse(f"backfill check refuses the graph: refused {error.number} {error.words}", "see docs/FORMATS.md for this number", task)


def _task_of(words: str, order: List[GraphTask]) -> Any:
    """The task of the DAG of which a refusal speaks, by its place or its id."""
    place = re.search(r"tasks\[([0-9]+)\]", words)
    if place is not None:
        return order[int(place.group(1))].task
    name = words.rpartition(": ")[2].split(" ")[0]
    return next((made.task for made in order if made.id == name), None)


def text_of(head: Dict[str, Any], tasks: List[Dict[str, Any]]) -> str:
    """The text of the graph file, with a line for each task."""
    top = json.dumps(head, ensure_ascii=False, indent=2)[:-2]
    lines = ",\n".join("    " + json.dumps(task, ensure_ascii=False) for task in tasks)
    inner = f"\n{lines}\n  " if lines else ""
    return f'{top},\n  "tasks": [{inner}]\n}}\n'
