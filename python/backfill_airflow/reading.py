"""The DAG file that is being executed."""

from __future__ import annotations

import os
import sys

TYPE_CHECKING = False
if TYPE_CHECKING:
    from typing import Any, Dict, List, Set, Tuple

    from .dag import DAG


class Reading:
    """What is known while a DAG file runs. There is one file in a process, so these are attributes of the class."""

    path = ""
    # The absolute folder of the file, found before the file may change the working directory.
    folder = ""
    dags: List[DAG] = []
    # The DAGs whose `with` blocks are open, the innermost last.
    open_dags: List[DAG] = []
    # Functions with @dag, as name and line, and the names of those that were called.
    decorated: List[Tuple[str, str]] = []
    called: Set[str] = set()
    # In a try the checks that a graph was made by aren't made again.
    trying = False
    # While an instance of an expanded task is made, which stands in the place of that task.
    unmapping = False
    # Reports and journals of other DAGs by dag_id, for sensors that wait for them.
    external: Dict[str, str] = {}

    @classmethod
    def start(cls, path: str) -> None:
        """Forgets the file before, and begins with this one."""
        cls.path, cls.folder = path, os.path.dirname(os.path.abspath(path))
        cls.dags, cls.open_dags, cls.decorated, cls.called = [], [], [], set()


def current_dag() -> Any:
    """The DAG whose `with` block is open, or None."""
    return Reading.open_dags[-1] if Reading.open_dags else None


def where() -> str:
    """The line of the DAG file that is being executed, as `FILE:LINE`, or the file where none is."""
    frame: Any = sys._getframe(1)
    while frame is not None:
        if frame.f_code.co_filename == Reading.path:
            return f"{Reading.path}:{frame.f_lineno}"
        frame = frame.f_back
    return Reading.path


class ParsingContext:
    """What a DAG file may ask to make no other DAG than the one that is run: all are made."""

    dag_id = task_id = None


def get_parsing_context() -> ParsingContext:
    """airflow.utils.dag_parsing_context.get_parsing_context."""
    return ParsingContext()
