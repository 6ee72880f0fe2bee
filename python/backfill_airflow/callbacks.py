"""The callbacks of a task, called within its tries."""

from __future__ import annotations

TYPE_CHECKING = False
if TYPE_CHECKING:
    from typing import Any


def call_back(task: Any, context: Any, name: str) -> None:
    """Calls the callbacks of a name (execute, success, failure, retry or skipped) in turn. What one raises is told, and changes nothing."""
    found = getattr(task, f"on_{name}_callback", None)
    for function in found if isinstance(found, (list, tuple)) else [found]:
        # (what isn't in this package was noted when the graph was made)
        if function is None or hasattr(function, "origin"):
            continue
        try:
            function(context)
        except Exception as error:
            from .logs import log_line
            from .tracebacks import print_error

            log_line("taskinstance.py", 0, "ERROR", f"Error when executing on_{name}_callback")
            print_error(error)
