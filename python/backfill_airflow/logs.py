"""Logs on standard error, which read as Airflow's do: `[2024-03-05T00:00:00.000+0000] {bash.py:63} INFO - words`.

`logging` takes 10 ms to import, so it is set up when somebody imports it.
"""

from __future__ import annotations

import sys
import time

TYPE_CHECKING = False
if TYPE_CHECKING:
    from typing import Any

FORMAT = "[%(asctime)s] {%(filename)s:%(lineno)d} %(levelname)s - %(message)s"


def time_text(seconds: float) -> str:
    """A moment in seconds since 1970 by the clock of this machine, with its offset."""
    clock = time.localtime(seconds)
    return f"{time.strftime('%Y-%m-%dT%H:%M:%S', clock)}.{int(seconds * 1000) % 1000:03}{time.strftime('%z', clock)}"


def log_line(file: str, line: int, level: str, words: str) -> None:
    """Writes a line of a log, without `logging`."""
    print(f"[{time_text(time.time())}] {{{file}:{line}}} {level} - {words}", file=sys.stderr, flush=True)


def install() -> None:
    """Sets `logging` up, now if it is imported, else once it is. What the DAG file's basicConfig says then changes nothing, as in Airflow."""
    logging = sys.modules.get("logging")
    if logging is not None:
        _set_up(logging)
    elif not any(isinstance(each, _OnImport) for each in sys.meta_path):
        sys.meta_path.insert(0, _OnImport())


def _set_up(logging: Any) -> None:
    root = logging.getLogger()
    if root.handlers:
        return

    class Formatter(logging.Formatter):  # type: ignore[misc]
        def formatTime(self, record: Any, datefmt: Any = None) -> str:
            return time_text(record.created)

    handler = logging.StreamHandler(sys.stderr)
    handler.setFormatter(Formatter(FORMAT))
    root.addHandler(handler)
    root.setLevel(logging.INFO)


class _OnImport:
    """Finds `logging` for the first who imports it, as the finders behind this one do."""

    def find_spec(self, name: str, path: Any = None, target: Any = None) -> Any:
        if name != "logging":
            return None
        sys.meta_path[:] = [each for each in sys.meta_path if each is not self]
        for finder in sys.meta_path:
            spec: Any = finder.find_spec(name, path, target)
            if spec is not None:
                spec.loader = _SettingUp(spec.loader)
                return spec
        return None


class _SettingUp:
    """A loader that sets `logging` up once it is loaded."""

    def __init__(self, loader: Any) -> None:
        self._loader = loader

    def __getattr__(self, name: str) -> Any:
        return getattr(self._loader, name)

    def create_module(self, spec: Any) -> Any:
        return self._loader.create_module(spec)

    def exec_module(self, module: Any) -> None:
        self._loader.exec_module(module)
        _set_up(module)
