"""Calls `python3 -m backfill_airflow` without starting Python again: in a fork of this process, which has loaded the package."""
from __future__ import annotations

import functools
import importlib
import os
import pkgutil
import sys
import traceback
from typing import Any, Sequence, Tuple


@functools.lru_cache(None)
def _loaded() -> Any:
    """The line, with all modules of the package loaded, so that no fork has to."""
    import backfill_airflow

    for each in pkgutil.iter_modules(backfill_airflow.__path__):
        importlib.import_module(f"backfill_airflow.{each.name}")
    # (files of one size that are written within a second have the same bytecode for Python)
    sys.dont_write_bytecode = True
    return importlib.import_module("backfill_airflow.__main__")


def call(words: Sequence[str], folder: str, work: str = "") -> Tuple[int, str, str]:
    """The status of a call in a folder, what it printed, and what it said on standard error; both go through files of that folder, or of another."""
    line = _loaded()
    paths = [os.path.join(os.path.abspath(work or folder), name) for name in ("stdout", "stderr")]
    sys.stdout.flush()
    process = os.fork()
    if process == 0:
        _child(line, words, folder, paths)
    status = os.waitstatus_to_exitcode(os.waitpid(process, 0)[1])
    texts = []
    for path in paths:
        with open(path, encoding="utf-8", errors="replace") as file:
            texts.append(file.read())
    return status, texts[0], texts[1]


def _child(line: Any, words: Sequence[str], folder: str, paths: Sequence[str]) -> None:
    code = 3
    try:
        for number, path in zip((1, 2), paths):
            os.dup2(os.open(path, os.O_WRONLY | os.O_CREAT | os.O_TRUNC, 0o644), number)
        os.chdir(folder)
        code = line.main(list(words)) or 0
    except SystemExit as error:
        code = error.code if isinstance(error.code, int) else 1 if error.code else 0
    except BaseException:
        traceback.print_exc()
    finally:
        sys.stdout.flush()
        sys.stderr.flush()
        os._exit(code)
