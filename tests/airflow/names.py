#!/usr/bin/env python3
"""Imports the names of names.txt by the package's stand-ins, each in the ways in which a DAG file may, and those of its own table. The last line has how
many were right, and how many wrong."""
from __future__ import annotations

import importlib
import pathlib
from typing import Any, Dict, List, Optional, Tuple

from backfill_airflow import standins

NAMES = pathlib.Path(__file__).resolve().parent / "names.txt"


def fault(module: str, name: str, refused: bool) -> Optional[str]:
    """What is wrong with a name of a module."""
    scope: Dict[str, Any] = {}
    try:
        exec(f"from {module} import {name}\nimport {module}", scope)
    except Exception as error:
        return f"{type(error).__name__}: {error}"
    found = scope[name]
    if getattr(importlib.import_module(module), name) is not found:
        return "by another way it is something else"
    if isinstance(found, standins.Unknown) is not refused:
        return "it isn't there" if not refused else "it is there"
    return None


def main() -> None:
    standins.install()
    wanted: List[Tuple[str, str, bool]] = []
    for line in NAMES.read_text(encoding="utf-8").splitlines():
        if not line.startswith("#"):
            *refused, module, names = line.split(": ")
            wanted += [(module, name, bool(refused)) for name in names.split()]
    wanted += [(module, name, False) for module, names in standins.TABLE.items() for name in names]
    faults = [(module, name, fault(module, name, is_refused)) for module, name, is_refused in dict.fromkeys(wanted)]
    wrong = [f"differs: {module}.{name}: {words}" for module, name, words in faults if words]
    print("\n".join([*wrong, f"{len(faults) - len(wrong)} {len(wrong)}"]))


if __name__ == "__main__":
    main()
