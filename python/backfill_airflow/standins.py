"""Modules named `airflow..` in the place of Airflow's, and one named `pendulum` where it isn't installed."""

from __future__ import annotations

import os
import sys
import types
from importlib import import_module

from .errors import Refused
from .import_paths import TABLE
from .reading import where
from .unknown import MissingValue, Unknown, unknown, unknown_words

TYPE_CHECKING = False
if TYPE_CHECKING:
    from typing import Any, Dict, List

__all__ = ["REPLACED", "TABLE", "MissingValue", "Unknown", "install", "unknown_words"]

VERSION = "2.10.5+backfill"
# Classes of the modules that --with names, which stand for those that aren't here.
REPLACED: Dict[str, Any] = {}
ModuleSpec: Any = type(sys.__spec__)


class StandIn(types.ModuleType):
    """A module of Airflow, whose names are found when they are asked for."""

    def __getattr__(self, name: str) -> Any:
        if name in ("__version__", "version") and self.__name__ in ("airflow", "airflow.version"):
            return VERSION
        if name == "__all__":
            return _names_in(self.__name__)
        if name.startswith("__"):
            raise AttributeError(name)
        found = _find(self.__name__, name)
        setattr(self, name, found)
        return found


def _names_in(module: str) -> List[str]:
    """What `from MODULE import *` takes."""
    if module not in TABLE:
        raise Refused(f"from {module} import *: which names that has isn't known here", "import them by name", where=where())
    return sorted(TABLE[module])


def _find(module: str, name: str) -> Any:
    place = TABLE.get(module, {}).get(name)
    path = f"{module}.{name}"
    if place is not None:
        home, _, there = place.partition(":")
        return getattr(import_module(home, __package__), there)
    if path in TABLE:
        return import_module(path)
    return REPLACED.get(path) or REPLACED.get(name) or unknown(path)


class Finder:
    """Finds stand-ins before anything else is asked, so that they stand before an installed Airflow, too."""

    def find_spec(self, fullname: str, path: Any = None, target: Any = None) -> Any:
        if fullname == "airflow.sdk" or fullname.startswith("airflow.sdk."):
            instead = "import from airflow, airflow.decorators and airflow.models, as in Airflow 2"
            raise Refused("airflow.sdk is of Airflow 3, and backfill_airflow knows Airflow 2", instead, where=where())
        if fullname == "airflow" or fullname.startswith("airflow."):
            return ModuleSpec(fullname, self, is_package=True)
        if fullname == "pendulum" and not _has_pendulum():
            return ModuleSpec(fullname, self, is_package=True)
        return None

    def create_module(self, spec: Any) -> Any:
        if spec.name == "pendulum":
            from .pendulum_standin import make_modules

            return make_modules()
        return StandIn(spec.name)

    def exec_module(self, module: Any) -> None:
        """Leaves the module as it was created."""


def _has_pendulum() -> bool:
    if os.environ.get("BACKFILL_AIRFLOW_PENDULUM") == "light":
        return False
    finders = [each for each in sys.meta_path if not isinstance(each, Finder)]
    return any(each.find_spec("pendulum", None) for each in finders)


def install() -> None:
    """Puts the finder before all others."""
    if not any(isinstance(each, Finder) for each in sys.meta_path):
        sys.meta_path.insert(0, Finder())
