"""Executes a DAG file with stand-ins for Airflow's modules."""

from __future__ import annotations

import os
import sys

from . import standins
from .dag import DAG
from .errors import Refused
from .reading import Reading

TYPE_CHECKING = False
if TYPE_CHECKING:
    from typing import Any, List, Optional, Sequence


def load(path: str, folder: Optional[str] = None, extra: Sequence[str] = ()) -> List[DAG]:
    """The DAGs of a file, in the order in which it makes them. Whatever the file raises goes through.

    `folder` is the DAGs folder, from which the file may import (its own where None is given); `extra` names modules whose classes stand for those that
    aren't here."""
    standins.install()
    Reading.start(path)
    for name in extra or ():
        _add_replacements(name)
    for each in (folder or Reading.folder, *([os.getcwd()] if extra else [])):
        if os.path.abspath(each) not in sys.path:
            sys.path.append(os.path.abspath(each))
    from importlib.machinery import SourceFileLoader

    name = "unusual_prefix_" + os.path.splitext(os.path.basename(path))[0]
    # (the loader keeps the bytecode in __pycache__)
    code: Any = SourceFileLoader(name, path).get_code(name)
    module = type(sys)(name)
    module.__file__ = path
    sys.modules[name] = module
    exec(code, module.__dict__)
    seen = {id(value) for value in list(module.__dict__.values())}
    # (of two DAGs of one id Airflow has the later)
    dags = list({dag.dag_id: dag for dag in Reading.dags if id(dag) in seen or dag.was_opened and dag.auto_register}.values())
    # (in a try a branch alone looks at edges, and settles them itself)
    for dag in () if Reading.trying else dags:
        dag.settle()
    return dags


def _add_replacements(name: str) -> None:
    import importlib

    if os.getcwd() not in sys.path:
        sys.path.append(os.getcwd())
    module = importlib.import_module(name)
    standins.REPLACED.update({key: value for key, value in vars(module).items() if isinstance(value, type) and not key.startswith("_")})


def choose(dags: List[DAG], dag_id: Optional[str], path: str) -> DAG:
    """The DAG of an id, or the only one. Raises Refused where there is none, or more than one."""
    ids = ", ".join(dag.dag_id for dag in dags)
    if not dags:
        for name, line in Reading.decorated:
            if name not in Reading.called:
                raise Refused(f"no DAG: the @dag function {name} is never called", f"a line {name}() at the end of the file", where=line)
        raise Refused("no DAG in this file", "with DAG(..) as dag: or a function with @dag", where=path)
    found = [dag for dag in dags if dag_id in (None, dag.dag_id)]
    if not found:
        raise Refused(f"no DAG {dag_id!r} in this file", f"--dag with one of {ids}", where=path)
    if dag_id is None and len(found) > 1:
        raise Refused(f"{len(found)} DAGs in this file", f"--dag with one of {ids}", where=path)
    return found[0]
