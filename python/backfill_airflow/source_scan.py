"""From which tasks a function pulls, and what it takes that isn't here: by its source, and that of the functions that it names."""

from __future__ import annotations

import ast
import functools
import inspect
import os
import types
from typing import TYPE_CHECKING, Any, Dict, Iterable, List, Sequence, Set

from .known_values import bindings_in, value_of
from .standins import REPLACED, TABLE, MissingValue, Unknown, unknown_words

if TYPE_CHECKING:
    from .pulls import Scan

PULL_ARGUMENTS = ("task_ids", "dag_id", "key", "include_prior_dates")
# Exceptions that mean less here than in Airflow, which notes speak of.
NOTED_EXCEPTIONS = ("AirflowFailException", "AirflowSensorTimeout")
OWN_FOLDER = os.path.dirname(os.path.abspath(__file__))


class SourceScan:
    """Looks through the functions of a task, each once."""

    def __init__(self, scan: Scan, call_kwargs: Dict[str, Any], folders: Sequence[str]) -> None:
        self.scan, self.call_kwargs, self.folders = scan, call_kwargs, folders
        self._seen: Set[Any] = set()

    def function(self, thing: Any) -> None:
        """Looks through a function or callable of the user's, and what it names."""
        function = plain_function(thing)
        code = getattr(function, "__code__", None)
        if code is None or code in self._seen or not self._is_own(code.co_filename):
            return
        self._seen.add(code)
        scope = scope_of(function)
        values = {"self": self.scan.task, **scope, **self.call_kwargs}
        for node in functions_at(code.co_filename, code.co_firstlineno):
            _FunctionScan(self, values, code.co_filename).look(node)
        for name in sorted(names_of(code)):
            self.named(scope.get(name))

    def named(self, value: Any) -> None:
        """Looks at what a name in a function, or a member of a module there, stands for."""
        if isinstance(value, (Unknown, MissingValue)):
            refuse_unknown(self.scan, value.origin)
        elif callable(value) and not isinstance(value, type):
            self.function(value)

    def _is_own(self, path: str) -> bool:
        """Whether a file is one of the DAG's, and not of Python or a package."""
        absolute = os.path.abspath(path)
        if "site-packages" in path or "dist-packages" in path or os.path.dirname(absolute) == OWN_FOLDER:
            return False
        return os.path.isfile(path) and any(absolute.startswith(folder.rstrip(os.sep) + os.sep) for folder in self.folders)


class _FunctionScan:
    """Looks through the syntax tree of one function."""

    def __init__(self, source: SourceScan, values: Dict[str, Any], path: str) -> None:
        self.source, self.scan, self.values, self.path = source, source.scan, values, path

    def look(self, tree: ast.AST) -> None:
        self.bindings = bindings_in(tree)
        for node in ast.walk(tree):
            at = f"{self.path}:{getattr(node, 'lineno', 0)}"
            if isinstance(node, ast.Call) and isinstance(node.func, ast.Attribute):
                self._call(node, node.func, at)
            elif isinstance(node, ast.Attribute):
                self._attribute(node, at)
            elif isinstance(node, ast.Name) and node.id in NOTED_EXCEPTIONS:
                self.scan.exceptions.add(node.id)
            elif isinstance(node, (ast.Import, ast.ImportFrom)):
                self._import(node, at)
            elif isinstance(node, ast.arg):
                self.scan.variable(node.arg, node.arg, at)
            elif isinstance(node, ast.Constant) and isinstance(node.value, str):
                self.scan.variable(node.value, node.value, at)

    def _call(self, node: ast.Call, function: ast.Attribute, at: str) -> None:
        if function.attr == "xcom_push" and self.scan.task.operator_kind != "program":
            instead = "push it in a task before this one"
            self.scan.refuse("xcom_push in a branch or short circuit, whose value is what it follows", instead, at)
        if function.attr != "xcom_pull":
            return
        arguments = list(node.args)
        # (an operator's own method takes the context first)
        if isinstance(function.value, ast.Name) and function.value.id == "self" and arguments:
            arguments = arguments[1:]
        given = {keyword.arg: keyword.value for keyword in node.keywords if keyword.arg}
        given.update(zip(PULL_ARGUMENTS, arguments))
        self.scan.pull({name: value_of(each, self.values, self.bindings) for name, each in given.items()}, "xcom_pull", at)

    def _member(self, node: ast.expr) -> Any:
        """What `module.name` stands for, or the module of a name; None for anything else."""
        if isinstance(node, ast.Name):
            return self.values.get(node.id)
        owner = self._member(node.value) if isinstance(node, ast.Attribute) else None
        return vars(owner).get(node.attr) if isinstance(node, ast.Attribute) and isinstance(owner, types.ModuleType) else None

    def _attribute(self, node: ast.Attribute, at: str) -> None:
        self.source.named(self._member(node))
        if node.attr in NOTED_EXCEPTIONS:
            self.scan.exceptions.add(node.attr)
        owner = node.value.id if isinstance(node.value, ast.Name) else ""
        if owner == "XCom" and node.attr.startswith("get_"):
            self.scan.refuse(f"XCom.{node.attr}: there is no database of XComs", "ti.xcom_pull(task_ids=..)", at)
        if owner == "Variable" and node.attr in ("set", "update", "delete"):
            self.scan.refuse(f"Variable.{node.attr}: there is no database of Variables", "write a file, or push a value", at)

    def _import(self, node: Any, at: str) -> None:
        """Refuses to import within a function what isn't here."""
        module = node.module if isinstance(node, ast.ImportFrom) else None
        for alias in node.names:
            path = f"{module}.{alias.name}" if module else alias.name
            folder, _, name = path.rpartition(".")
            if path.startswith("airflow.") and path not in TABLE and name not in TABLE.get(folder, {}) and name not in REPLACED:
                refuse_unknown(self.scan, path, at)


def refuse_unknown(scan: Scan, origin: str, where: str = "") -> None:
    """Refuses a name of a package that isn't here."""
    what, instead = unknown_words(origin)
    scan.refuse(what, instead, where)


def plain_function(thing: Any) -> Any:
    """The function behind a partial, a decorator, a method or a callable object."""
    while isinstance(thing, functools.partial):
        thing = thing.func
    thing = inspect.unwrap(thing) if callable(thing) else thing
    thing = getattr(thing, "__func__", thing)
    if thing is not None and not hasattr(thing, "__code__") and not isinstance(thing, type):
        return getattr(type(thing).__call__, "__func__", type(thing).__call__) if callable(thing) else thing
    return thing


@functools.lru_cache(None)
def _functions_by_line(path: str) -> Dict[int, List[ast.AST]]:
    lines: Dict[int, List[ast.AST]] = {}
    with open(path, "rb") as file:
        tree = ast.parse(file.read(), path)
    for node in ast.walk(tree):
        if isinstance(node, (ast.FunctionDef, ast.AsyncFunctionDef)):
            lines.setdefault(min([node.lineno, *(each.lineno for each in node.decorator_list)]), []).append(node)
        elif isinstance(node, ast.Lambda):
            lines.setdefault(node.lineno, []).append(node)
    return lines


def functions_at(path: str, line: int) -> List[ast.AST]:
    """The syntax trees of the functions that begin in a line; of several lambdas all."""
    return _functions_by_line(path).get(line, [])


def names_of(code: Any) -> Set[str]:
    """The global and closure names of a function and those within it."""
    names = {*code.co_names, *code.co_freevars}
    inner: Iterable[Any] = (each for each in code.co_consts if isinstance(each, types.CodeType))
    return names.union(*map(names_of, inner))


def scope_of(function: Any) -> Dict[str, Any]:
    """What the names of a function stand for before it is called: globals, closures and defaults. Its other parameters are unknown."""
    values = dict(getattr(function, "__globals__", {}))
    for name, cell in zip(function.__code__.co_freevars, function.__closure__ or ()):
        try:
            values[name] = cell.cell_contents
        except ValueError:
            pass
    try:
        parameters = inspect.signature(function).parameters
    except (TypeError, ValueError):
        return values
    for name, parameter in parameters.items():
        if parameter.default in (parameter.empty, None):
            values.pop(name, None)
        else:
            values[name] = parameter.default
    return values
