"""What an expression of a function's source comes to, where that is known before it runs."""

from __future__ import annotations

import ast
from typing import Any, Dict, List, NamedTuple, Sequence

# How many values of a name, as by loops in one another, are looked at.
MOST_CHOICES = 200
FUNCTIONS = ("enumerate", "len", "list", "range", "sorted", "str", "tuple", "zip")
METHODS = ("format", "items", "keys", "lower", "replace", "split", "strip", "upper", "values")


class Unknown:
    """What isn't known before a try."""

    def __repr__(self) -> str:
        return "?"


UNKNOWN = Unknown()


class Several(List[Any]):
    """The values that an expression comes to in turn."""


class Bindings(NamedTuple):
    """What a function's own names stand for: the iterables of its loops, and the values of its assignments, by name."""

    loops: Dict[str, List[ast.expr]]
    assigned: Dict[str, List[ast.expr]]


def bindings_in(tree: ast.AST) -> Bindings:
    """The bindings of single names in a function."""
    made = Bindings({}, {})
    for node in ast.walk(tree):
        if isinstance(node, (ast.For, ast.comprehension)) and isinstance(node.target, ast.Name):
            made.loops.setdefault(node.target.id, []).append(node.iter)
        if isinstance(node, ast.Assign) and len(node.targets) == 1 and isinstance(node.targets[0], ast.Name):
            made.assigned.setdefault(node.targets[0].id, []).append(node.value)
    return made


def value_of(node: ast.expr, values: Dict[str, Any], bindings: Bindings) -> Any:
    """The value of an expression over the values of names: Several where a loop or several assignments give it more than one, else UNKNOWN."""
    choices = [values]
    for name in sorted(set(_names_in(node)) - set(_bound_in(node))):
        if name in bindings.loops:
            choices = [{**each, name: item} for each in choices for many in bindings.loops[name] for item in _items(_evaluated(many, each))]
        elif name in bindings.assigned:
            choices = [{**each, name: _evaluated(one, each)} for each in choices for one in bindings.assigned[name]]
    if not 0 < len(choices) <= MOST_CHOICES:
        return UNKNOWN
    made = [_evaluated(node, choice) for choice in choices]
    if any(each is UNKNOWN for each in made):
        return UNKNOWN
    return made[0] if len(made) == 1 else Several(made)


def _names_in(node: ast.AST) -> Sequence[str]:
    return [each.id for each in ast.walk(node) if isinstance(each, ast.Name)]


def _bound_in(node: ast.AST) -> Sequence[str]:
    """The names that comprehensions within an expression bind."""
    targets = [each.target for each in ast.walk(node) if isinstance(each, ast.comprehension)]
    return [name for target in targets for name in _names_in(target)]


def _items(value: Any) -> List[Any]:
    try:
        return [UNKNOWN] if value is UNKNOWN else list(value)
    except TypeError:
        return [UNKNOWN]


def _evaluated(node: ast.expr, values: Dict[str, Any]) -> Any:
    """The value of an expression that calls nothing but what changes nothing."""
    if any(values.get(name) is UNKNOWN for name in _names_in(node)):
        return UNKNOWN
    if not all(_is_harmless(each) for each in ast.walk(node)):
        return UNKNOWN
    try:
        return eval(compile(ast.Expression(node), "<xcom_pull>", "eval"), dict(values))
    except Exception:
        return UNKNOWN


def _is_harmless(node: ast.AST) -> bool:
    if isinstance(node, ast.Call):
        function = node.func
        return isinstance(function, ast.Name) and function.id in FUNCTIONS or isinstance(function, ast.Attribute) and function.attr in METHODS
    return not isinstance(node, (ast.Await, ast.Yield, ast.YieldFrom, ast.NamedExpr, ast.Lambda))
