"""Templates of which nothing takes Jinja: names, attributes and calls with constants, as most are.

Jinja takes 100 ms to import, and this none. What Python's own syntax tree doesn't show to be as plain as that is left to Jinja.
"""

from __future__ import annotations

TYPE_CHECKING = False
if TYPE_CHECKING:
    from typing import Any, List, Mapping, Optional, Tuple

# What gives a syntax tree in place of code: ast.PyCF_ONLY_AST.
ONLY_TREE = 0x400


class _NotPlain(Exception):
    pass


def without_marks(text: str) -> str:
    """What Jinja makes of a text without marks: line feeds alone, and one fewer at the end."""
    text = text.replace("\r\n", "\n").replace("\r", "\n")
    return text[:-1] if text.endswith("\n") else text


def plain_text(text: str, scope: Mapping[str, Any]) -> Optional[str]:
    """What Jinja makes of a template over a scope, or None where that takes Jinja."""
    pieces = _pieces(text)
    if pieces is None:
        return None
    made = [pieces[0]]
    try:
        for tree, after in pieces[1]:
            made += [str(_value(tree, scope)), after]
    except _NotPlain:
        return None
    return "".join(made)


def trees_of(text: str) -> Optional[List[Any]]:
    """The syntax trees (of `ast`) of a template's expressions, or None where that takes Jinja, whatever the scope is."""
    pieces = _pieces(text)
    trees = None if pieces is None else [tree for tree, _ in pieces[1]]
    return trees if trees is not None and all(map(_is_plain, trees)) else None


def _pieces(text: str) -> Optional[Tuple[str, List[Tuple[Any, str]]]]:
    """The text before the first expression, and each expression's syntax tree with the text behind it."""
    if any(mark in text for mark in ("{%", "{#", "-}}", "{{-", "{{+")):
        return None
    first, *rest = without_marks(text).split("{{")
    made = []
    for each in rest:
        inner, end, after = each.partition("}}")
        if not end or "}}" in after or not _is_of_both_languages(inner):
            return None
        try:
            tree: Any = compile(inner.strip(), "<template>", "eval", ONLY_TREE)
        except SyntaxError:
            return None
        made.append((tree.body, after))
    return first, made


def _is_of_both_languages(inner: str) -> bool:
    """Whether an expression has no texts or comments that Python and Jinja read otherwise."""
    if "\\" in inner or "#" in inner or "'" in inner and '"' in inner:
        return False
    opening = [place for place, mark in enumerate(inner) if mark in "'\""][::2]
    return not any(inner[place - 1 : place].isalnum() for place in opening)


def _value(node: Any, scope: Mapping[str, Any]) -> Any:
    kind = type(node).__name__
    if kind == "Constant" and type(node.value) in (str, int):
        return node.value
    if kind == "UnaryOp" and type(node.op).__name__ == "USub" and type(getattr(node.operand, "value", None)) is int:
        return -node.operand.value
    if kind == "Name" and node.id in scope:
        return scope[node.id]
    if kind == "Attribute" and not node.attr.startswith("_"):
        return _attribute(_value(node.value, scope), node.attr)
    if kind == "Call" and all(each.arg for each in node.keywords):
        function = _value(node.func, scope)
        keywords = {each.arg: _value(each.value, scope) for each in node.keywords}
        return function(*(_value(each, scope) for each in node.args), **keywords)
    raise _NotPlain


def _attribute(value: Any, name: str) -> Any:
    """As Jinja looks it up: an attribute, else a member of a dict."""
    try:
        return getattr(value, name)
    except AttributeError:
        if isinstance(value, dict) and type(value).__getitem__ is dict.__getitem__ and name in value:
            return value[name]
        raise _NotPlain from None


def _is_plain(node: Any) -> bool:
    """Whether `_value` reads an expression where its names are there."""
    kind = type(node).__name__
    if kind == "Attribute":
        return not node.attr.startswith("_") and _is_plain(node.value)
    if kind == "Call":
        return all(each.arg for each in node.keywords) and all(map(_is_plain, [node.func, *node.args, *(each.value for each in node.keywords)]))
    return kind == "Name" or kind == "Constant" and type(node.value) in (str, int) or kind == "UnaryOp" and _is_plain(node.operand)
