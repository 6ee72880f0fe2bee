"""How operators are constructed: the default arguments of the DAG and of groups are given to each constructor that takes them."""

from __future__ import annotations

import functools
from abc import ABCMeta

from .errors import AirflowException
from .reading import current_dag

TYPE_CHECKING = False
if TYPE_CHECKING:
    from typing import Any, Callable, Dict, Tuple

HAS_OTHER_KEYS = 0x08


class MergedDefaults(dict):  # type: ignore[type-arg]
    """Default arguments of DAG, groups and task together."""


def arguments_of(function: Any) -> Tuple[str, ...]:
    """The names of a function's arguments without the first, which is `self`."""
    code = function.__code__
    return tuple(code.co_varnames[1 : code.co_argcount + code.co_kwonlyargcount])


def merged_defaults(arguments: Dict[str, Any]) -> MergedDefaults:
    """The default arguments of a task that is constructed with these arguments."""
    group = arguments.get("task_group")
    dag = arguments.get("dag") or (group.dag if group is not None else current_dag())
    made = MergedDefaults()
    if dag is not None:
        made.update(dag.default_args)
        made.update((group or dag.task_group.innermost()).default_args)
    own = arguments.pop("default_args", None)
    made.update(own or {})
    params = {**made.pop("params", {}), **(arguments.get("params") or {}), **((own or {}).get("params") or {})}
    if params:
        arguments["params"] = params
    return made


def _given_defaults(init: Callable[..., None]) -> Callable[..., None]:
    """A constructor that takes what it isn't given from the default arguments."""
    plain: Any = init
    while not hasattr(plain, "__code__") and hasattr(plain, "__wrapped__"):
        plain = plain.__wrapped__
    names = arguments_of(plain)
    hands_on = bool(plain.__code__.co_flags & HAS_OTHER_KEYS) or "default_args" in names

    @functools.wraps(init)
    def construct(self: Any, *args: Any, **arguments: Any) -> None:
        if args:
            raise AirflowException("Use keyword arguments when initializing operators")
        defaults = arguments.get("default_args")
        if type(defaults) is MergedDefaults:
            del arguments["default_args"]
        else:
            defaults = merged_defaults(arguments)
        if defaults:
            for name in names:
                if name in defaults and name not in arguments and name != "task_id":
                    arguments[name] = defaults[name]
        if hands_on:
            arguments["default_args"] = defaults
        init(self, **arguments)

    vars(construct)["argument_names"] = names
    return construct


class OperatorMeta(ABCMeta):
    """Wraps each constructor of an operator class, and ends the construction of its instances."""

    def __new__(mcs, name: str, bases: Tuple[type, ...], namespace: Dict[str, Any], **keys: Any) -> Any:
        init = namespace.get("__init__")
        if init is not None:
            namespace["__init__"] = _given_defaults(init)
        return super().__new__(mcs, name, bases, namespace, **keys)

    def __call__(cls, *args: Any, **arguments: Any) -> Any:
        task = super().__call__(*args, **arguments)
        task._constructed()
        return task


def takes(operator_class: Any) -> Tuple[str, ...]:
    """All arguments that the constructors of an operator class take."""
    names: Dict[str, None] = {}
    for each in operator_class.__mro__:
        init = each.__dict__.get("__init__")
        if isinstance(each, OperatorMeta) and init is not None:
            names.update(dict.fromkeys(init.argument_names))
    return tuple(names)
