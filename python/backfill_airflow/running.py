"""The try that is running, and what functions take of its context."""

from __future__ import annotations

from .errors import AirflowException

TYPE_CHECKING = False
if TYPE_CHECKING:
    from typing import Any, Callable, Dict, List, Sequence

# The contexts of the tries that run, the innermost last.
contexts: List[Any] = []

HAS_OTHER_KEYS = 0x08


def get_current_context() -> Any:
    """The context of the try that runs. Raises an AirflowException outside of one."""
    if not contexts:
        raise AirflowException("Current context was requested but no context was found! Are you running within an airflow task?")
    return contexts[-1]


def call_with_context(task: Any, context: Any) -> Any:
    """Calls the `python_callable` of a task with its arguments and what it takes of the context, into which the arguments are put."""
    context["templates_dict"] = getattr(task, "templates_dict", None)
    arguments = arguments_for(task.python_callable, task.op_args, task.op_kwargs, context)
    context.update(task.op_kwargs)
    return task.python_callable(*task.op_args, **arguments)


def arguments_for(function: Callable[..., Any], args: Sequence[Any], given: Dict[str, Any], context: Any) -> Dict[str, Any]:
    """The arguments by name of a call with these others by place: what the function names of the given ones and the context, or all where it takes any.

    Raises a ValueError where an argument by place has a name of the context, as Airflow does."""
    names, by_place, takes_all = _parameters(function, len(args))
    for name in by_place:
        if name in given or name in context:
            raise ValueError(f"The key {name!r} in args is a part of kwargs and therefore reserved.")
    if takes_all:
        return {**context.everything(), **given}
    return {name: given[name] if name in given else context[name] for name in names if name in given or name in context}


def _parameters(function: Callable[..., Any], count: int) -> Any:
    """The names of a function's parameters, of those that so many arguments by place are for, and whether it takes any other name."""
    code = getattr(function, "__code__", None)
    if code is None or hasattr(function, "__wrapped__") or hasattr(function, "__signature__"):
        return _parameters_of_signature(function, count)
    first = 1 if getattr(function, "__self__", None) is not None else 0
    names = code.co_varnames[first : code.co_argcount + code.co_kwonlyargcount]
    return names, names[: min(count, code.co_argcount - first)], bool(code.co_flags & HAS_OTHER_KEYS)


def _parameters_of_signature(function: Callable[..., Any], count: int) -> Any:
    import inspect

    parameters = list(inspect.signature(function).parameters.values())
    named = [each for each in parameters if each.kind in (each.POSITIONAL_ONLY, each.POSITIONAL_OR_KEYWORD, each.KEYWORD_ONLY)]
    by_place = [each.name for each in named if each.kind is not each.KEYWORD_ONLY][:count]
    names = [each.name for each in named if each.kind is not each.POSITIONAL_ONLY]
    return names, by_place, any(each.kind is each.VAR_KEYWORD for each in parameters)
