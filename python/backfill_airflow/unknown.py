"""Names of Airflow and its providers that aren't here. Importing them is allowed; using them is refused."""

from __future__ import annotations

from .errors import AirflowException, Refused
from .base_operator import Missing
from .operator_meta import OperatorMeta
from .reading import where

TYPE_CHECKING = False
if TYPE_CHECKING:
    from typing import Any, Tuple


def unknown_words(origin: str, **ids: str) -> Tuple[str, str]:
    """What is said of a name that isn't here, by its path: what it is, and what to do instead, with the ids of `instead_of`."""
    from .instead import instead_of

    name = origin.rsplit(".", 1)[-1]
    general = (
        f"a module of your own that has a class {name} (a BaseOperator with execute(context), or a plain class), given by --with MODULE; "
        "or a BashOperator or @task that does the same"
    )
    if name[:1].islower() and ".providers." not in origin:
        general = "do without it: there is no database or server of Airflow here"
    return f"{origin} isn't in backfill_airflow", instead_of(name, **ids) or general


class Unknown(OperatorMeta):
    """The type of classes that aren't here. (It is that of operators, too, so that a class of one's own may have both for bases.)"""

    origin = ""

    def __call__(cls, *args: Any, **arguments: Any) -> Any:
        if not isinstance(arguments.get("task_id"), str):
            return MissingValue(cls.origin)
        return Missing(words=lambda **ids: unknown_words(cls.origin, **ids), **{key: value for key, value in arguments.items() if key != "words"})

    def __getattr__(cls, name: str) -> Any:
        if name.startswith("__") or name.startswith("_abc"):
            raise AttributeError(name)
        if name == "partial":
            return lambda **arguments: MissingPartial(cls(**arguments))
        return unknown(f"{cls.origin}.{name}")


class MissingValue:
    """What something that isn't here would have made: refused where it is used."""

    def __init__(self, origin: str) -> None:
        self.__dict__["origin"] = origin

    def __call__(self, *_: Any, **__: Any) -> Any:
        raise Refused(*unknown_words(self.origin), where=where())

    __enter__ = __exit__ = __iter__ = __len__ = __getitem__ = __contains__ = __rshift__ = __lshift__ = __call__

    def __bool__(self) -> bool:
        return True

    def __getattr__(self, name: str) -> Any:
        if name.startswith("__"):
            raise AttributeError(name)
        return self()


class MissingPartial:
    """What `.partial(..)` of an operator that isn't here gives."""

    def __init__(self, task: Any) -> None:
        self.task = task

    def expand(self, *_: Any, **__: Any) -> Any:
        return self.task

    expand_kwargs = expand


def unknown(origin: str) -> Any:
    """A class in the place of a name: of an exception one that can be raised and caught."""
    module, _, name = origin.rpartition(".")
    if module == "airflow.exceptions" or name.endswith(("Error", "Exception")):
        return type(name, (AirflowException,), {"__module__": module})
    return Unknown(name, (), {"origin": origin})
