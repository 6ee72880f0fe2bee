"""Values that aren't there before a try: what tasks will have pushed, and what is made of it."""

from __future__ import annotations

import itertools

from .edges import DependencyMixin
from .errors import AirflowException, AirflowSkipException, NOTSET, XComNotFound

TYPE_CHECKING = False
if TYPE_CHECKING:
    from typing import Any, Callable, Iterator, List, Sequence

    from .base_operator import BaseOperator

RETURN_VALUE = "return_value"


class ResolveMixin:
    """A value that a try alone knows."""

    def sources(self) -> Iterator[BaseOperator]:
        """The tasks of which the value is made."""
        return iter(())

    def resolve(self, context: Any) -> Any:
        """The value in the try of this context."""
        raise NotImplementedError


class XComArg(ResolveMixin, DependencyMixin):
    """What a task will have pushed under a key."""

    def __init__(self, operator: BaseOperator, key: str = RETURN_VALUE) -> None:
        self.operator, self.key = operator, key

    @property
    def roots(self) -> Sequence[Any]:
        return [self.operator]

    @property
    def leaves(self) -> Sequence[Any]:
        return [self.operator]

    def sources(self) -> Iterator[BaseOperator]:
        yield self.operator

    def __getitem__(self, key: str) -> XComArg:
        if not isinstance(key, str):
            raise ValueError(f"XComArg only supports str lookup, received {type(key).__name__}")
        return XComArg(self.operator, key)

    def __iter__(self) -> Any:
        raise TypeError("'XComArg' object is not iterable")

    def resolve(self, context: Any) -> Any:
        instance = context["ti"]
        value = instance.pull_of(self.operator, self.key, NOTSET)
        if value is not NOTSET:
            return value
        if self.key == RETURN_VALUE or self.operator.multiple_outputs:
            return None
        raise XComNotFound(f'XComArg result from {self.operator.task_id} at {instance.dag_id} with key="{self.key}" is not found!')

    def map(self, function: Callable[[Any], Any]) -> XComArg:
        """The list of what a function makes of each member. A member for which it raises AirflowSkipException is skipped."""
        if not callable(function) or getattr(function, "is_task_decorator", False):
            raise TypeError("map() argument must be a plain function, not a @task operator")
        return MapXComArg(self._whole("map"), function)

    def zip(self, *others: Any, fillvalue: Any = NOTSET) -> XComArg:
        """The list of tuples of the members of this and others, as long as the shortest, or filled up to the longest."""
        return ZipXComArg([self._whole("map"), *others], fillvalue)

    def concat(self, *others: Any) -> XComArg:
        """The list of the members of this and others."""
        return ConcatXComArg([self._whole("concatenate"), *others])

    def _whole(self, doing: str) -> XComArg:
        if self.key != RETURN_VALUE:
            raise ValueError(f"cannot {doing} against non-return XCom")
        return self

    def __str__(self) -> str:
        """The template that pulls the value."""
        key = "" if self.key == RETURN_VALUE else f", key='{self.key}'"
        return f"{{{{ task_instance.xcom_pull(task_ids='{self.operator.task_id}', dag_id='{self.operator.dag_id}'{key}) }}}}"

    # ---- marks of setup and teardown go to the task

    def as_setup(self) -> DependencyMixin:
        for operator in self.sources():
            operator.as_setup()
        return self

    def as_teardown(self, **options: Any) -> DependencyMixin:
        for operator in self.sources():
            operator.as_teardown(**options)
        return self

    def __enter__(self) -> Any:
        return self.operator.__enter__()

    def __exit__(self, *error: Any) -> None:
        self.operator.__exit__(*error)

    @property
    def is_setup(self) -> bool:
        return self.operator.is_setup

    @property
    def is_teardown(self) -> bool:
        return self.operator.is_teardown


class CombinedXComArg(XComArg):
    """What is made of several parts, each a value of a task or a literal one."""

    def __init__(self, parts: List[Any]) -> None:
        self.parts = parts
        self.key = RETURN_VALUE

    @property
    def operator(self) -> BaseOperator:  # type: ignore[override]
        return next(self.sources())

    @property
    def roots(self) -> Sequence[Any]:
        return list(self.sources())

    @property
    def leaves(self) -> Sequence[Any]:
        return list(self.sources())

    def sources(self) -> Iterator[BaseOperator]:
        for part in self.parts:
            if isinstance(part, XComArg):
                yield from part.sources()

    def __getitem__(self, key: str) -> XComArg:
        raise ValueError("a mapped, zipped or concatenated value has no lookup")

    def lists(self, context: Any) -> List[List[Any]]:
        """The members of each part, in the try of this context."""
        return [items_of(resolved(part, context)) for part in self.parts]


class MapXComArg(CombinedXComArg):
    """A value with a function applied to each member."""

    def __init__(self, part: XComArg, function: Callable[[Any], Any]) -> None:
        super().__init__([part])
        self.function = function

    def resolve(self, context: Any) -> Any:
        from .tagged import SKIPPED_ITEM

        made = []
        for item in self.lists(context)[0]:
            try:
                made.append(item if item is SKIPPED_ITEM else self.function(item))
            except AirflowSkipException:
                made.append(SKIPPED_ITEM)
        return made


class ZipXComArg(CombinedXComArg):
    """The members of several values beside each other."""

    def __init__(self, parts: List[Any], fillvalue: Any) -> None:
        super().__init__(parts)
        self.fillvalue = fillvalue

    def resolve(self, context: Any) -> Any:
        lists = self.lists(context)
        return list(zip(*lists) if self.fillvalue is NOTSET else itertools.zip_longest(*lists, fillvalue=self.fillvalue))


class ConcatXComArg(CombinedXComArg):
    """The members of several values behind each other."""

    def resolve(self, context: Any) -> Any:
        return [item for each in self.lists(context) for item in each]


def items_of(value: Any) -> List[Any]:
    """The items of a value over which a task is expanded: those of a list, or the pairs of a dict."""
    if isinstance(value, dict):
        return list(value.items())
    if isinstance(value, (list, tuple, set)):
        return list(value)
    raise AirflowException(f"a task is expanded over a value of type {type(value).__name__}, and it takes a list or a dict")


def resolved(value: Any, context: Any) -> Any:
    """A value with all in it resolved that a try alone knows."""
    if isinstance(value, ResolveMixin):
        return value.resolve(context)
    kind = type(value)
    if kind is dict:
        return {key: resolved(each, context) for key, each in value.items()}
    if kind in (list, tuple, set):
        return kind(resolved(each, context) for each in value)
    return value


def within(value: Any) -> Iterator[ResolveMixin]:
    """All in a value, however deep in dicts, lists, tuples and sets, that a try alone knows."""
    if isinstance(value, ResolveMixin):
        yield value
    elif isinstance(value, dict):
        for each in value.values():
            yield from within(each)
    elif isinstance(value, (list, tuple, set)):
        for each in value:
            yield from within(each)


def xcoms_in(value: Any) -> Iterator[XComArg]:
    """All in a value that tasks will have pushed."""
    return (each for each in within(value) if isinstance(each, XComArg))
