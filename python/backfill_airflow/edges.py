"""Edges between tasks, as `>>`, `<<`, `chain` and the like set them."""

from __future__ import annotations

from .errors import AirflowException

TYPE_CHECKING = False
if TYPE_CHECKING:
    from typing import Any, Iterator, List, Optional, Sequence


class DependencyMixin:
    """What can stand beside `>>`: a task, a group, a value that a task will have pushed, or a label."""

    @property
    def roots(self) -> Sequence[Any]:
        """The tasks to which edges from others go."""
        raise NotImplementedError

    @property
    def leaves(self) -> Sequence[Any]:
        """The tasks from which edges to others go."""
        raise NotImplementedError

    def set_upstream(self, other: Any, edge_modifier: Any = None) -> None:
        link(other, self)

    def set_downstream(self, other: Any, edge_modifier: Any = None) -> None:
        link(self, other)

    def __rshift__(self, other: Any) -> Any:
        link(self, other)
        return other

    def __lshift__(self, other: Any) -> Any:
        link(other, self)
        return other

    def __rrshift__(self, other: Any) -> Any:
        link(other, self)
        return self

    def __rlshift__(self, other: Any) -> Any:
        link(self, other)
        return self


class EdgeModifier(DependencyMixin):
    """A label on edges, which joins all that stand before it to all that stand behind it."""

    def __init__(self, label: Optional[str] = None) -> None:
        self.label = label
        self.upstreams: List[Any] = []
        self.downstreams: List[Any] = []

    @property
    def roots(self) -> Sequence[Any]:
        return self.downstreams

    @property
    def leaves(self) -> Sequence[Any]:
        return self.upstreams


def Label(label: str) -> EdgeModifier:
    """A label for the edges between what stands before it and behind it."""
    return EdgeModifier(label)


def each_of(things: Any) -> Iterator[Any]:
    """A thing, or those of a list, tuple or set, however deep."""
    if isinstance(things, (list, tuple, set)):
        for thing in things:
            yield from each_of(thing)
    else:
        yield things


def link(upstreams: Any, downstreams: Any) -> None:
    """Sets an edge from each leaf of the upstreams to each root of the downstreams."""
    for upstream in each_of(upstreams):
        for downstream in each_of(downstreams):
            _link_one(upstream, downstream)


def _link_one(upstream: Any, downstream: Any) -> None:
    for thing in (upstream, downstream):
        if not isinstance(thing, DependencyMixin):
            raise AirflowException(f"Relationships can only be set between Operators; received {type(thing).__name__}")
    if isinstance(upstream, EdgeModifier):
        upstream.downstreams.append(downstream)
        link(upstream.upstreams, downstream)
    elif isinstance(downstream, EdgeModifier):
        downstream.upstreams.append(upstream)
        link(upstream, downstream.downstreams)
    else:
        for leaf in upstream.leaves:
            for root in downstream.roots:
                root.add_upstream(leaf)


def chain(*things: Any) -> None:
    """Edges from each to the next; between two lists of one length from each member to its like."""
    for upstream, downstream in zip(things, things[1:]):
        if not isinstance(upstream, (list, tuple)) or not isinstance(downstream, (list, tuple)):
            link(upstream, downstream)
            continue
        if len(upstream) != len(downstream):
            raise AirflowException(f"Chain not supported for different length Iterable. Got {len(upstream)} and {len(downstream)}.")
        for one, other in zip(upstream, downstream):
            link(one, other)


def chain_linear(*things: Any) -> None:
    """Edges from each to the next; between two lists from all members to all."""
    if len(things) < 2:
        raise ValueError("No dependencies were set. Did you forget to expand with `*`?")
    for upstream, downstream in zip(things, things[1:]):
        link(upstream, downstream)


def cross_downstream(from_tasks: Any, to_tasks: Any) -> None:
    """Edges from each of some tasks to each of others."""
    link(from_tasks, to_tasks)
