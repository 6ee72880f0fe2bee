"""What a try that somebody starts by hand isn't given, and a backfill would give it."""

from __future__ import annotations

import sys

TYPE_CHECKING = False
if TYPE_CHECKING:
    from typing import Any, List

    from .try_words import TryWords


def tell_missing(task: Any, given: TryWords) -> None:
    """Tells on standard error which pulls and item the words of a try lack, by the source of its task."""
    missing = _missing(task, given)
    if not missing:
        return
    print("note: this try isn't started by backfill, which would also give it", file=sys.stderr)
    for words in missing:
        print(f"  {words}", file=sys.stderr)
    print(
        f"  (backfill explain GRAPH REPORT --task {given.task_id} --run {given.start} prints the line with what a run gave it)", file=sys.stderr
    )


def _missing(task: Any, given: TryWords) -> List[str]:
    from .pulls import Scan
    from .xcom_arg import xcoms_in

    if given.is_for_items:
        over = task if task.is_mapped else task.mapped_group
        sources = [source.task_id for arg in xcoms_in([over.mapped, over.over]) for source in arg.sources()]
    else:
        found = Scan(task, [task.dag.folder]).run().found
        sources = [source for each in found for source in each.ids or () if source in task.dag.task_dict]
        sources += [source.task_id for source in task.mapped_group.sources()] if given.group_index is not None else []
    told = {*given.pulls, *given.parts, task.task_id}
    missing = [_words(task, source) for source in dict.fromkeys(sources) if source not in told]
    is_expanded = task.is_mapped or task.mapped_group is not None and given.group_index is None
    if is_expanded and not given.is_for_items and given.item is None:
        missing.append("--item ITEM, one of the items over which the task is expanded")
    return missing


def _words(task: Any, source: str) -> str:
    """What a pull from a task is given by."""
    from .groups import ids_in_graph

    ids = ids_in_graph(task.dag.task_dict[source])
    if ids == [source] or task.dag.task_dict[source].mapped_group is task.mapped_group:
        return f"--pull {source} VALUE, what {source} pushed"
    return f"--part {source} VALUE for each of {', '.join(ids[:3])}{' ..' if len(ids) > 3 else ''}, what these pushed"
