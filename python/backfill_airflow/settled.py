"""Whether each task's pulls have ended when it begins."""

from __future__ import annotations

from typing import Dict, List, Set

from .draft import EARLY_RULES, MOST_PULLS, Draft, GraphTask


def in_order(draft: Draft) -> List[GraphTask]:
    """The tasks of the graph, each behind those before it. A cycle is refused, and then those that lie on it or behind it are left out."""
    behind: Dict[str, List[str]] = {name: [] for name in draft.graph}
    waiting = {}
    for made in draft.graph.values():
        known = [each for each in made.upstream if each in draft.graph]
        waiting[made.id] = len(known)
        for each in known:
            behind[each].append(made.id)
    order = [name for name, count in waiting.items() if not count]
    for name in order:
        for each in behind[name]:
            waiting[each] -= 1
            if not waiting[each]:
                order.append(each)
    if len(order) < len(draft.graph):
        draft.findings.refuse(f"a cycle: {' >> '.join(_cycle(draft, set(order)))}", "take one of these edges away")
    return [draft.graph[name] for name in order]


def _cycle(draft: Draft, placed: Set[str]) -> List[str]:
    """A cycle among the tasks that have no place, from one of its tasks to itself."""
    path = [next(name for name in draft.graph if name not in placed)]
    while True:
        before = next(each for each in draft.graph[path[-1]].upstream if each in draft.graph and each not in placed)
        if before in path:
            return [before, *reversed(path[path.index(before) :])]
        path.append(before)


def check_pulls(draft: Draft, order: List[GraphTask]) -> None:
    """Refuses pulls from tasks that may not have ended by then, and too many of them."""
    # Sets of tasks are numbers, of which each task is a bit.
    bits = {made.id: 1 << place for place, made in enumerate(order)}
    settled: Dict[str, int] = {}
    for made in order:
        settled[made.id] = 0
        for each in made.upstream if made.rule not in EARLY_RULES else ():
            settled[made.id] |= bits[each] | settled[each]
    for made in order:
        for source in made.pulled_ids():
            if not settled[made.id] & bits.get(source, 0):
                _refuse_pull(draft, made, source)
        if len(made.pulled_ids()) > MOST_PULLS:
            what = f"pulls from {len(made.pulled_ids())} tasks, and a command has at most {MOST_PULLS}"
            draft.findings.refuse(what, f"a task between that gathers {MOST_PULLS} of them", made.task)


def _refuse_pull(draft: Draft, made: GraphTask, source: str) -> None:
    if made.rule in EARLY_RULES:
        what = f"pulls from {source} under trigger_rule={made.rule!r}, by which it may run before that has ended"
        draft.findings.refuse(what, "a rule that waits for all tasks before it, as none_failed or all_done", made.task)
    else:
        instead = f"an edge {source} >> {made.id} (and no one_.. or always rule between)"
        draft.findings.refuse(f"pulls from {source}, which may not have ended by then", instead, made.task)
