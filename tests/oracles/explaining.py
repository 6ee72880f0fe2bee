#!/usr/bin/env python3
"""What `explain` prints of a report, read off docs/FORMATS.md ("Explanation"). What is decided, and why, is showing.py's. The graphs and reports are good
ones, but that a report may be of another graph.
"""
import json
import re
import struct

from showing import FAILED, NO_STATUS, SKIPPED, STATES, SUCCESS, UNRUN, UPSTREAM_FAILED, Graph, Report, agrees, counts_of, decide, follows, items_of, ran

# What a terminal doesn't show as itself, but for what stands below U+0020: Unicode 16's controls, format characters, separators of lines and
# paragraphs, and what is ignored by default.
UNSEEN = [
    (0x7F, 0x9F), (0xAD, 0xAD), (0x34F, 0x34F), (0x600, 0x605), (0x61C, 0x61C), (0x6DD, 0x6DD), (0x70F, 0x70F),
    (0x890, 0x891), (0x8E2, 0x8E2), (0x115F, 0x1160), (0x17B4, 0x17B5), (0x180B, 0x180F), (0x200B, 0x200F), (0x2028, 0x202E),
    (0x2060, 0x206F), (0x3164, 0x3164), (0xFE00, 0xFE0F), (0xFEFF, 0xFEFF), (0xFFA0, 0xFFA0), (0xFFF0, 0xFFFB), (0x110BD, 0x110BD),
    (0x110CD, 0x110CD), (0x13430, 0x1343F), (0x1BCA0, 0x1BCA3), (0x1D173, 0x1D17A), (0xE0000, 0xE0FFF),
]
RESERVED = set("case coproc do done elif else esac fi for function if in select then time until while".split())
BARE = re.compile("[A-Za-z0-9_@+:,./-]+")

# Of a rule and what it says: words, or the states of the upstreams that it says so for.
BAD, ALL = (FAILED, UPSTREAM_FAILED), "since all are "
SINCE = {
    "all_success": {"u": BAD, "k": (SKIPPED,), "r": ALL + "success"},
    "all_failed": {"k": (SUCCESS, SKIPPED), "r": ALL + "failed or upstream_failed"},
    "all_skipped": {"k": (SUCCESS, *BAD), "r": ALL + "skipped"},
    "all_done": {"r": ALL + "done"},
    "one_success": {"u": "since none is a success and not all are skipped", "k": ALL + "skipped", "r": (SUCCESS,)},
    "one_failed": {"k": "since none is failed or upstream_failed", "r": BAD},
    "one_done": {"k": "since none is success or failed", "r": (SUCCESS, FAILED)},
    "none_failed": {"u": BAD, "r": "since none is failed or upstream_failed"},
    "none_failed_min_one_success": {"u": BAD, "k": "since none is a success", "r": "since none is failed or upstream_failed and not all are skipped"},
    "none_skipped": {"k": (SKIPPED,), "r": "since none is skipped"},
    "always": {"r": "whatever came of them"},
}
# The states of upstreams for which a rule skips; those of a success lead no further.
SKIPS_FOR = {"all_success": (SKIPPED,), "all_failed": (SKIPPED,), "all_skipped": BAD, "one_success": (SKIPPED,), "one_done": (UPSTREAM_FAILED, SKIPPED)}
SKIPS_FOR |= {"none_failed_min_one_success": (SKIPPED,), "none_skipped": (SKIPPED,)}
CAME = {SUCCESS: "was a success", FAILED: "failed", UPSTREAM_FAILED: "was upstream_failed", SKIPPED: "was skipped", NO_STATUS: "had no status"}


def escape(character):
    """Its UTF-16 units, each as \\u and four digits."""
    units = character.encode("utf-16-be")
    return "".join(f"\\u{unit:04x}" for unit, in struct.iter_unpack(">H", units))


def is_seen(character):
    return all(not first <= ord(character) <= last for first, last in UNSEEN) and character >= " "


def many(count, one):
    return f"{count:,} {one}{'' if count == 1 else 's'}"


def listed(names):
    if len(names) > 6:
        names = [*names[:5], f"{len(names) - 5:,} more"]
    return " and ".join([", ".join(names[:-1]), names[-1]]) if len(names) > 1 else "".join(names)


def counted(counts):
    return ", ".join(f"{count:,} {state}" for count, state in zip(counts, STATES) if count)


def value_text(value, most=4_096):
    if value == "-":
        return "nothing"
    shown = "".join(c if is_seen(c) else escape(c) for c in value)
    return shown if len(shown) <= most else f"{shown[:most]}... ({len(shown):,} characters)"


def quoted(word):
    if BARE.fullmatch(word) and word not in RESERVED:
        return word
    if all(map(is_seen, word)):
        return "'" + word.replace("'", "'\\''") + "'"
    escapes = [("\\" + c if c in "\\'" else c) if is_seen(c) else "".join(f"\\{byte:03o}" for byte in c.encode()) for c in word]
    return "$'" + "".join(escapes) + "'"


def have_no_status(names):
    return f"{listed(names)} {'has' if len(names) == 1 else 'have'} no status."


class Explaining:
    """A graph, and a report of it."""

    def __init__(self, graph_path, report_path, graph_text, report_text):
        self.paths = graph_path, report_path
        self.graph = Graph(graph_text)
        self.report = Report(report_text, self.graph)
        self.runs = self.report.runs

    def names(self, tasks):
        return [self.graph.id(task) for task in tasks]

    def some_in(self, at, tasks, states):
        return [task for task in tasks if any(instance.state in states for instance in self.runs[at].tasks[task])]

    def blocked(self, at, tasks):
        return self.some_in(at, tasks, (NO_STATUS,))

    def skipping(self, at, task):
        instances = self.runs[at].tasks
        branches = [up for up in self.graph.up[task] if self.graph.is_branch[up] and instances[up][0].state == SUCCESS]
        return [branch for branch in branches if not follows(self.graph, branch, instances[branch][0], task)]

    # ---- why

    def decided(self, at, task, letter):
        graph, tasks, ups = self.graph, self.runs[at].tasks, self.graph.up[task]
        if letter == "b":
            for branch in self.skipping(at, task):
                pushed = value_text(tasks[branch][0].value, 200)
                yield f"The branch {graph.id(branch)} succeeded and doesn't follow it: it pushed {pushed}."
            return
        if letter in "pq":
            names = self.names(up for up in self.blocked(at, ups) if letter == "p" or graph.is_branch[up])
            branches = {"p": "", "q": "the branch " if len(names) == 1 else "the branches "}[letter]
            yield f"Directly upstream, {branches}{have_no_status(names)}"
            return
        yield self.ruled(at, task, letter if letter in "uk" else "r")
        if letter in "uk":
            return
        if graph.tasks[task]["depends_on_past"]:
            before = f"in the run of {self.runs[at - 1].start} it {self.came(at - 1, task)}" if at else "this is the first run"
            yield f"It depends on its past, and {before}."
        if letter != "n" and graph.expand[task] is not None:
            yield self.expanded(at, task, letter)

    def ruled(self, at, task, says):
        ups = self.graph.up[task]
        if not ups:
            return "It has no upstream tasks, so no rule holds it back."
        counts = [sum(each) for each in zip(*(counts_of(self.runs[at].tasks[up]) for up in ups))]
        rule = self.graph.rule(task)
        since = SINCE[rule][says]
        if not isinstance(since, str):
            since = "because of " + listed([self.share(at, up, since) for up in self.some_in(at, ups, since)])
        verdict = {"u": "upstream_failed", "k": "skipped", "r": "run"}[says]
        return f"Its rule {rule}, over {many(sum(counts), 'upstream instance')} ({counted(counts)}), says {verdict}, {since}."

    def share(self, at, task, states):
        instances = self.runs[at].tasks[task]
        some = sum(instance.state in states for instance in instances)
        return self.graph.id(task) + (f" ({some:,} of {len(instances):,})" if instances[0].index >= 0 else "")

    def came(self, at, task):
        instances = self.runs[at].tasks[task]
        if instances[0].index < 0:
            return CAME[instances[0].state]
        return f"came to {many(len(instances), 'instance')} ({counted(counts_of(instances))})"

    def expanded(self, at, task, letter):
        source = self.graph.expand[task]
        each = self.graph.expand[source] is not None
        if letter == "i":
            what = f", which pushed no list: it {self.came(at, source)}."
        elif letter == "e":
            what = ", whose instances pushed nothing." if each else ", which pushed an empty list."
        else:
            items = items_of(self.graph, self.runs[at], task)
            what = f": {many(items, 'value')} that its instances pushed." if each else f": {many(items, 'item')} of the list that it pushed."
        return f"It is expanded over {self.graph.id(source)}{what}"

    def foreign(self, at, task, letter):
        if agrees(self.graph, self.runs[at], task, letter):
            return
        yield "What the report has doesn't follow from this graph."
        if letter in UNRUN:
            yield f"By this graph it would be {STATES[UNRUN[letter]]}:"
        elif self.graph.expand[task] is None:
            yield "By this graph it would have run, as one instance:"
        else:
            yield f"By this graph it would have run, with {many(items_of(self.graph, self.runs[at], task), 'instance')}:"

    def tried(self, task, instance):
        tries, allowed = instance.tries, self.graph.tasks[task]["retries"] + 1
        if instance.state == SUCCESS:
            yield "Its first try succeeded." if tries == 1 else f"Its try {tries} succeeded, behind {tries - 1} that failed."
            return
        if instance.state == SKIPPED:
            yield f"Its try {tries} exited with 99, which skips it."
            return
        if tries != allowed:
            yield f"Its try {tries} failed, and this graph allows {allowed}."
        else:
            yield "Its one try failed." if tries == 1 else f"All its {tries} tries failed."
        if self.graph.is_branch[task]:
            yield "A branch fails, too, where what it pushes names a task that isn't directly downstream of it."
        if self.graph.expand[task] is None and task in self.graph.expand:
            yield "It fails, too, where it doesn't push a list of 0 to 1,024 items, since a task is expanded over it."
        yield "Why a try failed isn't in a report: what its program wrote to standard error says it."

    # ---- where it began

    def roots(self, at, task):
        if ran(self.runs[at].tasks[task]):
            return []
        found, seen, left = [], set(), [(at, task, None)]
        while left:
            at, task, end = left.pop(0)
            if (at, task) in seen:
                continue
            seen.add((at, task))
            instances = self.runs[at].tasks[task]
            if end:
                found.append((at, task, end))
            elif ran(instances):
                states = {instance.state for instance in instances}
                if FAILED in states or SKIPPED in states:
                    found.append((at, task, "failed" if FAILED in states else "exited with 99"))
            else:
                left = self.onward(at, task) + left
        return found

    def onward(self, at, task):
        letter = decide(self.graph, self.runs, at, task)
        if not agrees(self.graph, self.runs[at], task, letter):
            return []
        ups = self.graph.up[task]
        if letter == "n":
            return [(at - 1, task, None)]
        if letter == "b":
            return [(at, branch, "pushed " + value_text(self.runs[at].tasks[branch][0].value, 200)) for branch in self.skipping(at, task)]
        if letter in "ie":
            return [(at, self.graph.expand[task], {"i": None, "e": "pushed no items"}[letter])]
        next_tasks = {
            "k": self.some_in(at, ups, SKIPS_FOR.get(self.graph.rule(task), ())),
            "u": self.some_in(at, ups, BAD),
            "p": self.blocked(at, ups),
            "q": [up for up in self.blocked(at, ups) if self.graph.is_branch[up]],
        }[letter]
        return [(at, up, None) for up in next_tasks]

    def there(self, at, other):
        return "" if at == other else f" in the run of {self.runs[other].start}"

    def why(self, at, task, place):
        instances = self.runs[at].tasks[task]
        letter = decide(self.graph, self.runs, at, task)
        yield from self.foreign(at, task, letter)
        yield from self.decided(at, task, letter)
        far = [root for root in self.roots(at, task) if root[0] != at or root[1] not in self.graph.up[task]]
        if far:
            yield f"It began where {listed([f'{self.graph.id(up)} {what}{self.there(at, run)}' for run, up, what in far])}."
        if ran(instances):
            if instances[0].index >= 0 and place is None:
                yield f"It came to {many(len(instances), 'instance')}: {counted(counts_of(instances))}."
            else:
                yield from self.tried(task, instances[place or 0])

    # ---- beside why

    def state(self, at, task):
        instances = self.runs[at].tasks[task]
        if instances[0].index < 0:
            return STATES[instances[0].state]
        return f"{many(len(instances), 'instance')}, {counted(counts_of(instances))}"

    def rows(self, at, tasks):
        width = max((len(name) for name in self.names(tasks)), default=0)
        return [f"{self.graph.id(task):<{width}}  {self.state(at, task)}" for task in tasks]

    def by_hand(self, at, task, instance):
        command, run = self.graph.tasks[task]["command"], self.runs[at]
        kinds = [next(iter(word)) if isinstance(word, dict) else "text" for word in command]
        is_told = self.report.version == 2 and (instance.item is not None or "item" not in kinds)
        if not command or not instance.tries or not is_told and {"item", "pull"} & set(kinds):
            return []
        context = {"logical_date": run.start, "data_interval_start": run.start, "data_interval_end": run.end, "dag_id": self.graph.dag_id}
        context |= {"task_id": self.graph.id(task), "map_index": f"{instance.index}", "try_number": f"{instance.tries}"}

        def word_text(kind, word):
            if kind in ("text", "context"):
                return word if kind == "text" else context[word["context"]]
            value = instance.item if kind == "item" else dict(instance.pulls)[word["pull"]]
            return json.loads(value) if value.startswith('"') else "" if value == "-" else value

        words = [word_text(kind, word) for kind, word in zip(kinds, command)]
        return [self.settings(at, task, instance, words) + " ".join(map(quoted, words))]

    def settings(self, at, task, instance, words):
        """What sets the variables that these words name. The graphs' zone is UTC."""
        run, ids = self.runs[at], {"DAG_ID": self.graph.dag_id, "TASK_ID": self.graph.id(task)}
        date, tries = run.start.split("T")[0], {"TRY_NUMBER": instance.tries}
        variables = ids | {"RUN": run.start, "DATE": date, "DATE_NODASH": date.replace("-", ""), "INTERVAL_START": run.start, "INTERVAL_END": run.end}
        variables = {f"BACKFILL_{name}": value for name, value in (variables | {"MAP_INDEX": instance.index} | tries).items()}
        of_airflow = ids | {"EXECUTION_DATE": run.start.replace("Z", "+00:00")} | tries
        variables |= {f"AIRFLOW_CTX_{name}": value for name, value in of_airflow.items()}
        named = [f"{name}={quoted(str(value))} " for name, value in variables.items() if any(name in word for word in words)]
        return "env " + "".join(named) if named else ""

    def clear_line(self, at, task, index):
        def short(run):
            return run.start.removesuffix("T00:00:00Z")

        name = self.graph.id(task)
        words = ["backfill", "clear", "--from", short(self.runs[0]), "--to", short(self.runs[-1])]
        words += ([f"--task={name}"] if name.startswith("-") else ["--task", name]) + ["--run", short(self.runs[at])]
        words += [] if index is None else ["--index", str(index)]
        words += ["--"] if any(path.startswith("-") for path in self.paths) else []
        return " ".join(map(quoted, [*words, *self.paths])) + " > " + quoted(self.paths[1] + ".new")

    def cleared(self, at, task):
        places, runs, level = 0, 0, {task}
        while level and at + runs < len(self.runs):
            level = level.union(*(self.graph.reached(each) for each in level))
            places, runs = places + len(level), runs + 1
            level = {each for each in level if self.graph.tasks[each]["depends_on_past"]}
        return f"{many(places, 'task')} in {many(runs, 'run')}"

    def clears(self, at, task, index):
        instances = self.runs[at].tasks[task]
        of_it = instances if index is None else instances[index:index + 1]
        roots = self.roots(at, task)
        if {instance.state for instance in of_it} & {*BAD, NO_STATUS}:
            places = [(*root[:2], None) for root in roots[:3]] or [(at, task, index)]
        else:
            places = [(*root[:2], None) for root in roots if root[2] == "failed"][:3]
        for other, each, one in places:
            if self.runs[other].start != self.runs[other].end:
                name = "" if (other, each) == (at, task) else f" {self.graph.id(each)}{self.there(at, other)}"
                yield f"clear{name}, with what follows from it: {self.cleared(other, each)}", [self.clear_line(other, each, one)]

    # ---- the whole

    def task(self, at, task, index=None):
        instances = self.runs[at].tasks[task]
        is_expanded = instances[0].index >= 0
        place = index if is_expanded else None
        name = self.graph.id(task) + (f" [{index}]" if place is not None else "")
        one = instances[place or 0] if ran(instances) and not (is_expanded and place is None) else None
        state = STATES[instances[place].state] if place is not None else self.state(at, task)
        sections = [("why", list(self.why(at, task, place)))]
        if is_expanded and one is None:
            of_state = {state: [i.index for i in instances if STATES[i.state] == state] for state in STATES}
            width = max(len(state) for state in of_state if of_state[state])
            sections.append(("instances", [f"{state:<{width}}  {ranges(of_state[state])}" for state in STATES if of_state[state]]))
        if one:
            given = [] if one.item is None else [f"item  {value_text(one.item)}"]
            given += [f"pulled {name}  {value_text(value)}" for name, value in one.pulls]
            sections += [("pushed", [value_text(one.value)] if one.value != "-" else []), ("given", given), ("by hand", self.by_hand(at, task, one))]
        sections += [("upstream", self.rows(at, self.graph.up[task])), ("downstream", self.rows(at, self.graph.down[task]))]
        sections += self.clears(at, task, place)
        return text_of(f"{name} in the run of {self.runs[at].start}: {state}", sections)

    def order(self):
        order, left = [], [task for task, ups in enumerate(self.graph.up) if not ups]
        while left:
            task = left.pop(0)
            order.append(task)
            left = [down for down in self.graph.down[task] if set(self.graph.up[down]) <= set(order)] + left
        return order

    def run(self, at):
        run, order = self.runs[at], self.order()
        last = self.names(self.some_in(at, [task for task in order if not self.graph.down[task]], BAD))
        blocked = self.names(self.blocked(at, order))
        why = [f"{listed(last)}, which no task follows, {'is' if len(last) == 1 else 'are'} failed or upstream_failed."] if last else []
        why += [have_no_status(blocked)] if blocked else []
        would_be = "failed" if why else "success"
        why = why or ["None of the tasks that no task follows is failed or upstream_failed, and every task has a status."]
        if would_be != run.state:
            why = ["What the report has doesn't follow from this graph.", f"By this graph it would be {would_be}:"] + why
        counts = [sum(each) for each in zip(*map(counts_of, run.tasks))]
        sections = [("why", why), ("task instances", [counted(counts)])]
        sections.append(("failed", self.rows(at, self.some_in(at, order, (FAILED,)))))
        sections.append(("not tried", self.rows(at, [task for task in order if run.tasks[task][0].state in (UPSTREAM_FAILED, NO_STATUS)])))
        return text_of(f"run {run.start} to {run.end}: {run.state}", sections)


def ranges(indexes):
    """0, 2, 3 as `0 2-3`."""
    firsts = [n for n in indexes if n - 1 not in indexes]
    lasts = [n for n in indexes if n + 1 not in indexes]
    return " ".join(f"{first}" if first == last else f"{first}-{last}" for first, last in zip(firsts, lasts))


def text_of(heading, sections):
    lines = [heading]
    for title, more in sections:
        lines += [title, *("  " + line for line in more)] if more else []
    return "".join(line + "\n" for line in lines)
