#!/usr/bin/env python3
"""What `page` and `show --json` print of a report, read off docs/SPECIFICATION.md ("Deciding a task in a run") and docs/FORMATS.md ("Page", "Lines of
JSON"). The graphs and reports are good ones, but that a report may be of another graph.
"""
import collections
import json
import pathlib
import re

STATES = ["success", "failed", "upstream_failed", "skipped", "no_status"]
SUCCESS, FAILED, UPSTREAM_FAILED, SKIPPED, NO_STATUS = range(5)
DEFAULTS = {"upstream": [], "rule": "all_success", "kind": "program", "command": [], "expand": None, "depends_on_past": False, "retries": 0}
EARLY = ["one_success", "one_failed", "one_done"]

Instance = collections.namedtuple("Instance", "index state tries value item pulls")
Run = collections.namedtuple("Run", "start end state tasks")


class Mismatch(Exception):
    """The report isn't one of the graph."""


class Graph:
    def __init__(self, text):
        file = json.loads(text)
        self.dag_id = file["dag_id"]
        self.tasks = [{**DEFAULTS, **task} for task in file["tasks"]]
        self.at = {task["id"]: n for n, task in enumerate(self.tasks)}
        self.up = [[self.at[u] for u in dict.fromkeys(task["upstream"])] for task in self.tasks]
        self.down = [[] for _ in self.tasks]
        for task, ups in enumerate(self.up):
            for upstream in ups:
                self.down[upstream].append(task)
        self.expand = [self.at.get(task["expand"]) for task in self.tasks]
        self.is_branch = [task["kind"] == "branch" for task in self.tasks]
        self.pulls = [list(dict.fromkeys(w["pull"] for w in task["command"] if isinstance(w, dict) and "pull" in w)) for task in self.tasks]
        self.below = {}

    def id(self, task):
        return self.tasks[task]["id"]

    def rule(self, task):
        return self.tasks[task]["rule"]

    def reached(self, task):
        """The tasks below a task."""
        if task not in self.below:
            found, left = set(), [task]
            while left:
                for below in self.down[left.pop()]:
                    if below not in found:
                        found.add(below)
                        left.append(below)
            self.below[task] = found
        return self.below[task]


class Report:
    def __init__(self, text, graph):
        """Without a graph, a report of any."""
        head, *lines, _ = text.removesuffix("\n").split("\n")
        _, version, dag_id = head.split(" ")
        self.version, self.runs = int(version), []
        if graph and dag_id != graph.dag_id:
            raise Mismatch
        tasks = None
        for line in lines:
            if line.startswith("@run "):
                _, start, end, state = line.split(" ")
                tasks = []
                self.runs.append(Run(start, end, state, tasks))
                names = []
            elif line.startswith("@item "):
                tasks[-1][-1] = tasks[-1][-1]._replace(item=line[6:])
            elif line.startswith("@pull "):
                _, name, value = line.split(" ", 2)
                instance = tasks[-1][-1]
                tasks[-1][-1] = instance._replace(pulls=instance.pulls + ((name, value),))
            else:
                name, index, state, tries, value = line.split(" ", 4)
                if not names or names[-1] != name:
                    names.append(name)
                    tasks.append([])
                tasks[-1].append(Instance(int(index), STATES.index(state), int(tries), value, None, ()))
        self.names = names if self.runs else []
        if graph and self.runs:
            self.refuse_other(graph)

    def refuse_other(self, graph):
        if self.names != [task["id"] for task in graph.tasks]:
            raise Mismatch
        for run in self.runs:
            for task, instances in enumerate(run.tasks):
                for instance in instances:
                    if self.version == 2 and instance.tries and [name for name, _ in instance.pulls] != graph.pulls[task]:
                        raise Mismatch


# ---- deciding, over the values that a report has


def ran(instances):
    return instances[0].tries > 0


def counts_of(instances):
    counts = [0] * 5
    for instance in instances:
        counts[instance.state] += 1
    return counts


def names_of(value):
    """What a branch names, or a source has: the members of a pushed value."""
    if value == "-":
        return []
    value = json.loads(value)
    return value if isinstance(value, list) else [value]


def follows(graph, branch, instance, task):
    """Whether a branch that succeeded follows a direct downstream."""
    named = [graph.at[n] for n in names_of(instance.value) if isinstance(n, str) and n in graph.at]
    return any(name == task or task in graph.reached(name) for name in named)


VERDICTS = {
    "all_success": lambda s, f, u, k: "u" if f + u else "k" if k else "r",
    "all_failed": lambda s, f, u, k: "k" if s + k else "r",
    "all_skipped": lambda s, f, u, k: "k" if s + f + u else "r",
    "all_done": lambda s, f, u, k: "r",
    "one_success": lambda s, f, u, k: "r" if s else "u" if f + u else "k",
    "one_failed": lambda s, f, u, k: "r" if f + u else "k",
    "one_done": lambda s, f, u, k: "r" if s + f else "k",
    "none_failed": lambda s, f, u, k: "u" if f + u else "r",
    "none_failed_min_one_success": lambda s, f, u, k: "u" if f + u else "r" if s else "k",
    "none_skipped": lambda s, f, u, k: "k" if k else "r",
    "always": lambda s, f, u, k: "r",
}


def items_of(graph, run, task):
    """How many items an expanded task has; None where they are missing."""
    source = graph.expand[task]
    instances = run.tasks[source]
    if not ran(instances):
        return None
    if graph.expand[source] is not None:
        return sum(instance.value != "-" for instance in instances)
    value = instances[0].value
    return len(json.loads(value)) if value.startswith("[") else None


def decide(graph, runs, at, task):
    """The first line of "Deciding a task in a run" that applies, then the past, then the expansion. Letters:
    0 no upstreams, r rule, and where it doesn't run: b k e skipped, u i upstream_failed, n p q no_status."""
    run = runs[at]
    ups = graph.up[task]
    counts = [0] * 5
    for upstream in ups:
        for state, n in enumerate(counts_of(run.tasks[upstream])):
            counts[state] += n
    letter = "0"
    if ups:
        branches = [u for u in ups if graph.is_branch[u]]
        skips = [b for b in branches if run.tasks[b][0].state == SUCCESS and not follows(graph, b, run.tasks[b][0], task)]
        blocked = [u for u in ups if run.tasks[u][0].state == NO_STATUS]
        verdict = VERDICTS[graph.rule(task)](*counts[:4])
        if skips:
            letter = "b"
        elif any(graph.is_branch[u] for u in blocked):
            letter = "q"
        elif graph.rule(task) in EARLY + ["always"] and verdict == "r":
            letter = "r"
        elif blocked:
            letter = "p"
        else:
            letter = verdict
    if letter in "0r":
        if graph.tasks[task]["depends_on_past"] and at > 0:
            before = runs[at - 1].tasks[task]
            if any(instance.state not in (SUCCESS, SKIPPED) for instance in before):
                return "n"
        if graph.expand[task] is not None:
            items = items_of(graph, run, task)
            if items is None:
                return "i"
            if items == 0:
                return "e"
    return letter


UNRUN = {"b": SKIPPED, "k": SKIPPED, "e": SKIPPED, "u": UPSTREAM_FAILED, "i": UPSTREAM_FAILED, "n": NO_STATUS, "p": NO_STATUS, "q": NO_STATUS}


def agrees(graph, run, task, letter):
    """Whether the report has of a task what the graph makes of the report's upstreams and past."""
    instances = run.tasks[task]
    if letter in UNRUN:
        return not ran(instances) and instances[0].state == UNRUN[letter]
    if not ran(instances):
        return False
    if graph.expand[task] is None:
        return instances[0].index == -1
    return instances[0].index == 0 and len(instances) == items_of(graph, run, task)


def instance_letter(instance):
    if instance.state == SUCCESS:
        return "s" if instance.tries == 1 else "r"
    return "f" if instance.state == FAILED else "x"


def cell_letter(graph, runs, at, task):
    """The letter of a task in a run, and the letters of its instances where it is expanded."""
    instances = runs[at].tasks[task]
    reason = decide(graph, runs, at, task)
    as_it_should = agrees(graph, runs[at], task, reason)
    if not ran(instances):
        return (reason if as_it_should else "456"[[SKIPPED, UPSTREAM_FAILED, NO_STATUS].index(instances[0].state)]), None
    letters = "".join(map(instance_letter, instances))
    if instances[0].index == -1:
        return (letters if as_it_should else {"s": "1", "r": "1", "f": "2", "x": "3"}[letters]), None
    whole = "f" if "f" in letters else "r" if "r" in letters else "s" if "s" in letters else "x"
    return (whole.upper() if as_it_should else {"s": "7", "r": "7", "f": "8", "x": "9"}[whole]), letters


def safe(text):
    """Between the tags of a data block: `%`, `<`, carriage return and U+0000 as `%` and two digits; all else as it is."""
    return re.sub("[%<\r\0]", lambda m: f"%{ord(m[0]):02X}", text)


def cells_text(graph, report, report_bytes):
    lines = [f"@cells 1 {graph.dag_id} {len(graph.tasks)} {len(report.runs)} {report_bytes}\n"]
    for at, run in enumerate(report.runs):
        letters, words = [], []
        for task in range(len(graph.tasks)):
            letter, instances = cell_letter(graph, report.runs, at, task)
            letters.append(letter)
            words += [" " + instances] if instances else []
        lines.append(f"{run.start} {run.end} {run.state} {''.join(letters)}{''.join(words)}\n")
    return "".join(lines)


def pieces(root):
    """The fixed pieces of a page by name, in the order in which bf_page writes them. A list of parts is one piece."""
    crates = pathlib.Path(root) / "crates"
    source = (crates / "bf_texts/src/page.rt").read_text("ascii")
    constant = re.compile(r'const (\w+): &str =\s+r##"(.*?)"##;', re.S)
    texts = dict(constant.findall(source))
    for part in (crates / "bf_texts/src/page").glob("*.rt"):
        texts |= {f"{part.stem}::{name}": text for name, text in constant.findall(part.read_text("ascii"))}
    texts |= {name: texts[path] for path, name in re.findall(r"pub use (\w+::(\w+));", source)}
    for name, parts in re.findall(r"const (\w+): \[&str; \d+\] = \[(.*?)\];", source, re.S):
        texts[name] = "".join(texts[part] for part in re.findall(r"[\w:]+", parts))
    written = (crates / "bf_page/src/page.rt").read_text("utf-8")
    return {name: texts[name] for name in re.findall(r"\bpage::([A-Z_]+)", written)}


def page(fixed, paths, graph_text, report_text, states_only=False, times=""):
    """The page of a graph and a report of it, with the times of a journal; of the zone file no path is told."""
    graph = Graph(graph_text)
    cells = cells_text(graph, Report(report_text, graph), len(report_text.encode()))
    texts = [*paths, "", cells, graph_text, "" if states_only else report_text, times]
    return "".join(piece + safe(text) for piece, text in zip(fixed, [*texts, ""]))


def json_lines(report_text):
    """A line for each task instance."""
    lines, report = [], Report(report_text, None)
    for run in report.runs:
        for name, instances in zip(report.names, run.tasks):
            for instance in instances:
                members = [("run", run.start), ("end", run.end), ("run_state", run.state), ("task", name)]
                members = [f"{json.dumps(key)}:{json.dumps(text)}" for key, text in members]
                members.append(f'"index":{instance.index}')
                members.append(f'"state":"{STATES[instance.state]}"')
                members.append(f'"tries":{instance.tries}')
                if instance.value != "-":
                    members.append(f'"value":{instance.value}')
                if instance.item is not None:
                    members.append(f'"item":{instance.item}')
                if instance.pulls:
                    pulls = ",".join(f'{json.dumps(task)}:{"null" if value == "-" else value}' for task, value in instance.pulls)
                    members.append(f'"pulls":{{{pulls}}}')
                lines.append("{" + ",".join(members) + "}\n")
    return "".join(lines)
