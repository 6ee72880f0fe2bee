#!/usr/bin/env python3
"""Tries python/backfill_graph.py over graph files: python_graphs.py PROGRAM FOLDER COUNT

The examples, read and written again, are what they were; so are the graphs that go by chance, which faults.py makes, and of COUNT of these
just those are refused in Python that `check` of the program refuses, when they are written by calls and when they are read. So it goes with
the zones of intervals.py. The last line is how many were right, and how many not.
"""
import contextlib
import io
import json
import pathlib
import random
import subprocess
import sys

ROOT = pathlib.Path(__file__).resolve().parents[2]
sys.path[:0] = [str(ROOT / "tests/oracles"), str(ROOT / "python")]
import backfill_graph  # noqa: E402
import faults  # noqa: E402
import intervals  # noqa: E402
from rows import holds, tell  # noqa: E402

PROGRAM, FOLDER, COUNT = sys.argv[1], pathlib.Path(sys.argv[2]), int(sys.argv[3])


def in_order(file):
    """A graph file with its keys in the order of the format, each edge once, and without what a key says that isn't there."""

    def task_of(task):
        task = {key: task[key] for key in faults.TASK_KEYS if key in task}
        task.update({"upstream": list(dict.fromkeys(task["upstream"]))} if "upstream" in task else {})
        return {key: value for key, value in task.items() if value not in ([], "program")}

    keys = {key: file[key] for key in faults.GRAPH_KEYS if key in file}
    return {**keys, "tasks": [task_of(task) for task in file["tasks"]]}


def compact(file):
    return json.dumps(in_order(file), ensure_ascii=False, separators=(",", ":"))


def printed_by(program):
    printed = io.StringIO()
    with contextlib.redirect_stdout(printed):
        exec(program, {"__name__": "graph"})
    return printed.getvalue()


def comes_back(name, file):
    program = "\n".join(backfill_graph.python_of(file))
    holds(f"{name}, written in Python", printed_by(program) == compact(file) + "\n")


def word_of(word):
    """A word of a file in Python. One that is none is handed on as it is."""
    if isinstance(word, dict) and len(word) == 1:
        [(key, value)] = word.items()
        if key == "context" and value in backfill_graph.CONTEXTS:
            return getattr(backfill_graph.context, value)
        if key == "pull" and isinstance(value, str):
            return backfill_graph.pull(value)
        if key == "item" and value is True:
            return backfill_graph.item
    return word


def task_in_python(task):
    keys = dict(task)
    kind = keys.pop("kind", "program")
    if kind not in ("program", "branch"):
        raise TypeError(kind)
    if isinstance(keys.get("command"), list):
        keys["command"] = [word_of(word) for word in keys["command"]]
    made = backfill_graph.Branch if kind == "branch" else backfill_graph.Task
    made(keys.pop("id"), **keys)


def error_of(file):
    """The error by which Python refuses a graph: one of its own, or that no such call can be made. None where it refuses nothing."""
    try:
        keys = dict(file)
        tasks = keys.pop("tasks")
        if not isinstance(tasks, list):
            raise TypeError(tasks)
        with backfill_graph.Graph(keys.pop("dag_id"), **keys):
            for task in tasks:
                task_in_python(task)
    except (TypeError, KeyError, ValueError) as error:
        return error
    return None


def error_of_file(file):
    """The error by which a graph file isn't written in Python, or None."""
    try:
        list(backfill_graph.python_of(file))
    except backfill_graph.GraphError as error:
        return error
    return None


def without_null(file):
    """Takes out keys that have no value, which in Python is a key that isn't given."""
    if not isinstance(file, dict) or not isinstance(file.get("tasks"), list):
        return file
    tasks = [{key: value for key, value in task.items() if value is not None} if isinstance(task, dict) else task for task in file["tasks"]]
    return {key: value for key, value in {**file, "tasks": tasks}.items() if value is not None}


def told_by_check(file):
    """What the program tells of a graph that it refuses, or None."""
    path = FOLDER / "graph.json"
    path.write_text(json.dumps(file, ensure_ascii=False))
    checked = subprocess.run([PROGRAM, "check", path], capture_output=True, check=False, text=True)
    return checked.stderr.strip() if checked.returncode == 2 else None


def by_chance(seed):
    file = without_null(faults.planted(random.Random(seed)))
    text = json.dumps(file)
    if "@@" in text or isinstance(file, dict) and file.get("zone") == "file":
        return
    told, error = told_by_check(file), error_of(file)
    holds(f"whether seed {seed} is refused", (told is None) == (error is None))
    holds(f"whether seed {seed}, read, is refused", (told is None) == (error_of_file(file) is None))
    if told is None:
        comes_back(f"seed {seed}", file)
    elif isinstance(error, backfill_graph.GraphError) and told.split(" ")[1] == str(error.number):
        # (of several faults Python tells the one that is written first, and of several cycles the one that is closed first)
        several = error.number == 7 or len(faults.all_faults(text, None)) > 1
        holds(f"the words of seed {seed}: {error}", several or told == f"refused {error.number} {error.words}")


# ---- rows worked out by hand


def makes(name, wanted, write):
    """What is written in a block makes these tasks."""
    with backfill_graph.Graph("d", schedule="@daily", defaults={"retries": 1}) as graph:
        write(graph)
    tasks = json.loads(graph.to_json())["tasks"]
    holds(name, {task["id"]: (task.get("upstream", []), task["retries"]) for task in tasks} == wanted)


def fails(name, words, number, write):
    """What is written in a block is refused by these words."""
    try:
        with backfill_graph.Graph("d", schedule="@daily", pools={"p": 2}) as graph:
            write(graph)
    except backfill_graph.GraphError as error:
        holds(f"{name}: {error}", (error.words, error.number) == (words, number))
    else:
        holds(f"{name}, which isn't refused", False)


def fan(graph):
    first = backfill_graph.Task("first")
    middle = [backfill_graph.Task("left", retries=3), backfill_graph.Task("right")]
    last = backfill_graph.Task("last")
    first >> middle >> last


def turned(graph):
    first, left, right, last = map(backfill_graph.Task, ["first", "left", "right", "last"])
    last << [left, right] << first
    first >> last
    first >> left


def grouped(graph):
    with graph.group("load"):
        one = backfill_graph.Task("one")
        with graph.group("deep"):
            two = backfill_graph.Task("two")
    one >> two >> backfill_graph.Task("three")


def groups_in_a_row(graph):
    """Of `load` one is a root and two leaves; edges lead to its roots and from its leaves."""
    first, last = backfill_graph.Task("first"), backfill_graph.Task("last")
    with graph.group("load") as load:
        one, two = backfill_graph.Task("one"), backfill_graph.Task("two")
        with graph.group("deep") as deep:
            three = backfill_graph.Task("three")
        one >> [two, deep]
    first >> load >> last
    with graph.group("publish") as publish:
        backfill_graph.Task("x")
        backfill_graph.Task("y")
    publish << load
    [publish, three] >> backfill_graph.Task("end")


def ring(graph):
    tasks = [backfill_graph.Task(name) for name in "abc"]
    tasks[1] >> tasks[2] >> tasks[0]
    tasks[0] >> tasks[1]


def pulls_early(graph):
    early = backfill_graph.Task("early", rule="one_success")
    late = backfill_graph.Task("late", ["echo", backfill_graph.pull("first")])
    backfill_graph.Task("first") >> early >> late


def takes_another_item(graph):
    one, two = backfill_graph.Task("one"), backfill_graph.Task("two")
    backfill_graph.Task("m", ["echo", two.item], expand=one, upstream=[one, two])


def of_two_graphs(graph):
    other = backfill_graph.Graph("e", schedule="@daily")
    backfill_graph.Task("a", graph=other) >> backfill_graph.Task("b")


def pulls_from_another(graph):
    other = backfill_graph.Graph("e", schedule="@daily")
    backfill_graph.Task("b", ["echo", backfill_graph.pull(backfill_graph.Task("a", graph=other))])


def goes_on(graph):
    first, second = backfill_graph.Task("a"), backfill_graph.Task("b")
    first >> second
    for refused in (lambda: second >> first, lambda: backfill_graph.Task("c", upstream=["b", "c"])):
        with contextlib.suppress(backfill_graph.GraphError):
            refused()
            holds("a cycle that is refused", False)
    second >> backfill_graph.Task("c")


task = backfill_graph.Task
makes("tasks behind a list", {"first": ([], 1), "left": (["first"], 3), "right": (["first"], 1), "last": (["left", "right"], 1)}, fan)
makes("tasks before a list", {"first": ([], 1), "left": (["first"], 1), "right": (["first"], 1), "last": (["left", "right", "first"], 1)}, turned)
makes("groups", {"load.one": ([], 1), "load.deep.two": (["load.one"], 1), "three": (["load.deep.two"], 1)}, grouped)
makes(
    "groups beside the arrows",
    {
        **{"first": ([], 1), "last": (["load.two", "load.deep.three"], 1), "load.one": (["first"], 1)},
        **{"load.two": (["load.one"], 1), "load.deep.three": (["load.one"], 1)},
        **{"publish.x": (["load.two", "load.deep.three"], 1), "publish.y": (["load.two", "load.deep.three"], 1)},
        **{"end": (["publish.x", "publish.y", "load.deep.three"], 1)},
    },
    groups_in_a_row,
)
fails("a group without tasks", "the group load has no tasks", None, lambda graph: task("a") >> graph.group("load"))
fails("a cycle", "cycle: a b c", 7, ring)
fails("a loop", "cycle: a", 7, lambda graph: task("a") >> graph.tasks["a"])
fails("a pull from what may not have settled", "pull not settled: late", 14, pulls_early)
fails("a source that is no upstream", "expand source: b", 15, lambda graph: task("b", expand=task("a")))
fails("a branch that is expanded", "branch misuse: b", 17, lambda graph: backfill_graph.Branch("b", expand=task("a")))
fails("a pool that isn't there", "unknown pool: a", 8, lambda graph: task("a", pool="q"))
fails("a command that is a text", "shape: tasks[0].command", 2, lambda graph: task("a", "echo 5"))
fails("an item of another source", "an item of two in a task that is expanded over one", None, takes_another_item)
fails("an edge between two graphs", "a is of another graph", None, of_two_graphs)
fails("a pull from another graph", "a is of another graph", None, pulls_from_another)
makes("a cycle that is refused, and what goes on", {"a": ([], 1), "b": (["a"], 1), "c": (["b"], 1)}, goes_on)
with contextlib.suppress(AttributeError):
    backfill_graph.context.ds
    holds("a context that isn't there", False)


def is_told(name, wanted, write):
    """What is written in a block ends with an error of these words."""
    try:
        with backfill_graph.Graph("d", schedule="@daily") as graph:
            write(graph)
    except (TypeError, backfill_graph.GraphError) as error:
        holds(f"{name}: {error}", str(error) == wanted)
    else:
        holds(f"{name}, which is no error", False)


is_told(
    "a command that is one word",
    'refused 2 shape: tasks[0].command: command is a list of words: ["true"] or ["sh", "-c", "true"]',
    lambda graph: task("x", "true"),
)
is_told(
    "a command of two words",
    'refused 2 shape: tasks[0].command: command is a list of words: ["echo", "a b"] or ["sh", "-c", "echo \'a b\'"]',
    lambda graph: task("x", "echo 'a b'"),
)
is_told("a rule by Airflow's name", "trigger_rule is called rule here", lambda graph: task("x", trigger_rule="all_done"))
is_told("a command by Airflow's name", 'bash_command is the command here, as ["sh", "-c", "..."]', lambda graph: task("x", bash_command="true"))
is_told("a name of nobody's", "Branch() got an unexpected keyword argument 'rules'", lambda graph: backfill_graph.Branch("x", rules=1))
is_told(
    "a schedule by Airflow's name",
    "schedule_interval is called schedule here",
    lambda graph: backfill_graph.Graph("d", schedule="@daily", schedule_interval="@daily"),
)
is_told("a task behind a text", "a task, a group or a list of them stands beside >> and <<, not 'b'", lambda graph: task("a") >> "b")


def is_no_code(name, told, file):
    """No text of a file becomes code: it is refused."""
    path = FOLDER / "hostile.json"
    path.write_text(file)
    words = [sys.executable, ROOT / "python/backfill_graph.py"]
    read = subprocess.run(words, stdin=path.open(), capture_output=True, check=False, text=True)
    holds(f"{name}: {read.stderr}", (read.returncode, read.stdout, read.stderr) == (2, "", told + "\n"))


HOSTILE = "logical_date,__import__('os').system('echo INJECTED >&2') or 'x'"
FILE = '{"dag_id":"d","schedule":"@daily","tasks":[%s]}'
is_no_code("a context that is code", "refused 2 shape: tasks[0].command", FILE % json.dumps({"id": "a", "command": [{"context": HOSTILE}]}))
is_no_code("an id that is code", "refused 3 bad name: tasks[0].id", FILE % json.dumps({"id": "a=print(1)"}))
is_no_code("a kind that is code", "refused 2 shape: tasks[0].kind", FILE % json.dumps({"id": "a", "kind": "print"}))
is_no_code("a number that is none", "refused 1 not json", FILE % '{"id":"a","retries":NaN}')
is_no_code("a list in place of a graph", "refused 2 shape: top", "[]")
is_no_code("a task without an id", "refused 2 shape: tasks[0].id", FILE % "{}")
is_no_code("no JSON", "refused 1 not json", "[" * 100000)
is_no_code("127 lists and objects in one another", "refused 2 shape: tasks[0].command", FILE % ('{"id":"a","command":%s}' % ("[" * 124 + "]" * 124)))
is_no_code("128 lists and objects in one another", "refused 1 not json", FILE % ('{"id":"a","command":%s}' % ("[" * 125 + "]" * 125)))
is_no_code("a number that has no end", "refused 1 not json", FILE % '{"id":"a","retries":1e400}')
is_no_code("a number of 65 bits", "refused 2 shape: tasks[0].retries", FILE % '{"id":"a","retries":18446744073709551616}')
is_no_code("a zero with a sign", "refused 2 shape: tasks[0].retries", FILE % '{"id":"a","retries":-0}')
names = ["__debug__", "None", "class", "print", "graph", "Group", "_", "9", "a.b", "a-b"]
comes_back("ids that are words of Python", {"dag_id": "d", "schedule": "@daily", "tasks": [{"id": name} for name in names]})
for zone in [*intervals.RULES, *intervals.BAD_ZONES, "UTC", "+01:00", "-23:59"]:
    file = {"dag_id": "d", "schedule": "@daily", "zone": zone, "tasks": []}
    is_bad = zone in intervals.BAD_ZONES
    holds(f"the zone {zone} of check", told_by_check(file) == ("refused 13 bad zone" if is_bad else None))
    holds(f"the zone {zone} in Python", (getattr(error_of(file), "number", None) == 13) == is_bad)
try:
    task("a")
    holds("a task of no graph", False)
except backfill_graph.GraphError:
    holds("a task of no graph", True)
for path in sorted((ROOT / "examples").glob("*/*.json")):
    file = json.loads(path.read_text())
    if isinstance(file, dict) and "dag_id" in file:
        comes_back(path.relative_to(ROOT), file)
for seed in range(1, COUNT + 1):
    by_chance(seed)
tell()
