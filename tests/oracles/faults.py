#!/usr/bin/env python3
"""Graph files with faults that go by chance, and what `check` is to tell of them: faults.py FOLDER FIRST COUNT

For each seed from FIRST on, COUNT of them, a folder of its name has graph.json, for some a zone file `zone`, and `told`: the line
that is to be printed. The file `cases` has a line for each seed: the seed, the exit status, and what stands on the line of the
command behind the graph file, or nothing. The faults are read off docs/FORMATS.md ("Graph file", "Order of refusals", "What the
program prints") and docs/SPECIFICATION.md ("Graphs", "Pools", "Schedules", "Limits"). Files that are no JSON are left to others.
"""
import itertools
import json
import random
import re

import intervals
import recursion
from backfills import UNSETTLED, WAITING, graph_of, happens, settled_ancestors, some, write_cases

MOST_BYTES = 8388608
MOST_TASKS = 2000
MOST_EDGES = 20000
MOST_WORDS = 64
LONGEST_TEXT = 4096
MOST_PULLS = 16
DEFAULT_SLOTS = 128

# The keys of the objects in the order of the format, each with its type.
GRAPH_KEYS = {"dag_id": str, "schedule": str, "zone": str, "max_active_runs": int, "pools": dict, "tasks": list}
TASK_KEYS = {
    **{"id": str, "upstream": list, "rule": str, "kind": str, "command": list, "expand": str, "depends_on_past": bool, "retries": int},
    **{"retry_delay": int, "pool": str, "pool_slots": int, "priority_weight": int, "weight_rule": str},
}
REQUIRED = ["dag_id", "schedule", "tasks", "id"]
IDS = ["dag_id", "id"]
BOUNDS = {
    **{"max_active_runs": (1, 4096), "retries": (0, 100), "retry_delay": (0, 86400)},
    **{"pool_slots": (1, 1000000), "priority_weight": (0, 1000000)},
}
CHOICES = {"kind": ["program", "branch"], "weight_rule": ["downstream", "upstream", "absolute"]}
CONTEXT = ["logical_date", "data_interval_start", "data_interval_end", "dag_id", "task_id", "map_index", "try_number"]


# The shape of a file. Every function tells its faults in order, each by its number and its words.


class Met:
    """What was met in the tasks so far: their ids, and how many distinct edges they have."""

    def __init__(self):
        self.ids = set()
        self.edges = 0


def is_id(text):
    return re.fullmatch("[A-Za-z0-9._-]{1,250}", text) is not None


def is_word(word, task):
    if type(word) is not dict:
        return type(word) is str
    if len(word) != 1:
        return False
    [(key, value)] = word.items()
    if key == "item":
        return value is True and "expand" in task
    return value in CONTEXT if key == "context" else key == "pull" and type(value) is str


def is_of_type(value, key, kind, holder):
    if type(value) is not kind:
        return False
    if key == "upstream":
        return all(type(each) is str for each in value)
    if key == "command":
        return all(is_word(word, holder) for word in value)
    return value in CHOICES.get(key, [value])


def passes_limit(key, value, holder, met):
    if key == "tasks":
        return len(value) > MOST_TASKS
    if key == "upstream":
        met.edges += len(set(value))
        return met.edges > MOST_EDGES
    if key == "command":
        pulls = [word["pull"] for word in value if "pull" in word and type(word) is dict]
        texts = pulls + [word for word in value if type(word) is str]
        return len(value) > MOST_WORDS or len(set(pulls)) > MOST_PULLS or any(len(text.encode()) > LONGEST_TEXT for text in texts)
    return key in BOUNDS and not BOUNDS[key][0] <= value <= BOUNDS[key][1]


def faults_of_key(key, kind, holder, path, met):
    if key not in holder:
        if key in REQUIRED:
            yield 2, f"shape: {path}"
        return
    value = holder[key]
    if not is_of_type(value, key, kind, holder):
        yield 2, f"shape: {path}"
        return
    if key in IDS and not is_id(value):
        yield 3, f"bad name: {path}"
    if passes_limit(key, value, holder, met):
        yield 5, f"limit passed: {path}"
    if key == "id":
        if value in met.ids:
            yield 4, f"duplicate task: {value}"
        met.ids.add(value)
    elif key == "pools":
        yield from faults_of_pools(value)
    elif key == "tasks":
        for place, task in enumerate(value):
            yield from faults_of_object(task, TASK_KEYS, f"tasks[{place}]", f"tasks[{place}].", met)


def faults_of_pools(pools):
    for name in sorted(pools):
        if type(pools[name]) is not int:
            yield 2, "shape: pools"
        if not is_id(name):
            yield 3, "bad name: pools"
        if type(pools[name]) is int and not 1 <= pools[name] <= 1000000:
            yield 5, "limit passed: pools"


def faults_of_object(holder, keys, path, before_keys, met):
    if type(holder) is not dict:
        yield 2, f"shape: {path}"
        return
    if any(key not in keys for key in holder):
        yield 2, f"shape: {path}"
    for key, kind in keys.items():
        yield from faults_of_key(key, kind, holder, f"{before_keys}{key}", met)


# A graph whose shape is good.


def cycle(graph):
    """The cycle by which a graph is refused, or None."""
    for task in graph.tasks:
        paths = [[task]]
        met = {task}
        # Grows while it is walked: shorter paths stand first, and of those as long the first by places in the file.
        for path in paths:
            below = graph.downstreams(path[-1])
            if task in below:
                return path
            paths += [path + [each] for each in below if each not in met]
            met.update(below)
    return None


def faults_of_tasks(graph, number, words, is_faulty):
    return [(number, f"{words}: {task}") for task in graph.tasks if is_faulty(task)]


def faults_of_edges(graph):
    yield from faults_of_tasks(graph, 6, "unknown upstream", lambda task: any(each not in graph.tasks for each in graph.upstreams(task)))
    members = cycle(graph)
    if members:
        yield 7, f"cycle: {' '.join(members)}"


def faults_of_pools_and_rules(graph, pools):
    slots = {"default_pool": DEFAULT_SLOTS, **pools}

    def said(task, key, otherwise):
        return graph.tasks[task].get(key, otherwise)

    def pool(task):
        return said(task, "pool", "default_pool")

    yield from faults_of_tasks(graph, 8, "unknown pool", lambda task: pool(task) not in slots)
    yield from faults_of_tasks(graph, 9, "slots beyond pool", lambda task: said(task, "pool_slots", 1) > slots.get(pool(task), 10**6))
    yield from faults_of_tasks(graph, 10, "bad rule", lambda task: graph.tasks[task]["rule"] not in recursion.VERDICTS)


def faults_of_values(graph):
    def source_is_strange(task):
        return graph.source(task) is not None and graph.source(task) not in graph.upstreams(task)

    def rule_is_early(task):
        return graph.source(task) is not None and graph.tasks[task]["rule"] in UNSETTLED

    yield from faults_of_tasks(graph, 14, "pull not settled", lambda task: set(graph.pulls(task)) - settled_ancestors(graph, task))
    yield from faults_of_tasks(graph, 15, "expand source", source_is_strange)
    yield from faults_of_tasks(graph, 16, "expand rule", rule_is_early)


def fault_of(read, *arguments):
    """The fault of a schedule or a zone, where it has one."""
    try:
        read(*arguments)
    except intervals.Refused as refused:
        [number] = refused.args
        yield number, intervals.WORDS[number]


def faults_of_graph(file, zone_bytes):
    graph = recursion.Graph(file)
    faults = list(itertools.chain(faults_of_edges(graph), faults_of_pools_and_rules(graph, file.get("pools", {}))))
    yield from faults
    yield from fault_of(intervals.Schedule, file["schedule"])
    yield from fault_of(intervals.zone_of, file.get("zone", "UTC"), zone_bytes)
    if not any(number in (6, 7, 10) for number, _ in faults):
        yield from faults_of_values(graph)
    yield from faults_of_tasks(graph, 17, "branch misuse", lambda task: graph.is_branch(task) and graph.source(task) is not None)


# What is told.


def number_of(digits):
    """A whole number, or a fraction where it is of the wrong type."""
    try:
        return recursion.whole_number(digits)
    except ValueError:
        return float(digits)


def all_faults(text, zone_bytes):
    """The faults of a file, the one that is told first. Those of the graph are looked for where its shape is good."""
    if len(text.encode()) > MOST_BYTES:
        return [(5, "limit passed: bytes")]
    file = json.loads(text, parse_int=number_of)
    return list(faults_of_object(file, GRAPH_KEYS, "top", "", Met())) or list(faults_of_graph(file, zone_bytes))


def told(text, zone_bytes):
    """The exit status of `check`, and its line."""
    faults = all_faults(text, zone_bytes)
    if faults:
        number, words = faults[0]
        return 2, f"refused {number} {words}"
    graph = recursion.Graph(json.loads(text))
    return 0, f"ok {len(graph.tasks)} tasks, {sum(len(graph.upstreams(task)) for task in graph.tasks)} edges"


# Schedules and zones that go by chance.


def good_schedule(chance):
    return next(text for text in iter(lambda: intervals.schedule_text(chance), None) if not list(fault_of(intervals.Schedule, text)))


def bad_schedule(chance):
    """One of those that are named, or one that was good before a piece of it changed."""
    if happens(chance, 60):
        return chance.choice(intervals.BAD_SCHEDULES) if happens(chance, 50) else intervals.schedule_by_fields(chance, True)
    schedule = good_schedule(chance)
    place = chance.randint(0, len(schedule))
    return schedule[:place] + chance.choice(["9", "-", "/", "*", ",", " ", "a", "\n", "@", "7-"]) + schedule[place + chance.randint(0, 1):]


def never_schedule(chance):
    """One of days that its months lack, but for a few that fire all the same, most of these by their weekdays."""
    dates = chance.choice(["30 2", "31 2,4,6,9,11", "31 4,6", "30,31 feb", "30-31 2-2/5", "29 2", "31 */2"])
    return f"0 {chance.randint(0, 23)} {dates} {chance.choice(['*', '*', '*', '*', '*/1', 'mon', '*,1'])}"


def good_zone(chance):
    offset = f"{chance.choice('+-')}{chance.choice([0, 1, 9, 14, 23]):02}:{chance.choice([0, 30, 59]):02}"
    return chance.choice(["UTC", offset, offset, chance.choice(intervals.RULES), intervals.rule_text(chance)])


def bad_zone(chance):
    """Most often none; or one that needs a zone file."""
    offset = f"+0{chance.choice('019:')}{chance.choice(':.0')}{chance.choice('0569')}{chance.choice('09:')}"
    return chance.choice([*intervals.BAD_ZONES, *[offset] * 5, *["file"] * 4])


def zone_bytes_of(chance):
    """The bytes of a zone file, or None where the line names none."""
    if happens(chance, 1):
        return bytes(intervals.LONGEST_ZONE_FILE + 1)
    read = chance.choice([None, None, intervals.zone_file_content, intervals.bad_zone_file])
    return read and read(chance)


# A sound graph, and the faults that are planted in it. A text between two `@@` is written as it stands.

STRANGERS = ["nobody", "no id", "", "A", "DEFAULT_POOL"]
BAD_IDS = ["", "a b", "é", "a/b", "a\n", "x" * 251, "x" * 251, "x" * 250, "a:b", " a", "\0"]
ODD_VALUES = [None, True, False, 0, 1, 7, "", "x", "7", [], ["x"], [7], {}, {"x": 1}, "@@-0@@", "@@1.0@@", "@@1e1@@", 2**64]
ODD_NUMBERS = [True, False, "1", [1], None, "@@-0@@", "@@1.0@@", "@@0.0@@", "@@1e0@@", "@@1e-400@@", 2**63, -(2**63) - 1, 2**64]
ODD_WORDS = [None, True, 7, [], ["x"], {}, {"item": True}, {"item": False}, {"item": 1}, {"item": "x"}, {"item": True, "pull": "a"}]
ODD_WORDS += [{"pull": 7}, {"pull": ["a"]}, {"pull": None}, {"context": "ds"}, {"context": 7}, {"context": None}, {"Pull": "a"}, {"": "a"}]
UNKNOWN_KEYS = ["x", "", "ID", "id ", "catchup", "trigger_rule", "task_id"]


def dress(chance, file):
    """Gives a graph and its tasks the keys that they lack."""
    file.update(schedule=good_schedule(chance), pools={"p": 3, "q.2": 1000000})
    if happens(chance, 50):
        file["pools"]["default_pool"] = chance.choice([3, 200])
    if happens(chance, 60):
        file["zone"] = good_zone(chance)
    if happens(chance, 30):
        file.update(dag_id="Az09-._" + "x" * 243, max_active_runs=chance.choice(BOUNDS["max_active_runs"]))
    for task in file["tasks"]:
        for key in ("retries", "retry_delay", "priority_weight"):
            if happens(chance, 30):
                task[key] = chance.choice(BOUNDS[key])
        if happens(chance, 30):
            task.update(chance.choice([{"pool": "p", "pool_slots": 3}, {"pool": "q.2", "pool_slots": 1000000}, {"pool_slots": 1}]))
        if happens(chance, 20):
            task["command"].append({"context": chance.choice(CONTEXT)})
        if happens(chance, 10):
            most = ["w"] * (MOST_WORDS - len(task["command"]))
            task["command"] += chance.choice([most, ["x" * LONGEST_TEXT], ["é" * (LONGEST_TEXT // 2)]])
        for key in ("rule", "kind"):
            if task.get(key) == recursion.DEFAULTS[key] and happens(chance, 50):
                del task[key]
    return file


def whole_tasks(file):
    return [task for task in file["tasks"] if type(task) is dict and "upstream" in task]


def task_in(chance, file):
    return chance.choice(whole_tasks(file))


def ids_in(file):
    return [task["id"] for task in whole_tasks(file)]


def plant_expanded_branch(chance, file):
    task = chance.choice([task for task in file["tasks"] if task["upstream"]] or file["tasks"])
    task.update(kind="branch", expand=chance.choice(task["upstream"] or ids_in(file)))
    if happens(chance, 70):
        task.update(rule=chance.choice(WAITING))


def plant_early_expansion(chance, file):
    task = task_in(chance, file)
    task.update(rule=chance.choice(UNSETTLED), expand=chance.choice(task["upstream"] or ids_in(file)))
    if happens(chance, 60):
        task["command"] = ["echo", {"item": True}]


def plant_source(chance, file):
    task_in(chance, file)["expand"] = chance.choice(ids_in(file) + STRANGERS[:2])


def plant_pull(chance, file):
    task_in(chance, file)["command"].append({"pull": chance.choice(ids_in(file) + STRANGERS[:1])})


def plant_early_rule(chance, file):
    """Takes from tasks below it the ancestors that they pull from."""
    among = [task for task in file["tasks"] if any(task["id"] in other["upstream"] for other in file["tasks"])]
    chance.choice(among or file["tasks"])["rule"] = chance.choice(UNSETTLED)


def plant_zone(chance, file):
    file["zone"] = bad_zone(chance)


def plant_never(chance, file):
    file["schedule"] = never_schedule(chance)


def plant_schedule(chance, file):
    file["schedule"] = bad_schedule(chance)


def plant_rule(chance, file):
    bad = ["all_good", "", "ALL_DONE", "all_success ", "dummy", "none_failed_or_skipped"]
    task_in(chance, file)["rule"] = chance.choice(bad + WAITING[:2])


def plant_slots(chance, file):
    task = task_in(chance, file)
    task["pool"] = chance.choice(["p", "q.2", "default_pool"])
    slots = {"default_pool": DEFAULT_SLOTS, **file["pools"]}[task["pool"]]
    task["pool_slots"] = min(1000000, slots + chance.choice([0, 1, 1, 50]))
    if task["pool"] == "default_pool" and happens(chance, 50):
        del task["pool"]


def plant_pool(chance, file):
    task_in(chance, file)["pool"] = chance.choice(STRANGERS)


def plant_edges(chance, file):
    """A few edges more, of which some close a cycle, and loops among them."""
    for _ in range(chance.choice([1, 1, 2, 3, 5])):
        task = task_in(chance, file)
        task["upstream"] = task["upstream"] + [task["id"] if happens(chance, 10) else chance.choice(ids_in(file))]


def plant_rings(chance, file):
    """Every task has a few upstreams, wherever they stand: many cycles are as long as others."""
    if happens(chance, 50):
        file["tasks"] += [{"id": f"t{number}"} for number in chance.sample(range(9), 4)]
    counts = chance.choice([(1, 1, 2), (2, 2, 3), (0, 1, 2)])
    ids = [task["id"] for task in file["tasks"]]
    for task in file["tasks"]:
        others = [each for each in ids if each != task["id"] or happens(chance, 5)]
        task["upstream"] = some(chance, others, *counts)
        task["upstream"] += task["upstream"][:1] if happens(chance, 20) else []


def plant_stranger(chance, file):
    task = task_in(chance, file)
    task["upstream"] = task["upstream"] + [chance.choice([*STRANGERS, task["id"].upper() + "x"])]


def plant_number(chance, file):
    key = chance.choice(list(BOUNDS))
    least, most = BOUNDS[key]
    holder = file if key in GRAPH_KEYS else task_in(chance, file)
    holder[key] = chance.choice([least - 1, least - 1, least - 1, most + 1, most + 1, most + 1, -(2**63), 2**63 - 1])


def plant_pool_size(chance, file):
    file["pools"][chance.choice(["p", "r", "A", "a b", "é", "\uffee", "\U0001f600"])] = chance.choice([-1, 0, 1, 1000001])


def plant_long_command(chance, file):
    pulls = [{"pull": f"{number}"} for number in range(MOST_PULLS + chance.choice([0, 1]))]
    text = chance.choice(["x" * LONGEST_TEXT, "x" * (LONGEST_TEXT + 1), "x" + "é" * (LONGEST_TEXT // 2)])
    task_in(chance, file)["command"] = chance.choice([pulls + pulls[:3], ["w"] * (MOST_WORDS + 1), [text], [{"pull": text}]])


def plant_much(chance, file):
    """As many edges or tasks as there may be, or one more; seldom, since these files are large."""
    if not happens(chance, 30):
        plant_number(chance, file)
    elif happens(chance, 50):
        others = [chance.choice([None, {}, {"id": "a"}])] * (MOST_TASKS - len(file["tasks"]) + chance.choice([0, 1]))
        file["tasks"] += others
    else:
        edges = sum(len(set(task["upstream"])) for task in whole_tasks(file))
        task = task_in(chance, file)
        others = [f"{number}" for number in range(100, 100 + MOST_EDGES - edges + chance.choice([0, 1]))]
        task["upstream"] = task["upstream"] + others + chance.choice([others, others, [7]])


def plant_twin(chance, file):
    task_in(chance, file)["id"] = chance.choice(ids_in(file))


def plant_name(chance, file):
    holder, key = chance.choice([(file, "dag_id"), *[(task_in(chance, file), "id")] * 3])
    holder[key] = chance.choice(BAD_IDS)


def plant_pool_name(chance, file):
    file["pools"][chance.choice(BAD_IDS)] = chance.choice([1, 0, "1"])


def plant_odd_task(chance, file):
    file["tasks"].insert(chance.randint(0, len(file["tasks"])), chance.choice(ODD_VALUES))


def plant_odd_value(chance, file):
    task_in(chance, file)[chance.choice(list(TASK_KEYS))] = chance.choice(ODD_VALUES)


def plant_odd_number(chance, file):
    key = chance.choice(list(BOUNDS))
    (file if key in GRAPH_KEYS else task_in(chance, file))[key] = chance.choice(ODD_NUMBERS)


def spoil_neighbours(chance, holder, keys):
    """Two keys one behind the other get a type that no key has."""
    place = chance.randint(0, len(keys) - 2)
    holder.update({key: None for key in list(keys)[place:place + 2]})


def plant_odd_neighbours(chance, file):
    spoil_neighbours(chance, task_in(chance, file), TASK_KEYS)


def plant_odd_top_neighbours(chance, file):
    spoil_neighbours(chance, file, GRAPH_KEYS)


def plant_odd_text(chance, file):
    task_in(chance, file)[chance.choice(list(CHOICES))] = chance.choice(["", "Branch", "none", "downstream", "program"])


def plant_odd_word(chance, file):
    """A word that is none, and with it more words than there may be at times."""
    words = chance.choice([[], ["echo"], ["echo"], ["w"] * MOST_WORDS, ["w"] * (MOST_WORDS + 1), ["x" * (LONGEST_TEXT + 1)]])[:]
    words.insert(chance.randint(0, len(words)), chance.choice(ODD_WORDS))
    task_in(chance, file)["command"] = words


def plant_odd_upstream(chance, file):
    task_in(chance, file)["upstream"] = ["nobody", chance.choice(ODD_VALUES)]


def plant_unknown_key(chance, file):
    chance.choice([file, *[task_in(chance, file)] * 3])[chance.choice(UNKNOWN_KEYS)] = chance.choice(ODD_VALUES)


def plant_lack(chance, file):
    task_in(chance, file).pop("id", None)


def plant_odd_pool(chance, file):
    file["pools"][chance.choice(["p", "A", "a b", "\uffee", "\U0001f600"])] = chance.choice(ODD_VALUES)


def plant_odd_top(chance, file):
    key = chance.choice(list(GRAPH_KEYS))
    if happens(chance, 30):
        file.pop(key, None)
    else:
        file[key] = chance.choice(ODD_VALUES)


# In the order in which they are planted: what breaks the shape comes last. Each has the number that it is for.
PLANTS = [
    *[(17, plant_expanded_branch), (16, plant_early_expansion), (15, plant_source), (14, plant_pull), (14, plant_early_rule)],
    *[(13, plant_zone), (12, plant_never), (11, plant_schedule), (10, plant_rule), (9, plant_slots), (8, plant_pool)],
    *[(7, plant_rings), (7, plant_edges), (6, plant_stranger), (5, plant_number), (5, plant_long_command), (5, plant_pool_size)],
    *[(5, plant_much), (4, plant_twin), (3, plant_name), (3, plant_pool_name), (2, plant_odd_value), (2, plant_odd_text)],
    *[(2, plant_odd_word), (2, plant_odd_number), (2, plant_odd_upstream), (2, plant_unknown_key), (2, plant_odd_pool), (2, plant_lack)],
    *[(2, plant_odd_task), (2, plant_odd_neighbours), (2, plant_odd_top), (2, plant_odd_top_neighbours)],
]
SOUND = 18
# The numbers of which the least one is chosen: more often those that are told for many causes.
LEAST = [2] * 10 + [5] * 7 + 3 * [7, 11] + 2 * [3, 13, 14, SOUND] + [4, 6, 8, 9, 10, 12, 15, 16, 17]


def planted(chance):
    """A graph file with one to four faults, none of them for a number below the one of the first; or a sound one."""
    file = dress(chance, graph_of(chance))
    least = chance.choice(LEAST)
    if least < SOUND:
        places = [place for place, plant in enumerate(PLANTS) if plant[0] >= least]
        chosen = [chance.choice([place for place in places if PLANTS[place][0] == least])]
        chosen += [chance.choice(places) for _ in range(chance.choice([0, 1, 2, 3]))]
        for place in sorted(chosen):
            PLANTS[place][1](chance, file)
    return chance.choice([None, 7, "x", [], [file]]) if happens(chance, 0.5) else file


# Cases.


def shuffled(chance, value):
    """The same with the keys of each object in another order."""
    if type(value) is list:
        return [shuffled(chance, each) for each in value]
    return {key: shuffled(chance, value[key]) for key in chance.sample(list(value), len(value))} if type(value) is dict else value


def text_of_file(chance):
    text = json.dumps(shuffled(chance, planted(chance)), ensure_ascii=happens(chance, 50), indent=chance.choice([None, None, 1]))
    text = re.sub('"@@([^@]*)@@"', r"\1", text)
    if happens(chance, 5):
        text = re.sub('"([a-z])', lambda found: rf'"\u{ord(found[1]):04x}', text)
    if happens(chance, 1):
        text += " " * (MOST_BYTES - len(text.encode())) + chance.choice(["", " ", "}"])
    return text


def case_of(seed):
    """The text of a graph file, and the bytes of a zone file or None."""
    chance = random.Random(seed)
    return text_of_file(chance), zone_bytes_of(chance)


def write_case(folder, seed):
    """Writes the files of a seed, and answers its line."""
    text, zone_bytes = case_of(seed)
    status, line = told(text, zone_bytes)
    place = folder / f"{seed}"
    place.mkdir()
    (place / "graph.json").write_bytes(text.encode())
    (place / "told").write_bytes(f"{line}\n".encode())
    if zone_bytes is None:
        return f"{seed} {status}\n"
    (place / "zone").write_bytes(zone_bytes)
    return f"{seed} {status} --zone-file {place / 'zone'}\n"


if __name__ == "__main__":
    write_cases(write_case, __doc__)
