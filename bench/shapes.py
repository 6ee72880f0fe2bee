"""The backfills over tables that dry.sh and clear.sh measure, and how they measure a command. Needs GNU time."""
import datetime
import json
import os
import statistics
import subprocess
import sys
import time

FIRST_DAY = datetime.date(2000, 1, 1)


def graph_of(tasks, active_runs=16, upstreams=5):
    """A graph of so many tasks, of which each has so many upstreams, or as many as there can be, and of which so many runs may be open."""
    edges = sum(min(upstreams, task) for task in range(tasks))
    generator = f"{os.path.dirname(os.path.realpath(__file__))}/graph.py"
    text = subprocess.run([sys.executable, generator, str(tasks), str(edges)], stdout=subprocess.PIPE, check=True, text=True)
    return json.dumps({**json.loads(text.stdout), "max_active_runs": active_runs})


def mapped(**further):
    """A task that is expanded over another."""
    tasks = [{"id": "src"}, {"id": "m", "upstream": ["src"], "expand": "src", **further}]
    return json.dumps({"dag_id": "d", "schedule": "@daily", "tasks": tasks})


def items(count):
    """A table of which the source's line is a list of so many items."""
    return json.dumps([{"task": "src", "out": json.dumps(list(range(count)))}])


def entries(tasks):
    """A table of which an entry answers for each task, and pushes nothing."""
    return json.dumps([{"task": f"t{task}"} for task in range(tasks)])


def days_of(runs):
    """The first days that there are, one for each run."""
    return [FIRST_DAY + datetime.timedelta(days=day) for day in range(runs)]


def range_of(runs):
    """The options that ask for so many runs."""
    days = days_of(runs)
    return ["--from", f"{days[0]}", "--to", f"{days[-1]}"]


def file_of(work, name, text):
    """Writes a file, and gives its path."""
    path = f"{work}/{name}"
    with open(path, "w") as file:
        file.write(text)
    return path


def dry_of(program, work, graph, table, runs):
    """The command of a backfill."""
    return [program, "dry", file_of(work, "graph.json", graph), file_of(work, "table.json", table), *range_of(runs)]


def told_by(words):
    """What a command prints."""
    return subprocess.run(words, stdout=subprocess.PIPE, check=True).stdout


def run_of(work, words):
    """The time of a command in seconds, and its peak memory in bytes, by GNU time: a child of Python begins with Python's own peak."""
    start = time.monotonic()
    status = subprocess.run(["time", "--format=%M", f"--output={work}/peak", *words], stdout=subprocess.DEVNULL).returncode
    seconds = time.monotonic() - start
    if status != 0:
        sys.exit(f"{' '.join(words)} ended with {status}")
    with open(f"{work}/peak") as file:
        return seconds, int(file.read()) * 1024


def pace():
    """The time in seconds that a loop takes which does nothing but count."""
    start = time.perf_counter()
    for _ in range(200_000):
        pass
    return time.perf_counter() - start


def quiet_runs(count, run):
    """What calls of `run` gave while the machine was quiet: right before and right after each, a loop took at most a tenth longer than it
    ever did. Gives so many, or fewer where twenty times as many calls give no more."""
    runs = []
    least = min(pace() for _ in range(100))
    for _ in range(20 * count):
        before, found, after = pace(), run(), pace()
        least = min(least, before, after)
        if max(before, after) <= 1.1 * least:
            runs.append(found)
        if len(runs) == count:
            break
    return runs or sys.exit(f"the machine was quiet in none of {20 * count} runs")


def said_of(runs, instances):
    """How many runs these are, their median time, the least in brackets, and the least peak, for each task instance."""
    seconds = [seconds for seconds, _ in runs]
    middle = statistics.median(seconds)
    peak = min(peak for _, peak in runs)
    return (
        f"{len(runs)} runs, {middle:.2f} s, {middle / instances * 1e6:.2f} us ({min(seconds) / instances * 1e6:.2f}) "
        f"and {peak / instances:.0f} bytes a task instance"
    )
