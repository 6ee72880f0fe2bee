#!/usr/bin/env python3
"""Graphs and tables whose reports are looked at in a browser: samples.py FOLDER makes warehouse/ and hostile/ there, each with graph.json, table.json
and the last day of a range that begins on 2024-01-01 in `last`.
"""
import datetime
import json
import pathlib
import random
import sys

FIRST = datetime.date(2024, 1, 1)
SHOPS = ["north", "south", "east", "west", "harbour", "station", "airport", "old town"]
DATE = {"context": "logical_date"}


def shell(text, *words):
    return ["sh", "-c", text, *words]


def extract(name):
    return {
        "id": f"extract.{name}", "upstream": ["open_window"], "retries": 2, "retry_delay": 300, "pool": "source",
        "command": ["bin/extract", name, DATE],
    }


def clean(name):
    return {"id": f"clean.{name}", "upstream": [f"extract.{name}"], "command": ["bin/clean", {"pull": f"extract.{name}"}]}


def warehouse_graph():
    """20 tasks as a nightly load has them: sources, expanded tasks, a branch, a join, a snapshot with a past, a guard, a cleaner."""
    names = ("orders", "customers", "events")
    tasks = [
        {"id": "open_window", "command": shell("echo ${0%T*}", DATE)},
        *map(extract, names),
        {"id": "list_shops", "upstream": ["open_window"], "command": ["bin/shops", "--open", DATE]},
        {"id": "load_shop", "upstream": ["list_shops"], "expand": "list_shops", "retries": 1, "pool": "source",
         "command": ["bin/load", {"item": True}, DATE]},
        {"id": "check_shop", "upstream": ["load_shop"], "expand": "load_shop", "rule": "none_failed",
         "command": ["bin/check", {"context": "map_index"}, {"item": True}]},
        *map(clean, names),
        {"id": "choose_mode", "kind": "branch", "upstream": ["clean.orders", "clean.customers"],
         "command": shell('test "$(date -ud "$0" +%u)" = 7 && echo full_refresh || echo incremental', DATE)},
        {"id": "full_refresh", "upstream": ["choose_mode"], "command": ["bin/refresh", "--all"]},
        {"id": "incremental", "upstream": ["choose_mode"], "command": ["bin/refresh", "--since", DATE]},
        {"id": "snapshot", "upstream": ["full_refresh", "incremental"], "rule": "none_failed_min_one_success", "depends_on_past": True,
         "command": ["bin/snapshot", DATE]},
        {"id": "facts", "upstream": ["snapshot", "clean.events"], "rule": "none_failed", "command": ["bin/build", "facts", {"pull": "clean.events"}]},
        {"id": "shop_totals", "upstream": ["load_shop", "check_shop"], "rule": "none_failed", "command": ["bin/totals", {"pull": "load_shop"}]},
        {"id": "publish", "upstream": ["facts", "shop_totals"], "command": ["bin/publish", {"pull": "facts"}, {"pull": "shop_totals"}]},
        {"id": "report.daily", "upstream": ["publish"], "command": ["bin/mail", "daily", {"pull": "publish"}]},
        {"id": "alarm", "upstream": ["facts", "shop_totals", "publish"], "rule": "one_failed", "command": ["bin/alarm", DATE]},
        {"id": "cleanup", "upstream": ["publish"], "rule": "all_done", "command": ["rm", "-rf", {"pull": "open_window"}]},
    ]
    return {"dag_id": "warehouse_nightly", "schedule": "@daily", "max_active_runs": 8, "pools": {"source": 4}, "tasks": tasks}


def extracted(chance, run, date):
    """The answers of the sources and of what cleans them."""
    for name in ("orders", "customers", "events"):
        lines = chance.randint(800, 90_000)
        failed = chance.choices([0, 1, 2, 3], [90, 6, 2, 2])[0]
        if name != "events":
            failed = min(failed, 2)
        for number in range(1, failed + 1):
            yield {"task": f"extract.{name}", "run": run, "try": number, "status": 1}
        yield {"task": f"extract.{name}", "run": run, "out": f"s3://lake/{name}/{date}.parquet"}
        if chance.random() < 0.05 and name == "events":
            yield {"task": f"clean.{name}", "run": run, "status": 2}
        yield {"task": f"clean.{name}", "run": run, "out": f"{lines}"}


def loaded(chance, run):
    """The answers of the list of shops, and of what loads each."""
    count = 0 if chance.random() < 0.03 else chance.randint(3, 8)
    yield {"task": "list_shops", "run": run, "out": json.dumps(SHOPS[:count])}
    for index in range(count):
        what = chance.random()
        if what < 0.012:
            yield {"task": "load_shop", "run": run, "index": index, "status": 1}
        elif what < 0.05:
            yield {"task": "load_shop", "run": run, "index": index, "status": 99}
        elif what < 0.08:
            yield {"task": "load_shop", "run": run, "index": index, "try": 1, "status": 1}
        yield {"task": "load_shop", "run": run, "index": index, "out": str(chance.randint(10, 4000))}


def warehouse(runs=90):
    chance = random.Random(7)
    table = []
    for number in range(runs):
        date = FIRST + datetime.timedelta(days=number)
        run = f"{date}T00:00:00Z"
        table.append({"task": "open_window", "run": run, "out": f"{date}"})
        table += extracted(chance, run, date)
        table += loaded(chance, run)
        table.append({"task": "choose_mode", "run": run, "out": "full_refresh" if date.weekday() == 6 else "incremental"})
        if number == runs - 12:
            table.append({"task": "incremental", "run": run, "status": 1})
        if chance.random() < 0.01:
            table.append({"task": "publish", "run": run, "status": 1})
        table.append({"task": "facts", "run": run, "out": f"facts_{date:%Y%m%d}"})
        table.append({"task": "shop_totals", "run": run, "out": f"totals_{date:%Y%m%d}"})
        table.append({"task": "publish", "run": run, "out": f"https://example.org/sales/{date}"})
    return warehouse_graph(), table, runs


def hostile():
    """Values and ids that a reader of HTML, of URLs or of JavaScript could take for something else."""
    values = [
        "</script><script>alert(1)</script>", "<!--<script>", "%3c%25%0d", "a\u2028b\u2029c", "\"'`&amp;&lt;", "\\u003c", "\u202egnp.exe", "\x9b31m\x85",
        "\u0007\u001b[31mred", "\ufeffx\ufffe", "<img src=x onerror=alert(1)>", "]]>", "\U0001f600 \ud55c\uad6d", "a\tb\r\nc", "-", "'; rm -rf ~; '", "\U000e0041\u3164\ufe0f\u034f",
    ]
    tasks = [
        {"id": "list", "command": ["echo", "</script><b>%3c"]},
        {"id": "use", "upstream": ["list"], "expand": "list", "command": ["echo", {"item": True}, "</SCRIPT>", "$(id)", "it's", "\u2028"]},
        {"id": "join", "upstream": ["use"], "rule": "none_failed", "command": ["printf", "%s\n", {"pull": "use"}]},
        {"id": "-", "upstream": ["join"]},
        {"id": "__proto__", "upstream": ["-"]},
        {"id": "constructor", "upstream": ["-"]},
        {"id": "toString", "upstream": ["__proto__"], "command": ["echo", {"pull": "__proto__"}]},
        {"id": "..", "upstream": ["toString"]},
        {"id": "x" * 250, "upstream": [".."]},
    ]
    answers = [{"task": "use", "index": index, "out": json.dumps(value)} for index, value in enumerate(values)]
    table = [{"task": "list", "out": json.dumps(values)}, *answers, {"task": "__proto__", "out": "7"}, {"task": "constructor", "status": 1}]
    return {"dag_id": "hostile", "schedule": "@daily", "tasks": tasks}, table, 2


if __name__ == "__main__":
    for make in (warehouse, hostile):
        graph, table, runs = make()
        folder = pathlib.Path(sys.argv[1]) / make.__name__
        folder.mkdir()
        (folder / "graph.json").write_text(json.dumps(graph, indent=1, ensure_ascii=False) + "\n", "utf-8")
        (folder / "table.json").write_text(json.dumps(table, ensure_ascii=False), "utf-8")
        (folder / "last").write_text(f"{FIRST + datetime.timedelta(days=runs - 1)}")
