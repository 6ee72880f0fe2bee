#!/usr/bin/env bash
# Measures what shows a report, over reports of four sizes: how long `page`, `show` and `explain` of a run take, with starting the program;
# what the page weighs; and, where there is Chromium, how long a new browser takes to open it, to the second frame behind its load. Least of
# three. Then it measures `dry --keep` of a report of 2,000 tasks in 100 runs, beside `dry`.
set -euo pipefail

source "$(dirname "$(readlink -f "${BASH_SOURCE[0]}")")/program.sh"

python3 -B - "$program" "$work" "$root" <<'PY'
import datetime
import json
import os
import shutil
import subprocess
import sys
import time

program, work, root = sys.argv[1:]
sys.path.insert(0, f"{root}/tests/pages/browser")
from chromium import Browser  # noqa: E402

FIRST_DAY = datetime.date(2000, 1, 1)
FRAMES = "new Promise(done => requestAnimationFrame(() => requestAnimationFrame(() => done(1))))"


def least(measure):
    return min(measure() for _ in range(3))


def seconds(words, to):
    with open(to, "w") as file:
        start = time.monotonic()
        subprocess.run([program, *words], stdout=file, stderr=subprocess.DEVNULL)
        return time.monotonic() - start


def opened(browser):
    """How long a browser takes to open the page."""
    here = Browser(browser)
    start = time.monotonic()
    here.goes(f"file://{work}/page.html")
    here.script(FRAMES, waits=True)
    took = time.monotonic() - start
    here.close()
    return took


def write(name, text):
    with open(f"{work}/{name}", "w") as file:
        file.write(text)
    return f"{work}/{name}"


def files(runs, tasks, edges):
    """A graph of so many tasks, a table by which some of them fail, and the words of the range."""
    graph = subprocess.run([sys.executable, f"{root}/bench/graph.py", str(tasks), str(edges)], stdout=subprocess.PIPE, check=True, text=True)
    days = [(FIRST_DAY + datetime.timedelta(days=number)).isoformat() for number in range(runs)]
    failing = [{"task": f"t{tasks // 2}", "run": f"{day}T00:00:00Z", "status": 1} for day in days[::7]]
    return write("graph.json", graph.stdout), write("table.json", json.dumps(failing)), ["--from", days[0], "--to", days[-1]]


print("load", *os.getloadavg())
browser = shutil.which("chromium")
for runs, tasks in ((90, 20), (365, 200), (4096, 200), (4096, 2000)):
    graph, table, days = files(runs, tasks, 2 * tasks)
    report, page = f"{work}/report", f"{work}/page.html"
    seconds(["dry", graph, table, *days], report)
    took = {"page": least(lambda: seconds(["page", graph, report], page)), "show": least(lambda: seconds(["show", graph, report], f"{work}/shown"))}
    took["explain"] = least(lambda: seconds(["explain", graph, report, "--run", days[1]], f"{work}/shown"))
    told = ", ".join(f"{name} {1000 * time:.0f} ms" for name, time in took.items())
    opening = f", open {opened(browser):.2f} s" if browser else ""
    print(f"{runs}x{tasks}: report {os.path.getsize(report) / 1e6:.2f} MB, page {os.path.getsize(page) / 1e6:.2f} MB, {told}{opening}", flush=True)

graph, table, days = files(100, 2000, 9985)
report, again = f"{work}/report", f"{work}/again"
seconds(["dry", graph, table, *days], report)
plain = least(lambda: seconds(["dry", graph, table, *days], again))
kept = least(lambda: seconds(["dry", graph, table, *days, "--keep", report], again))
print(f"dry of 200,000 instances: {plain:.3f} s; the same with --keep: {kept:.3f} s, {kept / plain:.2f} times as long")
print("load", *os.getloadavg())
PY
