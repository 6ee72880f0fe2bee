#!/usr/bin/env bash
# Times `backfill run` over 2,000 `true`s by 8 workers beside make, ninja and xargs over as many, each by 8 jobs, and `list` over ten years of days at
# six o'clock beside croniter. What isn't installed is left out. Needs python3.
set -euo pipefail

source "$(dirname "$(readlink -f "${BASH_SOURCE[0]}")")/program.sh"

/usr/bin/python3 - "$program" "$work" <<'PY'
import json
import pathlib
import shutil
import subprocess
import sys
import time

program, work = sys.argv[1], pathlib.Path(sys.argv[2])
COUNT, JOBS = 2_000, "8"
CRONITER = """
import datetime, croniter
dates = croniter.croniter("0 6 * * *", datetime.datetime(2014, 1, 1))
last = datetime.datetime(2024, 1, 1)
while (date := dates.get_next(datetime.datetime)) <= last:
    print(date.isoformat())
"""


def write(name, text):
    (work / name).write_text(text)
    return f"{work / name}"


def says(name, words, stdin=None):
    """The least of five runs, in seconds."""
    if not shutil.which(words[0]):
        print(f"{name}: not installed")
        return
    times = []
    for _ in range(5):
        start = time.monotonic()
        with open(stdin or "/dev/null") as given:
            subprocess.run(words, stdin=given, stdout=subprocess.DEVNULL, cwd=work, check=True)
        times.append(time.monotonic() - start)
    print(f"{name}: {min(times):.3f} s")


names = [f"t{n}" for n in range(COUNT)]
tasks = [{"id": name, "command": ["true"]} for name in names]
graph = write("graph.json", json.dumps({"dag_id": "d", "schedule": "@daily", "tasks": tasks}))
days = write("days.json", json.dumps({"dag_id": "d", "schedule": "0 6 * * *", "tasks": tasks[:1]}))
write("Makefile", f".PHONY: all {' '.join(names)}\nall: {' '.join(names)}\n{' '.join(names)}:\n\t@true\n")
write("build.ninja", "rule run\n  command = true\n" + "".join(f"build {name}: run\n" for name in names))
words = write("words", "true\n" * COUNT)

says("2,000 trues, backfill run", [program, "run", graph, "--on", "2024-01-01", "--workers", JOBS])
says("2,000 trues, make", ["make", "-s", "-j", JOBS])
says("2,000 trues, ninja", ["ninja", "--quiet", "-j", JOBS])
says("2,000 trues, xargs", ["xargs", "-P", JOBS, "-n", "1", "true"], words)
says("3,652 days, backfill list", [program, "list", days, "--from", "2014-01-01", "--to", "2023-12-31T06:00:00Z"])
if subprocess.run([sys.executable, "-c", "import croniter"], stderr=subprocess.DEVNULL).returncode == 0:
    says("3,652 days, croniter", [sys.executable, "-c", CRONITER])
PY
