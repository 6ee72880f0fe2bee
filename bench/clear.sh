#!/usr/bin/env bash
# Times how `backfill clear` goes on from a report over a table, and measures its peak memory, for each task instance of the report:
# of which one instance is cleared, and the first task in each run, and so all that follows from it. Beside them a line that is
# refused for its task, once the report has been read. bench/clear.sh [RUNS [PART]]: the median of up to so many runs while the machine is
# quiet, else of fifteen, the least time in brackets, and the least peak, of those reports whose names have this part. What `clear` reports
# has to be the report that it read. Needs GNU time.
set -euo pipefail

source "$(dirname "$(readlink -f "${BASH_SOURCE[0]}")")/program.sh"

PYTHONPATH=$root/bench python3 -B - "$program" "$work" "${1:-15}" "${2:-}" <<'PY'
import subprocess
import sys
import time

from shapes import days_of, dry_of, file_of, graph_of, items, mapped, quiet_runs, range_of, run_of, said_of, told_by

program, work, count, part = sys.argv[1:]


def refused(words):
    """The least time in seconds until a line is refused."""
    times = []
    for _ in range(int(count)):
        start = time.monotonic()
        if subprocess.run(words, capture_output=True).returncode != 2:
            sys.exit(f"{' '.join(words)} isn't refused")
        times.append(time.monotonic() - start)
    return min(times)


for name, graph, table, runs, instances, first, last in (
    ("2,000 tasks x 100 runs", graph_of(2_000), "[]", 100, 200_000, "t0", "t1999"),
    ("2,000 tasks x 100 runs, ten upstreams each", graph_of(2_000, upstreams=10), "[]", 100, 200_000, "t0", "t1999"),
    ("200 tasks x 1,000 runs", graph_of(200), "[]", 1_000, 200_000, "t0", "t199"),
    ("1,024 items x 50 runs", mapped(), items(1_024), 50, 1_025 * 50, "src", "m"),
):
    if part not in name:
        continue
    text = told_by(dry_of(program, work, graph, table, runs))
    report = file_of(work, "report", text.decode())
    days = days_of(runs)
    each = file_of(work, "seeds", "".join(f"{day} {first}\n" for day in days))
    clear = [program, "clear", f"{work}/graph.json", report, "--table", f"{work}/table.json", *range_of(runs)]
    print(f"{name}, refused for its task: {refused([*clear, '--task', 'q', '--run', f'{days[-1]}']):.3f} s", flush=True)
    for what, seeds in (
        ("one instance", ["--task", last, "--run", f"{days[-1]}"]),
        (f"{first} of each run", ["--seeds", each]),
    ):
        words = [*clear, *seeds]
        if told_by(words) != text:
            sys.exit(f"{' '.join(words)} reports otherwise")
        runs = quiet_runs(int(count), lambda: run_of(work, words))
        print(f"{name}, {what}: {said_of(runs, instances)}", flush=True)
PY
