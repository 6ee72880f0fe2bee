#!/usr/bin/env bash
# Times `backfill dry`, with starting the program, and measures its peak memory, for each task instance: over many tasks, over
# many runs of which few, one or all may be open at once, by eight workers, and over an expanded task. The half of each shows how both
# grow. bench/dry.sh [RUNS [PART]]: the median of up to so many runs while the machine is quiet, else of fifteen, the least time in
# brackets, and the least peak, of those backfills whose names have this part. Where there is a rustc, by turns with the least that such a
# backfill costs (bench/floor.rs), whose reports have to be the same. Needs GNU time.
set -euo pipefail

source "$(dirname "$(readlink -f "${BASH_SOURCE[0]}")")/program.sh"
[[ -z $(command -v rustc) ]] || rustc -O -o "$work/floor" "$root/bench/floor.rs"

PYTHONPATH=$root/bench python3 -B - "$program" "$work" "${1:-15}" "${2:-}" <<'PY'
import os
import statistics
import sys

from shapes import dry_of, entries, graph_of, items, mapped, quiet_runs, run_of, said_of, told_by

program, work, count, part = sys.argv[1:]


def measured(dry, floor, instances):
    """What the runs come to, each followed by one of the floor, where there is one, which has to report the same."""
    if floor and told_by(floor) != told_by(dry):
        sys.exit(f"{' '.join(floor)} reports otherwise")
    runs = quiet_runs(int(count), lambda: (run_of(work, dry), run_of(work, floor) if floor else None))
    text = said_of([own for own, _ in runs], instances)
    if not floor:
        return text
    times = statistics.median(own[0] / least[0] for own, least in runs)
    return f"{text}, {times:.1f} times the floor, which took {min(least[1] for _, least in runs) / instances:.0f} bytes"


for name, graph, table, runs, instances, floor, further in (
    ("1,000 tasks x 100 runs", graph_of(1_000), "[]", 100, 100_000, "1000 5 100 16", []),
    ("2,000 tasks x 100 runs", graph_of(2_000), "[]", 100, 200_000, "2000 5 100 16", []),
    ("2,000 tasks x 100 runs, 8 workers", graph_of(2_000), "[]", 100, 200_000, "", ["--workers", "8"]),
    ("2,000 tasks x 100 runs, ten upstreams each", graph_of(2_000, upstreams=10), "[]", 100, 200_000, "2000 10 100 16", []),
    ("200 tasks x 500 runs", graph_of(200), "[]", 500, 100_000, "200 5 500 16", []),
    ("200 tasks x 1,000 runs", graph_of(200), "[]", 1_000, 200_000, "200 5 1000 16", []),
    ("200 tasks x 1,000 runs, 1 open", graph_of(200, 1), "[]", 1_000, 200_000, "200 5 1000 1", []),
    ("200 tasks x 1,000 runs, 1,000 open", graph_of(200, 4_096), "[]", 1_000, 200_000, "200 5 1000 4096", []),
    ("200 tasks x 1,000 runs, an entry for each task", graph_of(200), entries(200), 1_000, 200_000, "", []),
    ("512 items x 50 runs", mapped(), items(512), 50, 513 * 50, "items 512 50", []),
    ("1,024 items x 50 runs", mapped(), items(1_024), 50, 1_025 * 50, "items 1024 50", []),
    ("1,024 items x 50 runs, each pulls all", mapped(command=["true", {"pull": "src"}]), items(1_024), 50, 1_025 * 50, "", []),
):
    if part not in name:
        continue
    least = f"{work}/floor"
    words = [least, *floor.split()] if floor and os.path.exists(least) else []
    print(f"{name}: {measured([*dry_of(program, work, graph, table, runs), *further], words, instances)}", flush=True)
PY
