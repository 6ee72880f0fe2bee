#!/usr/bin/env bash
# Times `backfill check` over graphs at the limits, with reading the file and starting the program: the most edges, the most
# bytes, and a file full of pools of which each task names the last.
set -euo pipefail

source "$(dirname "$(readlink -f "${BASH_SOURCE[0]}")")/program.sh"
source "$root/bench/timing.sh"

python3 "$root/bench/graph.py" 2000 20000 > "$work/edges.json"
python3 "$root/bench/graph.py" 2000 20000 8388608 > "$work/bytes.json"
python3 - > "$work/pools.json" <<'PY'
import json

pools = {f"p{number}": 1 for number in range(450_000)}
last = max(pools)
tasks = [{"id": f"t{number}", "pool": last} for number in range(2_000)]
print(json.dumps({"dag_id": "d", "schedule": "@daily", "pools": pools, "tasks": tasks}, separators=(",", ":")))
PY

for graph in edges bytes pools; do
    timed "$graph" check "$work/$graph.json"
done
