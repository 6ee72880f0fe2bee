#!/usr/bin/env bash
# Times `backfill list` in a zone with daylight saving time, with reading the file and starting the program; `--help` shows
# how long starting takes.
set -euo pipefail

source "$(dirname "$(readlink -f "${BASH_SOURCE[0]}")")/program.sh"
source "$root/bench/timing.sh"

graph() {
    printf '{"dag_id":"d","schedule":"%s","zone":"CET-1CEST,M3.5.0,M10.5.0/3","tasks":[]}' "$1" > "$work/graph.json"
}

timed 'starting' --help
graph '* * * * *'
timed '* * * * *, 4,096 intervals' list "$work/graph.json" --from 2024-01-01 --to 2024-01-03T20:15:00Z
graph '59 23 * * *'
timed '59 23 * * *, 4,018 intervals' list "$work/graph.json" --from 2020-01-01 --to 2030-12-31T23:59:59Z
graph '0 0 29 2 *'
timed '0 0 29 2 *, 1970 to 2199' list "$work/graph.json" --from 1970-01-01 --to 2199-12-31
