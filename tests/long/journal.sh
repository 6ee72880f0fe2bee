#!/usr/bin/env bash
# More of tests/system/journal_crashes.sh: kills backfills that record their tries at chance moments, and cuts their journal behind each of
# its bytes, by programs, with 1 and 8 workers: tests/long/journal.sh [ROUNDS], by itself 250 backfills of either. The last line is the sum,
# and the status is 1 where something differs.
set -euo pipefail

source "$(dirname "$(readlink -f "${BASH_SOURCE[0]}")")/../shared/crashes.sh"

for ((round = 0; round < ${1:-250}; round++)); do
    survives KILL 1
    survives KILL 8
done
echo "$ended of $begun lines were killed"
size=$(stat -c %s whole)
for ((count = 0; count <= size; count++)); do
    is_cut "$count" 1
    is_cut "$count" 8
done
sum
