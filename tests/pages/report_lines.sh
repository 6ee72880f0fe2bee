#!/usr/bin/env bash
# Runs the lines of the guide that read a report in sqlite and in pandas, over the failed day. What isn't installed is skipped. The last line is the
# sum, and the status is 1 where something differs.
set -euo pipefail

source "$(dirname "$(readlink -f "${BASH_SOURCE[0]}")")/../shared/count.sh"
command -v python3 > /dev/null || skips_rest 'reports in sqlite and pandas: no python3'
mapfile -t lines < <(awk '/^python3 python\/backfill_report.py/ { inside = 1 } /^```/ { inside = 0 } inside' "$root/docs/GUIDE.md")
cd "$work"
ln -s "$root/python" "$root/examples" "$root/backfill" .
cp "$root/examples/failed_day/report.txt" .

is_same 'how many lines' 4 "${#lines[@]}"
holds 'a table of a report' bash -c "${lines[0]}"
if [[ -n $(command -v sqlite3) ]]; then
    is_same 'what failed, by sqlite' 'total|1' "$(bash -c "${lines[1]}")"
else
    skips 'what failed, by sqlite'
fi
holds 'lines of JSON' bash -c "${lines[2]}"
if python3 -c 'import pandas' 2> /dev/null; then
    is_same 'states, by pandas' 'state failed 1 success 7 upstream_failed 1 dtype: int64' "$(bash -c "${lines[3]}" | xargs)"
else
    skips 'states, by pandas'
fi

sum
