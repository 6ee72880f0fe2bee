#!/usr/bin/env bash
# Runs the nightly job that README and the guide show, on three nights, one of which fails and is mended by the guide's line, and the guide's job of a DAG
# file, which takes python3. The last line is the sum, and the status is 1 where something differs.
set -euo pipefail

source "$(dirname "$(readlink -f "${BASH_SOURCE[0]}")")/../shared/count.sh"
cd "$work"

# The block of a page whose first line begins so.
block() {
    awk -v begins="$2" '/^```/ { if (inside) exit; first = $0 == "```sh"; next } first { inside = index($0, begins) == 1; first = 0 } inside' "$1"
}
# What a command ended with.
status_of() {
    local status=0
    "$@" > out 2> err || status=$?
    echo "$status"
}

block "$root/README.md" 'day=$(date' > nightly
is_same "the guide's job" "$(< nightly)" "$(block "$root/docs/GUIDE.md" 'day=$(date')"
block "$root/docs/GUIDE.md" 'day=2024-03-05' > mends
chmod +x nightly mends
ln -s "$program" backfill
ln -s "$root/examples" examples
cp examples/failed_day/graph.json .
# The night before each of these.
mkdir stub
cat > stub/date <<'STUB'
#!/bin/sh
[ "$*" = "-d yesterday +%F" ] && echo "$NIGHT"
STUB
chmod +x stub/date
PATH=$work/stub:$PATH
nights() {
    for night in 2024-03-04 2024-03-05 2024-03-06; do
        NIGHT=$night status_of bash "./$1"
    done | paste -sd ' '
}

is_same 'three nights' '0 1 0' "$(nights nightly)"
for day in 4 5 6; do
    is_same "the report of the ${day}th" "@run 2024-03-0${day}T00:00:00Z" "$(sed -n 2p "reports/2024-03-0$day.txt" | cut -d ' ' -f 1,2)"
done
was=$(cat reports/*)
is_same 'the same nights once more' '0 1 0' "$(nights nightly)"
is_same 'their reports' "$was" "$(cat reports/*)"
cp examples/failed_day/mended.json graph.json
is_same 'the night that is mended' 0 "$(status_of bash ./mends)"
is_same 'its total' 'total -1 success 1 7' "$(grep '^total' reports/2024-03-05.txt)"

[[ -n $(command -v python3) ]] || skips_rest 'the job of a DAG file, since there is no python3'
block "$root/docs/GUIDE.md" 'if ! python3' > of_dag_file
cp -r "$root/examples/airflow" dags
rm -r journals reports
export PYTHONPATH=$root/python PYTHONPYCACHEPREFIX=$work/bytecode TMPDIR=$work
is_same 'three nights of a DAG file' '0 0 0' "$(nights of_dag_file)"
is_same 'what they loaded' '"23.75 in 2 shops" "20.00 in 1 shops" -' "$(grep -h '^load ' reports/*.txt | cut -d ' ' -f 5- | paste -sd ' ')"
is_same 'the file of a night' '{"total": 2000, "shops": ["south"]}' "$(< sales/2024-03-05.json)"
echo 'nonsense' > dags/daily_sales.py
is_same 'a DAG file that is broken' 2 "$(NIGHT=2024-03-07 status_of bash ./of_dag_file)"
is_same 'that it says so' "refused: dags/daily_sales.py:1: the DAG file fails: NameError: name 'nonsense' is not defined" "$(head -n 1 err)"

sum
