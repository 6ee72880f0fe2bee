#!/usr/bin/env bash
# What the gate has no time for: 50,000 random values there and back through the program, 5,000 random DAG files with short circuits and expanded tasks
# and 5,000 with setups and teardowns, and the DAG files of tests/airflow by each Python that is named on the line, else by python3: tests/long/airflow.sh [PYTHON..].
# The last line is the sum, and the status is 1 where something differs.
set -euo pipefail

source "$(dirname "$(readlink -f "${BASH_SOURCE[0]}")")/../shared/count.sh"
source "$root/tests/shared/counts_of.sh"
cases=$root/tests/airflow
export PYTHONPATH=$root/python PYTHONPYCACHEPREFIX=$work/bytecode
unset PYTHONDONTWRITEBYTECODE
main=$(python3 -c 'import sys; print(sys.executable)')
pythons=("$@")
[[ $# -gt 0 ]] || pythons=("$main")

for seed in {1..10}; do
    counts "$main" "$cases/random_values.py" "$program" "$work/values.$seed" 5000 "$seed"
    counts "$main" "$cases/random_graphs.py" "$program" "$work/graphs.$seed" 500 "$seed"
    counts "$main" "$cases/random_teardowns.py" "$program" "$work/teardowns.$seed" 500 "$seed"
done
! "$main" -c 'import pendulum' 2> /dev/null || counts "$main" "$cases/random_moments.py" 20000
for python in "${pythons[@]}"; do
    echo "== $("$python" --version)"
    counts python3 -B "$cases/reports.py" "$program" "$work/reports.${python//\//_}" "$python"
    counts "$python" "$cases/names.py"
    counts "$python" "$cases/refusals.py" "$work/refusals"
    counts python3 -B "$cases/hostile.py" "$python"
    counts python3 -B "$cases/ends.py" "$program" "$work/ends.${python//\//_}" "$python"
done

sum
