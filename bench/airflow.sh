#!/usr/bin/env bash
# Measures how long a try of python/backfill_airflow takes over an empty Python: the median of up to so many turns, in milliseconds, for a DAG file of
# 100 tasks (a Python callable, a template that takes no Jinja, one that does, a file that imports pendulum) and one of 1,000; and `graph` of both.
# bench/airflow.sh [TURNS [PYTHON]]: 21 turns of python3 where they aren't given. What isn't installed is left out.
set -euo pipefail

source "$(dirname "$(readlink -f "${BASH_SOURCE[0]}")")/program.sh"

# Bytecode is kept, as where it is used, but in a folder of its own.
unset PYTHONDONTWRITEBYTECODE
# (a pyenv's python3 is a script that takes longer to start than a try does)
python=$("${2:-python3}" -c 'import sys; print(sys.executable)')
export PYTHONPATH=$root/python PYTHONPYCACHEPREFIX=$work/bytecode

# A DAG file of so many pairs of tasks and two more: dag_file NAME PAIRS [LINE]
dag_file() {
    cat > "$work/$1.py" <<PY
${3:-}
from datetime import datetime, timedelta

from airflow import DAG
from airflow.operators.bash import BashOperator
from airflow.operators.python import PythonOperator


def extract(ds, **context):
    return f"{context['task'].task_id}/{ds}"


with DAG("$1", start_date=datetime(2024, 1, 1), schedule="@daily", default_args={"retries": 2, "retry_delay": timedelta(minutes=5)}):
    for number in range($2):
        first = PythonOperator(task_id=f"extract_{number}", python_callable=extract)
        first >> PythonOperator(task_id=f"load_{number}", python_callable=extract, op_kwargs={"day": "{{ ds }}"})
    PythonOperator(task_id="upper", python_callable=extract, op_kwargs={"day": "{{ ds | upper }}"})
    BashOperator(task_id="shell", bash_command="echo {{ ds }}")
PY
}
dag_file usual 49
dag_file large 499
dag_file pendulums 49 'import pendulum'

"$python" -B - "$python" "$work" "${1:-21}" <<'PY'
import importlib.util
import os
import statistics
import subprocess
import sys
import time

python, work, turns = sys.argv[1:]
interval = ["2024-03-05T00:00:00Z", "2024-03-06T00:00:00Z", "1", "-1"]
# (as where backfill starts it, so that nothing is told of a try by hand)
environment = {**os.environ, "BACKFILL_TASK_ID": "task"}


def seconds_of(words):
    start = time.perf_counter()
    subprocess.run(words, cwd=work, env=environment, check=True, stdout=subprocess.DEVNULL, stderr=subprocess.DEVNULL)
    return time.perf_counter() - start


def measure(name, words):
    empty = [python, "-c", "pass"]
    for _ in range(2):
        seconds_of(words)
    pairs = [(seconds_of(empty), seconds_of(words)) for _ in range(int(turns))]
    least, own = (1000 * statistics.median(each) for each in zip(*pairs))
    print(f"{name}: {own - least:.0f} ms over an empty Python, which took {least:.0f} ms", flush=True)


def of_try(name, task):
    return [python, "-m", "backfill_airflow", "try", f"{name}.py", name, task, *interval]


has = {module: importlib.util.find_spec(module) is not None for module in ("jinja2", "pendulum")}
measure("a try of 100 tasks, Python", of_try("usual", "extract_1"))
measure("a try of 100 tasks, Python with {{ ds }}", of_try("usual", "load_1"))
measure("a try of 100 tasks, bash with {{ ds }}", of_try("usual", "shell"))
if has["jinja2"]:
    measure("a try of 100 tasks, {{ ds | upper }} by Jinja", of_try("usual", "upper"))
measure(f"a try of 100 tasks, {'pendulum' if has['pendulum'] else 'the stand-in for pendulum'}", of_try("pendulums", "extract_1"))
measure("a try of 1,000 tasks, Python", of_try("large", "extract_1"))
measure("graph of 100 tasks", [python, "-m", "backfill_airflow", "graph", "usual.py"])
measure("graph of 1,000 tasks", [python, "-m", "backfill_airflow", "graph", "large.py"])
PY
