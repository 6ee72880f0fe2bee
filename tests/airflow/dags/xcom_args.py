"""Outputs of tasks as arguments: nested, by key, in texts and environments; and pulls of what nobody pushed."""
from datetime import datetime
from typing import Any, Dict

from airflow import DAG
from airflow.decorators import task
from airflow.models.xcom_arg import XComArg
from airflow.operators.bash import BashOperator
from airflow.operators.python import PythonOperator


def push(ti):
    ti.xcom_push("rows", [1, 2])
    ti.xcom_push(key="return_value", value="pushed by hand")


def use(nested, path, *, ti, rows="none", **_):
    return [nested, path, rows, ti.xcom_pull("push", key="absent"), ti.xcom_pull("push", key="absent", default=8)]


with DAG("xcom_args", start_date=datetime(2024, 1, 1), schedule="@daily") as dag:
    word = BashOperator(task_id="word", bash_command="echo first; echo last")
    silent = BashOperator(task_id="silent", bash_command="echo unheard", do_xcom_push=False)
    pushed = PythonOperator(task_id="push", python_callable=push)

    @task
    def typed() -> Dict[str, Any]:
        return {"path": "/data", "n": 7}

    parts = typed()
    PythonOperator(
        task_id="use",
        python_callable=use,
        op_args=[{"deep": [word.output, {"n": parts["n"]}]}, parts["path"]],
        op_kwargs={"rows": XComArg(pushed, key="rows")},
    )
    # (an output in a text makes no edge)
    word >> BashOperator(task_id="shell", bash_command=f"echo {word.output} $HOW $DAY", env={"HOW": pushed.output, "DAY": "{{ ds }}"}, append_env=True)

    @task
    def nothing(of, ti=None):
        return [of, ti.xcom_pull(task_ids=["word", "silent", "push"]), ti.xcom_pull(task_ids="no_such_task")]

    nothing(silent.output) << [word, pushed]
