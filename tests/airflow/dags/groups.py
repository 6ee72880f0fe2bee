"""Task groups: nested, with prefixes off, with default_args, called twice, and edges between groups."""
from datetime import datetime, timedelta

from airflow import DAG
from airflow.decorators import task, task_group
from airflow.operators.bash import BashOperator
from airflow.operators.python import PythonOperator
from airflow.utils.task_group import TaskGroup


def above(task):
    return sorted(task.upstream_task_ids)


with DAG("groups", start_date=datetime(2024, 1, 1), schedule="@daily", default_args={"python_callable": above}) as dag:
    with TaskGroup("outer", tooltip="first", default_args={"retries": 1, "retry_delay": timedelta(0)}) as outer:
        BashOperator(task_id="flaky", bash_command="test {{ ti.try_number }} = 2 && echo second")
        with TaskGroup("inner", prefix_group_id=False):
            PythonOperator(task_id="plain")
            with TaskGroup("deep"):
                PythonOperator(task_id="last")

    @task_group
    def sums(n):
        @task
        def one(n):
            return n + 1

        @task
        def two(n):
            return n * 2

        return two(one(n))

    with TaskGroup("second") as second:
        a = PythonOperator(task_id="a")
        b = PythonOperator(task_id="b")
        a >> b
    outer >> second
    made = sums(1)
    again = sums.override(group_id="other")(made)
    sums(again)
    second >> PythonOperator(task_id="end") << made
