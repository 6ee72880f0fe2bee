"""Pulls from several tasks at once, of which one is expanded: each of its instances gives a value of its own."""
from datetime import datetime

from airflow.decorators import dag, task


@dag(start_date=datetime(2024, 1, 1), schedule="@daily")
def pulls_of_many():
    @task
    def numbers():
        return [1, 2, 3]

    @task
    def odd(n):
        return n if n % 2 else None

    @task
    def gather(ti=None):
        return [list(ti.xcom_pull(task_ids=["odd", "numbers"])), list(ti.xcom_pull(task_ids=["numbers", "odd"])), list(ti.xcom_pull(task_ids="odd"))]

    odd.expand(n=numbers()) >> gather()


pulls_of_many()
