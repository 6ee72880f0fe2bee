"""Decorators in classes, and callables of every kind."""
import functools
from datetime import datetime

from airflow import DAG
from airflow.decorators import task
from airflow.operators.python import PythonOperator


class Pipeline:
    """The tasks of a table."""

    def __init__(self, table):
        self.table = table

    @staticmethod
    @task
    def extract(table):
        return [table, len(table)]

    def build(self):
        @task(task_id=f"load_{self.table}")
        def load(rows):
            return f"{self.table}:{rows[1]}"

        return load(self.extract.override(task_id=f"extract_{self.table}")(self.table))

    def summary(self, ds, **_):
        return f"{self.table} on {ds}"


class Counter:
    def __init__(self, start):
        self.start = start

    def __call__(self, step, logical_date):
        return self.start + step * logical_date.day


def join(sep, *words, **context):
    return sep.join(words) + context["ds_nodash"]


with DAG("pipeline_classes", start_date=datetime(2024, 1, 1), schedule="@daily") as dag:
    for pipeline in map(Pipeline, ["orders", "returns"]):
        pipeline.build()
    PythonOperator(task_id="bound", python_callable=pipeline.summary)
    PythonOperator(task_id="instance", python_callable=Counter(100), op_kwargs={"step": 7})
    PythonOperator(task_id="partial", python_callable=functools.partial(join, "-"), op_args=["a", "b"])
    PythonOperator(task_id="late_default", python_callable=lambda table=pipeline.table, *, ti: f"{table} {ti.task_id}")
