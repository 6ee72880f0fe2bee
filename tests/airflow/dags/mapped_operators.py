"""Operators with partial and expand. What tasks pushed isn't rendered as a template, what stands in the file is."""
from datetime import datetime

from airflow import DAG
from airflow.models.baseoperator import BaseOperator
from airflow.operators.bash import BashOperator
from airflow.operators.python import PythonOperator


class Scale(BaseOperator):
    template_fields = ("factor", "number")

    def __init__(self, factor, number, **kwargs):
        super().__init__(**kwargs)
        self.factor, self.number = factor, number

    def execute(self, context):
        return [self.factor, self.number, context["ti"].map_index, self.params["by"]]


def add(a, b=100):
    return a + b


with DAG("mapped_operators", start_date=datetime(2024, 1, 1), schedule="@daily", params={"by": 3}) as dag:
    BashOperator.partial(task_id="say", env={"DAY": "{{ ds }}"}, append_env=True).expand(bash_command=["echo one $DAY", "echo two {{ ds }}"])
    PythonOperator.partial(task_id="by_place", python_callable=add).expand(op_args=[[1, 2], [3, 4]])
    added = PythonOperator.partial(task_id="by_name", python_callable=add).expand(op_kwargs=[{"a": 1}, {"a": 2, "b": 2}])
    Scale.partial(task_id="scale", factor="{{ params.by }}").expand(number=added.output)
    days = PythonOperator(task_id="days", python_callable=lambda: ["{{ ds }}"])
    Scale.partial(task_id="scale_days").expand(factor=["{{ ds }}", "plain"], number=days.output)
    Scale.partial(task_id="scale_each", params={"by": 4}).expand_kwargs([{"factor": "{{ params.by }}", "number": 1}, {"factor": 2, "number": days.output}])
