"""Tasks expanded over lists that stand in the file: one argument, several, and expand_kwargs."""
import pendulum

from airflow import DAG
from airflow.decorators import task

with DAG("mapping_literal", start_date=pendulum.datetime(2024, 1, 1), schedule="@daily"):

    @task
    def add(x, y=10):
        return x + y

    @task
    def pair(a, b, ti=None):
        return f"{ti.map_index}:{a}{b}"

    @task
    def total(values):
        return sum(values)

    total(add.partial(y=1).expand(x=[1, 2, 3]))
    pair.expand(a=["x", "y"], b=[1, 2])
    pair.override(task_id="by_name").expand_kwargs([{"a": "p", "b": 7}, {"b": 8, "a": "q"}])
