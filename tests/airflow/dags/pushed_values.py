"""What comes of a value on its way from a task to others: tuples in it, entries of a dict, outputs beside keys that the task pushed
itself, and what a run and an instance are as texts."""

from datetime import datetime

from airflow import *
from airflow.decorators import task
from airflow.exceptions import *

with DAG("pushed_values", start_date=datetime(2024, 1, 1), schedule="@daily", default_args={"retries": 0}):

    @task
    def see(value):
        return repr(value)

    @task
    def same(value):
        return value

    @task
    def rows(ti=None):
        ti.xcom_push("pairs", [(1,), {"a": ((2,),)}])
        return [(1, "a"), {"x": (1, (2,))}]

    @task
    def pair():
        return (1, (2, [3]))

    @task
    def by_name():
        return {"a": (1, 2), "b": [2]}

    @task(multiple_outputs=True)
    def outputs(ti=None):
        ti.xcom_push("other", 5)
        ti.xcom_push("x", 6)
        return {"x": 1, "y": (2, (3,))}

    @task(multiple_outputs=True)
    def outputs_alone():
        return {"y": (2, (3,)), "z": [(4,)]}

    @task
    def rows_and_key(ti=None):
        ti.xcom_push("count", 2)
        return [1, 2]

    @task
    def as_texts(ti=None, dag_run=None):
        return [str(ti), str(dag_run).split(" @ ")[0]]

    @task
    def skips():
        raise AirflowSkipException("by a name that * gave")

    rows_made, made, alone = rows(), outputs(), outputs_alone()
    see.override(task_id="rows_seen")(rows_made)
    see.override(task_id="pairs_seen")(rows_made["pairs"])
    see.override(task_id="pair_seen")(pair())
    see.override(task_id="entries_seen")(same.override(task_id="entries").expand(value=by_name()))
    see.override(task_id="outputs_seen")([made["x"], made["y"], made["other"], made])
    see.override(task_id="outputs_alone_seen")([alone["y"], alone["z"], alone])
    same.override(task_id="over_rows_and_key").expand(value=rows_and_key())
    as_texts()
    skips()
