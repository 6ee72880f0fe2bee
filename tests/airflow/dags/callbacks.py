"""Retries that succeed at the second try, and callbacks of every kind, also in lists, one of which fails."""
from datetime import datetime, timedelta

from airflow import DAG
from airflow.decorators import task
from airflow.exceptions import AirflowSkipException
from airflow.operators.bash import BashOperator


def tells(name):
    def tell(context):
        error = context.get("exception")
        with open("told", "a") as file:
            file.write(f"{name} {context['ti'].task_id} {context['ti'].try_number} {'' if error is None else error}".rstrip() + "\n")

    return tell


def breaks(context):
    raise RuntimeError("a callback that fails")


with DAG(
    "callbacks",
    start_date=datetime(2024, 1, 1),
    schedule="@daily",
    default_args={
        "retries": 1,
        "retry_delay": timedelta(seconds=0),
        "on_execute_callback": tells("execute"),
        "on_success_callback": [tells("success"), breaks, tells("success again")],
        "on_failure_callback": tells("failure"),
        "on_retry_callback": tells("retry"),
        "on_skipped_callback": tells("skipped"),
    },
):

    @task
    def second(ti=None):
        if ti.try_number == 1:
            raise ValueError("not yet")
        return ti.try_number

    @task
    def never():
        raise KeyError("no")

    @task
    def skips():
        raise AirflowSkipException("later")

    never() >> BashOperator(task_id="behind", bash_command="true", trigger_rule="all_failed", on_success_callback=None, on_execute_callback=None)
    second()
    skips()
