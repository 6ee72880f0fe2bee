"""The same functions several times: ids by number, and .override."""
from datetime import datetime, timedelta

from airflow.decorators import dag, task


@task
def double(n: int) -> int:
    return n * 2


@task(retries=0, retry_delay=timedelta(0))
def picky(wanted, ti=None):
    if ti.try_number != wanted:
        raise RuntimeError(f"try {ti.try_number} isn't {wanted}")
    return ti.max_tries


@dag("overrides_of_tasks", start_date=datetime(2024, 1, 1), schedule="@daily", default_args={"retries": 5})
def named_otherwise():
    first = double(1)
    second = double(first)
    third = double.override(task_id="third")(second)
    double.override(trigger_rule="all_failed")(third)
    picky(1)
    picky.override(task_id="twice", retries=2)(3)


named_otherwise()
