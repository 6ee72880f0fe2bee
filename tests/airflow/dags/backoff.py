"""Retries whose delays grow, which one try makes."""
from datetime import datetime, timedelta

from airflow import DAG
from airflow.decorators import task

with DAG("backoff", start_date=datetime(2024, 1, 1), schedule="@daily", default_args={"retries": 2, "retry_delay": timedelta(seconds=0.1), "retry_exponential_backoff": True}):

    @task
    def third(ti=None):
        if ti.try_number < 3:
            raise RuntimeError(f"not at try {ti.try_number}")
        return ti.try_number

    @task(max_retry_delay=timedelta(seconds=1))
    def never(ti=None):
        raise RuntimeError(f"not at try {ti.try_number}")

    third()
    never()
