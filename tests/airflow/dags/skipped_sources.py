"""Expanded tasks whose rule lets them run although what they are expanded over was skipped, or failed."""
from datetime import datetime

from airflow.decorators import dag, task
from airflow.exceptions import AirflowSkipException


@dag(start_date=datetime(2024, 1, 1), schedule="@daily")
def skipped_sources():
    @task
    def numbers(ds=None):
        if ds == "2024-01-02":
            raise AirflowSkipException("none today")
        if ds == "2024-01-03":
            raise ValueError("no numbers")
        return [1, 2]

    @task(trigger_rule="none_failed")
    def lenient(n):
        return n

    @task(trigger_rule="all_done")
    def whatever(n):
        return -n

    found = numbers()
    lenient.expand(n=found)
    whatever.expand(n=found)


skipped_sources()
