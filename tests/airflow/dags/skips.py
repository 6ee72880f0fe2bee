"""Skips: of an instance of an expanded task, of all, by exit codes, and a run in which everything is skipped is a success."""
from datetime import datetime

from airflow.decorators import dag, task
from airflow.exceptions import AirflowFailException, AirflowSkipException


@dag(start_date=datetime(2024, 1, 1), schedule="@daily")
def skips():
    @task
    def only_even(n):
        if n % 2:
            raise AirflowSkipException(f"{n} is odd")
        return n * 10

    @task
    def strict(values):
        return list(values)

    @task(trigger_rule="none_failed")
    def lenient(values):
        return "nothing" if values is None else list(values)

    @task(trigger_rule="none_failed_min_one_success")
    def again(n):
        return n + 1

    @task
    def numbers(ds=None):
        return {"2024-01-01": [1, 2, 3, 4], "2024-01-02": [1, 3]}[ds]

    @task
    def fails_on_the_second(ds=None):
        if ds == "2024-01-02":
            raise AirflowFailException("for good")

    even = only_even.expand(n=numbers())
    strict(even)
    lenient(even)
    again.expand(n=even)
    fails_on_the_second()


skips()
