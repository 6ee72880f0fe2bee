"""Task groups that are mapped: over a list of the file, whose tasks follow one another, and over a pushed list."""
from datetime import datetime

from airflow.decorators import dag, task, task_group


@dag(start_date=datetime(2024, 1, 1), schedule="@daily")
def mapped_groups():
    @task
    def gather(values):
        return list(values)

    @task_group
    def pipe(n, suffix):
        @task
        def double(n):
            return n * 2

        @task
        def name(n, suffix):
            return f"{n}{suffix}"

        return name(double(n), suffix)

    gather(pipe.partial(suffix="x").expand(n=[1, 2]))

    @task
    def numbers():
        return [3, 4]

    @task_group
    def apart(n):
        @task
        def minus(n):
            return n - 1

        @task
        def plus(n):
            return n + 1

        minus(n)
        plus(n)

    apart.expand(n=numbers())


mapped_groups()
