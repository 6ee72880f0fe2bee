"""Decorators that take an environment of their own."""
import pendulum

from airflow.decorators import dag, task


@dag(schedule="@daily", start_date=pendulum.datetime(2024, 1, 1))
def decorators():
    @task.virtualenv(requirements=["x"])
    def own():
        return 1

    own()  # refused: task own: @task.virtualenv isn't in backfill_airflow | make the environment once, and start its python by @task.bash


decorators()
