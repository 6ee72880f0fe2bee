"""An expanded task inside an expanded group, which Airflow doesn't take either."""
import pendulum

from airflow.decorators import dag, task, task_group


@dag(schedule="@daily", start_date=pendulum.datetime(2024, 1, 1, tz="UTC"))
def nested():
    @task
    def plus(n):
        return n + 1

    @task_group
    def expands(n):
        plus.expand(n=[1, 2])  # refused: task expands.plus: an expanded task inside the expanded group expands | a task of the group that takes the whole list; or expand the task outside of the group

    expands.expand(n=[1, 2])


nested()
