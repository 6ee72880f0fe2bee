"""Setups and teardowns that edges and rules don't say."""
import pendulum

from airflow.decorators import dag, setup, task, teardown
from airflow.operators.empty import EmptyOperator


@dag(schedule="@daily", start_date=pendulum.datetime(2024, 1, 1, tz="UTC"))
def setups():
    @setup
    def up():
        return 1

    @teardown
    def down():
        return 2

    @task
    def work():
        return 3

    @task.branch
    def choose():
        return "down"

    @task(trigger_rule="all_done")
    def whatever():
        return 4

    made = up()
    ended = down()
    made >> work() >> whatever() >> ended  # refused: task whatever: below the setup up, which isn't right before it: Airflow runs it only where the setup succeeded, whatever its rule is | an edge up >> whatever, and its own rule decides
    made >> ended
    choose() >> down.override(task_id="behind_branch")()  # refused: task behind_branch: a teardown right behind choose, a branch or short circuit | a task between them
    made >> EmptyOperator(task_id="fine")


setups()
