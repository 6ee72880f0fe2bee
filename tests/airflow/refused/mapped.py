"""Expanded tasks that no graph can say."""
import pendulum

from airflow.decorators import dag, task


@dag(schedule="@daily", start_date=pendulum.datetime(2024, 1, 1))
def mapped():
    @task
    def numbers():
        return [1, 2]

    @task.branch
    def which(n):
        return "numbers"

    @task(trigger_rule="one_success")
    def early(n):
        return n

    @task
    def plain(n):
        return n

    n = numbers()
    which.expand(n=n)  # refused: task which: an expanded branch or short circuit | one branch over the whole list; or skip in the expanded task by AirflowSkipException
    early.expand(n=n)  # refused: task early: an expanded task with trigger_rule='one_success' | a rule that waits for all tasks before it, as none_failed
    chosen = which.override(task_id="chosen")(n)
    plain.expand(n=chosen)  # refused: task plain: expanded over chosen, a branch | a task between that pushes the list


mapped()
