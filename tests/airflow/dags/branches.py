"""Branches: to a group, to several tasks, to none, and round a task that joins."""
import pendulum

from airflow.decorators import dag, task, task_group
from airflow.operators.empty import EmptyOperator
from airflow.operators.python import BranchPythonOperator
from airflow.utils.edgemodifier import Label
from airflow.utils.trigger_rule import TriggerRule


@dag(start_date=pendulum.datetime(2024, 1, 1, tz="UTC"), schedule="@daily", catchup=False)
def branches():
    @task.branch
    def to_group(logical_date=None):
        return {1: "clean", 2: ["keep", "clean"], 3: None}[logical_date.day]

    @task_group
    def clean():
        @task
        def scrub():
            return "scrubbed"

        @task
        def polish(what):
            return what + ", polished"

        polish(scrub())

    keep = EmptyOperator(task_id="keep")
    join = EmptyOperator(task_id="join", trigger_rule=TriggerRule.NONE_FAILED_MIN_ONE_SUCCESS)
    end = EmptyOperator(task_id="end", trigger_rule="none_failed")
    chosen, group = to_group(), clean()
    chosen >> Label("dirty") >> group >> join
    chosen >> Label("clean enough") >> keep >> join >> end

    # Who follows `once` follows what stands below it, too.
    round_it = BranchPythonOperator(task_id="round_it", python_callable=lambda ds: "once" if ds == "2024-01-01" else "twice")
    once = EmptyOperator(task_id="once")
    twice = EmptyOperator(task_id="twice", trigger_rule="none_failed")
    round_it >> [once, twice]
    once >> twice


branches()
