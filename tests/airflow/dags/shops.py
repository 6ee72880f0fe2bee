from datetime import timedelta

import pendulum
from airflow.decorators import dag, task
from airflow.operators.bash import BashOperator
from airflow.operators.empty import EmptyOperator


@dag(schedule="@daily", start_date=pendulum.datetime(2024, 1, 1, tz="UTC"), max_active_runs=2)
def shops():
    @task(retries=2, retry_delay=timedelta(seconds=1))
    def list_shops():
        return ["north", "southwest"]

    @task(pool="database", priority_weight=5)
    def count(shop):
        return len(shop)

    @task.branch
    def which_report(logical_date=None):
        return "weekly_report" if logical_date.isoweekday() == 7 else "daily_report"

    daily_report = BashOperator(
        task_id="daily_report",
        bash_command="echo '{{ ti.xcom_pull(task_ids='count') | list }}' on {{ ts }}",
    )
    weekly_report = BashOperator(
        task_id="weekly_report",
        bash_command="echo '{{ ti.xcom_pull(task_ids='count') | list }}' at the end of the week",
    )
    publish = EmptyOperator(
        task_id="publish", trigger_rule="none_failed_min_one_success", depends_on_past=True
    )

    count.expand(shop=list_shops()) >> which_report() >> [daily_report, weekly_report] >> publish


shops()
