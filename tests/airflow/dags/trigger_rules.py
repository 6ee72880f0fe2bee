"""Every trigger rule over a success, a failure and a skip, over a success and a skip, and over a skip alone."""
from datetime import datetime

from airflow import DAG
from airflow.exceptions import AirflowSkipException
from airflow.operators.bash import BashOperator
from airflow.operators.empty import EmptyOperator
from airflow.operators.python import PythonOperator
from airflow.utils.trigger_rule import TriggerRule


def skips():
    raise AirflowSkipException("nothing to do")


with DAG("trigger_rules", start_date=datetime(2024, 1, 1), schedule="@daily") as dag:
    good = PythonOperator(task_id="good", python_callable=lambda: 1)
    bad = BashOperator(task_id="bad", bash_command="exit 1")
    skipped = PythonOperator(task_id="skipped", python_callable=skips)
    for rule in TriggerRule:
        if rule.value in ("dummy", "none_failed_or_skipped", "all_done_setup_success"):
            continue
        [good, bad, skipped] >> EmptyOperator(task_id=f"three.{rule.value}", trigger_rule=rule)
        [good, skipped] >> EmptyOperator(task_id=f"two.{rule.value}", trigger_rule=rule)
        skipped >> EmptyOperator(task_id=f"one.{rule.value}", trigger_rule=rule)
