"""A DAG that is read by both."""
from datetime import datetime, timedelta

from airflow import DAG
from airflow.operators.bash import BashOperator

with DAG("sales", schedule="@daily", start_date=datetime(2024, 1, 1), max_active_runs=3, default_args={"retries": 2, "retry_delay": timedelta(minutes=5)}):
    a = BashOperator(task_id="a", bash_command="true", execution_timeout=timedelta(hours=1))
    b = BashOperator(task_id="b", bash_command="true", pool="db", priority_weight=5)
    c = BashOperator(task_id="c", bash_command="true", trigger_rule="all_done", retries=0)
    d = BashOperator(task_id="d", bash_command="true", depends_on_past=True, weight_rule="absolute")
    a >> b >> c
    a >> d
