"""A setup and a teardown round a block of tasks."""
from datetime import datetime

from airflow import DAG
from airflow.operators.bash import BashOperator

with DAG("setup_block", start_date=datetime(2024, 1, 1), schedule="@daily"):
    up = BashOperator(task_id="up", bash_command="echo up")
    down = BashOperator(task_id="down", bash_command="echo down")
    with down.as_teardown(setups=up):
        BashOperator(task_id="ask", bash_command="echo asked") >> BashOperator(task_id="fail", bash_command="exit 1")
