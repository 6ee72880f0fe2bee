"""A template with a method of pendulum, which isn't installed."""

from datetime import datetime

from airflow import DAG
from airflow.operators.bash import BashOperator

with DAG("lacking", start_date=datetime(2024, 1, 1), schedule="@daily", default_args={"retries": 0}):
    BashOperator(task_id="weekday", bash_command="echo {{ logical_date.day_of_week }}")
    BashOperator(task_id="nothing", bash_command="echo {{ no_such_name }}")
