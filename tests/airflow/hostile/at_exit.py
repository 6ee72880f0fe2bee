# status 0
import atexit
from datetime import datetime

from airflow import DAG
from airflow.operators.empty import EmptyOperator

atexit.register(print, "at the end")
with DAG("at_exit", start_date=datetime(2024, 1, 1), schedule="@daily"):
    EmptyOperator(task_id="a")
