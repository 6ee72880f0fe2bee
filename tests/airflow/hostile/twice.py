# status 2
# says refused: hostile/twice.py:10: the DAG file fails: DuplicateTaskIdFound: Task id 'a' has already been added to the DAG
from datetime import datetime

from airflow import DAG
from airflow.operators.empty import EmptyOperator

with DAG("twice", start_date=datetime(2024, 1, 1), schedule="@daily"):
    EmptyOperator(task_id="a")
    EmptyOperator(task_id="a")
