# status 2
# says refused: hostile/many_tasks.py:9: 5,000 tasks
# says at most 2,000
from datetime import datetime

from airflow import DAG
from airflow.operators.empty import EmptyOperator

with DAG("many_tasks", start_date=datetime(2024, 1, 1), schedule="@daily"):
    for number in range(5000):
        EmptyOperator(task_id=f"task_{number}")
