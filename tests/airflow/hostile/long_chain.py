# status 0
from datetime import datetime

from airflow import DAG
from airflow.models.baseoperator import chain
from airflow.operators.empty import EmptyOperator

with DAG("long_chain", start_date=datetime(2024, 1, 1), schedule="@daily"):
    chain(*(EmptyOperator(task_id=f"task_{number}") for number in range(1900)))
