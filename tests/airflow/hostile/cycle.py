# status 2
# says cycle
# says a >> b >> a
from datetime import datetime

from airflow import DAG
from airflow.operators.empty import EmptyOperator

with DAG("cycle", start_date=datetime(2024, 1, 1), schedule="@daily"):
    a, b = EmptyOperator(task_id="a"), EmptyOperator(task_id="b")
    a >> b >> a
