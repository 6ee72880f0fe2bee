"""A DAG file in a folder of the DAGs' folder, from which it imports."""
from datetime import datetime

from airflow import DAG
from airflow.operators.python import PythonOperator
from helpers.company import Load, Rows
from helpers.names import previous

with DAG("in_folder", start_date=datetime(2024, 1, 1), schedule="@daily"):
    Load(task_id="copy", rows=Rows("{{ ds }}", "t"), database="d") >> PythonOperator(task_id="second", python_callable=previous)
