"""A sensor of a DAG whose backfill still runs: its journal tells what has succeeded."""
from datetime import datetime

from airflow import DAG
from airflow.sensors.external_task import ExternalTaskSensor

with DAG("of_journal", start_date=datetime(2024, 1, 1), schedule="@daily", default_args={"poke_interval": 0.1, "timeout": 0.3}):
    ExternalTaskSensor(task_id="loaded", external_dag_id="sales", external_task_id="load")
    ExternalTaskSensor(task_id="both", external_dag_id="sales", external_task_ids=["extract", "load"], soft_fail=True)
