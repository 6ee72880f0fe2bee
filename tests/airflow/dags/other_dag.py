"""Sensors of another DAG, of the same moment, of an earlier one, and of a whole run."""
from datetime import datetime, timedelta

from airflow import DAG
from airflow.sensors.external_task import ExternalTaskSensor

with DAG("other_dag", start_date=datetime(2024, 1, 1), schedule="@daily", default_args={"poke_interval": 0.1, "timeout": 0.5}):
    ExternalTaskSensor(task_id="same_day", external_dag_id="sales", external_task_id="load")
    ExternalTaskSensor(task_id="day_before", external_dag_id="sales", external_task_id="load", execution_delta=timedelta(days=1), soft_fail=True)
    ExternalTaskSensor(task_id="run_of_it", external_dag_id="sales", allowed_states=["success", "failed"])
