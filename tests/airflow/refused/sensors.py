"""A sensor of another DAG, of which the line names no report."""
from datetime import datetime

from airflow import DAG
from airflow.sensors.external_task import ExternalTaskSensor

with DAG("sensors", start_date=datetime(2024, 1, 1), schedule="@daily"):
    ExternalTaskSensor(task_id="wait", external_dag_id="sales", external_task_id="load")  # refused: task wait: ExternalTaskSensor of the DAG sales | --external sales=PATH, where the report or journal of that DAG's graph is; or run that graph first, and leave the sensor away
