"""DAGs made in a loop, of which one is named on the line, with TriggerDagRun and a schedule of datasets in others."""
from datetime import datetime

from airflow import DAG
from airflow.datasets import Dataset
from airflow.operators.python import PythonOperator
from airflow.operators.trigger_dagrun import TriggerDagRunOperator


def create_dag(dag_id, schedule, number):
    dag = DAG(dag_id, schedule=schedule, start_date=datetime(2024, 1, 1), tags=[f"n{number}"])
    with dag:
        PythonOperator(task_id="number", python_callable=lambda: number)
    return dag


for number, schedule in enumerate(["@hourly", "15 3 * * *", [Dataset("s3://bucket/x")]]):
    globals()[f"made_{number}"] = create_dag(f"made_{number}", schedule, number)

with DAG("triggers", schedule=None):
    TriggerDagRunOperator(task_id="go", trigger_dag_id="made_1")

if __name__ == "__main__":
    made_1.test()  # noqa: F821
