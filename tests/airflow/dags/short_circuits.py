"""Short circuits: by default all below is skipped whatever its rule; else the rules decide."""
from datetime import datetime

from airflow import DAG
from airflow.decorators import task
from airflow.operators.empty import EmptyOperator
from airflow.operators.python import PythonOperator, ShortCircuitOperator

with DAG("short_circuits", start_date=datetime(2024, 1, 1), schedule="@daily"):
    is_monday = ShortCircuitOperator(task_id="is_monday", python_callable=lambda logical_date: logical_date.weekday() == 0)
    work = PythonOperator(task_id="work", python_callable=lambda: "worked")
    clean_up = EmptyOperator(task_id="clean_up", trigger_rule="all_done")
    is_monday >> work >> clean_up

    @task.short_circuit(ignore_downstream_trigger_rules=False)
    def has_rows(ds=None):
        return [] if ds == "2024-01-02" else [1]

    @task
    def load():
        return "loaded"

    has_rows() >> load() >> EmptyOperator(task_id="always_told", trigger_rule="all_done")
