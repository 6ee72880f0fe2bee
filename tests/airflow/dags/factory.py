import json
import os
from datetime import datetime, timedelta

from airflow import DAG
from airflow.operators.empty import EmptyOperator
from airflow.operators.python import PythonOperator

with open(os.path.join(os.path.dirname(__file__), "tables.json")) as f:
    TABLES = json.load(f)


def make(table):
    def extract(ds):
        return f"{table}/{ds}"

    return extract


def load(table, ti, **_):
    path = ti.xcom_pull(task_ids=f"extract_{table}")
    return len(path)


def total(**context):
    ti = context["ti"]
    return sum(ti.xcom_pull(task_ids=[f"load_{t}" for t in TABLES[:5]]))


with DAG("factory", start_date=datetime(2024, 1, 1), schedule_interval="@daily", default_args={"retries": 2, "retry_delay": timedelta(minutes=5)}) as dag:
    done = EmptyOperator(task_id="done")
    for name in TABLES:
        a = PythonOperator(task_id=f"extract_{name}", python_callable=make(name))
        b = PythonOperator(task_id=f"load_{name}", python_callable=load, op_kwargs={"table": name})
        a >> b >> done
    done >> PythonOperator(task_id="total", python_callable=total)
