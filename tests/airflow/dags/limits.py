from datetime import datetime
import os
from airflow import DAG
from airflow.exceptions import AirflowFailException
from airflow.operators.python import PythonOperator

def hidden(ti):
    return getattr(ti, "xcom_" + "pull")(task_ids="big")

def fails():
    raise AirflowFailException("no more")

with DAG("limits", start_date=datetime(2024, 1, 1), schedule="@daily") as dag:
    big = PythonOperator(task_id="big", python_callable=lambda: "x" * 70000)
    many = PythonOperator(task_id="many", python_callable=lambda: list(range(1025)))
    obj = PythonOperator(task_id="obj", python_callable=lambda: {"a": [object()]})
    PythonOperator(task_id="hidden", python_callable=hidden) << big
    PythonOperator(task_id="fails", python_callable=fails, retries=1, retry_delay=0)
    PythonOperator(task_id="use", python_callable=lambda ti: len(ti.xcom_pull(task_ids="big"))) << big
    PythonOperator.partial(task_id="each", python_callable=print).expand(op_args=many.output)
