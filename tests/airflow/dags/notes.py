"""All that is noted, and runs all the same."""
from datetime import datetime, timedelta

import pendulum

from airflow import DAG
from airflow.datasets import Dataset
from airflow.exceptions import AirflowFailException
from airflow.operators.bash import BashOperator
from airflow.operators.python import PythonOperator
from airflow.providers.slack.notifications.slack import send_slack_notification
from airflow.sensors.python import PythonSensor


def fails_later(ds):
    if ds > "2025":
        raise AirflowFailException("not any more")
    return ds


with DAG(
    "notes",
    start_date=pendulum.datetime(2015, 1, 1, tz="America/Sao_Paulo"),
    end_date=pendulum.datetime(2030, 1, 1, tz="America/Sao_Paulo"),
    schedule=None,
    max_active_tasks=100,
    dagrun_timeout=timedelta(hours=1),
    on_failure_callback=print,
    on_success_callback=print,
    sla_miss_callback=print,
    default_args={"email": "a@example.com", "sla": timedelta(hours=1), "queue": "wide", "executor_config": {"x": 1}, "depends_on_past": True},
) as dag:
    BashOperator(task_id="printed", bash_command="test -n '{{ logical_date }}'", outlets=[Dataset("s3://bucket/x")])
    PythonOperator(task_id="fails_later", python_callable=fails_later, retries=1, retry_delay=timedelta(seconds=0.5))
    PythonSensor(task_id="looks", python_callable=lambda: True, mode="reschedule", retries=1)
    PythonOperator(task_id="mistyped", python_callable=lambda ti: ti.xcom_pull(task_ids="printd"))
    PythonOperator(task_id="bounded", python_callable=lambda: "kept", max_active_tis_per_dag=2, do_xcom_push=False)
    PythonOperator(task_id="told", python_callable=lambda: "told", on_success_callback=send_slack_notification(text="done"))
