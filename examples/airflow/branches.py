"""Branches, sensors and task groups: orders are waited for, loaded by table, and on Mondays a report follows."""
from datetime import timedelta
from pathlib import Path

import pendulum

from airflow import DAG
from airflow.decorators import task
from airflow.operators.empty import EmptyOperator
from airflow.sensors.filesystem import FileSensor
from airflow.utils.edgemodifier import Label
from airflow.utils.task_group import TaskGroup
from airflow.utils.trigger_rule import TriggerRule

ORDERS = Path(__file__).resolve().parent / "orders"

with DAG(
    "branches",
    schedule="0 6 * * *",
    start_date=pendulum.datetime(2024, 3, 1, tz="Europe/Paris"),
    catchup=False,
    max_active_runs=2,
) as dag:
    wait = FileSensor(task_id="wait", filepath=f"{ORDERS}/{{{{ ds }}}}.csv", poke_interval=0.2, timeout=1, soft_fail=True)

    with TaskGroup("load", tooltip="a task for each table") as load:

        @task(pool="database", execution_timeout=timedelta(minutes=5))
        def copy(table, ds=None):
            return f"{table}/{ds}"

        copy.override(task_id="orders")("orders") >> copy.override(task_id="items")("items")

    @task.branch
    def which_report(logical_date=None):
        return "weekly.gather" if logical_date.isoweekday() == 1 else "daily"

    chosen = which_report()
    daily = EmptyOperator(task_id="daily")

    with TaskGroup("weekly") as weekly:

        @task
        def gather(ti=None):
            return ti.xcom_pull(task_ids=["load.orders", "load.items"])

        @task
        def send(what):
            return f"sent {len(what)}"

        send(gather())

    done = EmptyOperator(task_id="done", trigger_rule=TriggerRule.NONE_FAILED_MIN_ONE_SUCCESS)

    wait >> load >> chosen
    chosen >> Label("on Mondays") >> weekly >> done
    chosen >> daily >> done
