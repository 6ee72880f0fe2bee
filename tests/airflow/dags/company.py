"""An operator of the company's own, in a module of the folder, with pre_execute, post_execute, on_kill, log and templates in a dataclass."""
from datetime import datetime

import pendulum

from airflow import DAG
from airflow.utils.task_group import TaskGroup
from helpers.company import Load, Rows, Wait

with DAG(
    dag_id="company",
    start_date=pendulum.datetime(2024, 1, 1, tz="UTC"),
    schedule="0 0 1 * *",
    default_args={"database": "warehouse", "owner": "data"},
) as dag:
    with TaskGroup(group_id="load") as load:
        loads = [Load(task_id=table, rows=Rows("{{ ds }}", table)) for table in ("orders", "items")]
    wait = Wait(task_id="wait", poke_interval=0.05, timeout=5)
    done = Load(task_id="done", rows=Rows("{{ next_ds }}", "all"), database="other")
    wait >> load >> done
