"""A task that lets what follows run on the latest day alone: what is written in its place."""
from datetime import datetime

from airflow import DAG
from airflow.operators.empty import EmptyOperator
from airflow.operators.latest_only import LatestOnlyOperator

with DAG("latest_only", start_date=datetime(2024, 1, 1), schedule="@daily"):
    a, b, c = (EmptyOperator(task_id=name) for name in "abc")
    latest = LatestOnlyOperator(task_id="latest")  # refused: task latest: airflow.operators.latest_only.LatestOnlyOperator isn't in backfill_airflow | leave it out: write `a >> [b, c]` for `a >> latest >> [b, c]`; what may run on the latest day alone has no place in a run over past days
    a >> latest >> [b, c]
