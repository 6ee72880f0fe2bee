"""A pool of one slot, weights, and a pool in which each takes both slots: nobody is there beside another."""
import os
import time
from datetime import datetime

from airflow import DAG
from airflow.operators.python import PythonOperator


def turn(place, ds):
    os.mkdir(f"{place}.busy")
    time.sleep(0.05)
    with open(f"{place}.turns", "a+") as file:
        file.write("x")
        file.seek(0)
        turns = len(file.read())
    os.rmdir(f"{place}.busy")
    return turns


with DAG("pools", start_date=datetime(2024, 1, 1), schedule="@daily", default_args={"python_callable": turn}) as dag:
    for weight in (1, 5, 3):
        PythonOperator(task_id=f"weight_{weight}", op_args=["one"], pool="database", priority_weight=weight, weight_rule="absolute")
    for name in "ab":
        PythonOperator(task_id=name, op_args=["both"], pool="wide", pool_slots=2, priority_weight=ord("b") - ord(name))
    PythonOperator.partial(task_id="one_by_one", op_args=["own"], max_active_tis_per_dag=1).expand(op_kwargs=[{}, {}])
