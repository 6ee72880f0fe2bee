"""More than a graph may have, and names that it wants itself."""
# graph --pool small=1
from datetime import datetime

from airflow import DAG
from airflow.operators.empty import EmptyOperator
from airflow.operators.python import PythonOperator, ShortCircuitOperator

with DAG("limits", start_date=datetime(2024, 1, 1), schedule="@daily", default_args={"python_callable": len}):
    PythonOperator(task_id="slots", pool="small", pool_slots=2)  # refused: task slots: pool_slots=2 of the pool small, which has 1 | a larger --pool, or fewer slots
    PythonOperator.partial(task_id="each").expand(op_args=[[1], [2]])  # refused: task each: the id each.items is wanted for the items of this task | rename that task
    EmptyOperator(task_id="each.items")
    stop = ShortCircuitOperator(task_id="stop")
    PythonOperator.partial(task_id="over").expand(op_args=stop.output, op_kwargs=[{}])  # refused: task over: expanded over stop, a short circuit | a task that pushes the list
    PythonOperator(task_id="fraction", retries=1.5)  # refused: task fraction: retries=1.5 | 0 to 100
