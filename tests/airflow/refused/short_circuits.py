"""Tasks below a short circuit that Airflow skips whatever their rules, where no edge can say so."""
from datetime import datetime

from airflow import DAG
from airflow.operators.empty import EmptyOperator
from airflow.operators.python import PythonOperator, ShortCircuitOperator

with DAG("short_circuits", start_date=datetime(2024, 1, 1), schedule="@daily"):
    stop = ShortCircuitOperator(task_id="stop", python_callable=lambda: False)
    other = PythonOperator(task_id="other", python_callable=lambda: 1)
    work = PythonOperator(task_id="work", python_callable=lambda: 1)
    one_of = EmptyOperator(task_id="one_of", trigger_rule="one_success")  # refused: task one_of: below the short circuit stop with trigger_rule='one_success': Airflow skips it whatever its rule | ignore_downstream_trigger_rules=False in stop, where its own rule may decide; or a rule of all_success, none_failed or all_done here
    stop >> work >> one_of
    other >> one_of
