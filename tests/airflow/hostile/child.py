# status 0
import subprocess
from datetime import datetime

from airflow import DAG
from airflow.operators.empty import EmptyOperator

# (it keeps what it got for standard output and standard error open)
child = subprocess.Popen(["sleep", "2.25"])
with DAG("child", start_date=datetime(2024, 1, 1), schedule="@daily"):
    EmptyOperator(task_id="a")
child.kill()
child.wait()
