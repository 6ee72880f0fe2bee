# status 0
import os
import sys
from datetime import datetime

from airflow import DAG
from airflow.operators.bash import BashOperator

os.chdir("/")
sys.path.clear()
with DAG("changes_folder", start_date=datetime(2024, 1, 1), schedule="@daily"):
    BashOperator(task_id="a", bash_command="echo {{ ds }}")
