# status 0
# says printed at import
import os
import subprocess
import sys
from datetime import datetime

from airflow import DAG
from airflow.operators.empty import EmptyOperator

print("printed at import")
sys.__stdout__.write("written at import\n")
os.write(1, b"written by number\n")
subprocess.run(["echo", "printed by another program"], check=True)
sys.stdout = None
with DAG("prints", start_date=datetime(2024, 1, 1), schedule="@daily"):
    EmptyOperator(task_id="a")
